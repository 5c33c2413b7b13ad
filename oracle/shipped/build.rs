//! Takes the published files as they are.

#[path = "../source.rs"]
mod source;

fn main() {
    source::write(&[
        ("util", source::published("util")),
        ("euler", source::published("euler")),
        ("flatten", source::published("flatten") + &source::reach("whole")),
    ]);
}
