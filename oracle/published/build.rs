//! Takes the published files, each with one line behind it, which points its mathematics at ours, and links the archive
//! that `tools/staticlib exports` wrote.

use std::path::Path;

#[path = "../source.rs"]
mod source;

/// The same text with a workgroup of one tag, so that a call can be made to end before any tag.
fn tag_by_tag(text: &str) -> String {
    const SIZE: &str = "const WG_SIZE: usize = 256;";
    assert_eq!(text.matches(SIZE).count(), 1, "{SIZE}");
    text.replace(SIZE, "const WG_SIZE: usize = 1;")
}

fn main() {
    let ours = |name: &str| source::published(name) + "\nuse crate::ours::Ours as _;\n";
    let flatten = ours("flatten") + &source::reach("whole") + &source::reach("parts");
    source::write(&[
        ("util", ours("util")),
        ("euler", ours("euler")),
        ("tag_by_tag", tag_by_tag(&flatten)),
        ("flatten", flatten),
    ]);

    let archives = Path::new(env!("CARGO_MANIFEST_DIR")).join("../../target/staticlib");
    println!("cargo::rerun-if-changed={}", archives.join("libexports.a").display());
    println!("cargo::rustc-link-search=native={}", archives.display());
    println!("cargo::rustc-link-lib=static=exports");
}
