//! Writes a list of calls with what the published Rust answers. See docs/ORACLE.md.

use std::env;
use std::process::ExitCode;

use oracle::{drawing, replay, spiral, stops};

fn main() -> ExitCode {
    stops::watch();
    match env::args().nth(1).as_deref() {
        Some("spiral") => spiral::list(),
        Some("drawing") => drawing::list(),
        Some("scenes") => replay::list(),
        _ => {
            eprintln!("usage: lists spiral | drawing | scenes");
            return ExitCode::from(2);
        }
    }
    ExitCode::SUCCESS
}
