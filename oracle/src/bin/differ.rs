//! Shows the smallest inputs at which this and the published Rust differ. See docs/DIFFERENCES.md.

use std::env;
use std::process::ExitCode;

use oracle::{differ, stops};

fn main() -> ExitCode {
    stops::watch();
    match env::args().nth(1).as_deref() {
        Some("functions") => differ::show_functions(),
        Some("calls") => differ::show_calls(),
        _ => {
            eprintln!("usage: differ functions | calls");
            return ExitCode::from(2);
        }
    }
    ExitCode::SUCCESS
}
