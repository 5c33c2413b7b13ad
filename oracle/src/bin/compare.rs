//! Compares whole calls of the published Rust with the library's. See docs/ORACLE.md.

use std::env;
use std::process::ExitCode;

use oracle::{compare, stops};

fn main() -> ExitCode {
    stops::watch();
    let words: Vec<String> = env::args().skip(1).collect();
    let words: Vec<&str> = words.iter().map(String::as_str).collect();
    let (seed, scenes, with_names) = match words[..] {
        [seed, scenes] => (seed.parse(), scenes.parse(), false),
        [seed, scenes, "names"] => (seed.parse(), scenes.parse(), true),
        _ => return usage(),
    };
    match (seed, scenes) {
        (Ok(seed), Ok(scenes)) if compare::compare(seed, scenes, with_names) => ExitCode::SUCCESS,
        (Ok(_), Ok(_)) => ExitCode::FAILURE,
        _ => usage(),
    }
}

fn usage() -> ExitCode {
    eprintln!("usage: compare SEED SCENES [names]");
    ExitCode::from(2)
}
