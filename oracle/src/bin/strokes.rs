//! Counts the starts and ends of the lines of open strokes. See docs/ORACLE.md.

use std::env;
use std::process::ExitCode;

use oracle::{stops, strokes};

fn main() -> ExitCode {
    stops::watch();
    let words: Vec<String> = env::args().skip(1).collect();
    match words.iter().map(|word| word.parse()).collect::<Result<Vec<u64>, _>>().as_deref() {
        Ok([seed, wanted]) if strokes::count(*seed, *wanted) => ExitCode::SUCCESS,
        Ok([_, _]) => ExitCode::FAILURE,
        _ => {
            eprintln!("usage: strokes SEED STROKES");
            ExitCode::from(2)
        }
    }
}
