//! How far drawn lines lie from the exact curve. See docs/ORACLE.md.

use std::env;
use std::process::ExitCode;

use oracle::curves::KINDS;
use oracle::{distance, portrait};

fn main() -> ExitCode {
    let words: Vec<String> = env::args().skip(1).collect();
    let numbers: Vec<u64> = words.iter().filter_map(|word| word.parse().ok()).collect();
    let draws = words.first().is_some_and(|word| word == "draw");
    match (draws, words.len(), &numbers[..]) {
        (false, 2, [seed, curves]) if *curves > 0 => distance::show(*seed, *curves),
        (true, 4, [kind, seed, number]) if (1..=KINDS.len() as u64).contains(kind) => {
            print!("{}", portrait::draw(*kind as usize - 1, *seed, *number));
        }
        _ => {
            eprintln!("usage: distance SEED CURVES, or distance draw KIND SEED NUMBER > picture.svg");
            return ExitCode::from(2);
        }
    }
    ExitCode::SUCCESS
}
