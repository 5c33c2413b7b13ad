//! Compares the exported functions with references that share no code with them, and times them.

mod angles;
mod bench;
mod checker;
mod cuts;
mod exact;
mod ffi;
mod half;
mod interface;
mod mender;
mod pattern;
mod profile;
mod random;
mod report;
mod roots;
mod sheets;
mod svg;
mod sweep;
mod trig;
mod whole;

use report::Report;
use std::process::ExitCode;

/// How much of the large sweeps to run.
#[derive(Clone, Copy, PartialEq)]
pub enum Extent {
    /// What the gate runs.
    Part,
    /// All there is to compare.
    Whole,
}

impl Extent {
    /// Ten times as many random inputs for the whole.
    fn scaled(self, times: u64) -> u64 {
        if self == Extent::Whole { 10 * times } else { times }
    }
}

fn main() -> ExitCode {
    let words: Vec<String> = std::env::args().skip(1).collect();
    match words.iter().map(String::as_str).collect::<Vec<_>>().as_slice() {
        ["gate"] => checks(Extent::Part, ""),
        ["gate", only] => checks(Extent::Part, only),
        ["full"] => checks(Extent::Whole, ""),
        ["full", only] => checks(Extent::Whole, only),
        ["bench"] => {
            bench::run();
            checker::bench();
            cuts::bench();
            svg::bench();
            whole::bench();
            ExitCode::SUCCESS
        }
        _ => {
            eprintln!("usage: harness gate [CHECK] | full [CHECK] | bench");
            ExitCode::from(2)
        }
    }
}

/// Runs the checks whose names begin with `only`.
fn checks(extent: Extent, only: &str) -> ExitCode {
    let mut report = Report::new(only);
    report.check("C header: C programs that use it", interface::header);
    report.check("Rust wrapper: its tests", interface::wrapper);
    roots::run(&mut report, extent);
    trig::run(&mut report, extent);
    angles::run(&mut report, extent);
    checker::run(&mut report, extent);
    sheets::run(&mut report, extent);
    pattern::run(&mut report, extent);
    profile::run(&mut report, extent);
    cuts::run(&mut report, extent);
    svg::run(&mut report, extent);
    mender::run(&mut report, extent);
    whole::run(&mut report, extent);
    match report.close() {
        true => ExitCode::SUCCESS,
        false => ExitCode::FAILURE,
    }
}
