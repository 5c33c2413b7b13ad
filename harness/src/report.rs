//! One line a check, and the count of checks passed and failed. Two times stand behind each: on the clock, and of the
//! processors, which does not depend on what else the machine does.

use crate::sweep::Tally;
use std::ffi::c_long;
use std::time::Instant;

unsafe extern "C" {
    /// C's processor time of this program, in microseconds.
    safe fn clock() -> c_long;
}

/// The processor time of this program so far, in seconds.
pub fn used() -> f64 {
    clock() as f64 / 1e6
}

/// The checks run so far. Only those are run whose line begins with `only`.
pub struct Report {
    only: String,
    passed: u32,
    failed: u32,
}

impl Report {
    pub fn new(only: &str) -> Report {
        Report { only: only.to_string(), passed: 0, failed: 0 }
    }

    /// Runs a check and prints what it compared. A check that compared nothing has failed.
    pub fn check(&mut self, what: &str, check: impl FnOnce() -> Tally) {
        if !what.starts_with(&self.only) {
            return;
        }
        let (start, before) = (Instant::now(), used());
        let Tally { compared, failed, examples, worst } = check();
        let (seconds, used) = (start.elapsed().as_secs_f64(), used() - before);
        let passed = compared > 0 && failed == 0;
        let verdict = if passed { "ok  " } else { "FAIL" };
        print!("{verdict} {what}: {compared} compared, {failed} failed");
        if let Some((error, words)) = worst {
            print!(", worst error {error:.3e} at ({})", in_hex(&words));
        }
        println!(" ({seconds:.1} s, processors {used:.1} s)");
        for example in examples {
            println!("       {example}");
        }
        match passed {
            true => self.passed += 1,
            false => self.failed += 1,
        }
    }

    /// Prints the last line; whether there were checks and all passed.
    pub fn close(self) -> bool {
        println!("harness: {} passed, {} failed", self.passed, self.failed);
        self.passed > 0 && self.failed == 0
    }
}

pub fn in_hex(words: &[u32]) -> String {
    words.iter().map(|word| format!("{word:#010x}")).collect::<Vec<_>>().join(", ")
}
