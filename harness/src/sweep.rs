//! Runs a check over many inputs on all processors, and keeps the tally.

use std::sync::atomic::{AtomicU64, Ordering};
use std::thread;

/// What a check found: inputs compared, failures with a few examples, and the largest error where one is measured.
#[derive(Default)]
pub struct Tally {
    pub compared: u64,
    pub failed: u64,
    pub examples: Vec<String>,
    pub worst: Option<(f64, Vec<u32>)>,
}

const EXAMPLES: usize = 3;

impl Tally {
    /// Counts one comparison; `example` says what went wrong if it failed.
    pub fn count(&mut self, holds: bool, example: impl FnOnce() -> String) {
        self.compared += 1;
        if !holds {
            self.failed += 1;
            if self.examples.len() < EXAMPLES {
                self.examples.push(example());
            }
        }
    }

    /// Notes an error, and the input words it came from if it is the largest so far.
    pub fn error(&mut self, error: f64, words: &[u32]) {
        if self.worst.as_ref().is_none_or(|(worst, _)| error > *worst) {
            self.worst = Some((error, words.to_vec()));
        }
    }

    pub fn add(&mut self, other: Tally) {
        self.compared += other.compared;
        self.failed += other.failed;
        self.examples.extend(other.examples);
        self.examples.truncate(EXAMPLES);
        if let Some((error, words)) = other.worst {
            self.error(error, &words);
        }
    }
}

/// Bit for bit the same, or both NaN: a NaN's bits are nobody's promise.
pub fn same(a: f32, b: f32) -> bool {
    a.to_bits() == b.to_bits() || (a.is_nan() && b.is_nan())
}

/// Runs `body` for the block numbers 0 .. blocks-1. Each thread takes the next block that is free.
pub fn blocks(blocks: u64, body: impl Fn(u64, &mut Tally) + Sync) -> Tally {
    let next = AtomicU64::new(0);
    let work = || {
        let mut tally = Tally::default();
        loop {
            let block = next.fetch_add(1, Ordering::Relaxed);
            if block >= blocks {
                return tally;
            }
            body(block, &mut tally);
        }
    };
    let threads = thread::available_parallelism().map_or(1, |n| n.get());
    let mut total = Tally::default();
    thread::scope(|scope| {
        let running: Vec<_> = (0..threads).map(|_| scope.spawn(work)).collect();
        for thread in running {
            total.add(thread.join().expect("a check panicked"));
        }
    });
    total
}

/// The words first, first + step, .. up to last.
#[derive(Clone, Copy)]
pub struct Words {
    pub first: u32,
    pub last: u32,
    pub step: u32,
}

impl Words {
    pub const ALL: Words = Words::every(0, u32::MAX);

    pub const fn every(first: u32, last: u32) -> Words {
        Words { first, last, step: 1 }
    }

    /// The same words with the sign bit set.
    pub fn negated(self) -> Words {
        Words { first: self.first | 1 << 31, last: self.last | 1 << 31, ..self }
    }

    fn len(self) -> u64 {
        u64::from((self.last - self.first) / self.step) + 1
    }
}

/// Runs `body` for every word of the sets, in which a word may occur more than once.
pub fn words(sets: &[Words], body: impl Fn(u32, &mut Tally) + Sync) -> Tally {
    const BLOCK: u64 = 1 << 18;
    let mut total = Tally::default();
    for set in sets {
        total.add(blocks(set.len().div_ceil(BLOCK), |block, tally| {
            for i in block * BLOCK..set.len().min((block + 1) * BLOCK) {
                body(set.first + i as u32 * set.step, tally);
            }
        }));
    }
    total
}
