//! binary16 as IEEE 754 gives it: a sign, five digits of exponent, ten of fraction.

use crate::ffi;
use crate::sweep::{Tally, same};

/// The value of a binary16 as a float, or a NaN. Every product is exact.
fn decoded(word: u16) -> f32 {
    let sign = if word >= 1 << 15 { -1.0 } else { 1.0 };
    let fraction = f32::from(word % 1024);
    match word / 1024 % 32 {
        0 => sign * fraction * 2f32.powi(-24),
        31 if fraction == 0.0 => sign * f32::INFINITY,
        31 => f32::NAN,
        field => sign * (1024.0 + fraction) * 2f32.powi(i32::from(field) - 25),
    }
}

/// Every binary16, under several upper halves of the word, which the function is to ignore.
pub fn check() -> Tally {
    let mut tally = Tally::default();
    for low in 0..=u16::MAX {
        let right = decoded(low);
        for upper in [0, 0xabcd_0000, 0x0001_0000, 0x8000_0000, 0xffff_0000] {
            let word = upper | u32::from(low);
            let ours = ffi::half(word);
            tally.count(same(ours, right), || {
                format!("half({word:#010x}) gave {:#010x}, not {:#010x}", ours.to_bits(), right.to_bits())
            });
        }
    }
    tally
}
