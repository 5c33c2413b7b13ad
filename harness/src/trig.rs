//! The five trigonometric functions against Rust's own, and against recorded answers.

use crate::Extent;
use crate::ffi;
use crate::random::Random;
use crate::report::{Report, in_hex};
use crate::roots::SPECIAL;
use crate::sweep::{self, Tally, Words, same};

/// How far an answer may lie from Rust's.
const TOLERANCE: f64 = 0.000001;

const ONE: u32 = 0x3f80_0000;
const INFINITY: u32 = 0x7f80_0000;
/// 1,024, up to which sines and cosines are compared with Rust's. Larger angles are in `angles`.
const LIMIT: u32 = 0x4480_0000;
/// 2^-16. For the gate: every word from here on, every 61st below, where all five are straight lines.
const SMALL: u32 = 0x3780_0000;

pub fn run(report: &mut Report, extent: Extent) {
    report.check("trigonometry: recorded answers, bit for bit", recorded);
    let part = if extent == Extent::Whole { "every word" } else { "every word from 2^-16 on, every 61st below" };
    let turns = sizes_up_to(LIMIT, extent);
    report.check(&format!("sin: {part}, to 1024"), || unary("sin", ffi::sin, f32::sin, &turns));
    report.check(&format!("cos: {part}, to 1024"), || unary("cos", ffi::cos, f32::cos, &turns));
    let ratios = sizes_up_to(ONE, extent);
    report.check(&format!("asin: {part}, to 1"), || unary("asin", ffi::asin, f32::asin, &ratios));
    report.check(&format!("acos: {part}, to 1"), || unary("acos", ffi::acos, f32::acos, &ratios));
    report.check("NaN from sin, cos without a finite angle, asin, acos outside -1 to 1", || outside(extent));
    report.check("atan2: special values with each other and with random words", atan2_special);
    report.check("atan2: every pair of exponents", atan2_exponents);
}

fn both_signs(set: Words) -> [Words; 2] {
    [set, set.negated()]
}

fn sizes_up_to(last: u32, extent: Extent) -> Vec<Words> {
    let step = if extent == Extent::Whole { 1 } else { 61 };
    let small = both_signs(Words { first: 0, last: SMALL - 1, step });
    [small, both_signs(Words::every(SMALL, last))].concat()
}

/// Compares an answer with Rust's: both NaN, or zeros of one sign, or close together.
fn near(name: &str, ours: f32, stock: f32, words: &[u32], tally: &mut Tally) {
    let error = (f64::from(ours) - f64::from(stock)).abs();
    if error >= 0.0 {
        tally.error(error, words);
    }
    let holds = same(ours, stock) || (error <= TOLERANCE && !(ours == 0.0 && stock == 0.0));
    tally.count(holds, || format!("{name}({}) gave {ours:?}, Rust's is {stock:?}", in_hex(words)));
}

fn unary(name: &str, ours: impl Fn(f32) -> f32 + Sync, stock: impl Fn(f32) -> f32 + Sync, sets: &[Words]) -> Tally {
    sweep::words(sets, |word, tally| {
        let x = f32::from_bits(word);
        near(name, ours(x), stock(x), &[word], tally);
    })
}

fn outside(extent: Extent) -> Tally {
    let step = if extent == Extent::Whole { 1 } else { 61 };
    let past_one = both_signs(Words { first: ONE + 1, last: u32::MAX >> 1, step });
    let mut total = sweep::words(&past_one, |word, tally| {
        let x = f32::from_bits(word);
        tally.count(ffi::asin(x).is_nan() && ffi::acos(x).is_nan(), || {
            format!("asin or acos({word:#010x}) is a number")
        });
    });
    let not_finite = both_signs(Words { first: INFINITY, last: u32::MAX >> 1, step });
    total.add(sweep::words(&not_finite, |word, tally| {
        let x = f32::from_bits(word);
        tally.count(ffi::sin(x).is_nan() && ffi::cos(x).is_nan(), || format!("sin or cos({word:#010x}) is a number"));
    }));
    total
}

fn atan2(y: u32, x: u32, tally: &mut Tally) {
    let (fy, fx) = (f32::from_bits(y), f32::from_bits(x));
    near("atan2", ffi::atan2(fy, fx), fy.atan2(fx), &[y, x], tally);
}

fn atan2_special() -> Tally {
    sweep::blocks(SPECIAL.len() as u64, |block, tally| {
        let mut random = Random::seeded(block);
        for y in [SPECIAL[block as usize], SPECIAL[block as usize] | 1 << 31] {
            for x in SPECIAL {
                atan2(y, x, tally);
                atan2(y, x | 1 << 31, tally);
            }
            for _ in 0..100_000 {
                let x = random.word();
                atan2(y, x, tally);
                atan2(x, y, tally);
            }
        }
    })
}

/// Over 200 million pairs: every exponent with every exponent, oftener where they are near each other.
fn atan2_exponents() -> Tally {
    sweep::blocks(255, |field, tally| {
        let mut random = Random::seeded(field);
        let field = field as u32;
        for other in 0..255u32 {
            let times = if field.abs_diff(other) <= 1 { 40_000 } else { 2_700 };
            for _ in 0..times {
                atan2(random.with_exponent(field), random.with_exponent(other), tally);
            }
        }
    })
}

/// The answers of vectors/trig.txt: a name, the words of the arguments, the word of the answer.
fn recorded() -> Tally {
    let mut tally = Tally::default();
    for line in include_str!("../vectors/trig.txt").lines().filter(|line| !line.starts_with('#')) {
        let fields: Vec<&str> = line.split_whitespace().collect();
        let words: Vec<f32> = fields[1..].iter().map(|word| f32::from_bits(parsed(word))).collect();
        let (ours, right) = match (fields[0], words.as_slice()) {
            ("sin", &[x, right]) => (ffi::sin(x), right),
            ("cos", &[x, right]) => (ffi::cos(x), right),
            ("asin", &[x, right]) => (ffi::asin(x), right),
            ("acos", &[x, right]) => (ffi::acos(x), right),
            ("atan2", &[y, x, right]) => (ffi::atan2(y, x), right),
            _ => panic!("vectors/trig.txt has a line of another form: {line}"),
        };
        tally.count(same(ours, right), || format!("{line}: gave {:08x}", ours.to_bits()));
    }
    tally
}

fn parsed(word: &str) -> u32 {
    u32::from_str_radix(word, 16).expect("a word in hex")
}
