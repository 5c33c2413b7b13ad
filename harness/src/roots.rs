//! The four roots and binary16 against their references.

use crate::Extent;
use crate::exact::{self, Expected};
use crate::ffi;
use crate::half;
use crate::random::Random;
use crate::report::Report;
use crate::sweep::{self, Tally, Words, same};

pub fn run(report: &mut Report, extent: Extent) {
    report.check("worked values of the roots and binary16", worked_values);
    report.check("binary16: all 65536, five upper halves", half::check);
    report.check("exact reference: takes the processor's square root, refuses its neighbours", reference);
    report.check("sqrt: every word, against the processor", sqrt);
    let cubes = cube_words(extent);
    let part = if extent == Extent::Whole { "every word" } else { "12 binades, subnormals, every 31st word" };
    report.check(&format!("cbrt: {part}, exact"), || unary("cbrt", ffi::cbrt, exact::cbrt, &cubes));
    report.check(&format!("two_thirds: {part}, exact"), || {
        unary("two_thirds", ffi::two_thirds, exact::two_thirds, &cubes)
    });
    report.check("hypot: special values with each other and with random words, exact", hypot_special);
    report.check("hypot: every pair of exponents, exact", || hypot_exponents(extent));
    report.check("hypot: random words, exact", || hypot_random(extent, |r| [r.word(), r.word()]));
    report.check("hypot: subnormals and the least normal numbers, exact", || hypot_random(extent, tiny_pair));
    report.check("hypot: results about the overflow threshold, exact", || hypot_random(extent, overflow_pair));
    report.check("hypot: results next to a midpoint, exact", || hypot_random(extent, near_tie));
    report.check("hypot: results on a midpoint, exact", hypot_ties);
    report.check("hypot: results on the overflow midpoint, exact", hypot_overflow_ties);
}

fn worked_values() -> Tally {
    let (inf, nan, least) = (f32::INFINITY, f32::NAN, f32::from_bits(1));
    let values = [
        ("sqrt(2)", ffi::sqrt(2.0), f32::from_bits(0x3fb5_04f3)),
        ("sqrt(-0)", ffi::sqrt(-0.0), -0.0),
        ("sqrt(-least)", ffi::sqrt(-least), nan),
        ("sqrt(-inf)", ffi::sqrt(-inf), nan),
        ("sqrt(inf)", ffi::sqrt(inf), inf),
        ("cbrt(-8)", ffi::cbrt(-8.0), -2.0),
        ("cbrt(-0)", ffi::cbrt(-0.0), -0.0),
        ("cbrt(-inf)", ffi::cbrt(-inf), -inf),
        ("cbrt(8 least)", ffi::cbrt(8.0 * least), 2.0 * ffi::cbrt(least)),
        ("two_thirds(8)", ffi::two_thirds(8.0), 4.0),
        ("two_thirds(-8)", ffi::two_thirds(-8.0), nan),
        ("two_thirds(-least)", ffi::two_thirds(-least), nan),
        ("two_thirds(-inf)", ffi::two_thirds(-inf), nan),
        ("two_thirds(inf)", ffi::two_thirds(inf), inf),
        ("two_thirds(-0)", ffi::two_thirds(-0.0), 0.0),
        ("two_thirds(NaN)", ffi::two_thirds(nan), nan),
        ("hypot(3, 4)", ffi::hypot(3.0, 4.0), 5.0),
        ("hypot(-0, -0)", ffi::hypot(-0.0, -0.0), 0.0),
        ("hypot(-least, 0)", ffi::hypot(-least, 0.0), least),
        ("hypot(-inf, NaN)", ffi::hypot(-inf, nan), inf),
        ("hypot(NaN, inf)", ffi::hypot(nan, inf), inf),
        ("hypot(NaN, 1)", ffi::hypot(nan, 1.0), nan),
        ("hypot(max, max)", ffi::hypot(f32::MAX, f32::MAX), inf),
        ("half(0x4400)", ffi::half(0x4400), 4.0),
        ("half(0x8001)", ffi::half(0x8001), -(2f32.powi(-24))),
    ];
    let mut tally = Tally::default();
    for (call, ours, right) in values {
        tally.count(same(ours, right), || format!("{call} gave {ours:?}, not {right:?}"));
    }
    tally
}

/// The exact reference itself: where the processor gives a square root, the reference finds the same one, admits it
/// and refuses the floats on both sides.
fn reference() -> Tally {
    sweep::words(&[Words { first: 1, last: 0x7f7f_ffff, step: 4099 }], |x, tally| {
        let root = f32::from_bits(x).sqrt().to_bits();
        let expected = exact::sqrt(x);
        let holds = expected.word() == root
            && expected.admits(root)
            && !expected.admits(root - 1)
            && !expected.admits(root + 1)
            && !expected.admits(root | 1 << 31);
        tally.count(holds, || format!("square root of {x:#010x}: not {root:#010x} alone"));
    })
}

fn sqrt() -> Tally {
    sweep::words(&[Words::ALL], |word, tally| {
        let x = f32::from_bits(word);
        let (ours, right) = (ffi::sqrt(x), x.sqrt());
        tally.count(same(ours, right), || {
            format!("sqrt({word:#010x}) gave {:#010x}, not {:#010x}", ours.to_bits(), right.to_bits())
        });
    })
}

/// For the gate: cube roots repeat themselves every three binades, the exponent apart. So three whole binades at each
/// end of the range, six in the middle, all subnormals and every 31st of all words, with both signs.
fn cube_words(extent: Extent) -> Vec<Words> {
    if extent == Extent::Whole {
        return vec![Words::ALL];
    }
    let mut sets = vec![Words { step: 31, ..Words::ALL }];
    for [first, last] in [[0, 0x01ff_ffff], [0x3f00_0000, 0x41ff_ffff], [0x7e00_0000, 0x7f80_0000]] {
        sets.extend([Words::every(first, last), Words::every(first, last).negated()]);
    }
    sets
}

fn unary(
    name: &str,
    ours: impl Fn(f32) -> f32 + Sync,
    right: impl Fn(u32) -> Expected + Sync,
    sets: &[Words],
) -> Tally {
    sweep::words(sets, |word, tally| {
        let answer = ours(f32::from_bits(word)).to_bits();
        let expected = right(word);
        tally.count(expected.admits(answer), || {
            format!("{name}({word:#010x}) gave {answer:#010x}, not {:#010x}", expected.word())
        });
    })
}

fn hypot(x: u32, y: u32, tally: &mut Tally) {
    let answer = ffi::hypot(f32::from_bits(x), f32::from_bits(y)).to_bits();
    let expected = exact::hypot(x, y);
    tally.count(expected.admits(answer), || {
        format!("hypot({x:#010x}, {y:#010x}) gave {answer:#010x}, not {:#010x}", expected.word())
    });
}

/// Zeros, the least and largest numbers of each kind, one and its neighbours, infinity, NaNs quiet and signalling.
pub const SPECIAL: [u32; 16] = [
    0,
    1,
    2,
    0x007f_ffff,
    0x0080_0000,
    0x0080_0001,
    0x3f7f_ffff,
    0x3f80_0000,
    0x3f80_0001,
    0x4040_0000,
    0x7f7f_fffe,
    0x7f7f_ffff,
    0x7f80_0000,
    0x7f80_0001,
    0x7fc0_0000,
    0x7fff_ffff,
];

fn hypot_special() -> Tally {
    sweep::blocks(SPECIAL.len() as u64, |block, tally| {
        let mut random = Random::seeded(block);
        for x in [SPECIAL[block as usize], SPECIAL[block as usize] | 1 << 31] {
            for y in SPECIAL {
                hypot(x, y, tally);
                hypot(x, y | 1 << 31, tally);
            }
            for _ in 0..100_000 {
                let y = random.word();
                hypot(x, y, tally);
                hypot(y, x, tally);
            }
        }
    })
}

/// Every exponent with every exponent, 0 being the subnormals': so every difference of exponents, many times.
fn hypot_exponents(extent: Extent) -> Tally {
    let times = extent.scaled(600);
    sweep::blocks(255, |field, tally| {
        let mut random = Random::seeded(field);
        for other in 0..255 {
            for _ in 0..times {
                hypot(random.with_exponent(field as u32), random.with_exponent(other), tally);
            }
        }
    })
}

/// 16 million pairs of a kind.
fn hypot_random(extent: Extent, pair: impl Fn(&mut Random) -> [u32; 2] + Sync) -> Tally {
    sweep::blocks(extent.scaled(256), |block, tally| {
        let mut random = Random::seeded(block);
        for _ in 0..1 << 16 {
            let [x, y] = pair(&mut random);
            hypot(x, y, tally);
        }
    })
}

/// Two words below 2^24, short ones as often as long ones: subnormals and the first normal binade.
fn tiny_pair(random: &mut Random) -> [u32; 2] {
    [random.of_any_length(24) as u32, random.of_any_length(24) as u32]
}

/// Two numbers whose hypotenuse is about 2^128 - 2^103, from where on the nearest float is infinity.
fn overflow_pair(random: &mut Random) -> [u32; 2] {
    let threshold = 2f64.powi(128) - 2f64.powi(103);
    let x = 0x7f7f_ffff - random.of_any_length(27) as u32;
    let y = (threshold * threshold - f64::from(f32::from_bits(x)).powi(2)).sqrt() as f32;
    [x, y.to_bits() + random.below(5) as u32 - 2]
}

/// Two numbers x, y with x² + y² next to the square of an odd M of 25 digits, which is a midpoint. As
/// y² = (M - x)(M + x), M - x is chosen, then y so that M comes out near an M aimed at, then M + x, which misses
/// y² / (M - x) by less than 4, so that M² misses x² + y² by less than 5 (M - x).
fn near_tie(random: &mut Random) -> [u32; 2] {
    let less = 1 + random.of_any_length(22);
    let aim = (1 << 24) + random.below(1 << 24);
    let y = (2 * less * aim).isqrt() + random.below(5);
    let more = y * y / less;
    let more = more - (less + more + 2) % 4;
    let x = more.saturating_sub(less) / 2;
    let exponent = random.below(252) as i32 - 149;
    [scaled(x, exponent), scaled(y, exponent)]
}

/// whole · 2^exponent as a float, exact where a float has the digits.
fn scaled(whole: u64, exponent: i32) -> u32 {
    ((whole as f64 * 2f64.powi(exponent)) as f32).to_bits()
}

/// Pythagorean triples (p² - q², 2pq, p² + q²) with an odd hypotenuse of 25 digits: it lies on a midpoint, and the
/// answer is its even neighbour. The odd leg has to have 24 digits to be a float; the even one always is.
fn hypot_ties() -> Tally {
    sweep::blocks(5793, |p, tally| {
        let mut random = Random::seeded(p);
        for q in (1 - p % 2..p).step_by(2) {
            let (odd, even, hypotenuse) = (p * p - q * q, 2 * p * q, p * p + q * q);
            if odd < 1 << 24 && (1 << 24..1 << 25).contains(&hypotenuse) {
                for _ in 0..4 {
                    let exponent = random.below(253) as i32 - 149;
                    hypot(scaled(odd, exponent), scaled(even, exponent), tally);
                    hypot(scaled(even, exponent), scaled(odd, exponent), tally);
                }
            }
        }
    })
}

/// The overflow threshold is a midpoint, (2^25 - 1) · 2^103, and a hypotenuse in its own right: on it, infinity.
fn hypot_overflow_ties() -> Tally {
    const HYPOTENUSE: u64 = (1 << 25) - 1;
    sweep::blocks(256, |block, tally| {
        for even in (block << 17..(block + 1) << 17).step_by(2).skip_while(|&even| even == 0) {
            let square = HYPOTENUSE.pow(2).saturating_sub(even * even);
            let odd = square.isqrt();
            if odd * odd == square && odd < 1 << 24 {
                hypot(scaled(odd, 103), scaled(even, 103), tally);
                hypot(scaled(even, 103), scaled(odd, 103), tally);
            }
        }
    })
}
