//! What sine and cosine have to be, for every finite f32, and the library held to it.
//!
//! Nothing is shared with the library, not even a constant: π comes from Machin's formula, in whole numbers. A float is
//! m · 2^e, so for each exponent what is left of 2^e behind whole turns is worked out once. Times m, and behind whole
//! turns again, that is the float's angle, to 2^-72. Quarter turns do not come into it. The series of sine and cosine
//! then take the angle as a double.
//!
//! Two other sources check this in turn: the double functions of the platform, and a table of known values.

use crate::Extent;
use crate::ffi;
use crate::report::{Report, in_hex};
use crate::sweep::{self, Tally, Words};

/// How far an answer of the library may lie from the true value.
const TOLERANCE: f64 = 0.000001;
/// How far the reference may lie from the platform's double functions, and from ten digits of a known value.
const CHECKED: f64 = 1e-14;
const TEN_DIGITS: f64 = 0.51e-10;

/// The largest finite f32.
const LARGEST: u32 = 0x7f7f_ffff;
const SIGN: u32 = 1 << 31;

pub fn run(report: &mut Report, extent: Extent) {
    let turn = Turn::new();
    report.check("angles: a table of large ones, to ten digits", || table(&turn));
    let (part, step) = if extent == Extent::Whole { ("every f32", 1) } else { ("every 31st f32", 31) };
    let sizes = Words { first: 0, last: LARGEST, step };
    let (sin, cos) = (|x: f32| turn.sin(x), |x: f32| turn.cos(x));
    report.check(&format!("angles: the platform's double sine of {part}"), || platform(sizes, f64::sin, sin));
    report.check(&format!("angles: the platform's double cosine of {part}"), || platform(sizes, f64::cos, cos));
    report.check(&format!("angles: sin of {part}, both signs"), || library(sizes, ffi::sin, sin, -1.0));
    report.check(&format!("angles: cos of {part}, both signs"), || library(sizes, ffi::cos, cos, 1.0));
}

/// The reference beside a function of the platform.
fn platform(sizes: Words, double: impl Fn(f64) -> f64 + Sync, reference: impl Fn(f32) -> f64 + Sync) -> Tally {
    sweep::words(&[sizes], |word, tally| {
        let x = f32::from_bits(word);
        near(reference(x), double(x.into()), CHECKED, word, tally);
    })
}

/// A function of the library beside the reference; of -x the value is that of x times `turned`.
fn library(
    sizes: Words,
    ours: impl Fn(f32) -> f32 + Sync,
    reference: impl Fn(f32) -> f64 + Sync,
    turned: f64,
) -> Tally {
    sweep::words(&[sizes], |word, tally| {
        let x = f32::from_bits(word);
        let right = reference(x);
        near(ours(x).into(), right, TOLERANCE, word, tally);
        near(ours(-x).into(), right * turned, TOLERANCE, word | SIGN, tally);
    })
}

/// Notes how far two values lie apart, and counts whether that is near enough.
fn near(value: f64, right: f64, tolerance: f64, word: u32, tally: &mut Tally) {
    let error = (value - right).abs();
    tally.error(error, &[word]);
    tally.count(error <= tolerance, || format!("at {}: {value:?}, and should be {right:?}", in_hex(&[word])));
}

/// The lines of vectors/angles.txt: an angle, its sine and its cosine.
fn table(turn: &Turn) -> Tally {
    let mut tally = Tally::default();
    for line in include_str!("../vectors/angles.txt").lines().filter(|line| !line.starts_with('#')) {
        let fields: Vec<f64> = line.split_whitespace().map(|field| field.parse().expect("a number")).collect();
        let &[angle, sin, cos] = fields.as_slice() else { panic!("vectors/angles.txt has another line: {line}") };
        let x = angle as f32;
        assert_eq!(f64::from(x), angle, "an angle of vectors/angles.txt is no f32");
        near(turn.sin(x), sin, TEN_DIGITS, x.to_bits(), &mut tally);
        near(turn.cos(x), cos, TEN_DIGITS, x.to_bits(), &mut tally);
        near(ffi::sin(x).into(), sin, TOLERANCE, x.to_bits(), &mut tally);
        near(ffi::cos(x).into(), cos, TOLERANCE, x.to_bits(), &mut tally);
    }
    tally
}

/// The unit of an angle: 2^-96.
const UNITS: u32 = 96;

/// A whole turn, in units, and for each exponent of a float what is left of its last digit behind whole turns.
struct Turn {
    whole: u128,
    digits: [u128; 255],
}

impl Turn {
    fn new() -> Turn {
        let whole = two_pi();
        let mut digits = [0; 255];
        let mut left = Fixed::whole(1);
        for (field, digit) in digits.iter_mut().enumerate() {
            *digit = match field.checked_sub(150) {
                None => (1 << UNITS) >> (150 - field),
                Some(_) => {
                    let now = left;
                    left = left.plus(left).behind(whole);
                    now.in_units()
                }
            };
        }
        Turn { whole: whole.in_units(), digits }
    }

    /// The angle of a float that is not negative, behind whole turns, from -π to π. Below π a float is that itself.
    fn angle(&self, x: f32) -> f64 {
        if x < std::f32::consts::PI {
            return x.into();
        }
        let word = x.to_bits();
        let size = u128::from(word & 0x7f_ffff | 0x80_0000) * self.digits[(word >> 23) as usize];
        let turns = (size as f64 / self.whole as f64).round() as u128;
        size.wrapping_sub(turns * self.whole) as i128 as f64 / (1u128 << UNITS) as f64
    }

    fn sin(&self, x: f32) -> f64 {
        let angle = self.angle(x);
        angle * series::<1>(angle * angle)
    }

    fn cos(&self, x: f32) -> f64 {
        let angle = self.angle(x);
        series::<0>(angle * angle)
    }
}

/// 1 - z / (1+K)(2+K) + z² / (1+K)(2+K)(3+K)(4+K) - .., so far that for angles up to π what follows is below 1e-18.
fn series<const K: u32>(z: f64) -> f64 {
    (1..=15).rev().fold(1.0, |sum, i| 1.0 - sum * (z * (1.0 / f64::from((2 * i + K - 1) * (2 * i + K)))))
}

/// A number that is not negative: its whole part, and 320 binary digits behind the point.
#[derive(Clone, Copy, PartialEq, PartialOrd)]
struct Fixed([u64; 6]);

impl Fixed {
    fn whole(n: u64) -> Fixed {
        Fixed([n, 0, 0, 0, 0, 0])
    }

    /// The n-th part, cut off behind the last digit.
    fn over(self, n: u64) -> Fixed {
        let mut left = 0u128;
        Fixed(self.0.map(|part| {
            left = left % u128::from(n) << 64 | u128::from(part);
            (left / u128::from(n)) as u64
        }))
    }

    fn plus(mut self, other: Fixed) -> Fixed {
        let mut carry = false;
        for (a, b) in self.0.iter_mut().zip(other.0).rev() {
            (*a, carry) = a.carrying_add(b, carry);
        }
        self
    }

    fn minus(mut self, other: Fixed) -> Fixed {
        let mut borrow = false;
        for (a, b) in self.0.iter_mut().zip(other.0).rev() {
            (*a, borrow) = a.borrowing_sub(b, borrow);
        }
        self
    }

    /// Less a turn, where there is one.
    fn behind(self, turn: Fixed) -> Fixed {
        if self < turn { self } else { self.minus(turn) }
    }

    fn in_units(self) -> u128 {
        u128::from(self.0[0]) << UNITS | (u128::from(self.0[1]) << 64 | u128::from(self.0[2])) >> (128 - UNITS)
    }
}

/// Machin's formula: π/4 is 4 times the arc tangent of 1/5, less that of 1/239.
fn two_pi() -> Fixed {
    let times = |n: u32, part: Fixed| (0..n).fold(part, |sum, _| sum.plus(sum));
    times(5, arc_tangent(5)).minus(times(3, arc_tangent(239)))
}

/// The arc tangent of 1/n: 1/n - 1/3n³ + 1/5n⁵ - ..
fn arc_tangent(n: u64) -> Fixed {
    let mut power = Fixed::whole(1).over(n);
    let mut sum = power;
    for k in 1.. {
        power = power.over(n * n);
        let term = power.over(2 * k + 1);
        if term == Fixed::whole(0) {
            break;
        }
        sum = if k % 2 == 1 { sum.minus(term) } else { sum.plus(term) };
    }
    sum
}
