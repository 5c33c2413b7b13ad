//! What the roots have to be, decided with whole numbers alone.
//!
//! A float's value is a whole number times a power of two, and so is the midpoint of two neighbouring floats. A float is
//! the nearest to the k-th root of A exactly when A lies between the k-th powers of its two midpoints; on a midpoint the
//! even float wins. No root is ever computed: an answer is given, and the powers of its midpoints are compared with A.

use std::cmp::Ordering;

const SIGN: u32 = 1 << 31;
const INFINITY: u32 = 0x7f80_0000;

/// whole · 2^exponent.
#[derive(Clone, Copy)]
pub struct Scaled {
    whole: u128,
    exponent: i32,
}

impl Scaled {
    /// The value of a float that is not below zero. Infinity stands for 2^128, where the next float would be.
    fn of_float(word: u32) -> Scaled {
        let (field, fraction) = (word >> 23, word & 0x7f_ffff);
        match field {
            0 => Scaled { whole: fraction.into(), exponent: -149 },
            _ => Scaled { whole: (fraction | 1 << 23).into(), exponent: field as i32 - 150 },
        }
    }

    /// Halfway between a float and the next one up.
    fn midpoint_above(word: u32) -> Scaled {
        let Scaled { whole, exponent } = Scaled::of_float(word);
        Scaled { whole: 2 * whole + 1, exponent: exponent - 1 }
    }

    #[inline(always)]
    fn power(self, k: u32) -> Scaled {
        let whole = (1..k).fold(self.whole, |product, _| product * self.whole);
        Scaled { whole, exponent: self.exponent * k as i32 }
    }

    /// Compares two values above zero: first by the place of their leading digits; if those agree, the one with the
    /// larger exponent has the fewer digits, and shifting it to the other's exponent cannot overflow.
    fn compare(self, other: Scaled) -> Ordering {
        let lead = |v: Scaled| v.exponent - v.whole.leading_zeros() as i32;
        let apart = self.exponent - other.exponent;
        lead(self).cmp(&lead(other)).then_with(|| match apart >= 0 {
            true => (self.whole << apart).cmp(&other.whole),
            false => self.whole.cmp(&(other.whole << -apart)),
        })
    }
}

/// What an answer has to be.
#[derive(Clone, Copy)]
pub enum Expected {
    /// Any NaN.
    Nan,
    /// This word.
    Word(u32),
    /// The float nearest to the k-th root of a value above zero, with this sign bit.
    Root { sign: u32, k: u32, of: Scaled },
}

impl Expected {
    /// Whether the float with this word is a right answer.
    #[inline(always)]
    pub fn admits(self, answer: u32) -> bool {
        match self {
            Expected::Nan => f32::from_bits(answer).is_nan(),
            Expected::Word(word) => answer == word,
            Expected::Root { sign, k, of } => answer & SIGN == sign && is_nearest(answer & !SIGN, k, of),
        }
    }

    /// The right answer, for messages: the root by bisection over all floats.
    pub fn word(self) -> u32 {
        match self {
            Expected::Nan => f32::NAN.to_bits(),
            Expected::Word(word) => word,
            Expected::Root { sign, k, of } => sign | nearest(k, of),
        }
    }
}

/// Whether the root lies below the midpoint above the float, or on it and the float is even.
#[inline(always)]
fn reaches(word: u32, k: u32, of: Scaled) -> bool {
    match of.compare(Scaled::midpoint_above(word).power(k)) {
        Ordering::Less => true,
        Ordering::Equal => word.is_multiple_of(2),
        Ordering::Greater => false,
    }
}

#[inline(always)]
fn is_nearest(word: u32, k: u32, of: Scaled) -> bool {
    word <= INFINITY && (word == INFINITY || reaches(word, k, of)) && (word == 0 || !reaches(word - 1, k, of))
}

/// The least float that reaches the root.
fn nearest(k: u32, of: Scaled) -> u32 {
    let (mut low, mut high) = (0, INFINITY);
    while low < high {
        let middle = (low + high) / 2;
        match reaches(middle, k, of) {
            true => high = middle,
            false => low = middle + 1,
        }
    }
    high
}

pub fn sqrt(x: u32) -> Expected {
    match x {
        0 | SIGN | INFINITY => Expected::Word(x),
        1..INFINITY => Expected::Root { sign: 0, k: 2, of: Scaled::of_float(x) },
        _ => Expected::Nan,
    }
}

pub fn cbrt(x: u32) -> Expected {
    match x & !SIGN {
        0 | INFINITY => Expected::Word(x),
        size @ 1..INFINITY => Expected::Root { sign: x & SIGN, k: 3, of: Scaled::of_float(size) },
        _ => Expected::Nan,
    }
}

/// The cube root of the square.
pub fn two_thirds(x: u32) -> Expected {
    match x {
        0 | SIGN => Expected::Word(0),
        INFINITY => Expected::Word(INFINITY),
        1..INFINITY => Expected::Root { sign: 0, k: 3, of: Scaled::of_float(x).power(2) },
        _ => Expected::Nan,
    }
}

/// The square root of the sum of two squares.
pub fn hypot(x: u32, y: u32) -> Expected {
    let (small, large) = ((x & !SIGN).min(y & !SIGN), (x & !SIGN).max(y & !SIGN));
    if small == INFINITY || large == INFINITY {
        return Expected::Word(INFINITY);
    }
    match large {
        0 => Expected::Word(0),
        1..INFINITY => Expected::Root { sign: 0, k: 2, of: sum_of_squares(large, small) },
        _ => Expected::Nan,
    }
}

/// Two squares have at most 48 digits each, so their sum fits into 128 as long as the exponents are at most 39 apart.
///
/// Further apart, the larger number m · 2^t has 24 digits and the smaller square is below 2^-32 in units of 2^2t. No
/// midpoint lies so closely above m: midpoints near it are multiples of a quarter. So any number in that gap gives the
/// same verdict, and a smaller number that is not zero counts as 1, 39 digits down.
fn sum_of_squares(large: u32, small: u32) -> Scaled {
    let (large, small) = (Scaled::of_float(large), Scaled::of_float(small));
    let apart = large.exponent - small.exponent;
    let (whole, apart) = if apart > 39 { (small.whole.min(1), 39) } else { (small.whole, apart) };
    Scaled { whole: (large.whole.pow(2) << (2 * apart)) + whole.pow(2), exponent: 2 * (large.exponent - apart) }
}
