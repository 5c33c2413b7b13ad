//! The check of a list of lines.

use crate::ffi;

/// What is said of a list. A record is told by its index.
#[derive(Clone, Copy, Debug, PartialEq, Eq)]
pub enum Verdict {
    /// No number is bad, and in each path every point is a start as often as an end.
    Sound,
    /// The first record with a NaN or an infinity.
    BadNumber(usize),
    /// No number is bad; the first record whose start or end is out of balance.
    Unbalanced(usize),
}

/// Why a list is not looked at.
#[derive(Clone, Copy, Debug, PartialEq, Eq)]
pub enum CheckRefusal {
    /// There are more than 2,000 whole records: refusal 50.
    TooMany,
    /// The length is no multiple of six: refusal 51.
    Leftover,
}

impl CheckRefusal {
    pub fn number(self) -> u32 {
        match self {
            CheckRefusal::TooMany => 50,
            CheckRefusal::Leftover => 51,
        }
    }
}

impl std::fmt::Display for CheckRefusal {
    fn fmt(&self, f: &mut std::fmt::Formatter) -> std::fmt::Result {
        let why = match self {
            CheckRefusal::TooMany => "more than 2,000 records",
            CheckRefusal::Leftover => "the length is not a multiple of six",
        };
        write!(f, "refused {}: {why}", self.number())
    }
}

impl std::error::Error for CheckRefusal {}

/// Whether a list of lines, six words each as [`flatten`](crate::flatten) stores them, is sound. A path is judged by itself,
/// +0 and -0 are one, and the second word of a record is ignored.
///
/// ```
/// use hinthevoun::{CheckRefusal, Verdict, check};
///
/// let one = 1.0f32.to_bits();
/// let there_and_back = [0, 0, 0, 0, one, 0, 0, 0, one, 0, 0, 0];
/// assert_eq!(check(&there_and_back), Ok(Verdict::Sound));
/// assert_eq!(check(&there_and_back[..6]), Ok(Verdict::Unbalanced(0)));
/// assert_eq!(check(&there_and_back[..7]), Err(CheckRefusal::Leftover));
/// ```
pub fn check(list: &[u32]) -> Result<Verdict, CheckRefusal> {
    let (number, [verdict, record]) = ffi::check(list);
    // an index of the list
    let record = record as usize;
    match (number, verdict) {
        (0, 0) => Ok(Verdict::Sound),
        (0, 1) => Ok(Verdict::BadNumber(record)),
        (0, _) => Ok(Verdict::Unbalanced(record)),
        (50, _) => Err(CheckRefusal::TooMany),
        _ => Err(CheckRefusal::Leftover),
    }
}
