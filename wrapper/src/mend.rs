//! The mending of a list of lines.

use crate::ffi;

/// What is done about a path.
#[derive(Clone, Copy, Debug, PartialEq, Eq)]
pub enum PathCase {
    /// Every point is a start as often as an end.
    Sound,
    /// A line is appended between these points, `[x0, y0, x1, y1]` by their bits.
    Mended([u32; 4]),
    /// Out of balance, and not by one gap that is small enough.
    NotMended,
}

/// How much was written: the paths of the report, and the lines appended.
#[derive(Clone, Copy, Debug, PartialEq, Eq)]
pub struct Mend {
    pub paths: usize,
    pub lines: usize,
}

/// Why a list is not mended. Nothing is written then.
#[derive(Clone, Copy, Debug, PartialEq, Eq)]
pub enum MendRefusal {
    /// There are more than 2,000 whole records: refusal 50.
    TooMany,
    /// The length is no multiple of six: refusal 51.
    Leftover,
    /// The first record with a NaN or an infinity: refusal 52.
    BadNumber(usize),
    /// No room for the lines or the report, or more than 2,000 records afterwards: refusal 53, with what would be written.
    NoRoom(Mend),
}

impl MendRefusal {
    pub fn number(self) -> u32 {
        match self {
            MendRefusal::TooMany => 50,
            MendRefusal::Leftover => 51,
            MendRefusal::BadNumber(_) => 52,
            MendRefusal::NoRoom(_) => 53,
        }
    }
}

impl std::fmt::Display for MendRefusal {
    fn fmt(&self, f: &mut std::fmt::Formatter) -> std::fmt::Result {
        write!(f, "refused {}: ", self.number())?;
        match self {
            MendRefusal::TooMany => write!(f, "more than 2,000 records"),
            MendRefusal::Leftover => write!(f, "the length is not a multiple of six"),
            MendRefusal::BadNumber(k) => write!(f, "a NaN or an infinity in record {k}"),
            MendRefusal::NoRoom(Mend { paths, lines }) => {
                write!(
                    f,
                    "no room for {lines} lines or the report of {paths} paths, or more than 2,000 records afterwards"
                )
            }
        }
    }
}

impl std::error::Error for MendRefusal {}

/// Appends to a list, in `room`, the line that each path lacks whose one gap is at most `within` units wide in x and in y,
/// and reports each path in order of first appearance, six words a path. [`report_of`] reads the report.
///
/// ```
/// use hinthevoun::{Mend, PathCase, mend, report_of};
///
/// let one = 1.0f32.to_bits();
/// let gap = [7, 0, 0, 0, one, 0];
/// let (mut room, mut report) = ([0; 6], [0; 6]);
/// assert_eq!(mend(&gap, 1, &mut room, &mut report), Ok(Mend { paths: 1, lines: 1 }));
/// assert_eq!(room, [7, 0xffffffff, one, 0, 0, 0]);
/// assert_eq!(report_of(&report).collect::<Vec<_>>(), [(7, PathCase::Mended([one, 0, 0, 0]))]);
/// ```
pub fn mend(list: &[u32], within: u32, room: &mut [u32], report: &mut [u32]) -> Result<Mend, MendRefusal> {
    let (number, [first, second]) = ffi::mend(list, within, room, report);
    // at most 2,000 each
    let mended = Mend { paths: first as usize, lines: second as usize };
    match number {
        0 => Ok(mended),
        50 => Err(MendRefusal::TooMany),
        51 => Err(MendRefusal::Leftover),
        52 => Err(MendRefusal::BadNumber(first as usize)),
        _ => Err(MendRefusal::NoRoom(mended)),
    }
}

/// The paths of a report and their cases.
pub fn report_of(report: &[u32]) -> impl Iterator<Item = (u32, PathCase)> {
    report.as_chunks::<6>().0.iter().map(|&[path, case, x0, y0, x1, y1]| {
        let case = match case {
            0 => PathCase::Sound,
            1 => PathCase::Mended([x0, y0, x1, y1]),
            _ => PathCase::NotMended,
        };
        (path, case)
    })
}
