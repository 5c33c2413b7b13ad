//! Old sheets moved to f32 points, and back.

use crate::ffi;

/// How much was written, in front of what was lent.
#[derive(Clone, Copy, Debug, PartialEq, Eq)]
pub struct Moved {
    pub tags: usize,
    pub words: usize,
}

/// Why a sheet is not moved. Nothing was written.
#[derive(Clone, Copy, Debug, PartialEq, Eq)]
pub enum MoveRefusal {
    /// This tag counts points and has the wanted kind already: refusal 40.
    WrongKind(usize),
    /// This counted point word is not there: refusal 43.
    Missing(usize),
    /// The coordinate at this word does not go back: refusal 41.
    NotWhole(usize),
    /// There is no room for the tags or the points: refusal 42.
    NoRoom,
}

impl MoveRefusal {
    pub fn number(self) -> u32 {
        match self {
            MoveRefusal::WrongKind(_) => 40,
            MoveRefusal::NotWhole(_) => 41,
            MoveRefusal::NoRoom => 42,
            MoveRefusal::Missing(_) => 43,
        }
    }
}

impl std::fmt::Display for MoveRefusal {
    fn fmt(&self, f: &mut std::fmt::Formatter) -> std::fmt::Result {
        write!(f, "refused {}", self.number())?;
        match self {
            MoveRefusal::WrongKind(at) => write!(f, " at tag {at}: it has the wanted points already"),
            MoveRefusal::Missing(at) => write!(f, ": point word {at} is counted and not there"),
            MoveRefusal::NotWhole(at) => write!(f, " at point word {at}: it is no whole number of 16 bits, or -0"),
            MoveRefusal::NoRoom => write!(f, ": no room for the tags or the points"),
        }
    }
}

impl std::error::Error for MoveRefusal {}

fn answer((number, [tags, words, at]): (u32, [u64; 3])) -> Result<Moved, MoveRefusal> {
    // all of them count or index lent lists
    let [tags, words, at] = [tags, words, at].map(|n| n as usize);
    match number {
        0 => Ok(Moved { tags, words }),
        40 => Err(MoveRefusal::WrongKind(at)),
        41 => Err(MoveRefusal::NotWhole(at)),
        43 => Err(MoveRefusal::Missing(at)),
        _ => Err(MoveRefusal::NoRoom),
    }
}

/// Moves a sheet of i16 points to f32 points: bit 0x08 in each tag that counts points, and two words a point.
///
/// ```
/// use hinthevoun::{Moved, to_f32};
///
/// // a line from (0, 0) to (3, -1) that ends its subpath
/// let (mut tags, mut points) = ([0; 1], [0; 4]);
/// assert_eq!(to_f32(&[0x05], &[0, 0xffff_0003], &mut tags, &mut points), Ok(Moved { tags: 1, words: 4 }));
/// assert_eq!((tags, points.map(f32::from_bits)), ([0x0d], [0., 0., 3., -1.]));
/// ```
pub fn to_f32(tags: &[u8], points: &[u32], new_tags: &mut [u8], new_points: &mut [u32]) -> Result<Moved, MoveRefusal> {
    answer(ffi::to_f32(tags, points, new_tags, new_points))
}

/// Moves a sheet of f32 points back to i16 points, if every counted coordinate is a whole number of 16 bits and not -0.
pub fn to_i16(tags: &[u8], points: &[u32], old_tags: &mut [u8], old_points: &mut [u32]) -> Result<Moved, MoveRefusal> {
    answer(ffi::to_i16(tags, points, old_tags, old_points))
}
