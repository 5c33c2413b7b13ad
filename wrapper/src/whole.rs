//! The whole way in one call: path data of an SVG as a file for the knife table.

use crate::{ImportRefusal, ProfileRefusal, Table, ffi, profile, svg};

/// What the parts of the call write to, each as in its own function: what the text drew, the sheet, its prefixes, its lines.
pub struct Lent<'a> {
    pub tags: &'a mut [u8],
    pub points: &'a mut [u32],
    pub scene: &'a mut [u32],
    pub prefixes: &'a mut [u32],
    pub lines: &'a mut [u32],
}

/// Why there is no file: the first part that refused, with its own refusal.
#[derive(Clone, Copy, Debug, PartialEq, Eq)]
pub enum CutTextRefusal {
    /// The text: 60, 61 or 21, with the byte.
    Text(ImportRefusal),
    /// The scene has no room for the sheet, which takes so many words; none are told of 2^31 or more: refusal 80.
    Sheet { words: usize },
    /// The scan: refusal 1. It cannot arise, since the sheet begins at the scene's first word.
    Scan,
    /// The profile for lay-up sheets: 1 to 3 or 70 to 75, with the tag, of which 0 and 1 are the sheet's own.
    Profile(ProfileRefusal),
    /// The flattening: 1 to 9, with the tag.
    Flatten { number: u32, tag: u64 },
    /// A coordinate of this record is a NaN or, rounded, outside the table's range: refusal 30.
    TooFar { record: usize },
    /// A whole command of this record has no room, or `IN;` has none: refusal 31.
    NoRoom { record: usize },
}

impl CutTextRefusal {
    pub fn number(self) -> u32 {
        match self {
            CutTextRefusal::Text(refusal) => refusal.number(),
            CutTextRefusal::Sheet { .. } => 80,
            CutTextRefusal::Scan => 1,
            CutTextRefusal::Profile(refusal) => refusal.number(),
            CutTextRefusal::Flatten { number, .. } => number,
            CutTextRefusal::TooFar { .. } => 30,
            CutTextRefusal::NoRoom { .. } => 31,
        }
    }

    /// Which part refused, from 1 to 6.
    pub fn stage(self) -> u32 {
        match self {
            CutTextRefusal::Text(_) => 1,
            CutTextRefusal::Sheet { .. } => 2,
            CutTextRefusal::Scan => 3,
            CutTextRefusal::Profile(_) => 4,
            CutTextRefusal::Flatten { .. } => 5,
            CutTextRefusal::TooFar { .. } | CutTextRefusal::NoRoom { .. } => 6,
        }
    }

    /// The byte, the words, the tag or the record.
    pub fn place(self) -> u64 {
        match self {
            CutTextRefusal::Text(refusal) => refusal.byte() as u64,
            CutTextRefusal::Sheet { words } => words as u64,
            CutTextRefusal::Scan => 0,
            CutTextRefusal::Profile(refusal) => refusal.tag(),
            CutTextRefusal::Flatten { tag, .. } => tag,
            CutTextRefusal::TooFar { record } | CutTextRefusal::NoRoom { record } => record as u64,
        }
    }
}

impl std::fmt::Display for CutTextRefusal {
    fn fmt(&self, f: &mut std::fmt::Formatter) -> std::fmt::Result {
        let (number, place) = (self.number(), self.place());
        match self {
            CutTextRefusal::Text(refusal) => write!(f, "{refusal}"),
            CutTextRefusal::Sheet { .. } => write!(f, "refused {number}: the scene has no room for {place} words"),
            CutTextRefusal::Scan => write!(f, "refused {number}: a base lies past the scene's end"),
            CutTextRefusal::Profile(refusal) => write!(f, "{refusal}"),
            CutTextRefusal::Flatten { .. } => write!(f, "refused {number} at {place} when it was flattened"),
            CutTextRefusal::TooFar { .. } => {
                write!(f, "refused {number} at record {place}: a coordinate that the table does not take")
            }
            CutTextRefusal::NoRoom { .. } => write!(f, "refused {number} at record {place}: no room for the command"),
        }
    }
}

impl std::error::Error for CutTextRefusal {}

/// Makes a file for a knife table of path data under one transform, and returns its length. At a refusal no byte has changed;
/// what the parts before it wrote to the other lists stands.
///
/// ```
/// use hinthevoun::{CutTextRefusal, Lent, Table, cut_text};
///
/// let (tags, points, scene) = (&mut [0; 8], &mut [0; 40], &mut [0; 200]);
/// let mut lent = Lent { tags, points, scene, prefixes: &mut [0; 256], lines: &mut [0; 60] };
/// let mut bytes = [0; 40];
/// // twice as large, with y turned round
/// let length = cut_text(b"M0 0L3 0L0 6Z", [2.0, 0.0, 0.0, -2.0, 0.0, 12.0], Table::Old, &mut lent, &mut bytes).unwrap();
/// assert_eq!(&bytes[..length], b"IN;PU0,12;PD6,12;PD0,0;PD0,12;");
/// let refusal = cut_text(b"M0 0L40000 0Z", [1.0, 0.0, 0.0, 1.0, 0.0, 0.0], Table::Old, &mut lent, &mut bytes).unwrap_err();
/// assert_eq!(refusal, CutTextRefusal::TooFar { record: 0 });
/// ```
pub fn cut_text(
    text: &[u8],
    transform: [f32; 6],
    table: Table,
    lent: &mut Lent,
    bytes: &mut [u8],
) -> Result<usize, CutTextRefusal> {
    answered(ffi::cut_text(text, transform, table as u32, lent, bytes))
}

fn answered((number, [count, stage, place]): (u32, [u64; 3])) -> Result<usize, CutTextRefusal> {
    // a count, a word or a record is of a lent list
    let (count, at) = (count as usize, place as usize);
    match (stage, number) {
        (_, 0) => Ok(count),
        (1, _) => svg::answered((number, place)).map(|()| count).map_err(CutTextRefusal::Text),
        (2, _) => Err(CutTextRefusal::Sheet { words: at }),
        (3, _) => Err(CutTextRefusal::Scan),
        (4, _) => Err(CutTextRefusal::Profile(profile::refused(number, place))),
        (5, _) => Err(CutTextRefusal::Flatten { number, tag: place }),
        (_, 30) => Err(CutTextRefusal::TooFar { record: at }),
        _ => Err(CutTextRefusal::NoRoom { record: at }),
    }
}
