//! From the encoded paths of a scene to lines and boxes: safe functions over the proved library, which is linked as C
//! code. `include/hinthevoun.h` says what each part of a scene is; here lists are slices, and a refusal is an error.
//!
//! ```
//! use hinthevoun::{Layout, PathBox, flatten, scan};
//!
//! // one workgroup of tags: a transform, a style, a line that ends its subpath, a path, and nothing more;
//! // then the points (0, 0) and (3, 6), the identity and a style that fills
//! let mut scene = vec![0x10054020];
//! scene.resize(64, 0);
//! let one = 1.0f32.to_bits();
//! scene.extend([0x00000000, 0x00060003, one, 0, 0, one, 0, 0, 0, 0]);
//! let layout = Layout { n_wg: 1, tag_base: 0, data_base: 64, transform_base: 66, style_base: 72 };
//!
//! let mut prefixes = [0; 4];
//! assert_eq!(scan(&scene, layout.tag_base, &mut prefixes), Ok(1));
//! let (mut boxes, mut lines) = ([PathBox::EMPTY], [0; 6]);
//! assert_eq!(flatten(layout, &scene, &prefixes, &mut boxes, &mut lines), Ok(1));
//! // of path 0, drawn by tag 2, from (0, 0) to (3, 6)
//! assert_eq!(lines, [0, 2, 0, 0, 3.0f32.to_bits(), 6.0f32.to_bits()]);
//! assert_eq!(boxes, [PathBox { x0: 0, y0: 0, x1: 3, y1: 6, draw_flags: 0, trans_ix: 0 }]);
//! ```

mod check;
mod cut;
mod ffi;
mod mend;
pub mod pattern;
mod profile;
mod sheets;
mod svg;
mod whole;

pub use check::{CheckRefusal, Verdict, check};
pub use cut::{CutRefusal, ReadRefusal, Table, cut, read_cut};
pub use mend::{Mend, MendRefusal, PathCase, mend, report_of};
pub use profile::{Passed, ProfileRefusal, Rule, profile};
pub use sheets::{MoveRefusal, Moved, to_f32, to_i16};
pub use svg::ImportRefusal;
pub use whole::{CutTextRefusal, Lent, cut_text};

/// Where in a scene its parts begin, in words, and how many workgroups of 256 tags to take.
#[derive(Clone, Copy, Debug, PartialEq, Eq)]
pub struct Layout {
    pub n_wg: u32,
    pub tag_base: u32,
    pub data_base: u32,
    pub transform_base: u32,
    pub style_base: u32,
}

/// What a path's lines lie within, its draw flags and the index of its transform.
#[derive(Clone, Copy, Debug, PartialEq, Eq)]
#[repr(C)]
pub struct PathBox {
    pub x0: i32,
    pub y0: i32,
    pub x1: i32,
    pub y1: i32,
    pub draw_flags: u32,
    pub trans_ix: u32,
}

impl PathBox {
    /// The box to begin with: every other one widens it.
    pub const EMPTY: PathBox =
        PathBox { x0: i32::MAX, y0: i32::MAX, x1: i32::MIN, y1: i32::MIN, draw_flags: 0, trans_ix: 0 };
}

/// An end of a line, as the line would be stored.
#[derive(Clone, Copy, Debug, PartialEq, Eq)]
pub enum LineEnd {
    Start,
    End,
}

impl LineEnd {
    fn from_word(word: u64) -> Option<LineEnd> {
        match word {
            1 => Some(LineEnd::Start),
            2 => Some(LineEnd::End),
            _ => None,
        }
    }
}

/// Why a call stopped: a number from 1 to 9, with 5 the line's end that is not a number (the start if neither is one),
/// the index of the tag in turn, and how many whole lines are stored.
#[derive(Clone, Copy, Debug, PartialEq, Eq)]
pub struct Refusal {
    pub number: u32,
    pub end: Option<LineEnd>,
    pub tag: u64,
    pub lines: u32,
}

impl std::fmt::Display for Refusal {
    fn fmt(&self, f: &mut std::fmt::Formatter) -> std::fmt::Result {
        let why = match (self.number, self.end) {
            (1, _) => "a base lies past the scene's end",
            (2, _) => "a read falls outside the scene",
            (3, _) => "a tag prefix is missing",
            (4, _) => "a path has no box",
            (5, Some(LineEnd::End)) => "the end of a line is not a number",
            (5, _) => "the start of a line is not a number",
            (6, _) => "no room for the next line",
            (7, _) => "the join is of no kind",
            (8, _) => "the count of a curve's pieces is not a number",
            _ => "a transform has a number that is not finite",
        };
        write!(f, "refused {} at {}: {why}", self.number, self.tag)
    }
}

impl std::error::Error for Refusal {}

/// Fills the prefixes that [`flatten`] needs, four words each, and returns how many. Words behind them stay.
pub fn scan(scene: &[u32], tag_base: u32, prefixes: &mut [u32]) -> Result<usize, Refusal> {
    let (number, count) = ffi::scan(scene, tag_base, prefixes);
    // no more than a quarter of the words lent
    if number == 0 { Ok(count as usize) } else { Err(Refusal { number, end: None, tag: 0, lines: 0 }) }
}

/// Stores the lines of the scene, six words each (path, the tag that drew it, x and y of its two ends), widens the boxes of its paths, and returns how many lines. Words
/// behind the last line stay, also at a refusal.
pub fn flatten(
    layout: Layout,
    scene: &[u32],
    prefixes: &[u32],
    boxes: &mut [PathBox],
    lines: &mut [u32],
) -> Result<u32, Refusal> {
    let (number, [tag, count, end]) = ffi::flatten(layout, scene, prefixes, boxes, lines);
    // the library counts lines in 32 bits
    let count = count as u32;
    if number == 0 { Ok(count) } else { Err(Refusal { number, end: LineEnd::from_word(end), tag, lines: count }) }
}
