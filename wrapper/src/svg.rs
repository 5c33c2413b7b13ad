//! Path data of an SVG: why a text is not read to its end. `Pen::import` in `pattern` reads.

use crate::pattern::{self, Refused};

/// Why path data was left, and at which byte. What the commands before it wrote stands.
#[derive(Clone, Copy, Debug, PartialEq, Eq)]
pub enum ImportRefusal {
    /// 60: the first byte after which no text of the language can go on; the length where the text stops short.
    NotPathData { byte: usize },
    /// 61: the first byte of a number with more than nine digits before or after its point.
    TooManyDigits { byte: usize },
    /// A command was refused: of path data with a sound pen only for want of room. The byte is the one behind what asked for it.
    Command { refused: Refused, byte: usize },
}

impl ImportRefusal {
    pub fn number(self) -> u32 {
        match self {
            ImportRefusal::NotPathData { .. } => 60,
            ImportRefusal::TooManyDigits { .. } => 61,
            ImportRefusal::Command { refused, .. } => refused.number(),
        }
    }

    pub fn byte(self) -> usize {
        match self {
            ImportRefusal::NotPathData { byte }
            | ImportRefusal::TooManyDigits { byte }
            | ImportRefusal::Command { byte, .. } => byte,
        }
    }
}

impl std::fmt::Display for ImportRefusal {
    fn fmt(&self, f: &mut std::fmt::Formatter) -> std::fmt::Result {
        let byte = self.byte();
        match self {
            ImportRefusal::NotPathData { .. } => {
                write!(f, "refused 60 at byte {byte}: no path data of absolute M, L, Q, C and Z goes on so")
            }
            ImportRefusal::TooManyDigits { .. } => {
                write!(f, "refused 61 at byte {byte}: a number with more than nine digits before or after its point")
            }
            ImportRefusal::Command { refused, .. } => write!(f, "{refused}, at byte {byte}"),
        }
    }
}

impl std::error::Error for ImportRefusal {}

pub(crate) fn answered((number, byte): (u32, u64)) -> Result<(), ImportRefusal> {
    // it indexes a lent text
    let byte = byte as usize;
    match number {
        60 => Err(ImportRefusal::NotPathData { byte }),
        61 => Err(ImportRefusal::TooManyDigits { byte }),
        _ => pattern::answered(number).map_err(|refused| ImportRefusal::Command { refused, byte }),
    }
}
