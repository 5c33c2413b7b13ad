//! Drawing fills: moves, lines, quadratics, cubics and ends become tag bytes and f32 point words. Where they go in a
//! scene, and which tags stay with the caller, is in `docs/DRAWING.md`.

use crate::{ImportRefusal, ffi, svg};

/// What is open, and how much is written. It goes with every command, which changes it only if it is accepted.
#[derive(Clone, Copy, Debug, Default, PartialEq, Eq)]
pub struct Pen {
    words: [u64; ffi::PEN_WORDS],
}

/// Why a command was refused. The pen and the buffers are as they were.
#[derive(Clone, Copy, Debug, PartialEq, Eq)]
pub enum Refused {
    /// 20: a line, quadratic or cubic with no move since the start or the last end.
    NoMove,
    /// 21: no room for the tag and the points that the command itself writes.
    NoRoom,
    /// 22: a coordinate is a NaN or an infinity.
    NotFinite,
}

impl Refused {
    pub fn number(self) -> u32 {
        match self {
            Refused::NoMove => 20,
            Refused::NoRoom => 21,
            Refused::NotFinite => 22,
        }
    }
}

impl std::fmt::Display for Refused {
    fn fmt(&self, f: &mut std::fmt::Formatter) -> std::fmt::Result {
        let why = match self {
            Refused::NoMove => "no move stands before this segment",
            Refused::NoRoom => "no room for the tag and the points of this command",
            Refused::NotFinite => "a coordinate is not a finite number",
        };
        write!(f, "refused {}: {why}", self.number())
    }
}

impl std::error::Error for Refused {}

impl Pen {
    /// A pen with which nothing was drawn.
    pub const fn new() -> Pen {
        Pen { words: [0; ffi::PEN_WORDS] }
    }

    /// A pen of any seven words, as `include/hinthevoun.h` has them.
    pub const fn from_words(words: [u64; ffi::PEN_WORDS]) -> Pen {
        Pen { words }
    }

    pub const fn words(&self) -> [u64; ffi::PEN_WORDS] {
        self.words
    }

    /// How many tag bytes are written.
    pub const fn tags(&self) -> u64 {
        self.words[5]
    }

    /// How many point words are written.
    pub const fn points(&self) -> u64 {
        self.words[6]
    }

    /// Begins a subpath; what is open is finished.
    pub fn move_to(&mut self, to: [f32; 2], tags: &mut [u8], points: &mut [u32]) -> Result<(), Refused> {
        answered(ffi::pen_move(&mut self.words, to, tags, points))
    }

    pub fn line_to(&mut self, to: [f32; 2], tags: &mut [u8], points: &mut [u32]) -> Result<(), Refused> {
        answered(ffi::pen_line(&mut self.words, to, tags, points))
    }

    pub fn quad_to(&mut self, by: [f32; 2], to: [f32; 2], tags: &mut [u8], points: &mut [u32]) -> Result<(), Refused> {
        answered(ffi::pen_quad(&mut self.words, [by, to], tags, points))
    }

    pub fn cubic_to(
        &mut self,
        by: [[f32; 2]; 2],
        to: [f32; 2],
        tags: &mut [u8],
        points: &mut [u32],
    ) -> Result<(), Refused> {
        answered(ffi::pen_cubic(&mut self.words, [by[0], by[1], to], tags, points))
    }

    /// Reads the path data of an SVG, absolute M, L, Q, C and Z, and draws it; its end finishes what is open. After a refusal
    /// what the commands before it wrote stands, and the pen tells how far.
    pub fn import(&mut self, text: &[u8], tags: &mut [u8], points: &mut [u32]) -> Result<(), ImportRefusal> {
        svg::answered(ffi::import(&mut self.words, text, tags, points))
    }

    /// Finishes what is open, with a line to its start where it ends elsewhere.
    pub fn end(&mut self, tags: &mut [u8], points: &mut [u32]) -> Result<(), Refused> {
        answered(ffi::pen_end(&mut self.words, tags, points))
    }
}

pub(crate) fn answered(number: u32) -> Result<(), Refused> {
    match number {
        0 => Ok(()),
        20 => Err(Refused::NoMove),
        22 => Err(Refused::NotFinite),
        _ => Err(Refused::NoRoom),
    }
}
