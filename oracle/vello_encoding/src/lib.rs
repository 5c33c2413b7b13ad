//! Stands in for the crate of that name: the words of the scene, in the meanings that the port takes them in. Sums are
//! modulo 2^32.

#![no_std]

pub mod math;

#[derive(Clone, Copy, Default)]
pub struct Layout {
    pub n_draw_objects: u32,
    pub draw_tag_base: u32,
    pub path_tag_base: u32,
    pub path_data_base: u32,
    pub transform_base: u32,
    pub style_base: u32,
}

#[derive(Clone, Copy, Default)]
pub struct ConfigUniform {
    pub layout: Layout,
}

pub trait Monoid {
    type Source;
    fn new(value: Self::Source) -> Self;
    fn combine(&self, other: &Self) -> Self;
}

/// The four running sums, in the order of a prefix's words.
#[derive(Clone, Copy, Default, Debug, PartialEq, Eq)]
#[repr(C)]
pub struct PathMonoid {
    pub path_ix: u32,
    pub trans_ix: u32,
    pub style_ix: u32,
    pub pathseg_offset: u32,
}

impl Monoid for PathMonoid {
    type Source = u32;

    /// What the four tags of a word add.
    fn new(word: u32) -> Self {
        word.to_le_bytes().into_iter().map(of_tag).fold(Self::default(), |sum, tag| sum.combine(&tag))
    }

    fn combine(&self, other: &Self) -> Self {
        Self {
            path_ix: self.path_ix.wrapping_add(other.path_ix),
            trans_ix: self.trans_ix.wrapping_add(other.trans_ix),
            style_ix: self.style_ix.wrapping_add(other.style_ix),
            pathseg_offset: self.pathseg_offset.wrapping_add(other.pathseg_offset),
        }
    }
}

fn of_tag(tag: u8) -> PathMonoid {
    let has = |bit: u8| u32::from(tag & bit != 0);
    let points = u32::from(tag & 3) + has(PathTag::SUBPATH_END_BIT);
    PathMonoid {
        path_ix: has(0x10),
        trans_ix: has(0x20),
        style_ix: 2 * has(0x40),
        pathseg_offset: points * (1 + has(0x08)),
    }
}

pub struct PathTag;

impl PathTag {
    pub const SUBPATH_END_BIT: u8 = 0x04;
}

/// Two words: the flags, and the width of a line.
pub struct Style {
    pub flags_and_miter_limit: u32,
    pub line_width: f32,
}

impl Style {
    pub const FLAGS_STYLE_BIT: u32 = 0x8000_0000;
    pub const FLAGS_FILL_BIT: u32 = 0x4000_0000;
    pub const FLAGS_JOIN_MASK: u32 = 0x3000_0000;
    pub const FLAGS_JOIN_BITS_BEVEL: u32 = 0;
    pub const FLAGS_JOIN_BITS_MITER: u32 = 0x1000_0000;
    pub const FLAGS_JOIN_BITS_ROUND: u32 = 0x2000_0000;
    pub const FLAGS_START_CAP_MASK: u32 = 0x0C00_0000;
    pub const FLAGS_END_CAP_MASK: u32 = 0x0300_0000;
    pub const FLAGS_CAP_BITS_SQUARE: u32 = 0x0100_0000;
    pub const FLAGS_CAP_BITS_ROUND: u32 = 0x0200_0000;
    pub const MITER_LIMIT_MASK: u32 = 0xffff;
}

pub const DRAW_INFO_FLAGS_FILL_RULE_BIT: u32 = 1;

/// Six words.
#[derive(Clone, Copy)]
#[repr(C)]
pub struct LineSoup {
    pub path_ix: u32,
    pub _padding: u32,
    pub p0: [f32; 2],
    pub p1: [f32; 2],
}

#[derive(Clone, Copy, Debug, PartialEq, Eq)]
#[repr(C)]
pub struct PathBbox {
    pub x0: i32,
    pub y0: i32,
    pub x1: i32,
    pub y1: i32,
    pub draw_flags: u32,
    pub trans_ix: u32,
}

#[derive(Default)]
pub struct BumpAllocators {
    pub lines: u32,
}
