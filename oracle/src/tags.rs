//! The tags of a scene.

/// A segment's tag holds the number of the points behind its first one.
pub const LINE: u8 = 1;
pub const QUAD: u8 = 2;
pub const CUBIC: u8 = 3;
pub const SUBPATH_END: u8 = 0x04;
pub const F32: u8 = 0x08;
pub const PATH: u8 = 0x10;
pub const TRANSFORM: u8 = 0x20;
pub const STYLE: u8 = 0x40;

/// How many workgroups take the tags, and the words of these, zeros behind the tags.
pub fn workgroups(tags: &[u8]) -> (u32, Vec<u32>) {
    let mut bytes = tags.to_vec();
    bytes.resize(tags.len().next_multiple_of(256), 0);
    let (words, _) = bytes.as_chunks::<4>();
    ((bytes.len() / 256) as u32, words.iter().map(|word| u32::from_le_bytes(*word)).collect())
}
