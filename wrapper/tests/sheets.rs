//! Sheets moved to f32 points and back.

use hinthevoun::{MoveRefusal, Moved, to_f32, to_i16};

/// A line, a line that ends its subpath, a path tag, a tag that counts nothing with bit 0x08, none: (1, 2), (-1, -32768), (32767, 0).
const OLD_TAGS: [u8; 5] = [0x21, 0x05, 0x10, 0x18, 0x00];
const OLD_POINTS: [u32; 3] = [0x0002_0001, 0x8000_ffff, 0x0000_7fff];
const NEW_TAGS: [u8; 5] = [0x29, 0x0d, 0x10, 0x18, 0x00];
const NEW_POINTS: [f32; 6] = [1., 2., -1., -32768., 32767., 0.];
const MARK: u32 = 0xa5a5_a5a5;

fn new_words() -> [u32; 6] {
    NEW_POINTS.map(f32::to_bits)
}

#[test]
fn there_and_back() {
    let (mut tags, mut points) = ([0xa5; 6], [MARK; 7]);
    let more = [&OLD_POINTS[..], &[7]].concat();
    assert_eq!(to_f32(&OLD_TAGS, &more, &mut tags, &mut points), Ok(Moved { tags: 5, words: 6 }));
    assert_eq!((&tags[..5], tags[5]), (&NEW_TAGS[..], 0xa5));
    assert_eq!((&points[..6], points[6]), (&new_words()[..], MARK));
    let (mut back, mut words) = ([0; 5], [0; 3]);
    assert_eq!(to_i16(&tags[..5], &points, &mut back, &mut words), Ok(Moved { tags: 5, words: 3 }));
    assert_eq!((back, words), (OLD_TAGS, OLD_POINTS));
}

/// What a refused way says, and that it wrote nothing.
fn refused(way: fn(&mut [u8], &mut [u32]) -> Result<Moved, MoveRefusal>, tags: usize, words: usize) -> MoveRefusal {
    let (mut to_tags, mut to_points) = (vec![0xa5; tags], vec![MARK; words]);
    let refusal = way(&mut to_tags, &mut to_points).expect_err("it is refused");
    assert!(to_tags.iter().all(|tag| *tag == 0xa5) && to_points.iter().all(|word| *word == MARK));
    refusal
}

#[test]
fn refusals_in_their_order() {
    let kind = refused(|t, p| to_f32(&[0x21, 0x29], &[], t, p), 0, 0);
    assert_eq!((kind, kind.number()), (MoveRefusal::WrongKind(1), 40));
    let missing = refused(|t, p| to_f32(&OLD_TAGS, &OLD_POINTS[..2], t, p), 0, 0);
    assert_eq!((missing, missing.number()), (MoveRefusal::Missing(2), 43));
    assert_eq!(refused(|t, p| to_f32(&OLD_TAGS, &OLD_POINTS, t, p), 4, 6), MoveRefusal::NoRoom);
    assert_eq!(refused(|t, p| to_f32(&OLD_TAGS, &OLD_POINTS, t, p), 5, 5), MoveRefusal::NoRoom);
    let whole = refused(|t, p| to_i16(&[0x0d], &[0, 0, 0x8000_0000, 0], t, p), 0, 0);
    assert_eq!((whole, whole.number()), (MoveRefusal::NotWhole(2), 41));
    assert_eq!(refused(|t, p| to_i16(&[0x0d], &[0, 0, 0x8000_0000], t, p), 9, 9), MoveRefusal::Missing(3));
    assert_eq!(refused(|t, p| to_i16(&NEW_TAGS, &new_words(), t, p), 5, 2), MoveRefusal::NoRoom);
}

#[test]
fn no_tags_are_a_sheet() {
    assert_eq!(to_f32(&[], &[], &mut [], &mut []), Ok(Moved { tags: 0, words: 0 }));
    assert_eq!(to_i16(&[], &[1], &mut [], &mut []), Ok(Moved { tags: 0, words: 0 }));
}
