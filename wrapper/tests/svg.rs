//! Path data: what is drawn, what is refused and where.

use hinthevoun::ImportRefusal::{self, Command, NotPathData, TooManyDigits};
use hinthevoun::pattern::{Pen, Refused};

/// The answer, and the tags and floats that the pen counts.
fn imported(text: &str, room: (usize, usize)) -> (Result<(), ImportRefusal>, Vec<u8>, Vec<f32>) {
    let (mut pen, mut tags, mut points) = (Pen::new(), vec![0xa5; room.0], vec![0xa5a5a5a5; room.1]);
    let answer = pen.import(text.as_bytes(), &mut tags, &mut points);
    let (drawn, used) = (pen.tags() as usize, pen.points() as usize);
    assert!(tags[drawn..].iter().all(|tag| *tag == 0xa5) && points[used..].iter().all(|word| *word == 0xa5a5a5a5));
    tags.truncate(drawn);
    (answer, tags, points[..used].iter().map(|word| f32::from_bits(*word)).collect())
}

const AMPLE: (usize, usize) = (8, 32);

#[test]
fn a_triangle_is_drawn_and_closed() {
    let wanted = (Ok(()), vec![0x09, 0x09, 0x0d], vec![0.0, 0.0, 3.0, 0.0, 0.0, 6.0, 0.0, 0.0]);
    assert_eq!(imported("M0 0L3 0L0 6Z", AMPLE), wanted);
    assert_eq!(imported(" M 0,0 3,0 0,6", AMPLE), wanted);
}

#[test]
fn numbers_part_where_the_longest_match_ends() {
    let (answer, _, points) = imported("M1.5.5-1+2", AMPLE);
    assert_eq!((answer, points), (Ok(()), vec![1.5, 0.5, -1.0, 2.0, 1.5, 0.5]));
}

#[test]
fn behind_a_z_it_starts_at_the_first_point() {
    let (answer, tags, points) = imported("M1 2L3 4ZQ5 6 1 2", AMPLE);
    assert_eq!((answer, tags), (Ok(()), vec![0x09, 0x0d, 0x0e]));
    assert_eq!(points, [1.0, 2.0, 3.0, 4.0, 1.0, 2.0, 1.0, 2.0, 5.0, 6.0, 1.0, 2.0]);
}

#[test]
fn what_is_no_path_data_is_told_by_its_byte() {
    let places = [("M1 2,", 5), ("M1,,2", 3), ("Z", 0), ("M", 1), ("M0 0L1 2.", 9), ("m1 2", 0), ("M1 2z", 4)];
    for (text, byte) in places {
        let (answer, tags, points) = imported(text, AMPLE);
        assert_eq!((answer, tags.len(), points.len()), (Err(NotPathData { byte }), 0, 0), "{text}");
    }
    assert_eq!(imported("M1 2 -1234567890", AMPLE).0, Err(TooManyDigits { byte: 5 }));
    assert_eq!(imported("M.1234567890", AMPLE).0, Err(TooManyDigits { byte: 1 }));
}

#[test]
fn what_was_drawn_before_a_refusal_stands() {
    let (answer, tags, points) = imported("M0 0L3 0L0 6L1 1?", AMPLE);
    assert_eq!(answer, Err(NotPathData { byte: 16 }));
    assert_eq!((tags, points), (vec![0x09; 3], vec![0.0, 0.0, 3.0, 0.0, 0.0, 6.0, 1.0, 1.0]));
    // the want of room is told before the text behind the command
    let (answer, tags, points) = imported("M0 0L3 0L0 6?", (8, 5));
    let refusal = Command { refused: Refused::NoRoom, byte: 12 };
    assert_eq!((answer, tags, points), (Err(refusal), vec![0x09], vec![0.0, 0.0, 3.0, 0.0]));
    assert_eq!(refusal.to_string(), "refused 21: no room for the tag and the points of this command, at byte 12");
    assert_eq!(imported("M0 0L3 0", (8, 4)).0, Err(Command { refused: Refused::NoRoom, byte: 8 }));
}
