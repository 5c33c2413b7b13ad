//! The mending of a list: each case of a path, each refusal, and what stands behind what is written.

use hinthevoun::{Mend, MendRefusal, PathCase, Verdict, check, mend, report_of};

const ONE: u32 = 0x3f800000;
const MINUS_ZERO: u32 = 0x80000000;
const MARK: u32 = 0xa5a5a5a5;
const TAG: u32 = 0xffffffff;

/// A square of path 3 that lacks its last side, its corner in zeros of both signs; one whole loop of path 9 between.
const GAP: [u32; 30] = [
    3, 7, 0, MINUS_ZERO, ONE, 0, //
    9, 0, ONE, ONE, 0, 0, //
    3, 7, ONE, 0, ONE, ONE, //
    9, 0, 0, 0, ONE, ONE, //
    3, 7, ONE, ONE, MINUS_ZERO, ONE,
];

fn mended(list: &[u32], within: u32) -> (Result<Mend, MendRefusal>, [u32; 13], [u32; 19]) {
    let (mut room, mut report) = ([MARK; 13], [MARK; 19]);
    (mend(list, within, &mut room, &mut report), room, report)
}

#[test]
fn one_gap_is_closed_and_the_list_then_passes() {
    let (said, room, report) = mended(&GAP, 1);
    assert_eq!(said, Ok(Mend { paths: 2, lines: 1 }));
    assert_eq!(room[..6], [3, TAG, 0, ONE, 0, 0]);
    assert_eq!(room[6..], [MARK; 7]);
    let paths: Vec<_> = report_of(&report[..12]).collect();
    assert_eq!(paths, [(3, PathCase::Mended([0, ONE, 0, 0])), (9, PathCase::Sound)]);
    assert_eq!(report[12..], [MARK; 7]);
    let whole = [&GAP[..], &room[..6]].concat();
    assert_eq!(check(&whole), Ok(Verdict::Sound));
    assert_eq!(mended(&whole, 1).0, Ok(Mend { paths: 2, lines: 0 }));
}

#[test]
fn a_gap_too_wide_and_a_doubly_broken_path_are_left() {
    let not = [(3, PathCase::NotMended), (9, PathCase::Sound)];
    let (said, room, report) = mended(&GAP, 0);
    assert_eq!((said, room), (Ok(Mend { paths: 2, lines: 0 }), [MARK; 13]));
    assert_eq!(report_of(&report[..12]).collect::<Vec<_>>(), not);
    assert_eq!(report[6..12], [9, 0, 0, 0, 0, 0]);
    // without its second side too
    let twice = [&GAP[..12], &GAP[18..]].concat();
    let (_, room, report) = mended(&twice, u32::MAX);
    assert_eq!((room, report_of(&report[..12]).collect::<Vec<_>>()), ([MARK; 13], not.to_vec()));
}

#[test]
fn the_tolerance_is_compared_exactly() {
    // 2^24 and the f32 below it are 1 apart; 2^24 and 0.5 differ by less than 2^24, which an f32 subtraction rounds to it
    let list = |x0: f32, x1: f32| [0, 0, x0.to_bits(), 0, x1.to_bits(), 0];
    for (x0, x1, within, lines) in [
        (16777216.0, 16777215.0, 1, 1),
        (16777216.0, 16777215.0, 0, 0),
        (16777216.0, 0.5, 16777216, 1),
        (16777216.0, -0.5, 16777216, 0),
        (16777216.0, -0.5, 16777217, 1),
        (0.0, f32::from_bits(1), 0, 0),
        (0.0, f32::from_bits(1), 1, 1),
        (f32::MAX, -f32::MAX, u32::MAX, 0),
    ] {
        let said = mended(&list(x0, x1), within).0;
        assert_eq!(said, Ok(Mend { paths: 1, lines }), "{x0} {x1} {within}");
    }
}

#[test]
fn each_refusal_changes_nothing() {
    let bad = vec![u32::MAX; 6 * 2001 + 5];
    let no_room = MendRefusal::NoRoom(Mend { paths: 2, lines: 1 });
    for (list, room, report, why) in [
        (&bad[..], 13, 19, MendRefusal::TooMany),
        (&bad[..6 * 2000 + 5], 13, 19, MendRefusal::Leftover),
        (&bad[..6 * 2000], 13, 19, MendRefusal::BadNumber(0)),
        (&GAP, 5, 19, no_room),
        (&GAP, 13, 11, no_room),
    ] {
        let (mut r, mut s) = (vec![MARK; room], vec![MARK; report]);
        assert_eq!(mend(list, 1, &mut r, &mut s), Err(why));
        assert!(r.iter().chain(&s).all(|&word| word == MARK));
    }
    assert_eq!(mend(&GAP, 1, &mut [0; 6], &mut [0; 12]), Ok(Mend { paths: 2, lines: 1 }));
    // nothing to append needs no room
    assert_eq!(mend(&GAP, 0, &mut [], &mut [0; 12]), Ok(Mend { paths: 2, lines: 0 }));
    let why = no_room.to_string();
    assert_eq!(why, "refused 53: no room for 1 lines or the report of 2 paths, or more than 2,000 records afterwards");
}

#[test]
fn at_most_2000_records_afterwards() {
    let mut list = [5, 0, 0, 0, 0, 0].repeat(1999);
    list.extend([6, 0, 0, 0, ONE, 0]);
    let (mut room, mut report) = ([MARK; 6], [MARK; 12]);
    let full = MendRefusal::NoRoom(Mend { paths: 2, lines: 1 });
    assert_eq!(mend(&list, 1, &mut room, &mut report), Err(full));
    assert_eq!((room, report), ([MARK; 6], [MARK; 12]));
    assert_eq!(mend(&list[6..], 1, &mut room, &mut report), Ok(Mend { paths: 2, lines: 1 }));
}
