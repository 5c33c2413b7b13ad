//! The whole way: a file, and each part's refusal, with what stands.

use hinthevoun::CutTextRefusal::{Flatten, NoRoom, Profile, Sheet, Text, TooFar};
use hinthevoun::pattern::Refused;
use hinthevoun::{CutTextRefusal, ImportRefusal, Lent, ProfileRefusal, Rule, Table, cut_text};

const TRIANGLE: &str = "M0 0L3 0L0 6Z";
const FILE: &[u8] = b"IN;PU0,0;PD3,0;PD0,6;PD0,0;";
const IDENTITY: [f32; 6] = [1.0, 0.0, 0.0, 1.0, 0.0, 0.0];

/// How long each list is.
#[derive(Clone, Copy)]
struct Rooms {
    tags: usize,
    points: usize,
    scene: usize,
    prefixes: usize,
    lines: usize,
    bytes: usize,
}

const AMPLE: Rooms = Rooms { tags: 8, points: 40, scene: 200, prefixes: 256, lines: 60, bytes: 80 };
const EXACT: Rooms = Rooms { tags: 3, points: 8, scene: 80, prefixes: 8, lines: 18, bytes: FILE.len() };

/// The file, or the refusal, at which no byte has changed.
fn made(text: &str, transform: [f32; 6], table: Table, rooms: Rooms) -> Result<Vec<u8>, CutTextRefusal> {
    let mut tags = vec![0xa5; rooms.tags];
    let [mut points, mut scene, mut prefixes, mut lines] =
        [rooms.points, rooms.scene, rooms.prefixes, rooms.lines].map(|words| vec![0xa5a5_a5a5; words]);
    let mut bytes = vec![0xa5; rooms.bytes];
    let mut lent =
        Lent { tags: &mut tags, points: &mut points, scene: &mut scene, prefixes: &mut prefixes, lines: &mut lines };
    let answer = cut_text(text.as_bytes(), transform, table, &mut lent, &mut bytes);
    assert!(bytes[answer.unwrap_or(0)..].iter().all(|byte| *byte == 0xa5));
    answer.map(|length| bytes[..length].to_vec())
}

fn refused(text: &str, rooms: Rooms) -> CutTextRefusal {
    made(text, IDENTITY, Table::New, rooms).unwrap_err()
}

#[test]
fn a_triangle_is_cut() {
    for rooms in [AMPLE, EXACT] {
        assert_eq!(made(TRIANGLE, IDENTITY, Table::Old, rooms), Ok(FILE.to_vec()));
    }
    let turned = made(TRIANGLE, [2.0, 0.0, -0.0, -2.0, 10.0, 20.0], Table::New, AMPLE);
    assert_eq!(turned, Ok(b"IN;PU10,20;PD16,20;PD10,8;PD10,20;".to_vec()));
    assert_eq!(made("", IDENTITY, Table::New, Rooms { tags: 0, points: 0, lines: 0, ..AMPLE }), Ok(b"IN;".to_vec()));
}

#[test]
fn what_stands_behind_the_sheet_stays() {
    let (mut tags, mut points, mut scene) = ([0xa5; 8], [7; 40], [7; 200]);
    let (mut prefixes, mut lines, mut bytes) = ([7; 256], [7; 60], [0xa5; 80]);
    let mut lent =
        Lent { tags: &mut tags, points: &mut points, scene: &mut scene, prefixes: &mut prefixes, lines: &mut lines };
    assert_eq!(cut_text(TRIANGLE.as_bytes(), IDENTITY, Table::New, &mut lent, &mut bytes), Ok(FILE.len()));
    assert_eq!(tags, [0x09, 0x09, 0x0d, 0xa5, 0xa5, 0xa5, 0xa5, 0xa5]);
    assert_eq!((scene[0], scene[1], scene[80], points[8], lines[18]), (0x0909_4020, 0x0000_100d, 7, 7, 7));
    assert_eq!((&scene[64..72], &scene[78..80]), (&points[..8], &[0, 0][..]));
    assert_eq!((lines[0], lines[1], lines[7], lines[13]), (0, 2, 3, 4));
}

#[test]
fn each_part_refuses() {
    let byte = |byte| Text(ImportRefusal::NotPathData { byte });
    assert_eq!(refused("M0 0h3", AMPLE), byte(4));
    let full = Text(ImportRefusal::Command { refused: Refused::NoRoom, byte: 12 });
    assert_eq!(refused(TRIANGLE, Rooms { tags: 2, ..EXACT }), full);
    assert_eq!(refused(TRIANGLE, Rooms { scene: 79, ..EXACT }), Sheet { words: 80 });
    let unread = Profile(ProfileRefusal::Unread { number: 3, tag: 4 });
    assert_eq!(refused(TRIANGLE, Rooms { prefixes: 7, ..EXACT }), unread);
    assert_eq!(refused(TRIANGLE, Rooms { lines: 17, ..EXACT }), Flatten { number: 6, tag: 4 });
    assert_eq!(refused("M0 0L1 1L8388608 0Z", AMPLE), TooFar { record: 1 });
    assert_eq!(refused(TRIANGLE, Rooms { bytes: FILE.len() - 1, ..EXACT }), NoRoom { record: 2 });
    let sheared = made(TRIANGLE, [1.0, 0.0, f32::NAN, 1.0, 0.0, 0.0], Table::New, AMPLE);
    assert_eq!(sheared, Err(Profile(ProfileRefusal::Against { rule: Rule::Transform, tag: 2 })));
    let endless = made(TRIANGLE, [1.0, 0.0, 0.0, f32::INFINITY, 0.0, 0.0], Table::New, AMPLE);
    assert_eq!(endless, Err(Flatten { number: 9, tag: 2 }));
    let old = made("M0 0L32768 0Z", IDENTITY, Table::Old, AMPLE);
    assert_eq!(old, Err(TooFar { record: 0 }));
    assert_eq!(made("M0 0L32768 0Z", IDENTITY, Table::New, AMPLE).unwrap(), b"IN;PU0,0;PD32768,0;PD0,0;");
}

#[test]
fn numbers_stages_and_places_are_told() {
    let all = [
        (refused("M0 0h3", AMPLE), (60, 1, 4)),
        (refused(TRIANGLE, Rooms { scene: 9, ..EXACT }), (80, 2, 80)),
        (refused(TRIANGLE, Rooms { prefixes: 0, ..EXACT }), (3, 4, 0)),
        (refused(TRIANGLE, Rooms { lines: 0, ..EXACT }), (6, 5, 2)),
        (refused(TRIANGLE, Rooms { bytes: 0, ..EXACT }), (31, 6, 0)),
    ];
    for (refusal, told) in all {
        assert_eq!((refusal.number(), refusal.stage(), refusal.place()), told);
        assert!(refusal.to_string().starts_with(&format!("refused {}", told.0)), "{refusal}");
    }
}
