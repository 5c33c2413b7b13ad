//! Cuts: what is written and read back, each refusal with what stands, and that nothing else is touched.

use hinthevoun::{CutRefusal, ReadRefusal, Table, cut, read_cut};

fn record(path: u32, points: [f32; 4]) -> [u32; 6] {
    let [a, b, c, d] = points.map(f32::to_bits);
    [path, 0x7fc0_0000, a, b, c, d]
}

/// A chain of two lines of path 7, a record of another path between them, another chain, and words left over.
fn list() -> Vec<u32> {
    let mut words = [
        record(7, [0.5, 1.5, 2.5, -0.5]),
        record(8, [f32::NAN, f32::INFINITY, 0.0, 0.0]),
        record(7, [2.5, -0.5, -8388607.5, 8388607.5]),
        record(7, [0.0, -0.0, 1e-45, -40.0]),
    ]
    .concat();
    words.extend([7; 5]);
    words
}

const FILE: &[u8] = b"IN;PU0,2;PD2,0;PU0,0;PD0,-40;";

#[test]
fn a_path_is_written_and_read_back() {
    let mut words = list();
    words[16] = 3.0f32.to_bits();
    words[17] = (-4.5f32).to_bits();
    let mut bytes = [b'x'; 64];
    let expected = b"IN;PU0,2;PD2,0;PD3,-4;PU0,0;PD0,-40;";
    assert_eq!(cut(&words, 7, &mut bytes), Ok(expected.len()));
    assert_eq!(&bytes[..expected.len()], expected);
    assert!(bytes[expected.len()..].iter().all(|&byte| byte == b'x'));
    let mut lines = [9; 16];
    assert_eq!(read_cut(expected, Table::Old, &mut lines), Ok(3));
    assert_eq!(lines, [0, 2, 2, 0, 2, 0, 3, -4, 0, 0, 0, -40, 9, 9, 9, 9]);
    assert_eq!(cut(&words, 6, &mut bytes), Ok(3));
    assert_eq!(&bytes[..4], b"IN;P");
}

#[test]
fn thirty_goes_before_thirty_one_and_whole_commands_stand() {
    let words = list();
    let mut bytes = [b'x'; 64];
    // 8388607.5 is a tie, and the even one of its neighbours is out of range; of -8388607.5 it is not
    assert_eq!(cut(&words, 7, &mut bytes), Err(CutRefusal::BadNumber { bytes: 15, record: 2 }));
    assert_eq!(&bytes[..16], b"IN;PU0,2;PD2,0;x");
    assert_eq!(cut(&words, 8, &mut bytes), Err(CutRefusal::BadNumber { bytes: 3, record: 1 }));
    for room in 0..3 {
        assert_eq!(cut(&words, 8, &mut bytes[..room]), Err(CutRefusal::NoRoom { bytes: 0, record: 0 }));
    }
    // a good start and a bad end leave the PU
    let words = record(1, [1.0, 2.0, 8388608.0, 0.0]);
    assert_eq!(cut(&words, 1, &mut bytes), Err(CutRefusal::BadNumber { bytes: 9, record: 0 }));
    assert_eq!(&bytes[..9], b"IN;PU1,2;");
    let refusal = CutRefusal::BadNumber { bytes: 15, record: 2 };
    assert_eq!(
        refusal.to_string(),
        "refused 30 at record 2: a coordinate that is no number or out of range; 15 bytes stand"
    );
}

#[test]
fn room_one_short_leaves_out_the_command() {
    let mut words = list();
    words.drain(12..18);
    let mut bytes = [b'x'; 64];
    assert_eq!(cut(&words, 7, &mut bytes[..FILE.len()]), Ok(FILE.len()));
    for room in 0..FILE.len() {
        let mut bytes = [b'x'; 64];
        let stands = FILE[..room].iter().rposition(|&byte| byte == b';').map_or(0, |at| at + 1);
        let record = if stands < 15 { 0 } else { 2 };
        assert_eq!(cut(&words, 7, &mut bytes[..room]), Err(CutRefusal::NoRoom { bytes: stands, record }));
        assert_eq!(&bytes[..stands], &FILE[..stands]);
        assert!(bytes[stands..].iter().all(|&byte| byte == b'x'));
    }
}

#[test]
fn the_reader_tells_the_first_bad_byte() {
    let mut lines = [0; 8];
    for (file, position) in [
        (&b""[..], 0),
        (b"IN", 2),
        (b"PU1,1;PD2,2;", 0),
        (b"IN;PD1,1;", 4),
        (b"IN;PU1,1;PU2,2;", 10),
        (b"IN;PU1,1;", 9),
        (b"IN;PU-0,1;PD2,2;", 6),
        (b"IN;PU01,1;PD2,2;", 6),
        (b"IN;PU1,1;PD2,2;\n", 15),
    ] {
        let stands = usize::from(file.len() == 16 && position == 15);
        for table in [Table::Old, Table::New] {
            let refusal = ReadRefusal::Malformed { lines: stands, position };
            assert_eq!(read_cut(file, table, &mut lines), Err(refusal), "{file:?}");
        }
    }
}

#[test]
fn each_table_has_its_ends() {
    let words = record(1, [-8388607.5, 8388607.0, -8388608.0, 32768.0]);
    let mut bytes = [0; 64];
    let file = b"IN;PU-8388608,8388607;PD-8388608,32768;";
    assert_eq!(cut(&words, 1, &mut bytes), Ok(file.len()));
    assert_eq!(&bytes[..file.len()], file);
    let mut lines = [9; 4];
    assert_eq!(read_cut(file, Table::Old, &mut lines), Err(ReadRefusal::TooFar { lines: 0, position: 5 }));
    assert_eq!(lines, [9; 4]);
    assert_eq!(read_cut(file, Table::New, &mut lines), Ok(1));
    assert_eq!(lines, [-8388608, 8388607, -8388608, 32768]);
    for (table, file, position) in [
        (Table::Old, &b"IN;PU32768,1;PD2,2;"[..], 5),
        (Table::Old, b"IN;PU1,-99999x", 7),
        (Table::New, b"IN;PU8388608x", 5),
        (Table::New, b"IN;PU0,-8388609", 7),
        (Table::New, b"IN;PU0,99999999999999999999;", 7),
    ] {
        assert_eq!(read_cut(file, table, &mut lines), Err(ReadRefusal::TooFar { lines: 0, position }), "{file:?}");
    }
}

#[test]
fn lines_before_a_refusal_stand() {
    for (file, room, refusal) in [
        (&b"IN;PU1,1;PD2,2;PD3,3;PD4,4;"[..], 8, ReadRefusal::Full { lines: 2, position: 21 }),
        (b"IN;PU1,1;PD2,2;PD3,3;PD4,4;?", 11, ReadRefusal::Full { lines: 2, position: 21 }),
        (b"IN;PU1,1;PD2,2;PD3,3;PD4,4", 8, ReadRefusal::Malformed { lines: 2, position: 26 }),
        (b"IN;PU1,1;PD2,2;PD3,3;PD4,32768;", 12, ReadRefusal::TooFar { lines: 2, position: 25 }),
    ] {
        let mut lines = [9; 12];
        assert_eq!(read_cut(file, Table::Old, &mut lines[..room]), Err(refusal));
        assert_eq!(lines, [1, 1, 2, 2, 2, 2, 3, 3, 9, 9, 9, 9]);
    }
    assert_eq!(
        ReadRefusal::Full { lines: 2, position: 21 }.to_string(),
        "refused 34 at byte 21: no room for the line; 2 lines stand"
    );
}
