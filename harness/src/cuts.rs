//! Cuts, HP-GL out and in, against a writer and a reader by another method: numbers are rounded in f64 and written by Rust's
//! own formatting, command by command; a file is taken apart by its runs of digits. Lists are random ones and those that the
//! library draws for closed fills; files are what was written, whole and damaged in every byte.

use crate::Extent;
use crate::checker;
use crate::random::Random;
use crate::report::{self, Report};
use crate::sweep::{self, Tally};
use hinthevoun::{CutRefusal, ReadRefusal, Table, cut, read_cut};
use std::collections::BTreeMap;
use std::fmt::Write;
use std::hint::black_box;

type Record = [u32; 6];
pub type Written = (Result<usize, CutRefusal>, Vec<u8>);
type Lines = (Result<usize, ReadRefusal>, Vec<i32>);

const TABLES: [Table; 2] = [Table::Old, Table::New];
const MARK: u8 = 0xa5;
const UNTOUCHED: i32 = 0x5a5a_5a5a;

// ---- the references

fn takes(table: Table, value: i64) -> bool {
    match table {
        Table::Old => (-32767..=32767).contains(&value),
        Table::New => value >> 23 == 0 || value >> 23 == -1,
    }
}

/// The nearest whole number, ties to even, if it is one of the table's. Every f32 is an f64, and so is every half.
fn rounded(table: Table, word: u32) -> Option<i64> {
    let nearest = f64::from(f32::from_bits(word)).round_ties_even();
    // a NaN becomes 0, and what is larger than every i64 becomes the last one
    (!nearest.is_nan() && takes(table, nearest as i64)).then_some(nearest as i64)
}

/// The commands that a path's lines ask for, each with its record; `None` for one that the table does not take.
fn commands(list: &[u32], path: u32, table: Table) -> Vec<(usize, Option<String>)> {
    let point = |name: &str, x: u32, y: u32| Some(format!("{name}{},{};", rounded(table, x)?, rounded(table, y)?));
    let (mut asked, mut pen) = (Vec::new(), None);
    for (k, &[of, _, x0, y0, x1, y1]) in list.as_chunks::<6>().0.iter().enumerate() {
        if of == path {
            if pen != Some((x0, y0)) {
                asked.push((k, point("PU", x0, y0)));
            }
            asked.push((k, point("PD", x1, y1)));
            pen = Some((x1, y1));
        }
    }
    asked
}

/// The answer for a table, and the bytes up to the first command that is refused.
pub fn expected_cut(list: &[u32], path: u32, table: Table, room: usize) -> Written {
    let mut file = String::new();
    let mut answer = None;
    if room < 3 {
        answer = Some(CutRefusal::NoRoom { bytes: 0, record: 0 });
    } else {
        file.push_str("IN;");
    }
    for (record, command) in commands(list, path, table) {
        let bytes = file.len();
        match command {
            _ if answer.is_some() => break,
            None => answer = Some(CutRefusal::BadNumber { bytes, record }),
            Some(text) if bytes + text.len() > room => answer = Some(CutRefusal::NoRoom { bytes, record }),
            Some(text) => file.push_str(&text),
        }
    }
    let stands = file.len();
    let mut bytes = file.into_bytes();
    bytes.resize(room, MARK);
    (answer.map_or(Ok(stands), Err), bytes)
}

/// Where a file is left, and why.
#[derive(Clone, Copy, PartialEq)]
pub enum Left {
    Wrong(usize),
    Outside(usize),
    Full(usize),
}

/// The number that begins at a place, and the place behind its digits.
fn number(file: &[u8], table: Table, start: usize) -> Result<(i32, usize), Left> {
    let first = start + usize::from(file.get(start) == Some(&b'-'));
    let digits = file[first..].iter().take_while(|byte| byte.is_ascii_digit()).count();
    match (digits, file.get(first)) {
        (0, _) => return Err(Left::Wrong(first)),
        (_, Some(b'0')) if first > start => return Err(Left::Wrong(first)),
        (1, Some(b'0')) => return Ok((0, first + 1)),
        (_, Some(b'0')) => return Err(Left::Wrong(first + 1)),
        _ => {}
    }
    let text = std::str::from_utf8(&file[start..first + digits]).expect("a sign and digits");
    match text.parse::<i64>() {
        Ok(value) if takes(table, value) => Ok((value as i32, first + digits)),
        _ => Err(Left::Outside(start)),
    }
}

/// The two numbers of a command and the place behind its semicolon.
fn point(file: &[u8], table: Table, start: usize) -> Result<([i32; 2], usize), Left> {
    let mut at = start;
    let mut values = [0; 2];
    for (value, behind) in values.iter_mut().zip([b',', b';']) {
        (*value, at) = number(file, table, at)?;
        if file.get(at) != Some(&behind) {
            return Err(Left::Wrong(at));
        }
        at += 1;
    }
    Ok((values, at))
}

/// The lines, and where the file is left.
pub fn lines_of(file: &[u8], table: Table, room: usize) -> (Vec<[i32; 4]>, Option<Left>) {
    let mut lines = Vec::new();
    let common = file.iter().zip(b"IN;").take_while(|(a, b)| a == b).count();
    if common < 3 {
        return (lines, Some(Left::Wrong(common)));
    }
    let (mut at, mut pen, mut drawn) = (3, None::<[i32; 2]>, true);
    while at < file.len() {
        let allowed: &[u8] = match (pen, drawn) {
            (None, _) => b"U",
            (Some(_), false) => b"D",
            (Some(_), true) => b"UD",
        };
        if file[at] != b'P' {
            return (lines, Some(Left::Wrong(at)));
        }
        let Some(letter) = file.get(at + 1).filter(|letter| allowed.contains(letter)) else {
            return (lines, Some(Left::Wrong(at + 1)));
        };
        let (to, next) = match point(file, table, at + 2) {
            Ok(found) => found,
            Err(left) => return (lines, Some(left)),
        };
        drawn = *letter == b'D';
        if let (true, Some([x, y])) = (drawn, pen) {
            if lines.len() == room {
                return (lines, Some(Left::Full(at)));
            }
            lines.push([x, y, to[0], to[1]]);
        }
        (at, pen) = (next, Some(to));
    }
    let left = (!drawn).then_some(Left::Wrong(at));
    (lines, left)
}

fn expected_lines(file: &[u8], table: Table, numbers: usize) -> Lines {
    let (found, left) = lines_of(file, table, numbers / 4);
    let lines = found.len();
    let mut values = found.concat();
    values.resize(numbers, UNTOUCHED);
    let answer = match left {
        None => Ok(lines),
        Some(Left::Wrong(position)) => Err(ReadRefusal::Malformed { lines, position }),
        Some(Left::Outside(position)) => Err(ReadRefusal::TooFar { lines, position }),
        Some(Left::Full(position)) => Err(ReadRefusal::Full { lines, position }),
    };
    (answer, values)
}

// ---- comparing

fn written(list: &[u32], path: u32, room: usize) -> Written {
    let mut bytes = vec![MARK; room];
    (cut(list, path, &mut bytes), bytes)
}

fn read(file: &[u8], table: Table, numbers: usize) -> Lines {
    let mut values = vec![UNTOUCHED; numbers];
    (read_cut(file, table, &mut values), values)
}

fn compare_cut(tally: &mut Tally, list: &[u32], path: u32, room: usize) {
    let (ours, right) = (written(list, path, room), expected_cut(list, path, Table::New, room));
    tally.count(ours == right, || format!("path {path}, room {room}: {:?}, expected {:?}; {list:x?}", ours.0, right.0));
}

fn compare_read(tally: &mut Tally, file: &[u8], numbers: usize) {
    for table in TABLES {
        let (ours, right) = (read(file, table, numbers), expected_lines(file, table, numbers));
        tally.count(ours == right, || {
            let text = String::from_utf8_lossy(file);
            format!("{table:?}, {numbers} numbers: {:?}, expected {:?}; {text:?}", ours.0, right.0)
        });
    }
}

/// With room for all, exactly and one short of it, and for a part.
fn compare_rooms(tally: &mut Tally, random: &mut Random, list: &[u32], path: u32) -> Vec<u8> {
    let enough = 3 + 7 * list.len();
    compare_cut(tally, list, path, enough);
    let (answer, bytes) = written(list, path, enough);
    let stands = match answer {
        Ok(stands) => stands,
        Err(CutRefusal::BadNumber { bytes, .. } | CutRefusal::NoRoom { bytes, .. }) => bytes,
    };
    for room in [stands, stands.saturating_sub(1), random.below(stands as u64 + 4) as usize, random.below(4) as usize] {
        compare_cut(tally, list, path, room);
    }
    bytes[..stands].to_vec()
}

fn compare_file(tally: &mut Tally, random: &mut Random, file: &[u8]) {
    let lines = lines_of(file, Table::New, usize::MAX).0.len();
    for numbers in
        [4 * lines + 8, 4 * lines, (4 * lines).saturating_sub(1), random.below(4 * lines as u64 + 1) as usize]
    {
        compare_read(tally, file, numbers);
    }
}

pub fn run(report: &mut Report, extent: Extent) {
    report.check(
        "cuts: every number from -32768 to 32768 and those near the new ends, with their halves, both ways",
        numbers,
    );
    report.check("cuts: a coordinate of each word", || every_word(extent));
    report.check("cuts: random lists, and their files back", || random_lists(extent));
    report.check("cuts: files with every byte changed, left out, doubled and put in", || damaged(extent));
    report.check("cuts: random texts of the form's bytes", || random_texts(extent));
    report.check("cuts: closed fills of the library are closed cuts", || closed_fills(extent));
}

/// Each whole number with its neighbours among the floats and the half behind it, as x and as y; and its text as a number
/// of a file, with one digit more too.
fn numbers() -> Tally {
    let mut tally = Tally::default();
    let near = [-8388608, -32768, 8388607].map(|end: i32| end - 700..=end + 700);
    for whole in (-32768..=32768).chain(near.into_iter().flatten()) {
        let half = (whole as f32 + 0.5).to_bits();
        for word in [(whole as f32).to_bits(), half - 1, half, half + 1] {
            compare_cut(&mut tally, &[5, 0, word, 0, 0, word], 5, 48);
        }
        for text in [format!("{whole}"), format!("{whole}0"), format!("0{whole}")] {
            compare_read(&mut tally, format!("IN;PU{text},0;PD0,{text};").as_bytes(), 4);
            compare_read(&mut tally, format!("IN;PU0,{text};PD{text},0;").as_bytes(), 4);
        }
    }
    tally
}

fn every_word(extent: Extent) -> Tally {
    let words = match extent {
        Extent::Whole => sweep::Words::ALL,
        Extent::Part => sweep::Words { first: 0, last: u32::MAX, step: 1999 },
    };
    sweep::words(&[words], |word, tally| {
        let mut bytes = [0; 32];
        let answer = cut(&[0, 0, word, 0, 0, 0], 0, &mut bytes);
        let right = rounded(Table::New, word).map(|value| format!("IN;PU{value},0;PD0,0;"));
        let ours = answer.ok().map(|stands| bytes[..stands].to_vec());
        tally.count(ours == right.map(String::into_bytes), || format!("{word:#010x} gave {answer:?}"));
    })
}

/// A coordinate: mostly near a whole number of the range, now and then at its ends, a zero, a subnormal, huge or none.
fn coordinate(random: &mut Random) -> u32 {
    let near = |whole: f32, random: &mut Random| (whole + random.below(5) as f32 * 0.25 - 0.5).to_bits();
    match random.below(40) {
        0 => random.word(),
        1 => near([32767.0, -32767.0, 8388607.0, -8388608.0][random.below(4) as usize], random),
        2 => 1 + random.below(3) as u32,
        3 => f32::MAX.to_bits(),
        4..8 => 0,
        8..12 => 1 << 31,
        12..24 => near(random.below(3) as f32 - 1.0, random),
        _ => near(random.below(2000) as f32 - 1000.0, random),
    }
}

/// Records whose lines often go on from the last one of the path, on its bits or a rounding away.
fn records(random: &mut Random) -> Vec<Record> {
    let mut pens = [[0; 2]; 2];
    (0..random.below(12))
        .map(|_| {
            let path = random.below(2) as u32;
            let pen = &mut pens[path as usize];
            let mut from = *pen;
            match random.below(6) {
                0 => from = [coordinate(random), coordinate(random)],
                1 => from[0] ^= 1,
                2 => from[1] ^= 1 << 31,
                _ => {}
            }
            *pen = [coordinate(random), coordinate(random)];
            [path, random.word(), from[0], from[1], pen[0], pen[1]]
        })
        .collect()
}

const BLOCK: u64 = 1000;

fn random_lists(extent: Extent) -> Tally {
    sweep::blocks(extent.scaled(150), |block, tally| {
        let mut random = Random::seeded(block);
        for _ in 0..BLOCK {
            let mut list = records(&mut random).concat();
            list.extend((0..random.below(6)).map(|_| random.word()));
            let path = random.below(3) as u32;
            let file = compare_rooms(tally, &mut random, &list, path);
            compare_file(tally, &mut random, &file);
        }
    })
}

/// A file of random chains.
fn file(random: &mut Random) -> Vec<u8> {
    let mut text = "IN;".to_string();
    let mut value = || match random.below(8) {
        0 => 0,
        1 => 32767 - random.below(3) as i64,
        2 => random.below(3) as i64 - 32767,
        3 => [32768, -32768, 8388607, 8388608, -8388608, -8388609][random.below(6) as usize],
        _ => random.below(2000) as i64 - 1000,
    };
    for _ in 0..value().rem_euclid(4) {
        let _ = write!(text, "PU{},{};", value(), value());
        for _ in 0..1 + value().rem_euclid(3) {
            let _ = write!(text, "PD{},{};", value(), value());
        }
    }
    text.into_bytes()
}

/// Each byte of some files replaced by every other, left out and doubled; each of the form's bytes put in before it; the
/// file cut off there.
fn damaged(extent: Extent) -> Tally {
    sweep::blocks(extent.scaled(60), |block, tally| {
        let mut random = Random::seeded(block);
        let whole = file(&mut random);
        compare_file(tally, &mut random, &whole);
        let room = 4 * lines_of(&whole, Table::New, usize::MAX).0.len();
        for at in 0..whole.len() {
            let (before, behind) = whole.split_at(at);
            compare_read(tally, before, room);
            compare_read(tally, &[before, &behind[1..]].concat(), room);
            for byte in b"IN;PUD,-0123456789 \n" {
                compare_read(tally, &[before, &[*byte], behind].concat(), room + 4);
            }
            for byte in 0..=255 {
                let mut file = whole.clone();
                file[at] = byte;
                compare_read(tally, &file, room);
            }
        }
    })
}

/// Texts of the form's bytes and words, which are seldom files, and often for long.
fn random_texts(extent: Extent) -> Tally {
    const PARTS: [&str; 22] = [
        "IN;", "PU", "PD", "P", ",", ";", "-", "0", "1", "32767", "32768", "-32767", "8388607", "8388608", "-8388608",
        "-8388609", "7,8;", "PU1,2;", "PD3,4;", "PD0,-5;", "U", "x",
    ];
    sweep::blocks(extent.scaled(300), |block, tally| {
        let mut random = Random::seeded(block);
        for _ in 0..BLOCK {
            let mut text = if random.below(20) == 0 { String::new() } else { "IN;".to_string() };
            for _ in 0..random.below(14) {
                text.push_str(PARTS[random.below(PARTS.len() as u64) as usize]);
            }
            compare_file(tally, &mut random, text.as_bytes());
        }
    })
}

/// A point in plotter units is a start as often as an end in every cut of closed fills, which is proved.
fn closed_fills(extent: Extent) -> Tally {
    sweep::blocks(extent.scaled(40), |block, tally| {
        let mut random = Random::seeded(block);
        for _ in 0..10 {
            let records = checker::fills(&mut random).unwrap_or_default();
            for path in 0..4 {
                let (answer, file) = written(records.as_flattened(), path, 3 + 42 * records.len());
                let (_, lines) = read(&file[..answer.unwrap_or_default()], Table::New, 4 * records.len());
                let mut over = BTreeMap::new();
                for line in lines.as_chunks::<4>().0.iter().filter(|line| line[0] != UNTOUCHED) {
                    *over.entry([line[0], line[1]]).or_insert(0) += 1;
                    *over.entry([line[2], line[3]]).or_insert(0) -= 1;
                }
                let closed = over.values().all(|&times| times == 0);
                tally.count(answer.is_ok() && closed, || format!("path {path}: {answer:?}, {over:?}"));
            }
        }
    })
}

// ---- time

/// A list of long chains, with coordinates of all sizes, and its file.
fn large() -> (Vec<u32>, Vec<u8>) {
    let mut random = Random::seeded(1);
    let mut value =
        || (random.below(65535) as f32 - 32767.0 + random.below(4) as f32 * 0.25).clamp(-32767.0, 32767.0).to_bits();
    let mut pen = [value(), value()];
    let mut list = Vec::new();
    for k in 0..200_000 {
        let from = if k % 50 == 0 { [value(), value()] } else { pen };
        pen = [value(), value()];
        list.extend([3, k, from[0], from[1], pen[0], pen[1]]);
    }
    let mut bytes = vec![0; 16 * list.len() / 3];
    let stands = cut(&list, 3, &mut bytes).expect("all is in range, and there is room");
    bytes.truncate(stands);
    (list, bytes)
}

/// Megabytes a second of the processor, in the best of some rounds.
fn pace(bytes: usize, mut work: impl FnMut()) -> f64 {
    let mut timed = || {
        let before = report::used();
        work();
        report::used() - before
    };
    let seconds = (0..12).map(|_| timed()).fold(f64::MAX, f64::min);
    bytes as f64 / 1e6 / seconds
}

fn paces() -> [f64; 4] {
    let (list, file) = large();
    let mut bytes = vec![0; file.len()];
    let mut lines = vec![0; 4 * list.len() / 6];
    let mut text = String::with_capacity(file.len());
    [
        pace(file.len(), || assert!(cut(black_box(&list), 3, &mut bytes).is_ok())),
        pace(file.len(), || plain_writer(black_box(&list), 3, &mut text)),
        pace(file.len(), || assert!(read_cut(black_box(&file), Table::New, &mut lines).is_ok())),
        pace(file.len(), || assert!(plain_reader(black_box(&file)).is_some())),
    ]
}

/// What one would write in Rust without a second thought: no room to keep, no refusal.
fn plain_writer(list: &[u32], path: u32, text: &mut String) {
    text.clear();
    text.push_str("IN;");
    let mut pen = None;
    for &[of, _, x0, y0, x1, y1] in list.as_chunks::<6>().0 {
        if of == path {
            let round = |word| f32::from_bits(word).round_ties_even() as i32;
            if pen != Some((x0, y0)) {
                let _ = write!(text, "PU{},{};", round(x0), round(y0));
            }
            let _ = write!(text, "PD{},{};", round(x1), round(y1));
            pen = Some((x1, y1));
        }
    }
}

fn plain_reader(file: &[u8]) -> Option<Vec<[i32; 4]>> {
    let mut lines = Vec::new();
    let mut pen = [0; 2];
    for command in std::str::from_utf8(file).ok()?.strip_prefix("IN;")?.split_terminator(';') {
        let (x, y) = command.get(2..)?.split_once(',')?;
        let to = [x.parse().ok()?, y.parse().ok()?];
        if command.starts_with("PD") {
            lines.push([pen[0], pen[1], to[0], to[1]]);
        }
        pen = to;
    }
    Some(lines)
}

/// Megabytes of HP-GL a second in one call, beside plain Rust. Nothing is asserted.
pub fn bench() {
    let [write, plain_write, read, plain_read] = paces();
    println!("cuts, MB a second      ours     plain Rust");
    println!("written             {write:>7.0}        {plain_write:>7.0}");
    println!("read                {read:>7.0}        {plain_read:>7.0}");
}
