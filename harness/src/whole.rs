//! The whole way in one call, against its parts called one by one with a sheet that is packed here: the answer, the stage, the
//! place and every list whole. The file is the one that the reference in `cuts` writes of the lines, and accepted files are read
//! by that reference's reader too, which shares no code with the port: all numbers are the table's, every point is a start as
//! often as an end, and each chain ends where it began.
//!
//! Patterns are random texts of the language, now and then damaged, under random transforms, in lists of random lengths that
//! are often too short.

use crate::Extent;
use crate::cuts;
use crate::profile::{Sheet, broken_layup};
use crate::random::Random;
use crate::report::{self, Report};
use crate::sweep::{self, Tally};
use hinthevoun::pattern::Pen;
use hinthevoun::{CutRefusal, Layout, Lent, PathBox, Table, cut, cut_text, flatten, profile, scan};
use std::collections::{BTreeMap, BTreeSet};
use std::hint::black_box;

const MARK_BYTE: u8 = 0xa5;
const MARK: u32 = 0xa5a5_a5a5;

/// The refusal's number, stage and place, or the count of bytes.
type Told = Result<usize, (u32, u32, u64)>;

/// What is asked: a text, a transform and a table, and how long each list is.
#[derive(Clone, Debug)]
struct Asked {
    text: Vec<u8>,
    transform: [f32; 6],
    table: Table,
    rooms: Rooms,
}

/// How many bytes or words each list has.
#[derive(Clone, Copy, Debug)]
struct Rooms {
    tags: usize,
    points: usize,
    scene: usize,
    prefixes: usize,
    lines: usize,
    bytes: usize,
}

/// The lists, marked to begin with.
#[derive(PartialEq)]
struct Lists {
    tags: Vec<u8>,
    points: Vec<u32>,
    scene: Vec<u32>,
    prefixes: Vec<u32>,
    lines: Vec<u32>,
    bytes: Vec<u8>,
}

impl Lists {
    fn marked(rooms: Rooms) -> Lists {
        let [points, scene, prefixes, lines] =
            [rooms.points, rooms.scene, rooms.prefixes, rooms.lines].map(|words| vec![MARK; words]);
        Lists { tags: vec![MARK_BYTE; rooms.tags], points, scene, prefixes, lines, bytes: vec![MARK_BYTE; rooms.bytes] }
    }

    fn cut(&mut self, asked: &Asked) -> Told {
        let mut lent = Lent {
            tags: &mut self.tags,
            points: &mut self.points,
            scene: &mut self.scene,
            prefixes: &mut self.prefixes,
            lines: &mut self.lines,
        };
        cut_text(&asked.text, asked.transform, asked.table, &mut lent, &mut self.bytes)
            .map_err(|refusal| (refusal.number(), refusal.stage(), refusal.place()))
    }

    // ---- the parts, one by one

    fn by_parts(&mut self, asked: &Asked) -> Told {
        let mut pen = Pen::new();
        pen.import(&asked.text, &mut self.tags, &mut self.points)
            .map_err(|refusal| (refusal.number(), 1, refusal.byte() as u64))?;
        let (drawn, points) = (&self.tags[..pen.tags() as usize], &self.points[..pen.points() as usize]);
        let (sheet, layout) = packed(drawn, points, asked.transform);
        if sheet.len() > self.scene.len() {
            return Err((80, 2, sheet.len() as u64));
        }
        self.scene[..sheet.len()].copy_from_slice(&sheet);
        self.flattened(layout, asked.table)
    }

    fn flattened(&mut self, layout: Layout, table: Table) -> Told {
        scan(&self.scene, layout.tag_base, &mut self.prefixes).map_err(|refusal| (refusal.number, 3, 0))?;
        profile(layout, &self.scene, &self.prefixes).map_err(|refusal| (refusal.number(), 4, refusal.tag()))?;
        let mut boxes = [PathBox::EMPTY];
        let lines = flatten(layout, &self.scene, &self.prefixes, &mut boxes, &mut self.lines)
            .map_err(|refusal| (refusal.number, 5, refusal.tag))?;
        let list = &self.lines[..6 * lines as usize];
        let (answer, file) = cuts::expected_cut(list, 0, table, self.bytes.len());
        match answer {
            Ok(count) => {
                self.bytes = file;
                Ok(count)
            }
            Err(refusal) => Err((refusal.number(), 6, record_of(refusal))),
        }
    }
}

fn record_of(refusal: CutRefusal) -> u64 {
    let (CutRefusal::BadNumber { record, .. } | CutRefusal::NoRoom { record, .. }) = refusal;
    record as u64
}

/// The words of the sheet of one path, and where its parts begin.
fn packed(drawn: &[u8], points: &[u32], transform: [f32; 6]) -> (Vec<u32>, Layout) {
    let mut tags = [&[0x20, 0x40], drawn, &[0x10]].concat();
    tags.resize(tags.len().next_multiple_of(256), 0);
    let mut words: Vec<u32> = tags.as_chunks::<4>().0.iter().map(|four| u32::from_le_bytes(*four)).collect();
    let (n_wg, data_base) = (tags.len() as u32 / 256, words.len() as u32);
    words.extend(points);
    let transform_base = words.len() as u32;
    words.extend(transform.map(f32::to_bits));
    let style_base = words.len() as u32;
    words.extend([0, 0]);
    (words, Layout { n_wg, tag_base: 0, data_base, transform_base, style_base })
}

// ---- comparing

/// Compares, and tells what was answered. An accepted file is read once more.
fn compare(tally: &mut Tally, asked: &Asked) -> Told {
    let (mut ours, mut right) = (Lists::marked(asked.rooms), Lists::marked(asked.rooms));
    let (told, by_parts) = (ours.cut(asked), right.by_parts(asked));
    let told_of = |asked: &Asked| {
        let text = String::from_utf8_lossy(&asked.text[..asked.text.len().min(300)]).into_owned();
        format!("{text:?} {:?} {:?} {:?}", asked.transform, asked.table, asked.rooms)
    };
    tally.count(told == by_parts && ours == right, || {
        let same = [
            ours.tags == right.tags,
            ours.points == right.points,
            ours.scene == right.scene,
            ours.prefixes == right.prefixes,
            ours.lines == right.lines,
            ours.bytes == right.bytes,
        ];
        format!("{told:?}, by its parts {by_parts:?}, lists the same {same:?}: {}", told_of(asked))
    });
    let untouched = ours.bytes[told.unwrap_or(0)..].iter().all(|byte| *byte == MARK_BYTE);
    tally.count(untouched, || format!("bytes behind the file changed, {told:?}: {}", told_of(asked)));
    if let Ok(count) = told {
        let fault = fault_of(&ours.bytes[..count], asked.table);
        tally.count(fault.is_none(), || format!("{}: {}", fault.unwrap_or_default(), told_of(asked)));
    }
    told
}

/// What is wrong with a file, if anything is.
fn fault_of(file: &[u8], table: Table) -> Option<String> {
    let (lines, left) = cuts::lines_of(file, table, usize::MAX);
    if left.is_some() {
        return Some("the table does not take the file".to_string());
    }
    let mut over = BTreeMap::new();
    for [x0, y0, x1, y1] in lines {
        *over.entry((x0, y0)).or_insert(0i64) += 1;
        *over.entry((x1, y1)).or_insert(0i64) -= 1;
    }
    if let Some((point, times)) = over.iter().find(|(_, times)| **times != 0) {
        return Some(format!("{point:?} is a start {times} times more than an end"));
    }
    let text = String::from_utf8_lossy(file);
    let open = text.split("PU").skip(1).find(|chain| !ends_where_it_began(chain));
    open.map(|chain| format!("a chain is open: PU{chain}"))
}

/// Of a chain without its first two letters: its last point is its first.
fn ends_where_it_began(chain: &str) -> bool {
    let mut points = chain.split_terminator(';');
    let first = points.next();
    first == points.next_back().and_then(|last| last.strip_prefix("PD"))
}

// ---- patterns

/// A coordinate: mostly small with some digits, now and then as large as the language has them.
fn number(random: &mut Random) -> String {
    match random.below(60) {
        0 => format!("{}", random.below(1_000_000_000)),
        1 => format!("-.{}", random.below(1_000_000_000)),
        2..12 => format!("{}", random.below(9) as i64 - 4),
        _ => format!("{:.2}", random.below(20_000) as f64 / 100.0 - 100.0),
    }
}

fn text(random: &mut Random) -> Vec<u8> {
    let mut text = String::new();
    for k in 0..random.below(10) {
        let letter = if k == 0 { 'M' } else { ['M', 'L', 'Q', 'C', 'Z', 'L', 'C'][random.below(7) as usize] };
        let numbers = match letter {
            'Z' => 0,
            'Q' => 4,
            'C' => 6,
            _ => 2,
        };
        text.push(letter);
        for _ in 0..numbers {
            text += &number(random);
            text.push([' ', ',', '\n'][random.below(3) as usize]);
        }
        if text.ends_with(',') {
            text.pop();
        }
    }
    text.into_bytes()
}

/// Bytes next to the language, and of it.
const OTHERS: &[u8] = b"HVSmlz.,-+ e\0\xff0159MZ";

/// A byte changed, left out or put in.
fn damage(random: &mut Random, text: &mut Vec<u8>) {
    let byte = OTHERS[random.below(OTHERS.len() as u64) as usize];
    let at = random.below(text.len() as u64 + 1) as usize;
    match random.below(3) {
        0 => text.insert(at, byte),
        1 if at < text.len() => text[at] = byte,
        _ => drop(text.drain(at.min(text.len())..(at + 1).min(text.len()))),
    }
}

/// Millimetres as plotter units, now and then another scale, small or large; often mirrored.
fn scale(random: &mut Random) -> f32 {
    const OTHERS: [f32; 7] = [1.0, 11.288_889, 0.5, 400.0, 1e-3, 3e4, 1e30];
    let size = if random.below(8) == 0 { OTHERS[random.below(7) as usize] } else { 40.0 };
    if random.below(2) == 0 { size } else { -size }
}

/// A scale for each axis and a place; now and then with shear, or with numbers that are none.
fn transform(random: &mut Random) -> [f32; 6] {
    let mut six = [scale(random), 0.0, -0.0, scale(random), 0.0, 0.0];
    for place in [4, 5] {
        six[place] = random.below(16_000) as f32 / 4.0 - 2000.0;
    }
    if random.below(12) == 0 {
        six[1 + random.below(2) as usize] = [1.0, 1e-30, f32::NAN, -0.0][random.below(4) as usize];
    }
    if random.below(16) == 0 {
        let bad = [f32::NAN, f32::INFINITY, f32::NEG_INFINITY, f32::MAX][random.below(4) as usize];
        six[random.below(6) as usize] = bad;
    }
    six
}

const AMPLE: Rooms = Rooms { tags: 32, points: 160, scene: 256, prefixes: 300, lines: 6 * 2500, bytes: 40_000 };

/// In every other pattern one list is shorter, mostly than what is needed.
fn rooms(random: &mut Random) -> Rooms {
    let mut rooms = AMPLE;
    let mut short = |most: usize| random.below(most as u64 + 1) as usize;
    match short(11) {
        0 => rooms.tags = short(8),
        1 => rooms.points = short(50),
        2 => rooms.scene = short(120),
        3 => rooms.prefixes = short(20),
        4 => rooms.lines = short(900),
        5 => rooms.bytes = short(2000),
        _ => {}
    }
    rooms
}

fn pattern(random: &mut Random) -> Asked {
    let mut text = text(random);
    if random.below(6) == 0 {
        damage(random, &mut text);
    }
    let table = if random.below(2) == 0 { Table::Old } else { Table::New };
    Asked { text, transform: transform(random), table, rooms: rooms(random) }
}

// ---- the checks

const BLOCK: u64 = 2000;
/// What each block sees, by stage and number; and what it may see besides. No sheet of the call meets another.
const SEEN: [(u32, u32); 8] = [(0, 0), (1, 60), (1, 21), (2, 80), (4, 73), (5, 9), (6, 30), (6, 31)];
const MAY_BE_SEEN: [(u32, u32); 6] = [(1, 61), (4, 3), (4, 75), (5, 5), (5, 6), (5, 8)];

pub fn run(report: &mut Report, extent: Extent) {
    report.check("whole: random patterns, as by their parts", || random_patterns(extent));
    report.check("whole: room exactly enough and one short, by each list", exact);
    report.check("whole: the 4,096th and the 4,097th segment, and tags that just fill their workgroups", limits);
    report.check("whole: numbers near the ends of both tables", ends);
    report.check("whole: sheets broken in one way or two, from the scan on", || broken_sheets(extent));
}

fn random_patterns(extent: Extent) -> Tally {
    let patterns = if extent == Extent::Whole { 1_000_000 } else { 20_000 };
    sweep::blocks(patterns / BLOCK, |block, tally| {
        let (mut random, mut seen) = (Random::seeded(30 << 32 | block), BTreeSet::new());
        for _ in 0..BLOCK {
            let told = compare(tally, &pattern(&mut random));
            seen.insert(told.map_or_else(|(number, stage, _)| (stage, number), |_| (0, 0)));
        }
        let all = SEEN.iter().all(|what| seen.remove(what));
        let others = seen.iter().all(|what| MAY_BE_SEEN.contains(what));
        tally.count(all && others, || format!("block {block} saw too little, or besides {seen:?}"));
    })
}

/// Sheets that another hand wrote, from the scan on: each is refused with a number, or what it draws, as one path, is a file of
/// closed chains.
fn broken_sheets(extent: Extent) -> Tally {
    let sheets = if extent == Extent::Whole { 1_000_000 } else { 20_000 };
    sweep::blocks(sheets / BLOCK, |block, tally| {
        let (mut random, mut whole) = (Random::seeded(31 << 32 | block), 0);
        for case in 0..BLOCK {
            match file_of(&broken_layup(&mut random, case % 3)) {
                Ok(file) => {
                    let fault = fault_of(&file, Table::New);
                    tally.count(fault.is_none(), || fault.unwrap_or_default());
                    whole += 1;
                }
                Err(number) => tally.count(number != 0, || "a refusal without a number".to_string()),
            }
        }
        tally.count(whole > 0 && whole < BLOCK, || format!("block {block}: {whole} of {BLOCK} were cut"));
    })
}

/// The file of all that a sheet draws, or the number of its first refusal.
fn file_of(sheet: &Sheet) -> Result<Vec<u8>, u32> {
    let Sheet { layout, scene, prefixes } = sheet;
    profile(*layout, scene, prefixes).map_err(|refusal| refusal.number())?;
    let (mut boxes, mut lines, mut file) = ([PathBox::EMPTY; 32], vec![0; AMPLE.lines], vec![0; AMPLE.bytes]);
    let count = flatten(*layout, scene, prefixes, &mut boxes, &mut lines).map_err(|refusal| refusal.number)?;
    lines.truncate(6 * count as usize);
    lines.iter_mut().step_by(6).for_each(|path| *path = 0);
    let bytes = cut(&lines, 0, &mut file).map_err(|refusal| refusal.number())?;
    file.truncate(bytes);
    Ok(file)
}

/// How much of each list a text needs.
fn needed(asked: &Asked) -> Option<Rooms> {
    let mut lists = Lists::marked(asked.rooms);
    let bytes = lists.cut(asked).ok()?;
    let tags = lists.tags.iter().take_while(|tag| **tag != MARK_BYTE).count();
    let mut pen = Pen::new();
    pen.import(&asked.text, &mut lists.tags, &mut lists.points).ok()?;
    let points = pen.points() as usize;
    let words = (tags + 3).div_ceil(256) * 64;
    // the prefixes of the words that hold a tag which is not zero
    let prefixes = 4 * (tags + 3).div_ceil(4);
    let lines = lists.lines.as_chunks::<6>().0.iter().take_while(|line| line[0] == 0).count();
    Some(Rooms { tags, points, scene: words + points + 8, prefixes, lines: 6 * lines, bytes })
}

/// Accepted patterns with exactly the room that they need, and with one less of each list, which is refused.
fn exact() -> Tally {
    sweep::blocks(20, |block, tally| {
        let mut random = Random::seeded(31 << 32 | block);
        for _ in 0..100 {
            let text = text(&mut random);
            let asked =
                Asked { text, transform: [40.0, 0.0, 0.0, -40.0, 0.0, 8000.0], table: Table::New, rooms: AMPLE };
            if let Some(rooms) = needed(&asked) {
                exactly(tally, &asked, rooms);
            }
        }
    })
}

fn exactly(tally: &mut Tally, asked: &Asked, rooms: Rooms) {
    let told = compare(tally, &Asked { rooms, ..asked.clone() });
    tally.count(told == Ok(rooms.bytes), || format!("{told:?} with exactly {rooms:?}: {asked:?}"));
    let less = [
        (21, Rooms { tags: rooms.tags.wrapping_sub(1), ..rooms }),
        (21, Rooms { points: rooms.points.wrapping_sub(1), ..rooms }),
        (80, Rooms { scene: rooms.scene - 1, ..rooms }),
        (3, Rooms { prefixes: rooms.prefixes - 1, ..rooms }),
        (6, Rooms { lines: rooms.lines.wrapping_sub(1), ..rooms }),
        (31, Rooms { bytes: rooms.bytes - 1, ..rooms }),
    ];
    for (number, rooms) in less {
        let is_there = [rooms.tags, rooms.points, rooms.lines].iter().all(|room| *room != usize::MAX);
        if is_there {
            let told = compare(tally, &Asked { rooms, ..asked.clone() });
            let right = matches!(told, Err((n, _, _)) if n == number);
            tally.count(right, || format!("{told:?}, expected {number} with {rooms:?}: {asked:?}"));
        }
    }
}

/// Outlines of so many lines: closed by their last, or by a line that the reader adds.
fn limits() -> Tally {
    let mut tally = Tally::default();
    let counts = (250..258).chain(506..514).chain(4092..4099);
    for (segments, table) in counts.flat_map(|n| [(n, Table::Old), (n, Table::New)]) {
        let mut text = "M0 0".to_string();
        for k in 1..segments {
            text += &format!("L{} {}", k % 30, k % 7 + 1);
        }
        for end in ["L0 0Z", "Z"] {
            let text = format!("{text}{end}").into_bytes();
            let rooms =
                Rooms { tags: 4200, points: 9000, scene: 12_000, prefixes: 20_000, lines: 30_000, bytes: 90_000 };
            let told = compare(&mut tally, &Asked { text, transform: [1.0, 0.0, 0.0, 1.0, 0.0, 0.0], table, rooms });
            let right = if segments > 4096 { told == Err((75, 4, 4098)) } else { told.is_ok() };
            tally.count(right, || format!("{segments} segments: {told:?}"));
        }
    }
    tally
}

/// Each end of a table with what lies up to two units away, as each coordinate of an outline.
fn ends() -> Tally {
    let mut tally = Tally::default();
    for (end, quarters) in
        [-8388608, -32767, 32767, 8388607].into_iter().flat_map(|end| (-8..=8).map(move |n| (end, n)))
    {
        let number = f64::from(end) + f64::from(quarters) / 4.0;
        for text in [
            format!("M{number} 0L0 1L1 1Z"),
            format!("M0 {number}L0 1L1 1Z"),
            format!("M0 0L{number} 1L1 1Z"),
            format!("M0 0L1 0Q1 {number} 0 {number}Z"),
        ] {
            for table in [Table::Old, Table::New] {
                let (text, transform) = (text.clone().into_bytes(), [1.0, 0.0, 0.0, 1.0, 0.0, 0.0]);
                let told = compare(&mut tally, &Asked { text, transform, table, rooms: AMPLE });
                tally.count(told.is_ok() == taken(table, number), || format!("{number} by {table:?}: {told:?}"));
            }
        }
    }
    tally
}

/// Whether a table takes a number, which becomes an f32 and then the nearest whole one, ties to even.
fn taken(table: Table, number: f64) -> bool {
    let nearest = f64::from(number as f32).round_ties_even();
    match table {
        Table::Old => nearest.abs() <= 32767.0,
        Table::New => (-8388608.0..=8388607.0).contains(&nearest),
    }
}

// ---- time

/// Cubics as large as a table, of which about a million lines are drawn.
fn large() -> Asked {
    let mut random = Random::seeded(1);
    let mut number = || format!("{:.2}", random.below(500_000) as f64 / 100.0 - 2500.0);
    let mut text = format!("M{} {}", number(), number());
    for _ in 0..4095 {
        let numbers: Vec<String> = (0..6).map(|_| number()).collect();
        text += &format!("C{}", numbers.join(" "));
    }
    let rooms =
        Rooms { tags: 4200, points: 30_000, scene: 40_000, prefixes: 20_000, lines: 6 * 2_000_000, bytes: 60_000_000 };
    Asked { text: text.into_bytes(), transform: [40.0, 0.0, 0.0, -40.0, 0.0, 0.0], table: Table::New, rooms }
}

/// Seconds of the processor for the call and for its parts by themselves, on the same lists, the least of some rounds; and how
/// many lines were drawn.
fn times() -> ([f64; 2], usize) {
    let asked = large();
    let mut lists = Lists::marked(asked.rooms);
    let mut least = [f64::MAX; 2];
    let mut lines = 0;
    for _ in 0..5 {
        let start = report::used();
        black_box(lists.cut(black_box(&asked))).expect("it is accepted, and there is room");
        let between = report::used();
        lines = one_by_one(black_box(&asked), &mut lists);
        let end = report::used();
        least = [least[0].min(between - start), least[1].min(end - between)];
    }
    (least, lines)
}

/// The exported parts alone: the sheet stands where the call left it.
fn one_by_one(asked: &Asked, lists: &mut Lists) -> usize {
    let mut pen = Pen::new();
    pen.import(&asked.text, &mut lists.tags, &mut lists.points).expect("path data");
    let words = (pen.tags() as u32 + 3).div_ceil(256) * 64;
    let transform_base = words + pen.points() as u32;
    let layout =
        Layout { n_wg: words / 64, tag_base: 0, data_base: words, transform_base, style_base: transform_base + 6 };
    scan(&lists.scene, 0, &mut lists.prefixes).expect("a base");
    profile(layout, &lists.scene, &lists.prefixes).expect("a lay-up sheet");
    let mut boxes = [PathBox::EMPTY];
    let lines =
        flatten(layout, &lists.scene, &lists.prefixes, &mut boxes, &mut lists.lines).expect("room for all") as usize;
    black_box(cut(&lists.lines[..6 * lines], 0, &mut lists.bytes)).expect("a file");
    lines
}

/// Seconds from path data to HP-GL, in one call and by its parts. Nothing is asserted.
pub fn bench() {
    let ([whole, parts], lines) = times();
    println!("whole way, {lines} lines   one call {whole:.3} s, its parts {parts:.3} s, {:.2} times", whole / parts);
}
