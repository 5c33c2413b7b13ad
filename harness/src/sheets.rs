//! Sheets moved to f32 points and back, against a reference by another method: the sheet is parted into its tags with the
//! points of each, every part is moved by itself, and Rust's own conversions make the numbers. And what both sheets are
//! flattened to, where the request promises the same lines.

use crate::Extent;
use crate::random::Random;
use crate::report::Report;
use crate::sweep::{self, Tally, Words};
use hinthevoun::{Layout, MoveRefusal, PathBox, flatten, scan, to_f32, to_i16};

const F32: u8 = 0x08;
const MARK: u32 = 0xa5a5_a5a5;

type Sheet = (Vec<u8>, Vec<u32>);
type Moved = Result<Sheet, MoveRefusal>;

/// The points that a tag counts.
fn points_of(tag: u8) -> usize {
    [0, 1, 2, 3, 1, 2, 3, 4][usize::from(tag & 7)]
}

/// The first counting tag that has, or has not, the bit.
fn first_of_kind(tags: &[u8], has_bit: bool) -> Option<usize> {
    tags.iter().position(|&tag| points_of(tag) > 0 && (tag & F32 != 0) == has_bit)
}

fn i16s(word: u32) -> [i16; 2] {
    [word as u16 as i16, (word >> 16) as u16 as i16]
}

/// The i16 whose f32 has these bits.
fn i16_with(word: u32) -> Option<i16> {
    let n = f32::from_bits(word) as i16;
    (f32::from(n).to_bits() == word).then_some(n)
}

fn expected_f32(tags: &[u8], points: &[u32], room: [usize; 2]) -> Moved {
    if let Some(at) = first_of_kind(tags, true) {
        return Err(MoveRefusal::WrongKind(at));
    }
    let mut rest = points;
    let mut sheet: Sheet = (Vec::new(), Vec::new());
    for &tag in tags {
        let Some((own, behind)) = rest.split_at_checked(points_of(tag)) else {
            return Err(MoveRefusal::Missing(points.len()));
        };
        rest = behind;
        sheet.0.push(if own.is_empty() { tag } else { tag | F32 });
        sheet.1.extend(own.iter().flat_map(|&word| i16s(word)).map(|n| f32::from(n).to_bits()));
    }
    fitting(sheet, room)
}

fn expected_i16(tags: &[u8], points: &[u32], room: [usize; 2]) -> Moved {
    if let Some(at) = first_of_kind(tags, false) {
        return Err(MoveRefusal::WrongKind(at));
    }
    let counted: usize = tags.iter().map(|&tag| 2 * points_of(tag)).sum();
    let Some(words) = points.get(..counted) else {
        return Err(MoveRefusal::Missing(points.len()));
    };
    if let Some(at) = words.iter().position(|&word| i16_with(word).is_none()) {
        return Err(MoveRefusal::NotWhole(at));
    }
    let half = |word| u32::from(i16_with(word).expect("it was looked at") as u16);
    let (pairs, _) = words.as_chunks::<2>();
    let tags = tags.iter().map(|&tag| if points_of(tag) > 0 { tag & !F32 } else { tag }).collect();
    fitting((tags, pairs.iter().map(|&[x, y]| half(x) | half(y) << 16).collect()), room)
}

fn fitting(sheet: Sheet, [tags, words]: [usize; 2]) -> Moved {
    if sheet.0.len() <= tags && sheet.1.len() <= words { Ok(sheet) } else { Err(MoveRefusal::NoRoom) }
}

type Way = fn(&[u8], &[u32], &mut [u8], &mut [u32]) -> Result<hinthevoun::Moved, MoveRefusal>;

/// What the library writes, and that nothing else of what it was lent has changed.
fn moved(way: Way, (tags, points): (&[u8], &[u32]), room: [usize; 2]) -> (Moved, bool) {
    let (mut to_tags, mut to_points) = (vec![MARK as u8; room[0]], vec![MARK; room[1]]);
    let answer = way(tags, points, &mut to_tags, &mut to_points);
    let (n, m) = answer.map_or((0, 0), |moved| (moved.tags, moved.words));
    let (behind, later) = (to_tags.split_off(n), to_points.split_off(m));
    let kept = behind.iter().all(|&tag| tag == MARK as u8) && later.iter().all(|&word| word == MARK);
    (answer.map(|_| (to_tags, to_points)), kept)
}

fn compare(tally: &mut Tally, tags: &[u8], points: &[u32], room: [usize; 2]) {
    for (way, right) in
        [(to_f32 as Way, expected_f32(tags, points, room)), (to_i16 as Way, expected_i16(tags, points, room))]
    {
        let (ours, kept) = moved(way, (tags, points), room);
        tally.count(kept && ours == right, || {
            format!("{tags:x?} {points:x?} with room {room:?}: {ours:x?}, expected {right:x?}, the rest kept: {kept}")
        });
    }
}

pub fn run(report: &mut Report, extent: Extent) {
    report.check("moved sheets: each tag byte, with room exact and one short", each_tag);
    report.check("moved sheets: i16 points, there and back", || every_pair(extent));
    report.check("moved sheets: coordinates on the way back", || every_coordinate(extent));
    report.check("moved sheets: random tags and points", || random_sheets(extent));
    report.check("moved sheets: the same lines and boxes", || same_lines(extent));
}

/// Alone, behind another one, with its points or one word short.
fn each_tag() -> Tally {
    let mut tally = Tally::default();
    for tag in 0..=255 {
        for tags in [&[tag][..], &[0x01, tag], &[tag, 0x09]] {
            for words in 0..=12 {
                for room in [[tags.len(), 12], [tags.len(), words], [tags.len() - 1, 12], [tags.len(), words + 1]] {
                    compare(&mut tally, tags, &[0x0002_0001, 0, 0x8000_ffff, 5, 0, 0, 0, 1, 2, 3, 4, 5][..words], room);
                    compare(&mut tally, tags, &[0; 12][..words], room);
                }
            }
        }
    }
    tally
}

/// A line to each point, moved there and back; for the whole every word is a point.
fn every_pair(extent: Extent) -> Tally {
    const POINTS: u64 = 1 << 16;
    let step = if extent == Extent::Whole { 1 } else { 61 };
    let tags = vec![0x01; POINTS as usize];
    sweep::blocks((1 << 32) / POINTS / step, |block, tally| {
        let first = (block * step * POINTS) as u32;
        let points: Vec<u32> = (0..POINTS as u32).map(|i| first + i).collect();
        let (there, kept) = moved(to_f32, (&tags, &points), [tags.len(), 2 * points.len()]);
        let (new_tags, new_points) = there.expect("there is room");
        let floats = points.iter().flat_map(|&word| i16s(word)).map(|n| f32::from(n).to_bits());
        let (back, still) = moved(to_i16, (&new_tags, &new_points), [tags.len(), points.len()]);
        let right = kept && still && floats.eq(new_points) && back == Ok((tags.clone(), points));
        tally.count(right, || format!("points from {first:08x} on"));
    })
}

/// Whether a word goes back; for the whole every one.
fn every_coordinate(extent: Extent) -> Tally {
    let step = if extent == Extent::Whole { 1 } else { 997 };
    sweep::words(&[Words { first: 0, last: u32::MAX, step }], |word, tally| {
        let mut points = [0];
        let answer = to_i16(&[0x09], &[word, word], &mut [0], &mut points);
        let right = match i16_with(word) {
            Some(n) => answer.is_ok() && points == [u32::from(n as u16) * 0x10001],
            None => answer == Err(MoveRefusal::NotWhole(0)) && points == [0],
        };
        tally.count(right, || format!("{word:08x}: {answer:?}, {points:x?}"));
    })
}

/// A word that goes back, or one that nearly does, or any.
fn coordinate(random: &mut Random) -> u32 {
    let n = random.word() as i16;
    match random.below(24) {
        0 => random.word(),
        1 => (f32::from(n) + 0.5).to_bits(),
        2 => [0x8000_0000, 0x4700_0000, 0x7fc0_0000, 0xff80_0000, 1][random.below(5) as usize],
        _ => f32::from(n).to_bits(),
    }
}

fn random_sheets(extent: Extent) -> Tally {
    const BLOCK: u64 = 1000;
    sweep::blocks(extent.scaled(100), |block, tally| {
        let mut random = Random::seeded(block);
        for _ in 0..BLOCK {
            let kind = [Some(0), Some(F32), None][random.below(3) as usize];
            let tag = |random: &mut Random| {
                let tag = random.word() as u8;
                kind.map_or(tag, |bit| tag & !F32 | bit)
            };
            let tags: Vec<u8> = (0..random.below(12)).map(|_| tag(&mut random)).collect();
            let most = 2 * tags.iter().map(|&tag| points_of(tag) as u64).sum::<u64>() + 2;
            let words = if random.below(4) > 0 { most } else { random.below(most) };
            let points: Vec<u32> = (0..words).map(|_| coordinate(&mut random)).collect();
            let room = |random: &mut Random, n: usize| {
                if random.below(3) > 0 { n } else { random.below(n as u64 + 1) as usize }
            };
            let room = [room(&mut random, tags.len()), room(&mut random, most as usize)];
            compare(tally, &tags, &points, room);
        }
    })
}

// ---- what is drawn

/// A subpath of i16 points: its segments, and for a stroke the marker behind them.
fn subpath(random: &mut Random, is_stroke: bool, tags: &mut Vec<u8>, points: &mut Vec<u32>) {
    let mut point = || random.word() & 0x01ff_01ff;
    let start = point();
    let mut own = vec![start];
    let mut kinds = Vec::new();
    for i in 0..1 + (point() % 4) {
        let kind = 1 + (point().wrapping_add(i) % 3) as u8;
        kinds.push(kind);
        own.extend((0..kind).map(|_| point()));
    }
    let closes = point() % 2 == 0;
    if closes {
        kinds.push(1);
        own.push(start);
    }
    if is_stroke {
        kinds.push(if closes { 1 } else { 2 });
        let along = own[1];
        own.extend([start, along].into_iter().skip(usize::from(closes)));
    }
    *kinds.last_mut().expect("there is a segment") |= 0x04;
    tags.extend(kinds);
    points.extend(own);
}

struct Call {
    layout: Layout,
    scene: Vec<u32>,
}

impl Call {
    /// Tags, points, transforms and styles, one behind the other.
    fn new((tags, points): &Sheet, transforms: &[u32], styles: &[u32]) -> Self {
        let mut scene: Vec<u32> = tags.as_chunks::<4>().0.iter().map(|four| u32::from_le_bytes(*four)).collect();
        let data_base = scene.len() as u32;
        scene.extend(points);
        let transform_base = scene.len() as u32;
        scene.extend(transforms);
        let style_base = scene.len() as u32;
        scene.extend(styles);
        let n_wg = tags.len() as u32 / 256;
        Call { layout: Layout { n_wg, tag_base: 0, data_base, transform_base, style_base }, scene }
    }

    /// The answer, the lines and the boxes.
    fn drawn(&self, boxes: usize) -> (Result<u32, hinthevoun::Refusal>, Vec<u32>, Vec<PathBox>) {
        const EMPTY: PathBox =
            PathBox { x0: i32::MAX, y0: i32::MAX, x1: i32::MIN, y1: i32::MIN, draw_flags: 0, trans_ix: 0 };
        let mut prefixes = vec![0; 4 * 64 * self.layout.n_wg as usize + 4];
        scan(&self.scene, 0, &mut prefixes).expect("the tags are inside");
        let (mut lines, mut boxes) = (vec![0; 6 * 4000], vec![EMPTY; boxes]);
        let answer = flatten(self.layout, &self.scene, &prefixes, &mut boxes, &mut lines);
        (answer, lines, boxes)
    }
}

/// A sheet of fills and strokes of every join and cap, with tags that count nothing between.
fn random_drawing(random: &mut Random) -> (Sheet, Vec<u32>, Vec<u32>, usize) {
    let (mut tags, mut points, mut transforms, mut styles) = (Vec::new(), Vec::new(), Vec::new(), Vec::new());
    let paths = 1 + random.below(4) as usize;
    for _ in 0..paths {
        tags.extend([0x20, 0x40]);
        let mut number = || (random.below(17) as f32 / 4. - 2.).to_bits();
        transforms.extend([number(), number(), number(), number(), number(), number()]);
        let is_stroke = random.below(2) == 0;
        let flags = if is_stroke { 0x8000_0000 | random.word() & 0x2fff_ffff } else { random.word() & 0x4000_0000 };
        styles.extend([flags, (random.below(64) as f32 / 4.).to_bits()]);
        for _ in 0..1 + random.below(3) {
            subpath(random, is_stroke, &mut tags, &mut points);
        }
        tags.extend([0x10, 0x88, 0x80].iter().take(1 + random.below(3) as usize));
    }
    tags.resize(tags.len().next_multiple_of(256), 0);
    ((tags, points), transforms, styles, paths)
}

fn same_lines(extent: Extent) -> Tally {
    const BLOCK: u64 = 50;
    sweep::blocks(extent.scaled(40), |block, tally| {
        let mut random = Random::seeded(1 << 40 | block);
        for _ in 0..BLOCK {
            let (old, transforms, styles, paths) = random_drawing(&mut random);
            let room = [old.0.len(), 2 * old.1.len()];
            let new = moved(to_f32, (&old.0, &old.1), room).0.expect("it is an old sheet with room");
            let was = Call::new(&old, &transforms, &styles).drawn(paths);
            if was.0.is_ok() {
                let is = Call::new(&new, &transforms, &styles).drawn(paths);
                tally.count(was == is, || format!("{old:x?} {transforms:x?} {styles:x?}: {:?}, {:?}", was.0, is.0));
            }
        }
    })
}
