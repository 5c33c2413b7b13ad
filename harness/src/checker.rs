//! The check of a list of lines, against a reference by another method: a sorted map from the points of each path to how
//! much oftener each is a start than an end. The lists are random ones, and those that the library itself draws for closed
//! fills, with records dropped, doubled, turned, moved to another path, and with numbers spoilt.

use crate::Extent;
use crate::random::Random;
use crate::report::{self, Report};
use crate::sweep::{self, Tally, Words};
use hinthevoun::{CheckRefusal, Layout, PathBox, Verdict, check, flatten, scan};
use std::collections::BTreeMap;
use std::hint::black_box;

pub type Record = [u32; 6];
type Said = Result<Verdict, CheckRefusal>;

const SOUND: Said = Ok(Verdict::Sound);
const TOO_MANY: Said = Err(CheckRefusal::TooMany);

/// The number with -0 as +0, by its bits.
pub fn number(word: u32) -> u32 {
    (f32::from_bits(word) + 0.0).to_bits()
}

/// The start and the end of a record, in its path.
fn points(&[path, _, x0, y0, x1, y1]: &Record) -> [[u32; 3]; 2] {
    [[path, number(x0), number(y0)], [path, number(x1), number(y1)]]
}

fn expected(list: &[u32]) -> Said {
    let (records, rest) = list.as_chunks::<6>();
    if records.len() > 2000 {
        return TOO_MANY;
    }
    if !rest.is_empty() {
        return Err(CheckRefusal::Leftover);
    }
    let is_bad = |record: &Record| !record[2..].iter().all(|&word| f32::from_bits(word).is_finite());
    if let Some(k) = records.iter().position(is_bad) {
        return Ok(Verdict::BadNumber(k));
    }
    let mut over = BTreeMap::new();
    for [start, end] in records.iter().map(points) {
        *over.entry(start).or_insert(0) += 1;
        *over.entry(end).or_insert(0) -= 1;
    }
    match records.iter().position(|record| points(record).iter().any(|point| over[point] != 0)) {
        Some(k) => Ok(Verdict::Unbalanced(k)),
        None => SOUND,
    }
}

fn compare(tally: &mut Tally, list: &[u32]) {
    let (ours, right) = (check(list), expected(list));
    tally.count(ours == right, || format!("{} words: said {ours:?}, expected {right:?}; {list:x?}", list.len()));
}

pub fn run(report: &mut Report, extent: Extent) {
    report.check("check of lists: worked lists", worked);
    report.check("check of lists: 2,000 and 2,001 records, words left over", sizes);
    report.check("check of lists: a word at each place, with its sign and without", || every_word(extent));
    report.check("check of lists: random loops, spoilt", || random_lists(extent));
    report.check("check of lists: closed fills of the library pass, and spoilt ones", || own_lists(extent));
}

/// A closed outline through these points.
pub fn outline(path: u32, corners: &[[u32; 2]]) -> Vec<Record> {
    (0..corners.len())
        .map(|i| {
            let ([x0, y0], [x1, y1]) = (corners[i], corners[(i + 1) % corners.len()]);
            [path, i as u32, x0, y0, x1, y1]
        })
        .collect()
}

pub const MINUS_ZERO: u32 = 1 << 31;

fn worked() -> Tally {
    let mut tally = Tally::default();
    let mut says = |records: &[Record], right: Said| {
        let list = records.concat();
        let ours = check(&list);
        tally.count(ours == right && expected(&list) == right, || format!("{records:x?} gave {ours:?}, not {right:?}"));
    };
    let (one, unbalanced) = (1.0f32.to_bits(), |k| Ok(Verdict::Unbalanced(k)));
    says(&[], SOUND);
    says(&[[7, 0, one, one, one, one]], SOUND);
    says(&[[0, 0, 0, 0, one, 0], [0, 9, one, 0, 0, 0]], SOUND);
    says(&[[0, 0, 0, MINUS_ZERO, one, 0], [0, 9, one, MINUS_ZERO, MINUS_ZERO, 0]], SOUND);
    says(&[[0, 0, 0, 0, one, 0], [1, 0, one, 0, 0, 0]], unbalanced(0));
    says(&[[3, 0, one, one, one, one], [0, 0, 0, 0, one, 0]], unbalanced(1));
    says(&[[0, 0, 0, 0, one, 0], [5, 0, 0, 0, 0, 0x7f80_0000]], Ok(Verdict::BadNumber(1)));
    says(&[[0, 0x7fc0_0000, 0, 0, one, 0], [0, 0, one, 0, 0, 0]], SOUND);
    // the start of the second is in balance, its end is not
    says(&[[0, 0, 0, 0, 0, 0], [0, 0, 0, 0, one, 0], [0, 0, 2, 0, 0, 0]], unbalanced(1));
    tally
}

/// Each size about the limit, with each number of words left over: sound, and with one fault, first, last or between.
fn sizes() -> Tally {
    let mut tally = Tally::default();
    for records in [0, 1, 2, 5, 6, 1999, 2000, 2001, 2005] {
        let corners: Vec<_> = (0..records).map(|i| [i, 2 * i]).collect();
        let whole = outline(1, &corners).concat();
        for rest in 0..6 {
            let mut list = whole.clone();
            list.extend(std::iter::repeat_n(0x7fc0_0000, rest));
            compare(&mut tally, &list);
            for at in [0, 2, whole.len() / 2, whole.len().saturating_sub(1)] {
                for word in [0, 0x7f80_0000, 0x7f80_0001] {
                    let mut spoilt = list.clone();
                    spoilt.get_mut(at).into_iter().for_each(|place| *place = word);
                    compare(&mut tally, &spoilt);
                }
            }
        }
    }
    tally
}

/// There and back between 0 and a point with this word at one of its places: sound where the word is finite. And the way
/// back from the word with the other sign: sound where it is a zero. The whole has all words that are bad.
fn every_word(extent: Extent) -> Tally {
    let every = |step| Words { first: 0, last: u32::MAX, step };
    let bad = Words::every(0x7f7f_ff00, 0x7fff_ffff);
    let sets = match extent {
        Extent::Whole => vec![every(13), bad, bad.negated()],
        Extent::Part => vec![every(2003)],
    };
    sweep::words(&sets, |word, tally| {
        for [from, to] in [[word, word], [word, word ^ MINUS_ZERO]] {
            for places in [[4, 2], [5, 3]] {
                let mut records = [[0; 6]; 2];
                records[0][places[0]] = from;
                records[1][places[1]] = to;
                compare(tally, records.as_flattened());
            }
        }
    })
}

/// A coordinate of few values, so that points meet; now and then none of them.
fn coordinate(random: &mut Random) -> u32 {
    match random.below(40) {
        0 => random.word(),
        1 => f32::MAX.to_bits(),
        2 => 1 + random.below(3) as u32,
        3..12 => 0,
        12..20 => MINUS_ZERO,
        _ => (random.below(4) as f32 - 2.0).to_bits(),
    }
}

pub fn corners(random: &mut Random) -> Vec<[u32; 2]> {
    (0..1 + random.below(8)).map(|_| [coordinate(random), coordinate(random)]).collect()
}

/// What may have happened to a list on its way.
pub fn spoil(random: &mut Random, records: &mut Vec<Record>) {
    if records.is_empty() {
        return;
    }
    let k = random.below(records.len() as u64) as usize;
    let place = 2 + random.below(4) as usize;
    match random.below(10) {
        0 => drop(records.remove(k)),
        1 => records.push(records[k]),
        2 => records[k][2..].rotate_left(2),
        3 => records[k][place] ^= MINUS_ZERO,
        4 => records[k][0] ^= 1,
        5 => records[k][1] = random.word(),
        6 => records[k][place] = 0x7f80_0001 | random.word(),
        7 => records[k][place] = 0x7f80_0000 | (random.word() & MINUS_ZERO),
        8 => records[k][place] ^= 1 << random.below(32),
        _ => records.swap(0, k),
    }
}

/// The list as it is, and after each of some mishaps; in the end with words left over.
fn spoilt(random: &mut Random, tally: &mut Tally, mut records: Vec<Record>) {
    for _ in 0..random.below(6) {
        spoil(random, &mut records);
        compare(tally, records.as_flattened());
    }
    let mut list = records.concat();
    list.truncate(list.len().saturating_sub(random.below(7) as usize));
    compare(tally, &list);
}

const BLOCK: u64 = 1000;

fn random_lists(extent: Extent) -> Tally {
    sweep::blocks(extent.scaled(250), |block, tally| {
        let mut random = Random::seeded(block);
        for _ in 0..BLOCK {
            let mut records = Vec::new();
            for _ in 0..random.below(5) {
                records.extend(outline(random.below(3) as u32, &corners(&mut random)));
            }
            compare(tally, records.as_flattened());
            spoilt(&mut random, tally, records);
        }
    })
}

/// A scene of closed fills: tags, and f32 points.
#[derive(Default)]
struct Scene {
    tags: Vec<u8>,
    data: Vec<u32>,
}

impl Scene {
    const F32: u8 = 0x08;
    const END: u8 = 0x04;
    const PATH: u8 = 0x10;

    /// A closed outline of lines and curves, in the path that is open.
    fn outline(&mut self, random: &mut Random) {
        let mut point = || [(); 2].map(|()| f32::to_bits(random.below(4096) as f32 / 8.0 - 256.0));
        let start = point();
        self.data.extend(start);
        let segments = 2 + point()[0] as usize % 5;
        for left in (0..segments).rev() {
            let kind = 1 + (point()[1] >> 12) as u8 % 3;
            for _ in 1..kind {
                self.data.extend(point());
            }
            self.data.extend(if left == 0 { start } else { point() });
            self.tags.push(kind | Scene::F32 | if left == 0 { Scene::END } else { 0 });
        }
    }

    /// Its lines, if the call is accepted and they have room.
    fn lines(mut self, paths: usize) -> Option<Vec<Record>> {
        self.tags.resize(self.tags.len().next_multiple_of(256), 0);
        let n_wg = (self.tags.len() / 256) as u32;
        let mut scene: Vec<u32> = self.tags.as_chunks::<4>().0.iter().map(|tags| u32::from_le_bytes(*tags)).collect();
        let data_base = scene.len() as u32;
        let mut prefixes = vec![0; 4 * scene.len()];
        scene.extend(self.data);
        let (transform, one) = (scene.len() as u32, 1.0f32.to_bits());
        scene.extend([one, 0, 0, one, 0, 0, 0, 0]);
        let layout = Layout { n_wg, tag_base: 0, data_base, transform_base: transform, style_base: transform + 6 };
        let (mut boxes, mut lines) = (vec![PathBox::EMPTY; paths], vec![0; 6 * 3000]);
        scan(&scene, 0, &mut prefixes).ok()?;
        let count = flatten(layout, &scene, &prefixes, &mut boxes, &mut lines).ok()?;
        Some(lines.as_chunks::<6>().0[..count as usize].to_vec())
    }
}

/// The lines that the library draws for some closed fills.
pub fn fills(random: &mut Random) -> Option<Vec<Record>> {
    let mut scene = Scene { tags: vec![0x20, 0x40], data: Vec::new() };
    let paths = 1 + random.below(4) as usize;
    for _ in 0..paths {
        for _ in 0..random.below(4) {
            scene.outline(random);
        }
        scene.tags.push(Scene::PATH);
    }
    scene.lines(paths)
}

/// What the library draws for closed fills must pass as it is, which is proved of it.
fn own_lists(extent: Extent) -> Tally {
    sweep::blocks(extent.scaled(200), |block, tally| {
        let mut random = Random::seeded(block);
        for _ in 0..10 {
            let Some(records) = fills(&mut random) else {
                tally.count(false, || "a call of closed fills was refused".to_string());
                continue;
            };
            compare(tally, records.as_flattened());
            let ours = check(records.as_flattened());
            tally.count(ours == if records.len() > 2000 { TOO_MANY } else { SOUND }, || {
                format!("closed fills of {} records gave {ours:?}", records.len())
            });
            spoilt(&mut random, tally, records);
        }
    })
}

/// Lists on which the whole scan is run: all points in balance. One large outline, zeros alone, and many paths.
fn sound_lists(records: u32) -> [Vec<u32>; 3] {
    let corners: Vec<_> = (0..records).map(|i| [f32::to_bits(i as f32), f32::to_bits(-(i as f32))]).collect();
    let zeros = vec![[0, MINUS_ZERO]; records as usize];
    let paths = (0..records / 4).flat_map(|path| outline(path, &corners[..4])).collect::<Vec<_>>();
    [outline(0, &corners).concat(), outline(0, &zeros).concat(), paths.concat()]
}

/// Milliseconds of the processor for a check, in the best of many rounds.
fn fastest(list: &[u32]) -> f64 {
    let timed = || {
        let before = report::used();
        let _ = black_box(check(black_box(list)));
        1e3 * (report::used() - before)
    };
    (0..20).map(|_| timed()).fold(f64::MAX, f64::min)
}

/// Milliseconds for lists of some sizes, by how they are made. Nothing is asserted.
pub fn bench() {
    println!("check of lists, ms     outline   zeros   paths of four");
    for records in [250, 500, 1000, 2000] {
        let [a, b, c] = sound_lists(records).map(|list| fastest(&list));
        println!("{records:>6} records        {a:>7.2} {b:>7.2} {c:>7.2}");
    }
}
