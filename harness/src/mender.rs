//! The mending of a list of lines, against a reference by another method: sorted maps from the points of each path to how much
//! oftener each is a start than an end, and a tolerance that is compared with the difference of two floats and its rounding
//! error, which together are exact. What is lent is longer than needed, just long enough, or one word short, and is marked, so
//! that all that is written is seen.

use crate::Extent;
use crate::checker::{MINUS_ZERO, Record, corners, fills, number, outline, spoil};
use crate::random::Random;
use crate::report::Report;
use crate::sweep::{self, Tally};
use hinthevoun::{Mend, MendRefusal, Verdict, check, mend};
use std::collections::BTreeMap;

const MARK: u32 = 0xa5a5_a5a5;
const TAG: u32 = u32::MAX;

/// What a path is, and the four words of its line.
type Case = (u32, [u32; 4]);
type Point = [u32; 2];

/// Whether two floats differ by at most so many units: s and e are their difference, exactly, by Knuth's sum of two.
fn near(within: u32, a: u32, b: u32) -> bool {
    let (a, b) = (f64::from(f32::from_bits(a)), -f64::from(f32::from_bits(b)));
    let s = a + b;
    let of_b = s - a;
    let e = (a - (s - of_b)) + (b - of_b);
    let (s, e) = if s < 0.0 { (-s, -e) } else { (s, e) };
    let t = f64::from(within);
    s < t || (s == t && e <= 0.0)
}

fn case_of(over: &BTreeMap<Point, i64>, within: u32) -> Case {
    let open: Vec<_> = over.iter().filter(|&(_, &n)| n != 0).collect();
    match open.as_slice() {
        [] => (0, [0; 4]),
        &[(&p, &m), (&q, &n)] if m + n == 0 && m.abs() == 1 => {
            // the end comes first
            let ([x, y], [z, w]) = if m < 0 { (p, q) } else { (q, p) };
            if near(within, x, z) && near(within, y, w) { (1, [x, y, z, w]) } else { (2, [0; 4]) }
        }
        _ => (2, [0; 4]),
    }
}

/// The paths in order of first appearance, and their cases.
fn cases(records: &[Record], within: u32) -> Vec<(u32, Case)> {
    let mut order = Vec::new();
    let mut paths: BTreeMap<u32, BTreeMap<Point, i64>> = BTreeMap::new();
    for &[path, _, x0, y0, x1, y1] in records {
        let over = paths.entry(path).or_insert_with(|| {
            order.push(path);
            BTreeMap::new()
        });
        *over.entry([number(x0), number(y0)]).or_insert(0) += 1;
        *over.entry([number(x1), number(y1)]).or_insert(0) -= 1;
    }
    order.iter().map(|path| (*path, case_of(&paths[path], within))).collect()
}

struct Expected {
    said: Result<Mend, MendRefusal>,
    room: Vec<u32>,
    report: Vec<u32>,
}

/// The words in front of as many marks as there is room for.
fn laid(words: &[u32], room: usize) -> Vec<u32> {
    let mut all = vec![MARK; room];
    all[..words.len()].copy_from_slice(words);
    all
}

fn expected(list: &[u32], within: u32, room: usize, report: usize) -> Expected {
    let refused = |why| Expected { said: Err(why), room: vec![MARK; room], report: vec![MARK; report] };
    let (records, rest) = list.as_chunks::<6>();
    if records.len() > 2000 {
        return refused(MendRefusal::TooMany);
    }
    if !rest.is_empty() {
        return refused(MendRefusal::Leftover);
    }
    let is_bad = |record: &Record| !record[2..].iter().all(|&word| f32::from_bits(word).is_finite());
    if let Some(k) = records.iter().position(is_bad) {
        return refused(MendRefusal::BadNumber(k));
    }
    let (mut lines, mut said) = (Vec::new(), Vec::new());
    for (path, (kind, points)) in cases(records, within) {
        said.extend([path, kind]);
        said.extend(points);
        if kind == 1 {
            lines.extend([path, TAG]);
            lines.extend(points);
        }
    }
    let mended = Mend { paths: said.len() / 6, lines: lines.len() / 6 };
    if lines.len() > room || said.len() > report || records.len() + mended.lines > 2000 {
        return refused(MendRefusal::NoRoom(mended));
    }
    Expected { said: Ok(mended), room: laid(&lines, room), report: laid(&said, report) }
}

fn compare_in(tally: &mut Tally, list: &[u32], within: u32, room: usize, report: usize) -> Option<Vec<u32>> {
    let (mut r, mut s) = (vec![MARK; room], vec![MARK; report]);
    let ours = mend(list, within, &mut r, &mut s);
    let right = expected(list, within, room, report);
    tally.count((ours, &r, &s) == (right.said, &right.room, &right.report), || {
        format!(
            "{} words within {within}, room {room}, report {report}: {ours:?}, expected {:?}; {list:x?}",
            list.len(),
            right.said
        )
    });
    ours.ok().map(|mended| [list, &r[..6 * mended.lines]].concat())
}

/// With room to spare; and just enough, and one word short of the lines and of the report. What comes out is mended: it passes
/// the check where no path is left, and mending it again appends nothing.
fn compare(tally: &mut Tally, list: &[u32], within: u32) {
    let most = list.len() + 7;
    let Some(mended) = compare_in(tally, list, within, most, most) else { return };
    let cases = cases(list.as_chunks::<6>().0, within);
    let (lines, words) = (mended.len() - list.len(), 6 * cases.len());
    compare_in(tally, list, within, lines, words);
    if lines > 0 {
        compare_in(tally, list, within, lines - 1, words);
    }
    if words > 0 {
        compare_in(tally, list, within, lines, words - 1);
    }
    let unmended = cases.iter().any(|&(_, (kind, _))| kind == 2);
    let passes = check(&mended) == Ok(Verdict::Sound);
    tally.count(passes != unmended, || format!("within {within}, passes: {passes}; {list:x?}"));
    let again = compare_in(tally, &mended, within, 0, words);
    tally.count(again.as_ref() == Some(&mended), || format!("mended again within {within}: {again:x?}; {list:x?}"));
}

pub fn run(report: &mut Report, extent: Extent) {
    report.check("mending of lists: worked lists", worked);
    report.check("mending of lists: 1,999 to 2,001 records, words left over", sizes);
    report.check("mending of lists: differences about the tolerance", || differences(extent));
    report.check("mending of lists: random loops, spoilt", || random_lists(extent));
    report.check("mending of lists: closed fills of the library, one line dropped, two, or a point doubled", || {
        own_lists(extent)
    });
}

fn worked() -> Tally {
    let mut tally = Tally::default();
    let (one, two) = (1.0f32.to_bits(), 2.0f32.to_bits());
    let mut says = |records: &[Record], within, right: &[(u32, Case)]| {
        compare(&mut tally, records.as_flattened(), within);
        let ours = cases(records, within);
        tally.count(ours == right, || format!("{records:x?} gave {ours:x?}, not {right:x?}"));
    };
    let (sound, left) = ((0, [0; 4]), (2, [0; 4]));
    says(&[], 0, &[]);
    says(&[[5, 0, 0, 0, one, 0]], 1, &[(5, (1, [one, 0, 0, 0]))]);
    says(&[[5, 0, 0, 0, one, 0]], 0, &[(5, left)]);
    says(&[[5, 0, MINUS_ZERO, 0, one, MINUS_ZERO]], 1, &[(5, (1, [one, 0, 0, 0]))]);
    says(&[[5, 0, 0, 0, 0, MINUS_ZERO]], 0, &[(5, sound)]);
    // two gaps in one path, and one in each of two
    says(&[[5, 0, 0, 0, one, 0], [5, 0, two, 0, two, one]], 9, &[(5, left)]);
    says(&[[8, 0, 0, 0, one, 0], [5, 0, 0, 0, one, 0]], 1, &[(8, (1, [one, 0, 0, 0])), (5, (1, [one, 0, 0, 0]))]);
    // a point that is two over
    says(&[[5, 0, 0, 0, one, 0], [5, 0, 0, 0, one, 0]], 9, &[(5, left)]);
    tally
}

/// Each size about the limit: sound, with a gap at its end, and with words left over.
fn sizes() -> Tally {
    let mut tally = Tally::default();
    for records in [1, 1998, 1999, 2000, 2001] {
        let corners: Vec<_> = (0..records).map(|i| [i, 2 * i]).collect();
        let whole = outline(1, &corners).concat();
        for dropped in [0, 6] {
            let list = &whole[dropped..];
            compare(&mut tally, list, u32::MAX);
            let other = [list, &[2, 0, 0, 0, 1.0f32.to_bits(), 0]].concat();
            compare(&mut tally, &other, 1);
            compare(&mut tally, &other[..other.len() - 1], 1);
            let mut bad = other.clone();
            let place = bad.len() - 1;
            bad[place] = 0x7f80_0000;
            compare(&mut tally, &bad, 1);
        }
    }
    tally
}

/// A tolerance: the ends of their range, and those near which floats are rounded.
fn tolerance(random: &mut Random) -> u32 {
    match random.below(8) {
        0 => 0,
        1 => 1,
        2 => u32::MAX,
        3 => (1 << 24) + random.below(3) as u32 - 1,
        4 => random.below(5) as u32,
        _ => random.word() >> random.below(32),
    }
}

/// A float about so far from another, by few bits more or less; or any.
fn about(random: &mut Random, from: f32, far: f64) -> u32 {
    let to = (f64::from(from) + if random.below(2) == 0 { far } else { -far }) as f32;
    match random.below(8) {
        0 => random.word() & 0x807f_ffff,
        1 => random.word() & 0xff7f_ffff,
        _ => to.to_bits().wrapping_add(random.below(5) as u32).wrapping_sub(2),
    }
}

/// One line, from a float to one that is about the tolerance away: subnormal and huge ones among them.
fn differences(extent: Extent) -> Tally {
    sweep::blocks(extent.scaled(300), |block, tally| {
        let mut random = Random::seeded(block);
        for _ in 0..1000 {
            let within = tolerance(&mut random);
            let mut line = [0; 6];
            for place in [2, 3] {
                line[place] = match random.below(6) {
                    0 => random.word(),
                    1 => random.word() & 0x807f_ffff,
                    2 => 0x7f7f_ffff - random.below(4) as u32,
                    _ => ((random.below(1 << 25) as f32 - (1 << 24) as f32) / f32::exp2(random.below(30) as f32))
                        .to_bits(),
                };
                line[place + 2] = about(&mut random, f32::from_bits(line[place]), f64::from(within));
            }
            compare_in(tally, &line, within, 6, 6);
        }
    })
}

fn random_lists(extent: Extent) -> Tally {
    sweep::blocks(extent.scaled(60), |block, tally| {
        let mut random = Random::seeded(block);
        for _ in 0..1000 {
            let mut records = Vec::new();
            for _ in 0..random.below(5) {
                records.extend(outline(random.below(3) as u32, &corners(&mut random)));
            }
            for _ in 0..random.below(4) {
                compare(tally, records.as_flattened(), tolerance(&mut random));
                spoil(&mut random, &mut records);
            }
            compare(tally, records.as_flattened(), tolerance(&mut random));
        }
    })
}

fn own_lists(extent: Extent) -> Tally {
    sweep::blocks(extent.scaled(20), |block, tally| {
        let mut random = Random::seeded(block);
        for _ in 0..5 {
            let Some(mut records) = fills(&mut random) else {
                tally.count(false, || "a call of closed fills was refused".to_string());
                continue;
            };
            records.truncate(2000);
            for dropped in 0..3 {
                for within in [0, 1, 8, u32::MAX] {
                    compare(tally, records.as_flattened(), within);
                }
                if dropped < 2 && !records.is_empty() {
                    let k = random.below(records.len() as u64) as usize;
                    match random.below(4) {
                        0 => records[k][4] = number(records[k][2]) ^ 1,
                        _ => drop(records.remove(k)),
                    }
                }
            }
        }
    })
}
