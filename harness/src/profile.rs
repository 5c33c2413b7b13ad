//! The profile for lay-up sheets, against a reference by another method: every read is listed, every subpath is cut out of
//! the list of segments, each rule names all tags that break it, and the smallest pair of tag and rule is told.

use crate::Extent;
use crate::random::Random;
use crate::report::Report;
use crate::sweep::{self, Tally};
use hinthevoun::pattern::Pen;
use hinthevoun::{Layout, Passed, ProfileRefusal, profile, scan};

type Told = Result<(u64, u64), (u32, u64)>;

#[derive(Clone)]
pub struct Sheet {
    pub layout: Layout,
    pub scene: Vec<u32>,
    pub prefixes: Vec<u32>,
}

/// Path, transform, style and data words before a tag.
type Sums = [u32; 4];

fn adds(tag: u8) -> Sums {
    let [tag, one] = [u32::from(tag), 1];
    let has = |bit: u32| (tag & bit).min(one);
    [has(0x10), has(0x20), 2 * has(0x40), ((tag & 3) + has(4)) << has(8)]
}

fn sum(a: Sums, b: Sums) -> Sums {
    std::array::from_fn(|i| a[i].wrapping_add(b[i]))
}

struct Tag {
    byte: u8,
    transform: u64,
    style: u32,
    offset: u64,
}

impl Sheet {
    fn word(&self, at: u64) -> Result<u32, u32> {
        self.scene.get(at as usize).copied().ok_or(2)
    }

    fn tag(&self, ix: u64) -> Result<Tag, u32> {
        let bytes = self.word(u64::from(self.layout.tag_base) + ix / 4)?.to_le_bytes();
        let place = (ix % 4) as usize;
        let below = bytes[..place].iter().fold([0; 4], |sums, &byte| sum(sums, adds(byte)));
        let byte = bytes[place];
        let at = 4 * (ix / 4) as usize;
        let before: Sums = match self.prefixes.get(at..at + 4) {
            _ if byte == 0 => below,
            Some(words) => sum(below, words.try_into().expect("four words")),
            None => return Err(3),
        };
        let transform = u64::from(before[1].wrapping_sub(1));
        Ok(Tag { byte, transform, style: before[2].wrapping_sub(2), offset: u64::from(before[3]) })
    }

    fn flags(&self, tag: &Tag) -> Result<u32, u32> {
        self.word(u64::from(self.layout.style_base.wrapping_add(tag.style)))
    }

    fn points(&self, tag: &Tag) -> Result<Vec<u32>, u32> {
        let (count, wide) = (u64::from(tag.byte & 3).max(1) + 1, u64::from(tag.byte >> 3 & 1) + 1);
        let first = u64::from(self.layout.data_base) + tag.offset;
        let words = (first..first + count * wide).map(|at| self.word(at)).collect();
        if tag.offset + (count - 1) * wide >> 32 > 0 { Err(2) } else { words }
    }

    fn transform(&self, tag: &Tag) -> Result<Vec<u32>, u32> {
        let first = u64::from(self.layout.transform_base) + 6 * tag.transform;
        if first >> 32 > 0 { Err(2) } else { (first..first + 6).map(|at| self.word(at)).collect() }
    }

    fn stroke(&self, ix: u64, tag: &Tag) -> Result<(), u32> {
        let width = u64::from(self.layout.style_base) + u64::from(tag.style) + 1;
        if width >> 32 > 0 {
            return Err(2);
        }
        self.word(width)?;
        if tag.byte & 4 == 0 {
            self.points(&self.tag(ix + 1)?)?;
        }
        Ok(())
    }

    /// The tag with its style's flags and, of a segment, its transform and points.
    fn read(&self, ix: u64) -> Result<Seen, u32> {
        let tag = self.tag(ix)?;
        let flags = self.flags(&tag)?;
        let mut seen = Seen { ix, byte: tag.byte, flags, transform: Vec::new(), points: Vec::new() };
        if tag.byte & 3 > 0 {
            seen.transform = self.transform(&tag)?;
            seen.points = self.points(&tag)?;
            if flags >> 31 > 0 {
                self.stroke(ix, &tag)?;
            }
        }
        Ok(seen)
    }
}

struct Seen {
    ix: u64,
    byte: u8,
    flags: u32,
    transform: Vec<u32>,
    points: Vec<u32>,
}

fn expected(sheet: &Sheet) -> Told {
    let layout = &sheet.layout;
    if sheet.scene.len() < layout.tag_base.max(layout.data_base) as usize {
        return Err((1, 0));
    }
    let all: Vec<Seen> = (0..256 * u64::from(layout.n_wg))
        .map(|ix| sheet.read(ix).map_err(|number| (number, ix)))
        .collect::<Result<_, _>>()?;
    let (segments, others): (Vec<&Seen>, Vec<&Seen>) = all.iter().partition(|seen| seen.byte & 3 > 0);
    let mut faults: Vec<(u64, u32)> = Vec::new();
    let styled = || segments.iter().chain(others.iter().filter(|seen| seen.byte & 0x10 > 0));
    faults.extend(styled().filter(|seen| seen.flags & 1 << 31 > 0).map(|seen| (seen.ix, 70)));
    faults.extend(styled().filter(|seen| seen.flags & 1 << 30 > 0).map(|seen| (seen.ix, 71)));
    faults.extend(segments.iter().filter(|seen| seen.byte & 8 == 0).map(|seen| (seen.ix, 72)));
    let is_zero = |word: u32| word << 1 == 0;
    let strays = |seen: &&&Seen| {
        seen.transform != segments[0].transform || !is_zero(seen.transform[1]) || !is_zero(seen.transform[2])
    };
    faults.extend(segments.iter().filter(strays).map(|seen| (seen.ix, 73)));
    faults.extend(others.iter().filter(|seen| seen.byte & 4 > 0).map(|seen| (seen.ix, 74)));
    let subpaths: Vec<&[&Seen]> = segments.split_inclusive(|seen| seen.byte & 4 > 0).collect();
    for subpath in &subpaths {
        let (first, last) = (subpath[0], subpath[subpath.len() - 1]);
        let ends = [&first.points[..2], &last.points[last.points.len() - 2..]];
        let [from, to] = ends.map(|words| [f32::from_bits(words[0]), f32::from_bits(words[1])]);
        if last.byte & 4 == 0 || from != to {
            faults.push((last.ix, 74));
        }
    }
    faults.extend(segments.get(4096).map(|seen| (seen.ix, 75)));
    match faults.iter().min() {
        Some(&(ix, rule)) => Err((rule, ix)),
        None => Ok((segments.len() as u64, subpaths.len() as u64)),
    }
}

fn compare(tally: &mut Tally, sheet: &Sheet) {
    let ours = profile(sheet.layout, &sheet.scene, &sheet.prefixes);
    let told = ours
        .map(|Passed { segments, subpaths }| (segments, subpaths))
        .map_err(|why: ProfileRefusal| (why.number(), why.tag()));
    let right = expected(sheet);
    tally.count(told == right, || {
        format!("{:?} {:x?} {:x?}: {told:?}, expected {right:?}", sheet.layout, sheet.scene, sheet.prefixes)
    });
}

// ---- sheets

fn number(random: &mut Random) -> f32 {
    random.below(65) as f32 / 4. - 8.
}

/// What commands draw: closed outlines of lines, quads and cubics.
fn drawn(random: &mut Random, outlines: u64, segments: u64) -> (Vec<u8>, Vec<u32>) {
    let (mut tags, mut points, mut pen) = (vec![0; 8192], vec![0; 65536], Pen::default());
    for _ in 0..outlines {
        let mut xy = || [number(random), number(random)];
        pen.move_to(xy(), &mut tags, &mut points).expect("there is room");
        for _ in 0..segments {
            match (4. * xy()[0]) as i32 % 3 {
                0 => pen.line_to(xy(), &mut tags, &mut points),
                1 => pen.quad_to(xy(), xy(), &mut tags, &mut points),
                _ => pen.cubic_to([xy(), xy()], xy(), &mut tags, &mut points),
            }
            .expect("there is room");
        }
    }
    pen.end(&mut tags, &mut points).expect("there is room");
    tags.truncate(pen.tags() as usize);
    points.truncate(pen.points() as usize);
    (tags, points)
}

/// A sheet of these tags and points, with two transforms and two styles, all of them harmless.
fn sheet_of(tags: &[u8], points: &[u32]) -> Sheet {
    let mut all = tags.to_vec();
    all.resize(tags.len().next_multiple_of(256).max(256), 0);
    let mut scene: Vec<u32> = all.as_chunks::<4>().0.iter().map(|four| u32::from_le_bytes(*four)).collect();
    let data_base = scene.len() as u32;
    scene.extend(points);
    let transform_base = scene.len() as u32;
    let one = 1f32.to_bits();
    scene.extend([one, 0, 0x8000_0000, one, 0, 0, one, 0, 0x8000_0000, one, 0, 0]);
    let style_base = scene.len() as u32;
    scene.extend([0; 4]);
    let n_wg = all.len() as u32 / 256;
    let layout = Layout { n_wg, tag_base: 0, data_base, transform_base, style_base };
    let mut sheet = Sheet { layout, scene, prefixes: vec![0; 4 * 64 * n_wg as usize + 4] };
    sheet.scanned();
    sheet
}

impl Sheet {
    fn scanned(&mut self) {
        let _ = scan(&self.scene, self.layout.tag_base, &mut self.prefixes);
    }

    fn set_tag(&mut self, at: usize, change: impl Fn(u8) -> u8) {
        let mut bytes = self.scene[at / 4].to_le_bytes();
        bytes[at % 4] = change(bytes[at % 4]);
        self.scene[at / 4] = u32::from_le_bytes(bytes);
    }
}

/// A lay-up sheet: a transform, a style, outlines, a path.
fn layup(random: &mut Random) -> Sheet {
    let (outlines, segments) = (random.below(4), 1 + random.below(6));
    let (mut tags, points) = drawn(random, outlines, segments);
    tags.splice(0..0, [0x20, 0x40]);
    tags.push(0x10);
    sheet_of(&tags, &points)
}

/// Breaks a sheet in one way, somewhere.
fn broken(random: &mut Random, sheet: &mut Sheet) {
    let tags = sheet.layout.data_base as usize * 4;
    let used = tags.min(40) as u64;
    let at = random.below(used) as usize;
    let Layout { data_base, transform_base, style_base, .. } = sheet.layout;
    let place = |base: u32, n: u64, random: &mut Random| base as usize + random.below(n) as usize;
    match random.below(12) {
        0 => sheet.scene[style_base as usize] ^= 0x8000_0000,
        1 => sheet.scene[style_base as usize] ^= 0x4000_0000,
        2 => sheet.set_tag(at, |tag| tag ^ 0x08),
        3 => {
            let word = [1, 0x8000_0000, 0x7fc0_0000, random.word()][random.below(4) as usize];
            let place = place(transform_base, 12, random);
            sheet.scene[place] = word;
        }
        4 => sheet.set_tag(at, |tag| tag ^ 0x04),
        5 => sheet.set_tag(at, |tag| tag ^ 0x20),
        6 => sheet.set_tag(at, |tag| tag ^ 0x40),
        7 if transform_base > data_base => {
            let place = place(data_base, u64::from(transform_base - data_base), random);
            sheet.scene[place] = [0, 0x8000_0000, 0x7fc0_0000, random.word()][random.below(4) as usize];
        }
        8 => sheet.set_tag(at, |tag| tag ^ 0x10),
        9 => {
            let byte = random.word() as u8;
            sheet.set_tag(at, |_| byte);
        }
        10 => sheet.set_tag(at, |tag| tag ^ (1 + at as u8 % 3)),
        _ => sheet.scene[style_base as usize + 2] ^= 0xc000_0000,
    }
}

/// A lay-up sheet, broken in so many ways and scanned afresh.
pub fn broken_layup(random: &mut Random, ways: u64) -> Sheet {
    let mut sheet = layup(random);
    for _ in 0..ways {
        broken(random, &mut sheet);
        sheet.scanned();
    }
    sheet
}

/// What the lent lists are damaged in: prefixes, bases, an end that is missing.
fn damaged(random: &mut Random, sheet: &mut Sheet) {
    match random.below(6) {
        0 if !sheet.prefixes.is_empty() => {
            let at = random.below(sheet.prefixes.len() as u64) as usize;
            sheet.prefixes[at] = if random.below(2) == 0 { random.word() } else { random.below(12) as u32 };
        }
        1 => sheet.prefixes.truncate(random.below(1 + sheet.prefixes.len() as u64) as usize),
        2 => sheet.scene.truncate(random.below(1 + sheet.scene.len() as u64) as usize),
        3 => sheet.layout.style_base = [random.word(), 0, 1, u32::MAX][random.below(4) as usize],
        4 => {
            sheet.layout.transform_base = [random.word(), sheet.scene.len() as u32, u32::MAX][random.below(3) as usize]
        }
        _ => sheet.layout.data_base = [random.word(), sheet.scene.len() as u32 + 1][random.below(2) as usize],
    }
}

pub fn run(report: &mut Report, extent: Extent) {
    report.check("profile: sheets of commands, whole and broken in one way or two", || broken_sheets(extent));
    report.check("profile: random tags, with lent lists damaged", || random_tags(extent));
    report.check("profile: the 4,096th and the 4,097th segment, and workgroups that cut a subpath", limits);
}

const BLOCK: u64 = 500;

/// A hundred thousand sheets, or five million.
fn many(extent: Extent) -> u64 {
    if extent == Extent::Whole { 10_000 } else { 200 }
}

fn broken_sheets(extent: Extent) -> Tally {
    sweep::blocks(many(extent), |block, tally| {
        let mut random = Random::seeded(2 << 40 | block);
        for case in 0..BLOCK {
            compare(tally, &broken_layup(&mut random, case % 3));
        }
    })
}

fn random_tags(extent: Extent) -> Tally {
    sweep::blocks(many(extent), |block, tally| {
        let mut random = Random::seeded(3 << 40 | block);
        for case in 0..BLOCK {
            let kept = [0xff, 0x6f, 0x2f, 0x0f][random.below(4) as usize];
            let tags: Vec<u8> = (0..random.below(24)).map(|_| random.word() as u8 & kept).collect();
            let points: Vec<u32> = (0..random.below(120)).map(|_| random.below(3) as u32).collect();
            let mut sheet = sheet_of(&tags, &points);
            for _ in 0..case % 3 {
                damaged(&mut random, &mut sheet);
            }
            compare(tally, &sheet);
        }
    })
}

/// Outlines of so many lines, and calls of fewer workgroups than their tags fill.
fn limits() -> Tally {
    let mut tally = Tally::default();
    for segments in [253, 254, 255, 4095, 4096, 4097, 4098] {
        for parts in [1, 2] {
            let mut tags = vec![0x20, 0x40];
            let mut points = Vec::new();
            for part in 0..parts {
                let own = segments / parts + segments % parts * part;
                tags.extend((0..own).map(|i| if i + 1 == own { 0x0d } else { 0x09 }));
                points.extend((0..=own).flat_map(|i| [if i == own { 0 } else { i as u32 }, 0]));
            }
            tags.push(0x10);
            let mut sheet = sheet_of(&tags, &points);
            let all = sheet.layout.n_wg;
            for n_wg in 0..=all {
                sheet.layout.n_wg = n_wg;
                compare(&mut tally, &sheet);
            }
            for at in [2, 255, 256, 4097, 4098, 4099] {
                if at < tags.len() {
                    let mut other = sheet.clone();
                    other.set_tag(at, |tag| tag ^ 0x04);
                    other.scanned();
                    compare(&mut tally, &other);
                }
            }
        }
    }
    tally
}
