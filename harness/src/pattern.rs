//! What commands have to write, worked out anew from the whole list of accepted commands after each one, and the library
//! held to it; then what was written, decoded and flattened.
//!
//! The library goes on with a pen and never looks back. This reference has no pen: it parts the commands into subpaths,
//! closes them, encodes all of them from nothing and compares both buffers whole. Numbers are told by their bits.

use crate::Extent;
use crate::random::Random;
use crate::report::Report;
use crate::sweep::{self, Tally};
use std::collections::HashMap;

const MARK_TAG: u8 = 0xa5;
const MARK: u32 = 0xa5a5_a5a5;
/// The pen's words: what is open, two points, how many tags and point words.
const PEN: usize = 7;
const SEQUENCES: u64 = 25_000;
const BLOCK: u64 = 100;
/// More than any sequence here can fill.
const AMPLE: (usize, usize) = (64, 256);

unsafe extern "C" {
    fn hinth_move(pen: *mut u64, n: usize, x: f32, y: f32, t: *mut u8, tn: usize, p: *mut u32, pn: usize) -> u32;
    fn hinth_line(pen: *mut u64, n: usize, x: f32, y: f32, t: *mut u8, tn: usize, p: *mut u32, pn: usize) -> u32;
    #[rustfmt::skip]
    fn hinth_quad(
        pen: *mut u64,
        n: usize,
        x1: f32,
        y1: f32,
        x: f32,
        y: f32,
        t: *mut u8,
        tn: usize,
        p: *mut u32,
        pn: usize,
    ) -> u32;
    #[rustfmt::skip]
    fn hinth_cubic(
        pen: *mut u64,
        n: usize,
        x1: f32,
        y1: f32,
        x2: f32,
        y2: f32,
        x: f32,
        y: f32,
        t: *mut u8,
        tn: usize,
        p: *mut u32,
        pn: usize,
    ) -> u32;
    fn hinth_end(pen: *mut u64, n: usize, t: *mut u8, tn: usize, p: *mut u32, pn: usize) -> u32;
    #[rustfmt::skip]
    fn hinth_scan(
        scene: *const u32,
        n: usize,
        base: u32,
        prefixes: *mut u32,
        pn: usize,
        out: *mut u64,
        on: usize,
    ) -> u32;
    #[rustfmt::skip]
    fn hinth_flatten(
        n_wg: u32,
        tag_base: u32,
        data_base: u32,
        transform_base: u32,
        style_base: u32,
        scene: *const u32,
        n: usize,
        prefixes: *const u32,
        pn: usize,
        boxes: *mut [u32; 6],
        bn: usize,
        lines: *mut u32,
        ln: usize,
        out: *mut u64,
        on: usize,
    ) -> u32;
}

/// A point by its two words.
pub type Spot = [u32; 2];

#[derive(Clone, Debug)]
pub enum Command {
    Move(Spot),
    /// A line, a quadratic or a cubic: its points behind its start.
    Draw(Vec<Spot>),
    End,
}

impl Command {
    pub fn spots(&self) -> &[Spot] {
        match self {
            Command::Move(to) => std::slice::from_ref(to),
            Command::Draw(spots) => spots,
            Command::End => &[],
        }
    }
}

// ---- what commands mean

#[derive(Clone, Debug, PartialEq)]
pub struct Subpath {
    start: Spot,
    segments: Vec<Vec<Spot>>,
    finished: bool,
}

/// Both zeros are one.
fn number(word: u32) -> u32 {
    if word == 1 << 31 { 0 } else { word }
}

fn same(p: Spot, q: Spot) -> bool {
    p.map(number) == q.map(number)
}

fn is_finite(spot: &Spot) -> bool {
    spot.iter().all(|word| word >> 23 & 0xff != 0xff)
}

/// The subpaths of some commands, cut at each move and end; the last may be open.
pub fn subpaths(commands: &[Command]) -> Vec<Subpath> {
    let mut found: Vec<Subpath> = vec![];
    for (i, command) in commands.iter().enumerate() {
        let Command::Move(start) = command else { continue };
        let behind = &commands[i + 1..];
        let drawn = behind.iter().take_while(|c| matches!(c, Command::Draw(_)));
        let segments: Vec<_> = drawn.map(|c| c.spots().to_vec()).collect();
        let finished = segments.len() < behind.len();
        if !segments.is_empty() {
            found.push(Subpath { start: *start, segments, finished });
        }
    }
    for subpath in found.iter_mut().filter(|subpath| subpath.finished) {
        if !same(*subpath.segments.last().unwrap().last().unwrap(), subpath.start) {
            subpath.segments.push(vec![subpath.start]);
        }
    }
    found
}

pub fn encoded(subpaths: &[Subpath]) -> (Vec<u8>, Vec<u32>) {
    let (mut tags, mut points) = (vec![], vec![]);
    for subpath in subpaths {
        points.extend(subpath.start);
        for (i, segment) in subpath.segments.iter().enumerate() {
            let last = subpath.finished && i + 1 == subpath.segments.len();
            tags.push(8 | segment.len() as u8 | if last { 4 } else { 0 });
            points.extend(segment.concat());
        }
    }
    (tags, points)
}

/// The finished subpaths of tags and points, by the paper's table alone: a tag takes as many points as its type says,
/// and the end bit one more.
fn decoded(tags: &[u8], points: &[u32]) -> Option<Vec<Subpath>> {
    let (mut found, mut at, mut segments): (_, usize, Vec<Vec<Spot>>) = (vec![], 0, vec![]);
    let spot = |i: usize| Some([*points.get(2 * i)?, *points.get(2 * i + 1)?]);
    let mut start = None;
    for tag in tags {
        let kind = (tag & 3) as usize;
        start = start.or(spot(at));
        segments.push((1..=kind).map(|k| spot(at + k)).collect::<Option<_>>()?);
        at += kind;
        if tag & 4 != 0 {
            at += 1;
            found.push(Subpath { start: start.take()?, segments: std::mem::take(&mut segments), finished: true });
        }
    }
    (segments.is_empty() && 2 * at == points.len()).then_some(found)
}

// ---- the library

/// The pen and two buffers, with two marks behind each that nothing may touch.
#[derive(Clone, Debug, PartialEq)]
pub struct Sheet {
    pub pen: [u64; PEN],
    pub tags: Vec<u8>,
    pub points: Vec<u32>,
}

impl Sheet {
    fn with_room(tags: usize, points: usize) -> Sheet {
        Sheet { pen: [0; PEN], tags: vec![MARK_TAG; tags + 2], points: vec![MARK; points + 2] }
    }

    pub fn room(&self) -> (usize, usize) {
        (self.tags.len() - 2, self.points.len() - 2)
    }

    fn command(&mut self, command: &Command) -> u32 {
        let (tn, pn) = self.room();
        let (pen, t, p) = (self.pen.as_mut_ptr(), self.tags.as_mut_ptr(), self.points.as_mut_ptr());
        let c: Vec<f32> = command.spots().iter().flatten().map(|word| f32::from_bits(*word)).collect();
        // SAFETY: the pen has its words, and the buffers have more than the room that is told.
        unsafe {
            match (command, c.len()) {
                (Command::End, _) => hinth_end(pen, PEN, t, tn, p, pn),
                (Command::Move(_), _) => hinth_move(pen, PEN, c[0], c[1], t, tn, p, pn),
                (_, 2) => hinth_line(pen, PEN, c[0], c[1], t, tn, p, pn),
                (_, 4) => hinth_quad(pen, PEN, c[0], c[1], c[2], c[3], t, tn, p, pn),
                _ => hinth_cubic(pen, PEN, c[0], c[1], c[2], c[3], c[4], c[5], t, tn, p, pn),
            }
        }
    }
}

// ---- one sequence

/// How often each thing came up that a run should not be without.
#[derive(Default)]
struct Seen {
    answers: HashMap<u32, u64>,
    lines: u64,
    flattened: u64,
}

/// What the buffers hold after the accepted commands, and marks.
fn expected(commands: &[Command], room: (usize, usize)) -> Option<(Vec<u8>, Vec<u32>)> {
    let (mut tags, mut points) = encoded(&subpaths(commands));
    if tags.len() > room.0 || points.len() > room.1 {
        return None;
    }
    tags.resize(room.0 + 2, MARK_TAG);
    points.resize(room.1 + 2, MARK);
    Some((tags, points))
}

/// The number that a command has to get behind those accepted.
pub fn answer(accepted: &[Command], command: &Command, room: (usize, usize)) -> u32 {
    let is_open = !matches!(accepted.last(), None | Some(Command::End));
    let more = [accepted, std::slice::from_ref(command)].concat();
    match command {
        Command::Draw(_) if !is_open => 20,
        _ if !command.spots().iter().all(is_finite) => 22,
        _ if expected(&more, room).is_none() => 21,
        _ => 0,
    }
}

fn sequence(random: &mut Random, tally: &mut Tally, seen: &mut Seen) {
    let commands: Vec<Command> = (0..random.below(24)).map(|_| any_command(random)).collect();
    let whole = encoded(&subpaths(&plain(&commands)));
    // exact room for all of it, a byte or a word short, or any
    let room = match random.below(5) {
        0 => (whole.0.len(), whole.1.len()),
        1 => (whole.0.len().saturating_sub(1), whole.1.len()),
        2 => (whole.0.len(), whole.1.len().saturating_sub(1)),
        3 => (random.below(20) as usize, random.below(60) as usize),
        _ => AMPLE,
    };
    let (mut sheet, mut accepted) = (Sheet::with_room(room.0, room.1), vec![]);
    for command in commands.iter().chain([&Command::End]) {
        let (wanted, before) = (answer(&accepted, command, room), sheet.clone());
        let got = sheet.command(command);
        *seen.answers.entry(got).or_default() += 1;
        let right = if wanted == 0 {
            accepted.push(command.clone());
            expected(&accepted, room) == Some((sheet.tags.clone(), sheet.points.clone())) && counts(&sheet, &accepted)
        } else {
            sheet == before
        };
        tally.count(got == wanted && right, || {
            format!("{got} for {wanted}: {command:?} behind {accepted:?}, room {room:?}")
        });
    }
    read_back(&sheet, &accepted, tally, seen);
}

/// Whether the pen counts what is written.
fn counts(sheet: &Sheet, accepted: &[Command]) -> bool {
    let (tags, points) = encoded(&subpaths(accepted));
    sheet.pen[5] == tags.len() as u64 && sheet.pen[6] == points.len() as u64
}

/// The same commands as if none were refused for room: what exact room is.
fn plain(commands: &[Command]) -> Vec<Command> {
    let mut kept: Vec<Command> = vec![];
    for command in commands.iter().chain([&Command::End]) {
        if answer(&kept, command, AMPLE) == 0 {
            kept.push(command.clone());
        }
    }
    kept
}

// ---- decoded and flattened

fn read_back(sheet: &Sheet, accepted: &[Command], tally: &mut Tally, seen: &mut Seen) {
    if !matches!(accepted.last(), Some(Command::End)) {
        return;
    }
    let (tags, points) = (&sheet.tags[..sheet.pen[5] as usize], &sheet.points[..sheet.pen[6] as usize]);
    let meant = subpaths(accepted);
    let back = decoded(tags, points);
    tally.count(back.as_ref() == Some(&meant), || format!("decoded {back:?} of {accepted:?}"));
    let Some(lines) = flattened(tags, points) else { return };
    seen.flattened += 1;
    seen.lines += lines.len() as u64;
    // tag 2 draws the first segment
    let mut from = 2;
    for subpath in &meant {
        let to = from + subpath.segments.len() as u32;
        let own = lines.iter().filter(|line| (from..to).contains(&line[1]));
        tally.count(balances(own), || format!("tags {from} to {to} do not balance: {accepted:?}"));
        from = to;
    }
}

/// The lines of a call that was accepted, with a transform tag and a style tag in front and a path tag behind.
fn flattened(tags: &[u8], points: &[u32]) -> Option<Vec<[u32; 6]>> {
    let mut bytes = [&[0x20, 0x40], tags, &[0x10]].concat();
    bytes.resize(256, 0);
    let mut scene: Vec<u32> = bytes.chunks(4).map(|b| u32::from_le_bytes(b.try_into().unwrap())).collect();
    scene.extend(points);
    let transform_base = scene.len() as u32;
    scene.extend([1.5f32, 0.25, -0.5, 2.0, 3.0, -7.0].map(f32::to_bits));
    scene.extend([0, 0]);
    let (mut prefixes, mut boxes) = (vec![0u32; 256], [[i32::MAX as u32, i32::MAX as u32, 1 << 31, 1 << 31, 0, 0]]);
    let (mut lines, mut out) = (vec![0u32; 6 * 20_000], [0u64; 3]);
    // SAFETY: each pointer goes with the length of its list.
    let number = unsafe {
        hinth_scan(scene.as_ptr(), scene.len(), 0, prefixes.as_mut_ptr(), prefixes.len(), out.as_mut_ptr(), 1);
        hinth_flatten(
            1,
            0,
            64,
            transform_base,
            transform_base + 6,
            scene.as_ptr(),
            scene.len(),
            prefixes.as_ptr(),
            prefixes.len(),
            boxes.as_mut_ptr(),
            1,
            lines.as_mut_ptr(),
            lines.len(),
            out.as_mut_ptr(),
            out.len(),
        )
    };
    (number == 0).then(|| lines[..6 * out[1] as usize].chunks_exact(6).map(|l| l.try_into().unwrap()).collect())
}

/// Whether each point, by its bits, is a start as often as an end.
fn balances<'a>(lines: impl Iterator<Item = &'a [u32; 6]>) -> bool {
    let mut surplus: HashMap<Spot, i64> = HashMap::new();
    for [_, _, x0, y0, x1, y1] in lines {
        *surplus.entry([*x0, *y0]).or_default() += 1;
        *surplus.entry([*x1, *y1]).or_default() -= 1;
    }
    surplus.values().all(|more| *more == 0)
}

// ---- pens that are made up

/// Buffers of any bytes with a pen of any words, which count little or much.
pub fn with_any_pen(random: &mut Random) -> Sheet {
    let mut sheet = Sheet::with_room(random.below(6) as usize, random.below(16) as usize);
    sheet.tags.fill_with(|| random.word() as u8);
    let count = |random: &mut Random| match random.below(4) {
        0 => u64::MAX - random.below(4),
        1 => random.next(),
        _ => random.below(18),
    };
    let (first, last) = (any_spot(random), any_spot(random));
    let high =
        |random: &mut Random, word: u32| u64::from(word) | if random.below(4) == 0 { random.next() << 32 } else { 0 };
    let opened = if random.below(8) == 0 { random.next() } else { random.below(3) };
    let last = if random.below(3) == 0 { first } else { last };
    let [fx, fy, lx, ly] = [first[0], first[1], last[0], last[1]].map(|word| high(random, word));
    sheet.pen = [opened, fx, fy, lx, ly, count(random), count(random)];
    sheet
}

/// What a command writes with any pen: its tags and words by the paper, in wide arithmetic.
fn made_up(random: &mut Random, tally: &mut Tally) {
    let mut sheet = with_any_pen(random);
    let (command, before) = (any_command(random), sheet.clone());
    let got = sheet.command(&command);
    let wanted = by_hand(&before, &command);
    let right = match &wanted {
        Ok(after) => got == 0 && sheet == *after,
        Err(number) => got == *number && sheet == before,
    };
    tally.count(right, || format!("{got}, {sheet:?} for {wanted:?}: {command:?} on {before:?}"));
}

/// The sheet behind a command, or its refusal.
pub fn by_hand(sheet: &Sheet, command: &Command) -> Result<Sheet, u32> {
    let ends = !matches!(command, Command::Draw(_));
    let opened = sheet.pen[0].min(2);
    let [first, last] = [[1, 2], [3, 4]].map(|at| at.map(|i: usize| sheet.pen[i] as u32));
    if !ends && opened == 0 {
        return Err(20);
    }
    if !command.spots().iter().all(is_finite) {
        return Err(22);
    }
    // numbers compare as floats do: a NaN equals nothing
    let closed = [0, 1].iter().all(|i| f32::from_bits(first[*i]) == f32::from_bits(last[*i]));
    let (tag, spots): (Option<u8>, Vec<Spot>) = match (ends, opened) {
        (true, 2) if !closed => (Some(0x0d), vec![first]),
        (true, _) => (None, vec![]),
        (false, 1) => (Some(8 | command.spots().len() as u8), [&[first], command.spots()].concat()),
        (false, _) => (Some(8 | command.spots().len() as u8), command.spots().to_vec()),
    };
    let mut after = sheet.clone();
    let (room, at, from) = (sheet.room(), u128::from(sheet.pen[5]), u128::from(sheet.pen[6]));
    if let Some(tag) = tag {
        if at + 1 > room.0 as u128 || from + 2 * spots.len() as u128 > room.1 as u128 {
            return Err(21);
        }
        after.tags[at as usize] = tag;
        after.points[from as usize..][..2 * spots.len()].copy_from_slice(&spots.concat());
    } else if ends && opened == 2 {
        if at == 0 || at > room.0 as u128 {
            return Err(21);
        }
        after.tags[at as usize - 1] |= 4;
    }
    let (now, first, last) = match command {
        Command::Move(to) => (1, *to, *to),
        Command::Draw(spots) => (2, first, *spots.last().unwrap()),
        Command::End => (0, first, last),
    };
    let words = [first[0], first[1], last[0], last[1]].map(u64::from);
    let counts = [at + u128::from(tag.is_some()), from + 2 * spots.len() as u128].map(|n| n as u64);
    after.pen = [now, words[0], words[1], words[2], words[3], counts[0], counts[1]];
    Ok(after)
}

// ---- random commands

/// Small whole numbers, so that points meet; zeros of both signs; now and then any word, an infinity or a NaN.
fn any_word(random: &mut Random) -> u32 {
    match random.below(100) {
        0 => 0x7f80_0000 | random.word() & 1 << 31,
        1 => 0x7f80_0001 | random.word(),
        2 => random.word(),
        3..20 => random.word() & 1 << 31,
        20..30 => (random.below(1 << 20) as f32 / 1024.0).to_bits(),
        _ => (random.below(4) as f32).to_bits(),
    }
}

fn any_spot(random: &mut Random) -> Spot {
    [any_word(random), any_word(random)]
}

fn any_command(random: &mut Random) -> Command {
    match random.below(10) {
        0..2 => Command::Move(any_spot(random)),
        2 => Command::End,
        kind => Command::Draw((0..1 + kind % 3).map(|_| any_spot(random)).collect()),
    }
}

// ---- the checks

pub fn run(report: &mut Report, extent: Extent) {
    let sequences = if extent == Extent::Whole { 20 * SEQUENCES } else { SEQUENCES };
    report.check("pattern: commands, written, decoded, flattened", || {
        sweep::blocks(sequences / BLOCK, |block, tally| {
            let (mut random, mut seen) = (Random::seeded(block), Seen::default());
            for _ in 0..BLOCK {
                sequence(&mut random, tally, &mut seen);
            }
            let all = [0, 20, 21, 22].iter().all(|number| seen.answers.contains_key(number));
            tally.count(all && seen.flattened > 0 && seen.lines > 0, || format!("block {block} saw too little"));
        })
    });
    report.check("pattern: pens that are made up", || {
        sweep::blocks(20 * sequences / BLOCK, |block, tally| {
            let mut random = Random::seeded(!block);
            (0..BLOCK).for_each(|_| made_up(&mut random, tally));
        })
    });
}
