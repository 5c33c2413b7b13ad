//! Path data against a reader by another method: a recursive parser over the grammar of SVG 2, cut down as the request cuts
//! it, whose numbers are whole numbers over powers of ten and become an f32 by a search over all f32. What the commands then
//! write is worked out by `pattern`, from the list of commands and without a pen.
//!
//! Texts are every short one over a small alphabet, random ones of the grammar, and these damaged in every byte.

use crate::Extent;
use crate::pattern::{self, Command, Spot};
use crate::random::Random;
use crate::report::{self, Report};
use crate::sweep::{self, Tally};
use hinthevoun::pattern::Pen;
use std::cmp::Ordering;
use std::hint::black_box;

const MARK_TAG: u8 = 0xa5;
const MARK: u32 = 0xa5a5_a5a5;
const MOST_DIGITS: usize = 9;
/// The request's language, and bytes that are next to it.
const ALPHABET: &[u8] = b"MLQCZMLQCZ0123456789..,,--++  \t\n\x0c\rmlqczHAe\x0b\0\x80\xff;";

// ---- the reference

/// Why a text is left: the refusal's number and the byte that is told.
type Left = (u32, usize);

/// The commands that a text asks for, each with the byte that a refusal of it is told at: that behind its last number, of a Z
/// its own, of the end the length.
struct Parser<'a> {
    text: &'a [u8],
    at: usize,
    asked: Vec<(usize, Command)>,
    start: Spot,
    closed: bool,
}

fn is_white(byte: u8) -> bool {
    matches!(byte, b'\t' | b'\n' | 0x0c | b'\r' | b' ')
}

impl Parser<'_> {
    fn peek(&self) -> Option<u8> {
        self.text.get(self.at).copied()
    }

    fn wrong<T>(&self) -> Result<T, Left> {
        Err((60, self.at))
    }

    fn white(&mut self) {
        while self.peek().is_some_and(is_white) {
            self.at += 1;
        }
    }

    /// svg_path: a moveto and then any commands, or nothing.
    fn path(&mut self) -> Result<(), Left> {
        self.white();
        let mut allowed: &[u8] = b"M";
        while let Some(letter) = self.peek() {
            if !allowed.contains(&letter) {
                return self.wrong();
            }
            self.at += 1;
            match letter {
                b'Z' => {
                    self.asked.push((self.at - 1, Command::End));
                    self.closed = true;
                }
                b'Q' => self.sequence(2, false)?,
                b'C' => self.sequence(3, false)?,
                _ => self.sequence(1, letter == b'M')?,
            }
            self.white();
            allowed = b"MLQCZ";
        }
        self.asked.push((self.at, Command::End));
        Ok(())
    }

    /// Groups of so many points; of a moveto the first is the move.
    fn sequence(&mut self, points: usize, moves: bool) -> Result<(), Left> {
        self.white();
        let mut spots = vec![self.pair()?];
        for _ in 1..points {
            self.comma();
            spots.push(self.pair()?);
        }
        self.ask(spots, moves);
        let before = self.at;
        let comma = self.comma();
        match self.peek() {
            Some(b'0'..=b'9' | b'+' | b'-' | b'.') => self.sequence(points, false),
            _ if comma => self.wrong(),
            _ => {
                self.at = before;
                Ok(())
            }
        }
    }

    fn ask(&mut self, spots: Vec<Spot>, moves: bool) {
        if moves {
            self.start = spots[0];
            self.asked.push((self.at, Command::Move(self.start)));
        } else {
            if self.closed {
                self.asked.push((self.at, Command::Move(self.start)));
            }
            self.asked.push((self.at, Command::Draw(spots)));
        }
        self.closed = false;
    }

    /// White space with at most one comma in it; whether there was one.
    fn comma(&mut self) -> bool {
        self.white();
        let comma = self.peek() == Some(b',');
        if comma {
            self.at += 1;
            self.white();
        }
        comma
    }

    fn pair(&mut self) -> Result<Spot, Left> {
        let x = self.coordinate()?;
        self.comma();
        Ok([x, self.coordinate()?])
    }

    fn coordinate(&mut self) -> Result<u32, Left> {
        let start = self.at;
        let negative = self.peek() == Some(b'-');
        if matches!(self.peek(), Some(b'+' | b'-')) {
            self.at += 1;
        }
        let mut digits = self.digits(start)?.to_vec();
        let mut places = 0;
        if self.peek() == Some(b'.') {
            self.at += 1;
            let fraction = self.digits(start)?;
            places = fraction.len();
            if places == 0 {
                return self.wrong();
            }
            digits.extend(fraction);
        } else if digits.is_empty() {
            return self.wrong();
        }
        let whole = digits.iter().fold(0, |n: u128, digit| 10 * n + u128::from(digit - b'0'));
        Ok(nearest(whole, places as u32) | u32::from(negative) << 31)
    }

    /// A run of digits. The tenth is one too many for the number that begins at `start`.
    fn digits(&mut self, start: usize) -> Result<&[u8], Left> {
        let rest = &self.text[self.at..];
        let count = rest.iter().take_while(|byte| byte.is_ascii_digit()).count();
        if count > MOST_DIGITS {
            return Err((61, start));
        }
        self.at += count;
        Ok(&rest[..count])
    }
}

/// Of the f32 at and above zero that of the word, beside n / 10 ^ places. Its value is an even or odd number of half units
/// of 2^-150, of which only the part that matters here is looked at.
fn compare(word: u32, half: u128, n: u128, places: u32) -> Ordering {
    let (exponent, fraction) = (word >> 23, u128::from(word & 0x7f_ffff));
    let m = 2 * (fraction | u128::from(exponent > 0) << 23) + half; // in half units
    // m * 2 ^ (exponent - 151) beside n / 10 ^ places
    let scale = exponent.max(1) as i32 - 151;
    let (left, right) = (m * 10u128.pow(places), n);
    match scale {
        0.. => (left << scale).cmp(&right),
        // n < 2^60: where the shift is larger than 66 the right side is larger than any left side, or zero
        -66..0 => left.cmp(&(right << -scale)),
        _ if n == 0 => left.cmp(&0),
        _ => Ordering::Less,
    }
}

/// The word of the f32 nearest n / 10 ^ places, ties to even.
fn nearest(n: u128, places: u32) -> u32 {
    // the largest that is not above; 2^40 is above all
    let (mut low, mut high) = (0u32, 0x5380_0000u32);
    while high - low > 1 {
        let middle = low + (high - low) / 2;
        if compare(middle, 0, n, places) == Ordering::Greater { high = middle } else { low = middle }
    }
    match compare(low, 1, n, places) {
        Ordering::Less => low + 1,
        Ordering::Equal => low + (low & 1),
        Ordering::Greater => low,
    }
}

/// All that a call leaves: the refusal's number or 0, the byte, the pen's words, and the buffers.
type Outcome = (u32, usize, [u64; 7], Vec<u8>, Vec<u32>);

fn parsed(text: &[u8]) -> (Vec<(usize, Command)>, Option<Left>) {
    let mut parser = Parser { text, at: 0, asked: vec![], start: [0; 2], closed: false };
    let left = parser.path().err();
    (parser.asked, left)
}

fn expected(text: &[u8], room: (usize, usize)) -> Outcome {
    let (asked, left) = parsed(text);
    let (commands, mut told) = (asked.iter().map(|(_, command)| command.clone()).collect::<Vec<_>>(), left);
    let mut stands = commands.len();
    let whole = pattern::encoded(&pattern::subpaths(&commands));
    if whole.0.len() > room.0 || whole.1.len() > room.1 {
        let full = (0..commands.len()).find(|i| pattern::answer(&commands[..*i], &commands[*i], room) != 0);
        if let Some(full) = full {
            told = Some((pattern::answer(&commands[..full], &commands[full], room), asked[full].0));
            stands = full;
        }
    }
    let (mut tags, mut points) = pattern::encoded(&pattern::subpaths(&commands[..stands]));
    let pen = pen_behind(&commands[..stands], tags.len(), points.len());
    tags.resize(room.0, MARK_TAG);
    points.resize(room.1, MARK);
    let (number, byte) = told.unwrap_or((0, 0));
    (number, byte, pen, tags, points)
}

/// What is open, its first and last point, and what is written.
fn pen_behind(commands: &[Command], tags: usize, points: usize) -> [u64; 7] {
    let opened = match commands.last() {
        None | Some(Command::End) => 0,
        Some(Command::Move(_)) => 1,
        Some(Command::Draw(_)) => 2,
    };
    let first = commands.iter().rev().find_map(|command| match command {
        Command::Move(to) => Some(*to),
        _ => None,
    });
    let last = commands.iter().rev().find_map(|command| command.spots().last().copied());
    let ([x, y], [u, v]) = (first.unwrap_or_default(), last.unwrap_or_default());
    [opened, x.into(), y.into(), u.into(), v.into(), tags as u64, points as u64]
}

// ---- comparing

fn read(text: &[u8], room: (usize, usize)) -> Outcome {
    let (mut pen, mut tags, mut points) = (Pen::new(), vec![MARK_TAG; room.0], vec![MARK; room.1]);
    let (number, byte) = match pen.import(text, &mut tags, &mut points) {
        Ok(()) => (0, 0),
        Err(refusal) => (refusal.number(), refusal.byte()),
    };
    (number, byte, pen.words(), tags, points)
}

fn compare_text(tally: &mut Tally, text: &[u8], room: (usize, usize)) -> u32 {
    let (ours, right) = (read(text, room), expected(text, room));
    tally.count(ours == right, || {
        let text = String::from_utf8_lossy(text);
        format!("{text:?}, room {room:?}: {:?}, expected {:?}", (ours.0, ours.1, ours.2), (right.0, right.1, right.2))
    });
    ours.0
}

/// With ample room; then with exactly enough, one tag or one word short, and with any.
fn compare_rooms(tally: &mut Tally, random: &mut Random, text: &[u8]) {
    let few = (8 + text.len(), 32 + 4 * text.len());
    compare_text(tally, text, few);
    let (_, _, pen, ..) = read(text, few);
    let (tags, points) = (pen[5] as usize, pen[6] as usize);
    compare_text(tally, text, (tags, points));
    compare_text(tally, text, (tags.saturating_sub(1), points));
    compare_text(tally, text, (tags, points.saturating_sub(1)));
    compare_text(tally, text, (random.below(tags as u64 + 1) as usize, random.below(points as u64 + 1) as usize));
}

// ---- texts of the grammar

fn random_number(random: &mut Random) -> String {
    let sign = ["", "", "", "-", "-", "+"][random.below(6) as usize];
    let digits = |random: &mut Random, n: u64| -> String {
        (0..n).map(|_| char::from(b'0' + if random.below(4) == 0 { 0 } else { random.below(10) as u8 })).collect()
    };
    // small whole ones often, so that points meet
    if random.below(3) == 0 {
        return format!("{sign}{}", random.below(3));
    }
    let (whole, places) = (random.below(10), random.below(10));
    let (whole, places) = if whole + places == 0 { (1, 0) } else { (whole, places) };
    let mut text = format!("{sign}{}", digits(random, whole));
    if places > 0 {
        text.push('.');
        text += &digits(random, places);
    }
    text
}

fn random_white(random: &mut Random) -> String {
    let n = if random.below(3) == 0 { random.below(3) } else { 0 };
    (0..n).map(|_| ['\t', '\n', '\x0c', '\r', ' '][random.below(5) as usize]).collect()
}

/// Between two numbers: nothing where the second does not go on with the first, white space, or a comma.
fn between(random: &mut Random, before: &str, behind: &str) -> String {
    let parts =
        behind.starts_with(['+', '-']) || (behind.starts_with('.') && before.contains('.') && !before.ends_with('.'));
    match random.below(4) {
        0 if parts => String::new(),
        1 => random_white(random) + "," + &random_white(random),
        _ => random_white(random) + " ",
    }
}

/// A text of the language, and its numbers in order.
fn random_text(random: &mut Random) -> (String, Vec<String>) {
    let (mut text, mut numbers) = (random_white(random), Vec::<String>::new());
    let commands = random.below(8);
    for k in 0..commands {
        let letter = if k == 0 { 'M' } else { ['M', 'L', 'Q', 'C', 'Z', 'L', 'Z'][random.below(7) as usize] };
        text.push(letter);
        let group = match letter {
            'Z' => 0,
            'Q' => 4,
            'C' => 6,
            _ => 2,
        };
        let groups = if random.below(3) == 0 { 1 + random.below(3) } else { 1 };
        for n in 0..group * groups {
            let number = random_number(random);
            text += &match (n, numbers.last()) {
                (0, _) | (_, None) => random_white(random),
                (_, Some(before)) => between(random, before, &number),
            };
            text += &number;
            numbers.push(number);
        }
        text += &random_white(random);
    }
    (text, numbers)
}

/// Read as it was made: accepted, with the numbers that stand in it.
fn made_texts(extent: Extent) -> Tally {
    sweep::blocks(extent.scaled(100), |block, tally| {
        let mut random = Random::seeded(block);
        for _ in 0..1000 {
            let (text, numbers) = random_text(&mut random);
            let (asked, left) = parsed(text.as_bytes());
            let drawn: Vec<u32> = asked.iter().flat_map(|(_, command)| command.spots().concat()).collect();
            let meant: Vec<u32> = numbers.iter().map(|number| number.parse::<f32>().unwrap().to_bits()).collect();
            // a move behind a Z repeats a point; where there is none both are the same
            let repeats = drawn.len() != meant.len();
            tally.count(left.is_none() && (repeats || drawn == meant), || format!("the reference misreads {text:?}"));
            compare_rooms(tally, &mut random, text.as_bytes());
        }
    })
}

/// Each byte changed, left out, doubled, and one put in before it.
fn damaged(extent: Extent) -> Tally {
    sweep::blocks(extent.scaled(12), |block, tally| {
        let mut random = Random::seeded(!block);
        for _ in 0..100 {
            let text = random_text(&mut random).0.into_bytes();
            for at in 0..text.len() {
                let other = ALPHABET[random.below(ALPHABET.len() as u64) as usize];
                let any = random.word() as u8;
                for put in [vec![other], vec![any], vec![], vec![text[at]; 2], vec![other, text[at]]] {
                    let changed = [&text[..at], &put, &text[at + 1..]].concat();
                    compare_text(tally, &changed, (text.len(), 4 * text.len()));
                }
                compare_text(tally, &text[..at], (text.len(), 4 * text.len()));
            }
        }
    })
}

/// Every text of at most so many of these bytes, behind a move and without one.
fn short_texts(extent: Extent) -> Tally {
    let bytes = b"MLZ1.,- ";
    let most = if extent == Extent::Whole { 7 } else { 5 };
    let count: u64 = (0..=most).map(|n| 8u64.pow(n)).sum();
    sweep::blocks(count.div_ceil(1024), |block, tally| {
        for k in 1024 * block..count.min(1024 * (block + 1)) {
            let (mut k, mut length) = (k, 0);
            while k >= 8u64.pow(length) {
                k -= 8u64.pow(length);
                length += 1;
            }
            let text: Vec<u8> = (0..length).map(|i| bytes[(k >> (3 * i) & 7) as usize]).collect();
            compare_text(tally, &text, (8, 40));
            compare_text(tally, &[b"M0 1L2 3", &*text].concat(), (8, 40));
        }
    })
}

fn random_bytes(extent: Extent) -> Tally {
    sweep::blocks(extent.scaled(50), |block, tally| {
        let mut random = Random::seeded(block ^ 0x5555);
        for _ in 0..1000 {
            let mut text = b"M1 2"[..2 * random.below(3) as usize].to_vec();
            text.extend((0..random.below(24)).map(|_| ALPHABET[random.below(ALPHABET.len() as u64) as usize]));
            compare_text(tally, &text, (8, 32));
        }
    })
}

// ---- numbers

/// A number as both coordinates of a move, and by Rust's own reader.
fn compare_number(tally: &mut Tally, text: &str) {
    let (number, byte, pen, ..) = read(format!("M{text} {text}").as_bytes(), (0, 0));
    let (wanted, std) = (parsed(format!("M{text} 0").as_bytes()), text.parse::<f32>().map(f32::to_bits));
    let reference = wanted.0.first().map(|(_, command)| command.spots()[0][0]);
    let ours = (number, byte, pen[1], pen[2]);
    let right = std.map(|word| (0, 0, u64::from(word), u64::from(word)));
    tally.count(right == Ok(ours) && reference.map(u64::from) == Some(pen[1]), || {
        format!("{text}: {ours:x?}, the search {reference:x?}, Rust {right:x?}")
    });
}

/// A whole number over a power of ten, with some digits before the point and so many after it.
fn spelled(random: &mut Random, n: u64, places: usize) -> String {
    let sign = ["", "-", "+"][random.below(3) as usize];
    let digits = format!("{n:0width$}", width = places + 1);
    let (whole, fraction) = digits.split_at(digits.len() - places);
    let zeros = "0".repeat(random.below((MOST_DIGITS - whole.len()) as u64 + 1) as usize);
    match (places, whole) {
        (0, _) => format!("{sign}{zeros}{whole}"),
        (_, "0") if random.below(2) == 0 => format!("{sign}.{fraction}"),
        _ => format!("{sign}{zeros}{whole}.{fraction}"),
    }
}

/// Numbers of each length before and after the point.
fn all_lengths(extent: Extent) -> Tally {
    sweep::blocks(extent.scaled(100), |block, tally| {
        let mut random = Random::seeded(block ^ 0x77);
        for _ in 0..100 {
            for (whole, places) in (0..=9u32).flat_map(|whole| (0..=9u32).map(move |places| (whole, places))) {
                if whole + places > 0 {
                    let n = random.below(10u64.pow(whole + places));
                    compare_number(tally, &spelled(&mut random, n, places as usize));
                }
            }
        }
    })
}

/// Numbers exactly between two f32, and those a last digit below and above.
fn ties(extent: Extent) -> Tally {
    sweep::blocks(extent.scaled(100), |block, tally| {
        let mut random = Random::seeded(block ^ 0x99);
        for _ in 0..1000 {
            let odd = 1 << 24 | random.below(1 << 23) << 1 | 1;
            let places = random.below(10) as u32; // odd / 2 ^ places has that many digits behind its point
            let n = odd * 5u64.pow(places);
            for (n, places) in [(n, places), (10 * n - 1, places + 1), (10 * n + 1, places + 1)] {
                if places <= 9 && n / 10u64.pow(places) < 1_000_000_000 {
                    compare_number(tally, &spelled(&mut random, n, places as usize));
                }
            }
            let larger = odd << random.below(6); // behind 2^24 the halves are whole numbers
            if larger < 1_000_000_000 {
                for n in larger - 1..=larger + 1 {
                    compare_number(tally, &spelled(&mut random, n, 0));
                }
            }
        }
    })
}

/// Ten digits on either side, wherever they stand.
fn too_long(_: Extent) -> Tally {
    let mut tally = Tally::default();
    for (whole, places) in (0..=12).flat_map(|whole| (0..=12).map(move |places| (whole, places))) {
        for (sign, before) in ["", "-", "+"].into_iter().flat_map(|s| ["M", "M1 ", "M1 2L", "M1,"].map(|b| (s, b))) {
            let point = if places > 0 { "." } else { "" };
            let number = format!("{sign}{}{point}{}", "7".repeat(whole), "0".repeat(places));
            for behind in ["", " 5", "x", ".", "-1"] {
                compare_text(&mut tally, format!("{before}{number}{behind}").as_bytes(), (8, 32));
            }
        }
    }
    tally
}

/// A text read with any pen: command by command, what one command does with any pen.
fn with_any_pen(random: &mut Random, tally: &mut Tally) {
    let before = pattern::with_any_pen(random);
    let text = random_text(random).0;
    let (asked, left) = parsed(text.as_bytes());
    let (mut wanted, mut told) = (before.clone(), left.unwrap_or((0, 0)));
    for (byte, command) in &asked {
        match pattern::by_hand(&wanted, command) {
            Ok(after) => wanted = after,
            Err(number) => {
                told = (number, *byte);
                break;
            }
        }
    }
    // the pen comes back as it was read: the low 32 bits of a point's words, and 2 for whatever is not 0 or 1
    wanted.pen[0] = wanted.pen[0].min(2);
    wanted.pen[1..5].iter_mut().for_each(|word| *word &= 0xffff_ffff);
    let (mut ours, (tags, points)) = (before.clone(), before.room());
    let mut pen = Pen::from_words(before.pen);
    let answer = pen.import(text.as_bytes(), &mut ours.tags[..tags], &mut ours.points[..points]);
    ours.pen = pen.words();
    let got = answer.map_or_else(|refusal| (refusal.number(), refusal.byte()), |()| (0, 0));
    tally.count(got == told && ours == wanted, || {
        format!("{got:?}, {ours:?} for {told:?}, {wanted:?}: {text:?} on {before:?}")
    });
}

pub fn run(report: &mut Report, extent: Extent) {
    report.check("svg: numbers of every length", || all_lengths(extent));
    report.check("svg: numbers between two f32", || ties(extent));
    report.check("svg: numbers with too many digits", || too_long(extent));
    report.check("svg: every short text", || short_texts(extent));
    report.check("svg: random texts of the language", || made_texts(extent));
    report.check("svg: texts with every byte changed, left out, doubled and put in", || damaged(extent));
    report.check("svg: random bytes", || random_bytes(extent));
    report.check("svg: pens that are made up", || {
        sweep::blocks(extent.scaled(50), |block, tally| {
            let mut random = Random::seeded(block ^ 0xbb);
            (0..1000).for_each(|_| with_any_pen(&mut random, tally));
        })
    });
}

// ---- speed

/// Path data as drawing programs write it: cubics with three digits behind the point.
fn long_text() -> String {
    let mut random = Random::seeded(23);
    let mut text = String::from("M0,0");
    while text.len() < 1 << 21 {
        let [a, b, c, d, e, f] = [(); 6].map(|()| random.below(2_000_000) as f64 / 1000.0 - 1000.0);
        text += &format!(" C {a:.3},{b:.3} {c:.3},{d:.3} {e:.3},{f:.3}");
    }
    text + " Z"
}

/// What one would write in Rust without a proof: the letters and the numbers' words.
fn plain(text: &str, letters: &mut Vec<u8>, points: &mut Vec<u32>) -> Option<()> {
    let (bytes, mut at) = (text.as_bytes(), 0);
    while at < bytes.len() {
        match bytes[at] {
            b' ' | b',' | b'\n' => at += 1,
            letter @ (b'M' | b'L' | b'Q' | b'C' | b'Z') => {
                letters.push(letter);
                at += 1;
            }
            _ => {
                let length = bytes[at + 1..].iter().take_while(|b| b.is_ascii_digit() || **b == b'.').count();
                points.push(text[at..at + 1 + length].parse::<f32>().ok()?.to_bits());
                at += 1 + length;
            }
        }
    }
    Some(())
}

/// Megabytes a second of ours and of plain Rust: the least time of some rounds.
fn paces() -> [f64; 2] {
    let text = long_text();
    let (mut tags, mut points) = (vec![0u8; text.len() / 8], vec![0u32; text.len() / 4]);
    let mut least = [f64::MAX; 2];
    for _ in 0..9 {
        let start = report::used();
        let mut pen = Pen::new();
        black_box(pen.import(black_box(text.as_bytes()), &mut tags, &mut points)).expect("room for all");
        let between = report::used();
        let (mut letters, mut words) = (Vec::with_capacity(tags.len()), Vec::with_capacity(points.len()));
        black_box(plain(black_box(&text), &mut letters, &mut words)).expect("numbers");
        let end = report::used();
        least = [least[0].min(between - start), least[1].min(end - between)];
    }
    least.map(|seconds| text.len() as f64 / 1e6 / seconds)
}

/// Megabytes of path data a second in one call, beside plain Rust. Nothing is asserted.
pub fn bench() {
    let [ours, plain] = paces();
    println!("path data, MB a second   ours {ours:.0}, plain Rust with str::parse {plain:.0}");
}
