//! Open strokes made at random: which conditions of their theorem each meets, told in the words of the request, and
//! whether its lines, the published Rust's and the port's, have every point as a start as often as an end.

use std::collections::HashMap;

use hinthevoun::PathBox;
use published::ours::Ours;

use crate::drafts::{Draft, Outline};
use crate::shapes::Point;
use crate::stops::Stop;
use crate::values::Values;
use crate::whole::Given;

/// No room is above this, so that a huge curve ends.
const MOST_LINES: usize = 2000;
/// The source's.
const ROBUST_EPSILON: f32 = 2e-7;
const TANGENT_THRESH: f32 = 1e-6;

struct Stroke {
    outline: Outline,
    marker: [Point; 2],
    flags: u32,
    width: f32,
    transform: [f32; 6],
}

// ---- the source's points and tangents

fn add(a: Point, b: Point) -> Point {
    [a[0] + b[0], a[1] + b[1]]
}

fn sub(a: Point, b: Point) -> Point {
    [a[0] - b[0], a[1] - b[1]]
}

fn times(a: Point, k: f32) -> Point {
    [a[0] * k, a[1] * k]
}

fn third(a: Point, b: Point) -> Point {
    add(a, times(sub(b, a), 1. / 3.))
}

fn length_squared(a: Point) -> f32 {
    a[0] * a[0] + a[1] * a[1]
}

fn normalized(a: Point) -> Point {
    let length = Ours::hypot(a[0], a[1]);
    [a[0] / length, a[1] / length]
}

fn quarter_turned(a: Point) -> Point {
    [-a[1], a[0]]
}

/// The small-tangent rule.
fn steady(tangent: Point) -> Point {
    if length_squared(tangent) < TANGENT_THRESH * TANGENT_THRESH { [TANGENT_THRESH, 0.] } else { tangent }
}

fn first_long([a, b, c]: [Point; 3]) -> Point {
    [a, b].into_iter().find(|d| length_squared(*d) > ROBUST_EPSILON).unwrap_or(c)
}

fn start_tangent([p0, p1, p2, p3]: [Point; 4]) -> Point {
    first_long([sub(p1, p0), sub(p2, p0), sub(p3, p0)])
}

fn end_tangent([p0, p1, p2, p3]: [Point; 4]) -> Point {
    first_long([sub(p3, p2), sub(p3, p1), sub(p3, p0)])
}

impl Outline {
    /// Each segment as the cubic that the source makes of it.
    fn cubics(&self) -> Vec<[Point; 4]> {
        let mut start = self.start;
        let mut cubic = |segment: &Vec<Point>| {
            let p0 = start;
            start = *segment.last().expect("a segment has an end");
            match segment[..] {
                [p1] => [p0, third(p0, p1), third(p1, p0), p1],
                [p1, p2] => [p0, third(p1, p0), third(p1, p2), p2],
                [p1, p2, p3] => [p0, p1, p2, p3],
                _ => unreachable!("a segment has one to three points"),
            }
        };
        self.segments.iter().map(&mut cubic).collect()
    }
}

// ---- the conditions

/// What may keep a stroke from the theorem, in the order in which it is looked at.
const FAULTS: [&str; 4] = [
    "its half width is not above 0",
    "its marker starts elsewhere",
    "its marker has another tangent",
    "a bevel join has one side that coincides",
];

impl Stroke {
    /// The number of what keeps it from the theorem, if anything does.
    fn fault(&self) -> Option<usize> {
        let [start, tip] = self.marker;
        let cubics = self.outline.cubics();
        let along = normalized(steady(start_tangent(cubics[0])));
        let faults = [
            !(0.5 * self.width > 0.),
            start != self.outline.start,
            normalized(sub(tip, start)) != along,
            self.flags & 0x3000_0000 == 0 && cubics.windows(2).any(|pair| self.has_one_side(pair)),
        ];
        faults.into_iter().position(|is_so| is_so)
    }

    /// Whether one side of the join between two segments coincides and the other does not.
    fn has_one_side(&self, pair: &[[Point; 4]]) -> bool {
        let half = 0.5 * self.width;
        let at = pair[0][3];
        let before = quarter_turned(times(normalized(steady(end_tangent(pair[0]))), half));
        let behind = times(quarter_turned(normalized(steady(start_tangent(pair[1])))), half);
        (add(at, before) == add(at, behind)) != (sub(at, before) == sub(at, behind))
    }
}

// ---- strokes made at random

/// A step from a point to the next: of whole numbers, of any, of a tiny length, or of none.
fn step(values: &mut Values, kind: u64) -> Point {
    let mut coordinate = || match kind {
        0..4 => values.below(17) as f32 - 8.,
        4..9 => values.within(120.),
        9..11 => values.within(1e-3),
        11 => values.within(1e6),
        _ => [0., -0.][values.below(2) as usize],
    };
    [coordinate(), coordinate()]
}

fn outline(values: &mut Values) -> Outline {
    let start = step(values, 0);
    let mut last = start;
    let mut segment = |values: &mut Values| {
        let from = last;
        let points: Vec<Point> = (0..1 + values.below(3))
            .map(|_| {
                let kind = values.below(13);
                add(from, step(values, kind))
            })
            .collect();
        last = points[points.len() - 1];
        points
    };
    let segments = (0..1 + values.below(4)).map(|_| segment(values)).collect();
    Outline { start, segments }
}

fn width(values: &mut Values) -> f32 {
    match values.below(16) {
        0 => 0.,
        1 => -values.within(16.).abs(),
        2..5 => f32::from_bits((100 + values.below(28) as u32) << 23),
        5 => values.within(1e4).abs(),
        _ => values.within(16.).abs(),
    }
}

fn transform(values: &mut Values) -> [f32; 6] {
    match values.below(4) {
        0 => [1., 0., 0., 1., 0., 0.],
        1 => [values.within(4.), 0., 0., values.within(4.), values.within(64.), values.within(64.)],
        2 => {
            let (x, y) = (values.within(4.), values.within(4.));
            [x, y, 2. * x, 2. * y, values.within(64.), -0.]
        }
        _ => std::array::from_fn(|_| values.within(4.)),
    }
}

/// A marker that points along the first segment's start where one is found, as an encoder's, or any.
fn marker(values: &mut Values, outline: &Outline) -> [Point; 2] {
    let start = match values.below(32) {
        0 => add(outline.start, step(values, 9)),
        1 => outline.start.map(|c| if c == 0. { -c } else { c }),
        _ => outline.start,
    };
    let encoded = outline.segments[0][0];
    if values.once_in(4) {
        return [start, encoded];
    }
    let along = steady(start_tangent(outline.cubics()[0]));
    let tips = (0..24).map(|k| add(start, times(along, (1 << k) as f32)));
    let points_along = |tip: &Point| normalized(sub(*tip, start)) == normalized(along);
    [start, tips.into_iter().find(points_along).unwrap_or(encoded)]
}

fn stroke(values: &mut Values) -> Stroke {
    let outline = outline(values);
    let join = values.below(3) as u32;
    let caps = values.below(16) as u32;
    let limit = if values.once_in(2) { 0x4400 } else { values.word() & 0xffff };
    Stroke {
        marker: marker(values, &outline),
        outline,
        flags: 0x8000_0000 | join << 28 | caps << 24 | limit,
        width: width(values),
        transform: transform(values),
    }
}

// ---- the call

fn given(stroke: &Stroke) -> Given {
    let mut draft = Draft::default();
    draft.begin_under(stroke.transform, stroke.flags, stroke.width);
    draft.open_stroke_marked(&stroke.outline, stroke.marker);
    draft.end();
    Given::of(draft.encoded(), MOST_LINES)
}

/// The port's lines, or None where it refuses.
fn port_lines(given: &Given) -> Option<Vec<u32>> {
    let layout = hinthevoun::Layout {
        n_wg: given.n_wg,
        tag_base: given.tag_base,
        data_base: given.data_base,
        transform_base: given.transform_base,
        style_base: given.style_base,
    };
    let mut boxes = [PathBox { x0: i32::MAX, y0: i32::MAX, x1: i32::MIN, y1: i32::MIN, draw_flags: 0, trans_ix: 0 }];
    let mut words = given.lines.clone();
    let count = hinthevoun::flatten(layout, &given.scene, &given.prefixes, &mut boxes, &mut words).ok()?;
    words.truncate(6 * count as usize);
    Some(words)
}

/// Whether each point is a start as often as an end, +0 and -0 being one.
fn balances(lines: &[u32]) -> bool {
    let mut left: HashMap<[u32; 2], i64> = HashMap::new();
    let number = |word: u32| if word == 0x8000_0000 { 0 } else { word };
    for line in lines.chunks_exact(6) {
        *left.entry([line[2], line[3]].map(number)).or_default() += 1;
        *left.entry([line[4], line[5]].map(number)).or_default() -= 1;
    }
    left.values().all(|n| *n == 0)
}

// ---- the count

#[derive(Default)]
struct Tally {
    refused: u64,
    /// Of those that meet every condition, and then by what keeps them from it: how many, and how many are out of balance.
    sorted: [[u64; 2]; FAULTS.len() + 1],
    differ: Vec<u64>,
    open: Vec<u64>,
}

impl Tally {
    fn take(&mut self, index: u64, stroke: &Stroke) {
        let given = given(stroke);
        let told = given.told(0);
        let source = (told.stop == Stop::NONE).then(|| told.lines[..6 * told.count as usize].to_vec());
        let mut port = port_lines(&given);
        port.iter_mut().flat_map(|words| words.chunks_exact_mut(6)).for_each(|line| line[1] = 0);
        if source != port {
            self.differ.push(index);
        }
        let Some(lines) = source else {
            self.refused += 1;
            return;
        };
        let fault = stroke.fault();
        let is_open = !balances(&lines);
        let [all, open] = &mut self.sorted[fault.map_or(0, |i| i + 1)];
        *all += 1;
        *open += u64::from(is_open);
        if fault.is_none() && is_open {
            self.open.push(index);
        }
    }

    fn show(&self) {
        let [[meet, open], rest @ ..] = self.sorted;
        println!("{} differ between the published Rust and the port", self.differ.len());
        println!("{meet} meet every condition: {open} of them are out of balance");
        println!("{} are refused", self.refused);
        for ([all, open], why) in rest.into_iter().zip(FAULTS) {
            println!("{all} do not, since {why}: {open} of them are out of balance");
        }
        for (what, indices) in [("differs", &self.differ), ("meets every condition and is out of balance", &self.open)]
        {
            indices.iter().take(5).for_each(|index| println!("stroke {index} {what}"));
        }
    }
}

/// Makes strokes until so many are accepted that meet every condition. Whether all of these balance, and none differs.
pub fn count(seed: u64, wanted: u64) -> bool {
    let mut tally = Tally::default();
    let mut index = 0;
    while tally.sorted[0][0] < wanted {
        tally.take(index, &stroke(&mut Values::at(seed, index)));
        index += 1;
    }
    println!("{index} strokes of seed {seed}");
    tally.show();
    tally.open.is_empty() && tally.differ.is_empty()
}

#[cfg(test)]
mod tests {
    use super::*;

    /// Two lines at a right angle: with a width of 2 they meet every condition, with one of 2^-23 one side of the bevel
    /// join coincides, and a gap is left.
    fn corner(width: f32) -> Stroke {
        let outline = Outline { start: [-4., 1.], segments: vec![vec![[-1., 1.]], vec![[-1., 4.]]] };
        let marker = [[-4., 1.], [-3., 1.]];
        Stroke { outline, marker, flags: 0x8000_0000, width, transform: [1., 0., 0., 1., 0., 0.] }
    }

    fn lines(stroke: &Stroke) -> Vec<u32> {
        port_lines(&given(stroke)).expect("it is accepted")
    }

    #[test]
    fn a_wide_corner_balances() {
        let stroke = corner(2.);
        assert_eq!(stroke.fault(), None);
        assert_eq!(lines(&stroke).len(), 8 * 6);
        assert!(balances(&lines(&stroke)));
    }

    #[test]
    fn a_narrow_corner_leaves_a_gap_in_both() {
        let stroke = corner(f32::from_bits(0x3400_0000));
        assert_eq!(stroke.fault(), Some(3));
        assert_eq!(lines(&stroke).len(), 6 * 6);
        assert!(!balances(&lines(&stroke)));
        let told = given(&stroke).told(0);
        assert_eq!(told.stop, Stop::NONE);
        assert!(!balances(&told.lines[..6 * told.count as usize]));
    }

    #[test]
    fn each_fault_comes_up_and_leaves_gaps() {
        let mut tally = Tally::default();
        (0..4000).for_each(|i| tally.take(i, &stroke(&mut Values::at(1, i))));
        assert!(tally.differ.is_empty() && tally.open.is_empty());
        let [[meet, _], rest @ ..] = tally.sorted;
        assert!(meet > 1000 && tally.refused > 0);
        assert!(rest.iter().all(|[all, _]| *all > 0), "{rest:?}");
        assert!(rest[1][1] > 0 && rest[2][1] > 0, "{rest:?}");
    }
}
