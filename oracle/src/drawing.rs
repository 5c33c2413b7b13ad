//! Writes the list that crates/replay_drawing replays: a line for each call of the source's drawing functions, what it
//! stored with it.

use std::f32::consts::PI;

use published::calls::{ARC, CAP, EULER, JOIN, Pen, draw};
use published::ours::Ours;
use vello_encoding::LineSoup;

use crate::shapes::{Point, SHAPES};
use crate::sheet::{FILL, Sheet, hash};
use crate::stops::{self, Stop};
use crate::values::Values;

const ORIGIN: Point = [0.; 2];

const IDENTITY: [f32; 6] = [1., 0., 0., 1., 0., 0.];

/// One that turns, stretches and shifts, one that turns over and shrinks, one that folds the plane into a line.
const TRANSFORMS: [[f32; 6]; 4] =
    [IDENTITY, [1.5, 0.5, -0.25, 2., 10., -20.], [-0.125, 0., 0., 0.125, 0.5, 0.], [1., 2., 2., 4., 0., 0.]];

/// The arguments of every function: flags are of caps and joins, the number is an arc's angle or a curve's offset.
#[derive(Clone)]
struct Call {
    kind: u32,
    /// The words lent: six a line, and some left over.
    lent: u32,
    /// How many lines are stored before.
    count: u32,
    path: u32,
    flags: u32,
    number: f32,
    transform: [f32; 6],
    points: [Point; 6],
}

fn word(x: f32) -> u32 {
    if x.is_nan() { 0x7fc0_0000 } else { x.to_bits() }
}

impl Call {
    fn new(kind: u32) -> Self {
        Self {
            kind,
            lent: 6 * 2000 + 3,
            count: 0,
            path: 7,
            flags: 0,
            number: 0.,
            transform: IDENTITY,
            points: [ORIGIN; 6],
        }
    }

    fn given(&self) -> Vec<u32> {
        let mut words = vec![self.kind, self.lent, self.count, self.path, self.flags, word(self.number)];
        words.extend(self.transform.map(word));
        words.extend(self.points.as_flattened().iter().copied().map(word));
        words
    }

    fn draw(&self, pen: &mut Pen, lines: &mut [LineSoup]) {
        draw(self.kind, self.path, self.flags, self.number, self.transform, self.points, pen, lines);
    }

    /// The refusal's number and end or 0, the count, the box unless refused, as floats, the hash of the lent words, the first
    /// line's points and the last one's.
    fn told(&self) -> Vec<u32> {
        let mut sheet = Sheet::new(&vec![FILL; self.lent as usize]);
        let mut pen = Pen::new(self.count as usize);
        let stop = stops::stop_of(|| self.draw(&mut pen, sheet.lines()));
        let stored = sheet.stored_from(self.count as usize);
        let count = self.count + stored.len() as u32;
        if stop == Stop::NONE {
            assert_eq!(pen.line_ix, count as usize);
        }
        let bbox = if stop == Stop::NONE { pen.bbox() } else { [0; 4] };
        let bbox = bbox.map(|x| x as f32);
        assert!(stop != Stop::NONE || bbox.map(|x| x as i32) == pen.bbox());
        let points = |line: Option<&[u32; 6]>| line.map_or([0; 4], |w| [w[2], w[3], w[4], w[5]]);
        let mut words = vec![stop.word(), count];
        words.extend(bbox.map(f32::to_bits));
        words.push(hash(&sheet.words()));
        words.extend(points(stored.first()));
        words.extend(points(stored.last()));
        words
    }

    fn print(&self) {
        let words = [self.given(), self.told()].concat();
        let words: Vec<_> = words.iter().map(|w| format!("{w:08x}")).collect();
        println!("{}", words.join(" "));
    }

    /// The same with every number of the geometry from anywhere.
    fn anywhere(&self, values: &mut Values) -> Self {
        Self {
            number: values.any(),
            transform: std::array::from_fn(|_| values.any()),
            points: std::array::from_fn(|_| [values.any(), values.any()]),
            ..*self
        }
    }

    /// The same with one number of the geometry from the corners.
    fn spoilt(&self, values: &mut Values) -> Self {
        let mut call = self.clone();
        match values.below(19) as usize {
            0 => call.number = values.corner(),
            i @ 1..=6 => call.transform[i - 1] = values.corner(),
            i => call.points[(i - 7) / 2][(i - 7) % 2] = values.corner(),
        }
        call
    }

    /// The same with room for few lines, or none, or fewer than are stored before.
    fn cramped(&self, values: &mut Values) -> Self {
        let count = values.below(4) as u32;
        let lent = values.below(40) as u32;
        Self { count, lent, ..*self }
    }

    /// As it is, and in the three other ways.
    fn print_in_all_ways(&self, values: &mut Values) {
        self.print();
        self.spoilt(values).print();
        self.cramped(values).print();
        self.anywhere(values).print();
    }
}

fn near(values: &mut Values, most: f32) -> Point {
    [values.within(most), values.within(most)]
}

fn plus(p: Point, q: Point) -> Point {
    [p[0] + q[0], p[1] + q[1]]
}

fn times(p: Point, k: f32) -> Point {
    [p[0] * k, p[1] * k]
}

/// Across to the left, as long as told.
fn normal(p: Point, length: f32) -> Point {
    // not std's: a list must be the same on every machine
    let k = length / Ours::hypot(p[0], p[1]);
    [-p[1] * k, p[0] * k]
}

/// The half circle of a radius about the origin.
fn half_circle(radius: f32) -> Call {
    Call { number: PI, points: [[radius, 0.], [-radius, 0.], ORIGIN, ORIGIN, ORIGIN, ORIGIN], ..Call::new(ARC) }
}

fn arcs(values: &mut Values) {
    // The two of the measured examples: 1 line, and the most there can be at this angle.
    half_circle(0.25).print();
    Call { lent: 6 * 31416 + 2, ..half_circle(16_777_216.) }.print();
    for exponent in -3..18 {
        half_circle(2f32.powi(exponent)).print();
    }
    for angle in [0., -0., -1., 1e-30, 1., 2. * PI, 1e4, 1e30, f32::INFINITY, f32::NAN] {
        Call { number: angle, ..half_circle(8.) }.print();
    }
    for transform in TRANSFORMS {
        for _ in 0..3 {
            let (center, spoke) = (near(values, 64.), near(values, 64.));
            Call {
                number: values.within(PI),
                transform,
                points: [plus(center, spoke), near(values, 64.), center, ORIGIN, ORIGIN, ORIGIN],
                ..Call::new(ARC)
            }
            .print_in_all_ways(values);
        }
    }
}

fn caps(values: &mut Values) {
    for flags in [0, 0x0100_0000, 0x0200_0000, 0x0300_0000, 1] {
        for transform in TRANSFORMS {
            let (point, tangent) = (near(values, 64.), near(values, 16.));
            let n = normal(tangent, 4.);
            Call {
                flags,
                transform,
                points: [point, plus(point, n), plus(point, times(n, -1.)), tangent, ORIGIN, ORIGIN],
                ..Call::new(CAP)
            }
            .print_in_all_ways(values);
        }
    }
    // No count is above this one. A NaN is seen before that.
    let full = Call { count: u32::MAX, ..Call::new(CAP) };
    full.print();
    Call { points: [[f32::NAN; 2]; 6], ..full }.print();
}

/// The binary16 of miter limits: 4, 1, 1.5, the greatest, a subnormal, a zero, an infinity, a NaN, below zero.
const LIMITS: [u32; 9] = [0x4400, 0x3c00, 0x3e00, 0x7bff, 0x0001, 0x0000, 0x7c00, 0x7e01, 0xc400];

fn join(values: &mut Values, bits: u32, tan_prev: Point, tan_next: Point) -> Call {
    let limit = LIMITS[values.below(LIMITS.len() as u64) as usize];
    let width = values.within(8.);
    Call {
        flags: bits << 28 | limit,
        transform: TRANSFORMS[values.below(4) as usize],
        points: [near(values, 64.), tan_prev, tan_next, normal(tan_prev, width), normal(tan_next, width), ORIGIN],
        ..Call::new(JOIN)
    }
}

fn joins(values: &mut Values) {
    // The front does not move where the back does, and the other way round.
    let least = 2f32.powi(-24);
    for n in [[least, 0.], [-least, 0.]] {
        Call { points: [[1., 1.], [3., 0.], [0., 2.], n, ORIGIN, ORIGIN], ..Call::new(JOIN) }.print();
    }
    for bits in 0..4 {
        // Straight on, back, to the left, to the right, hardly at all, and both tangents of no length.
        for turn in [[1., 0.], [-1., 0.], [0., 1.], [0., -1.], [1., 1e-7], [-1., 1e-7]] {
            join(values, bits, [3., 0.], times(turn, 2.)).print();
        }
        join(values, bits, ORIGIN, ORIGIN).print();
        for _ in 0..6 {
            let (tan_prev, tan_next) = (near(values, 16.), near(values, 16.));
            join(values, bits, tan_prev, tan_next).print_in_all_ways(values);
        }
    }
}

/// A side of a stroke from and to where the source would have it.
fn curve(shape: [Point; 4], offset: f32, transform: [f32; 6]) -> Call {
    let [p0, p1, p2, p3] = shape;
    let start = plus(p0, normal(plus(p1, times(p0, -1.)), offset));
    let end = plus(p3, normal(plus(p3, times(p2, -1.)), offset));
    Call { number: offset, transform, points: [p0, p1, p2, p3, start, end], ..Call::new(EULER) }
}

fn curves(values: &mut Values) {
    for (_, shape) in SHAPES {
        for offset in [0., -0., 2.5, -2.5] {
            curve(shape, offset, IDENTITY).print();
        }
        let transform = TRANSFORMS[1 + values.below(3) as usize];
        curve(shape, 0., transform).print();
        let offset = values.within(100.);
        curve(shape, offset, transform).print();
        curve(shape, offset, transform).spoilt(values).print();
    }
    for round in 0..24 {
        let shape = std::array::from_fn(|_| near(values, 200.));
        let offset = if round % 3 == 0 { 0. } else { values.within(20.) };
        curve(shape, offset, TRANSFORMS[values.below(4) as usize]).print_in_all_ways(values);
    }
    for offset in [f32::NAN, f32::INFINITY, -f32::INFINITY, 1e30, -1e30, 1e-30, -1e-30] {
        curve(SHAPES[0].1, offset, TRANSFORMS[1]).print();
    }
    // Offsets on both sides of where they count as low.
    for (_, shape) in &SHAPES[..4] {
        for offset in [0.05, 0.15, -0.15] {
            curve(*shape, offset, IDENTITY).print();
        }
    }
    // Minus zero in device space, which the identity turns into zero.
    let still = [1., 0., 0., 1., -0., -0.];
    let below = [[-5., -0.], [-50., 60.], [-80., 60.], [-90., -0.]];
    curve(below, 0., still).print();
    curve(below, 2.5, still).print();
    for x in [f32::NAN, f32::INFINITY, -f32::INFINITY, 1e30, 1e-40] {
        for i in 0..4 {
            let mut shape = SHAPES[0].1;
            shape[i][0] = x;
            curve(shape, 0., IDENTITY).print();
            curve(shape, 2.5, IDENTITY).print();
        }
    }
    // Ends that are not where the curve's are.
    for _ in 0..8 {
        let mut call = curve(SHAPES[0].1, values.within(20.), IDENTITY);
        (call.points[4], call.points[5]) = (near(values, 200.), near(values, 200.));
        call.print();
    }
}

pub fn list() {
    let mut values = Values::new();
    arcs(&mut values);
    caps(&mut values);
    joins(&mut values);
    curves(&mut values);
}
