//! Sheets to measure time on: figures as a pattern maker draws them, encoded, as many as are asked for.

use std::f32::consts::TAU;

use hinthevoun::Layout;
use vello_encoding::Style;

use crate::shapes::Point;
use crate::tags::{self, F32, LINE, PATH, QUAD, STYLE, SUBPATH_END, TRANSFORM};
use crate::values::Values;

pub(crate) const FILL: u32 = 0;
/// 4 as a binary16.
const MITER_LIMIT: u32 = 0x4400;
pub(crate) const BEVEL: u32 = Style::FLAGS_STYLE_BIT | Style::FLAGS_JOIN_BITS_BEVEL;
const MITER: u32 = Style::FLAGS_STYLE_BIT | Style::FLAGS_JOIN_BITS_MITER | MITER_LIMIT;
/// With round caps, of which the start's bits stand two places above the end's.
const ROUND: u32 = Style::FLAGS_STYLE_BIT
    | Style::FLAGS_JOIN_BITS_ROUND
    | Style::FLAGS_CAP_BITS_ROUND * 4
    | Style::FLAGS_CAP_BITS_ROUND;

/// What a call is given.
pub struct Encoded {
    pub layout: Layout,
    pub scene: Vec<u32>,
    pub paths: usize,
}

/// A start, and of each segment the points behind the one where the last ended.
pub(crate) struct Outline {
    pub start: Point,
    pub segments: Vec<Vec<Point>>,
}

#[derive(Default)]
pub(crate) struct Draft {
    tags: Vec<u8>,
    data: Vec<u32>,
    transforms: Vec<u32>,
    styles: Vec<u32>,
    paths: usize,
}

impl Draft {
    /// What is drawn next is scaled and moved so, and has this style.
    fn begin(&mut self, scale: f32, [x, y]: Point, flags: u32, width: f32) {
        self.begin_under([scale, 0., 0., scale, x, y], flags, width);
    }

    /// What is drawn next stands under this transform, and has this style.
    pub fn begin_under(&mut self, transform: [f32; 6], flags: u32, width: f32) {
        self.tags.extend([TRANSFORM, STYLE]);
        self.transforms.extend(transform.map(f32::to_bits));
        self.styles.extend([flags, width.to_bits()]);
    }

    fn points(&mut self, points: &[Point]) {
        self.data.extend(points.as_flattened().iter().map(|c| c.to_bits()));
    }

    fn segments(&mut self, outline: &Outline) {
        self.points(&[outline.start]);
        for segment in &outline.segments {
            self.points(segment);
            self.tags.push(F32 | segment.len() as u8);
        }
    }

    /// The outline ends where it starts.
    pub fn filled(&mut self, outline: &Outline) {
        self.segments(outline);
        *self.tags.last_mut().expect("an outline has segments") |= SUBPATH_END;
    }

    /// The marker behind holds the start and the first tangent, for the caps.
    pub fn open_stroke(&mut self, outline: &Outline) {
        self.open_stroke_marked(outline, [outline.start, outline.segments[0][0]]);
    }

    /// The same with a marker's points as given.
    pub fn open_stroke_marked(&mut self, outline: &Outline, marker: [Point; 2]) {
        self.segments(outline);
        self.points(&marker);
        self.tags.push(F32 | QUAD | SUBPATH_END);
    }

    /// The outline ends where it starts; the marker behind holds the first tangent, for the last join.
    fn closed_stroke(&mut self, outline: &Outline) {
        self.segments(outline);
        self.points(&[outline.segments[0][0]]);
        self.tags.push(F32 | LINE | SUBPATH_END);
    }

    pub fn end(&mut self) {
        self.tags.push(PATH);
        self.paths += 1;
    }

    /// Whole workgroups of tags, then the points, the transforms and the styles.
    pub fn encoded(self) -> Encoded {
        let (n_wg, mut scene) = tags::workgroups(&self.tags);
        let data_base = scene.len() as u32;
        scene.extend(self.data);
        let transform_base = scene.len() as u32;
        scene.extend(self.transforms);
        let style_base = scene.len() as u32;
        scene.extend(self.styles);
        Encoded {
            layout: Layout { n_wg, tag_base: 0, data_base, transform_base, style_base },
            scene,
            paths: self.paths,
        }
    }
}

fn between(a: Point, b: Point) -> Point {
    [(a[0] + b[0]) / 2., (a[1] + b[1]) / 2.]
}

/// On a round of 40 to 100 units, pushed in or out by up to a quarter.
fn around(values: &mut Values, n: usize) -> Vec<Point> {
    let size = 70. + values.within(30.);
    let at = |i: usize, push: f32| {
        let (s, c) = (TAU * i as f32 / n as f32).sin_cos();
        [size * (1. + push) * c, size * (1. + push) * s]
    };
    (0..n).map(|i| at(i, values.within(0.25))).collect()
}

fn polygon(values: &mut Values) -> Outline {
    let corners = around(values, 12);
    let segments = corners[1..].iter().chain([&corners[0]]).map(|p| vec![*p]).collect();
    Outline { start: corners[0], segments }
}

/// Smooth, of eight curves with so many control points each.
fn blob(values: &mut Values, controls: usize) -> Outline {
    let points = around(values, 8 * controls);
    let start = between(points[points.len() - 1], points[0]);
    let segment = |i: usize| {
        let mut segment = points[i * controls..(i + 1) * controls].to_vec();
        let next = points[(i + 1) * controls % points.len()];
        segment.push(between(segment[controls - 1], next));
        segment
    };
    Outline { start, segments: (0..8).map(segment).collect() }
}

/// A way of twelve segments that turns at each corner, by up to 120 degrees.
fn way(values: &mut Values, curved: bool) -> Outline {
    let (mut at, mut angle) = ([0., 0.], 0.);
    let mut step = |values: &mut Values, most: f32| {
        angle += values.within(most);
        let (s, c) = f32::sin_cos(angle);
        at = [at[0] + 15. * c, at[1] + 15. * s];
        at
    };
    let mut segment = |i: usize| {
        let bends = if curved { 1 + i % 2 } else { 0 };
        let mut segment = vec![step(values, TAU / 3.)];
        segment.extend((0..bends).map(|_| step(values, TAU / 12.)));
        segment
    };
    Outline { start: [0., 0.], segments: (0..12).map(&mut segment).collect() }
}

/// The brim of a socket.
fn brim() -> Outline {
    let segments = vec![
        vec![[10., 80.]],
        vec![[10., 110.], [40., 120.], [70., 120.]],
        vec![[110., 120.]],
        vec![[130., 90.], [120., 60.]],
        vec![[115., 30.], [90., 10.], [60., 10.]],
        vec![[35., 10.], [10., 20.]],
    ];
    Outline { start: [10., 20.], segments }
}

/// The opening in it.
fn opening() -> Outline {
    let segments = vec![
        vec![[50., 75.], [62., 85.], [75., 85.]],
        vec![[90., 85.], [100., 75.], [100., 60.]],
        vec![[100., 45.], [90., 38.], [75., 38.]],
        vec![[62., 38.], [50., 45.], [50., 60.]],
    ];
    Outline { start: [50., 60.], segments }
}

fn seam() -> Outline {
    let segments = vec![vec![[20., 75.]], vec![[22., 100.], [45., 110.], [70., 110.]], vec![[105., 110.]]];
    Outline { start: [20., 30.], segments }
}

fn notch(i: usize) -> Outline {
    let x = 20. + 12. * i as f32;
    Outline { start: [x, 8.], segments: vec![vec![[x, 14.]]] }
}

fn filled(draft: &mut Draft, values: &mut Values, outline: &Outline) {
    draft.begin(1., place(values), FILL, 0.);
    draft.filled(outline);
    draft.end();
}

fn stroked(draft: &mut Draft, values: &mut Values, flags: u32, outline: &Outline) {
    let width = 4. + values.within(3.);
    draft.begin(2., place(values), flags, width);
    draft.open_stroke(outline);
    draft.end();
}

/// Somewhere on a sheet of 4,000 units.
fn place(values: &mut Values) -> Point {
    [2000. + values.within(2000.), 2000. + values.within(2000.)]
}

/// A piece of a pattern: the filled panel, the cut around it, the seam and eight notches.
fn piece(draft: &mut Draft, values: &mut Values) {
    let (scale, at) = (3. + values.within(1.5), place(values));
    draft.begin(scale, at, FILL, 0.);
    draft.filled(&brim());
    draft.filled(&opening());
    draft.end();
    draft.begin(scale, at, MITER, 0.5);
    draft.closed_stroke(&brim());
    draft.end();
    draft.begin(scale, at, ROUND, 2.);
    draft.open_stroke(&seam());
    draft.end();
    draft.begin(scale, at, BEVEL, 0.7);
    (0..8).for_each(|i| draft.open_stroke(&notch(i)));
    draft.end();
}

/// What a sheet is full of.
#[derive(Clone, Copy)]
pub enum Figures {
    FilledLines,
    FilledQuads,
    FilledCubics,
    BevelLines,
    MiterCurves,
    RoundStrokes,
    Pieces,
}

impl Figures {
    fn draw(self, draft: &mut Draft, values: &mut Values) {
        match self {
            Self::FilledLines => {
                let outline = polygon(values);
                filled(draft, values, &outline);
            }
            Self::FilledQuads => {
                let outline = blob(values, 1);
                filled(draft, values, &outline);
            }
            Self::FilledCubics => {
                let outline = blob(values, 2);
                filled(draft, values, &outline);
            }
            Self::BevelLines => {
                let outline = way(values, false);
                stroked(draft, values, BEVEL, &outline);
            }
            Self::MiterCurves => {
                let outline = way(values, true);
                stroked(draft, values, MITER, &outline);
            }
            Self::RoundStrokes => {
                let outline = way(values, true);
                stroked(draft, values, ROUND, &outline);
            }
            Self::Pieces => piece(draft, values),
        }
    }

    /// So many, the same at every run.
    pub fn sheet(self, count: usize) -> Encoded {
        let (mut draft, mut values) = (Draft::default(), Values::new());
        (0..count).for_each(|_| self.draw(&mut draft, &mut values));
        draft.encoded()
    }
}

/// The sheets that are measured, as docs/SPEED.md names them.
pub const KINDS: [(&str, Figures); 7] = [
    ("fills of lines", Figures::FilledLines),
    ("fills of quads", Figures::FilledQuads),
    ("fills of cubics", Figures::FilledCubics),
    ("strokes of lines, bevel joins, butt caps", Figures::BevelLines),
    ("strokes of curves, miter joins, butt caps", Figures::MiterCurves),
    ("strokes, round joins and caps", Figures::RoundStrokes),
    ("mixed sheet", Figures::Pieces),
];

/// How many lines each of them has, about: few enough for a cache to hold.
pub const LINES: usize = 10_000;
