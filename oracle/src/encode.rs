//! Paths of every kind, as an encoder writes them.

use std::f32::consts::PI;

use published::ours::Ours;

use crate::shapes::{Point, SHAPES};
use crate::tags::{CUBIC, F32, LINE, PATH, QUAD, STYLE, SUBPATH_END, TRANSFORM};
use crate::values::Values;

/// A name and how such a thing is made.
pub type Made<T> = (&'static str, fn(&mut Values) -> T);

const TRANSFORMS: [(u64, Made<[f32; 6]>); 8] = [
    (8, ("the identity", |_| [1., 0., 0., 1., 0., 0.])),
    (4, ("a scaling", |v| [v.within(4.), 0., 0., v.within(4.), v.within(64.), v.within(64.)])),
    (
        4,
        ("a turn", |v| {
            // not std's: a scene must be the same on every machine
            let (sin, cos) = Ours::sin_cos(v.within(PI));
            [cos, sin, -sin, cos, v.within(64.), v.within(64.)]
        }),
    ),
    (3, ("a shear", |v| [1., v.within(1.), v.within(4.), 1., 0., 0.])),
    (3, ("any affine map", |v| std::array::from_fn(|_| v.within(4.)))),
    (
        2,
        ("a singular transform", |v| {
            let (x, y) = (v.within(4.), v.within(4.));
            [x, y, 2. * x, 2. * y, v.within(64.), v.within(64.)]
        }),
    ),
    (1, ("a transform onto a point", |v| [0., 0., 0., 0., v.within(64.), -0.])),
    (1, ("a tiny transform", |v| std::array::from_fn(|_| v.within(1e-4)))),
];

const BAD_TRANSFORMS: [(u64, Made<[f32; 6]>); 4] = [
    (1, ("a transform with an infinity", |v| spoilt(v, f32::INFINITY))),
    (1, ("a transform with a NaN", |v| spoilt(v, f32::NAN))),
    (1, ("a huge transform", |v| spoilt(v, 1e30))),
    (1, ("a transform of any bits", |v| std::array::from_fn(|_| v.any()))),
];

fn spoilt(values: &mut Values, by: f32) -> [f32; 6] {
    let mut z = [1., 0., 0., 1., 0., 0.];
    z[values.below(6) as usize] = if values.once_in(2) { by } else { -by };
    z
}

const WIDTHS: [(u64, Made<f32>); 5] = [
    (16, ("a width", |v| v.within(16.).abs())),
    (2, ("width 0", |_| 0.)),
    (2, ("a width below 0", |v| -v.within(16.).abs())),
    (1, ("a thin width", |v| v.within(1e-3))),
    (1, ("a wide width", |v| v.within(1e4))),
];

const BAD_WIDTHS: [(u64, Made<f32>); 4] = [
    (1, ("an infinite width", |_| f32::INFINITY)),
    (1, ("width NaN", |_| f32::NAN)),
    (1, ("a huge width", |v| v.within(1e30))),
    (1, ("a width of any bits", |v| f32::from_bits(v.word()))),
];

const JOINS: [(u64, (&str, u32)); 4] =
    [(8, ("a bevel", 0)), (8, ("a miter", 1)), (8, ("a round join", 2)), (1, ("a join of no kind", 3))];

const CAPS: [(u64, (&str, u32)); 4] =
    [(3, ("a butt cap", 0)), (3, ("a square cap", 1)), (3, ("a round cap", 2)), (1, ("a cap of no kind", 3))];

/// The binary16 of the miter limits.
const LIMITS: [(u64, Made<u32>); 2] =
    [(1, ("miter limit 4", |_| 0x4400)), (1, ("any miter limit", |v| v.word() & 0xffff))];

/// The points of a segment from the one where the last ended, the first ones of three.
const SEGMENTS: [[(u64, Made<[Point; 3]>); 4]; 3] = [
    [
        (12, ("a line", |v| [near(v, 120.), near(v, 0.), near(v, 0.)])),
        (1, ("a line of no length", |_| [[0.; 2]; 3])),
        (1, ("a tiny line", |v| [near(v, 1e-4); 3])),
        (1, ("a huge line", |v| [near(v, 1e7); 3])),
    ],
    [
        (12, ("a quad", |v| [near(v, 120.), near(v, 120.), near(v, 0.)])),
        (1, ("a quad with its control at an end", |v| [near(v, 100.); 3])),
        (
            1,
            ("a quad back and forth", |v| {
                let [x, y] = near(v, 50.);
                [[2. * x, 2. * y], [x, y], [0.; 2]]
            }),
        ),
        (1, ("a tiny quad", |v| [near(v, 1e-3), near(v, 1e-3), near(v, 0.)])),
    ],
    [
        (12, ("a cubic", |v| [near(v, 120.), near(v, 120.), near(v, 120.)])),
        (1, ("a tiny cubic", |v| [near(v, 1e-3), near(v, 1e-3), near(v, 1e-3)])),
        (1, ("a cubic from its end to its end", |v| [near(v, 100.), near(v, 100.), [0.; 2]])),
        (1, ("a cubic with a straight start", |v| [[0.; 2], [0.; 2], near(v, 100.)])),
    ],
];

fn near(values: &mut Values, most: f32) -> Point {
    [values.within(most), values.within(most)]
}

/// What an encoder gathers, and the names of what is in it.
#[derive(Default)]
pub struct Parts {
    pub tags: Vec<u8>,
    pub data: Vec<u32>,
    pub transforms: Vec<u32>,
    pub styles: Vec<u32>,
    pub paths: usize,
    pub names: Vec<&'static str>,
    /// Whether infinities, NaNs and any bits come in now and then.
    is_bad: bool,
    is_stroke: bool,
    /// The bit of the tags, for the points of a path.
    form: u8,
    last: Point,
}

impl Parts {
    pub fn new(values: &mut Values) -> Self {
        let mut parts = Self { is_bad: values.once_in(4), ..Self::default() };
        parts.transform(values);
        parts.style(values);
        // Seldom more than a workgroup's tags.
        let paths = if values.once_in(64) { 60 } else { 1 + values.below(4) };
        for _ in 0..paths {
            if values.once_in(3) {
                parts.transform(values);
            }
            if values.once_in(2) {
                parts.style(values);
            }
            parts.path(values);
        }
        parts
    }

    fn made<T>(&mut self, values: &mut Values, usual: &[(u64, Made<T>)], bad: &[(u64, Made<T>)]) -> T {
        let table = if self.is_bad && values.once_in(8) { bad } else { usual };
        let (name, make) = *values.pick(table);
        self.names.push(name);
        make(values)
    }

    fn named(&mut self, values: &mut Values, table: &[(u64, (&'static str, u32))]) -> u32 {
        let (name, bits) = *values.pick(table);
        self.names.push(name);
        bits
    }

    fn transform(&mut self, values: &mut Values) {
        let z = self.made(values, &TRANSFORMS, &BAD_TRANSFORMS);
        self.transforms.extend(z.map(f32::to_bits));
        self.tags.push(TRANSFORM);
    }

    fn style(&mut self, values: &mut Values) {
        let bits = values.word() & 0x4000_0000;
        self.is_stroke = values.below(5) < 3;
        if self.is_stroke {
            self.names.push("a stroke");
            let join = self.named(values, &JOINS) << 28;
            let caps = self.named(values, &CAPS) << 26 | self.named(values, &CAPS) << 24;
            let limit = self.made(values, &LIMITS, &LIMITS);
            let width = self.made(values, &WIDTHS, &BAD_WIDTHS);
            self.styles.extend([bits | 0x8000_0000 | join | caps | limit, width.to_bits()]);
        } else {
            self.names.push(if bits == 0 { "a nonzero fill" } else { "an even-odd fill" });
            self.styles.extend([bits, 0]);
        }
        self.tags.push(STYLE);
    }

    fn point(&mut self, values: &mut Values, p: Point) {
        self.last = p;
        if self.form == 0 {
            let [x, y] = p.map(|v| v as i16);
            self.last = [x.into(), y.into()];
            self.data.push(u32::from(x as u16) | u32::from(y as u16) << 16);
            return;
        }
        if self.is_bad && values.once_in(40) {
            self.names.push("a point of any bits");
            self.last[values.below(2) as usize] = values.any();
        }
        self.data.extend(self.last.map(f32::to_bits));
    }

    /// A tag with its points, each told from where the last segment ended.
    fn segment(&mut self, values: &mut Values, tag: u8, steps: &[Point]) {
        let [x, y] = self.last;
        for [dx, dy] in steps {
            self.point(values, [x + dx, y + dy]);
        }
        self.tags.push(tag | self.form);
    }

    /// The same to one point.
    fn line_to(&mut self, values: &mut Values, p: Point) {
        self.point(values, p);
        self.tags.push(LINE | self.form);
    }

    fn any_segment(&mut self, values: &mut Values) {
        let kind = LINE + values.below(3) as u8;
        let count = usize::from(kind);
        let steps = if kind == CUBIC && values.once_in(2) {
            self.shape(values)
        } else {
            let table = &SEGMENTS[count - 1];
            self.made(values, table, table)
        };
        self.segment(values, kind, &steps[..count]);
    }

    /// One of the shapes, turned over or not. Huge ones are seldom: they fill any room.
    fn shape(&mut self, values: &mut Values) -> [Point; 3] {
        let mut shape = &SHAPES[values.below(SHAPES.len() as u64) as usize];
        let is_huge = shape.1.as_flattened().iter().any(|x| x.abs() > 1e4);
        if is_huge && values.below(8) > 0 {
            shape = &SHAPES[0];
        }
        let (name, [p0, rest @ ..]) = shape;
        self.names.push(name);
        let flip = if values.once_in(2) { 1. } else { -1. };
        rest.map(|p| [flip * (p[0] - p0[0]), p[1] - p0[1]])
    }

    /// A stroke ends with a marker, a fill with its last segment.
    fn subpath(&mut self, values: &mut Values) {
        let start = near(values, 100.);
        self.point(values, start);
        let (start, first) = (self.last, self.data.len());
        for _ in 0..1 + values.below(4) {
            self.any_segment(values);
        }
        let is_closed = values.below(3) > 0;
        self.names.push(if is_closed { "a closed subpath" } else { "an open subpath" });
        if is_closed {
            self.line_to(values, start);
        }
        if self.is_stroke {
            let words = 1 + usize::from(self.form != 0);
            let tangent: Vec<u32> = self.data[first..first + words].to_vec();
            self.marker(values, is_closed, start, &tangent);
        }
        *self.tags.last_mut().expect("a segment was written") |= SUBPATH_END;
    }

    /// The line or quad that holds the start's tangent, for the join or the caps: its last point is the second of the
    /// subpath.
    fn marker(&mut self, values: &mut Values, is_closed: bool, start: Point, tangent: &[u32]) {
        if values.once_in(24) {
            self.names.push("a stroke without a marker");
            return;
        }
        if !is_closed {
            self.point(values, start);
        }
        self.data.extend(tangent);
        self.tags.push(self.form | if is_closed { LINE } else { QUAD });
    }

    fn path(&mut self, values: &mut Values) {
        let is_f32 = values.once_in(2);
        self.form = if is_f32 { F32 } else { 0 };
        self.names.push(if is_f32 { "f32 points" } else { "i16 points" });
        for _ in 0..1 + values.below(2) {
            self.subpath(values);
        }
        self.tags.push(PATH);
        self.paths += 1;
    }
}

/// What comes up in some scene.
#[cfg(test)]
pub fn names() -> Vec<&'static str> {
    fn of<T>(table: &[(u64, (&'static str, T))]) -> Vec<&'static str> {
        table.iter().map(|entry| entry.1.0).collect()
    }
    let mut names = [of(&TRANSFORMS), of(&BAD_TRANSFORMS), of(&WIDTHS), of(&BAD_WIDTHS), of(&JOINS)].concat();
    names.extend([of(&CAPS), of(&LIMITS), of(SEGMENTS.as_flattened())].concat());
    names.extend(SHAPES.map(|shape| shape.0));
    names
}
