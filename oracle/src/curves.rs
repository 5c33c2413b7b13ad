//! Single curves of the kinds that a workshop draws: what the library draws for one, and the exact curve beside it.

use hinthevoun::PathBox;

use crate::drafts::{BEVEL, Draft, FILL, Outline};
use crate::shapes::Point;
use crate::values::Values;

/// A point of the device.
pub type Place = [f64; 2];

/// More lines than any of these curves has.
const ROOM: usize = 1024;

/// One segment, filled or stroked.
#[derive(Clone, Debug)]
pub struct Curve {
    /// Three of a quad, or four of a cubic.
    pub points: Vec<Point>,
    pub transform: [f32; 6],
    /// Of the stroke; 0 is a fill.
    pub width: f32,
}

/// A chain of lines, and how far to the left of the segment it is meant to lie.
pub struct Side {
    pub offset: f64,
    pub chain: Vec<Place>,
}

/// A name, and how such a curve is made.
pub type Kind = (&'static str, fn(&mut Values) -> Curve);

pub const KINDS: [Kind; 6] = [
    ("quads of fills: bends", |v| Curve::filled(bend(v), v)),
    ("cubics of fills: arches and S's", |v| Curve::filled(arch(v), v)),
    ("sides of stroked bends, arches and S's", |v| {
        let points = if v.once_in(2) { bend(v) } else { arch(v) };
        Curve::stroked(points, v)
    }),
    ("cubics of fills: cusps and narrow loops", |v| Curve::filled(cusp(v), v)),
    ("quads of fills: points anywhere", |v| Curve::filled(anywhere(v, 3), v)),
    ("cubics of fills: points anywhere", |v| Curve::filled(anywhere(v, 4), v)),
];

fn unit(values: &mut Values) -> f32 {
    0.5 + values.within(0.5)
}

/// From 2^low on, so many doublings.
fn power(values: &mut Values, low: i32, doublings: u64) -> f32 {
    2f32.powi(low + values.below(doublings) as i32) * (1. + unit(values))
}

/// From 1 to 512.
fn size(values: &mut Values) -> f32 {
    power(values, 0, 9)
}

fn near(values: &mut Values, most: f32) -> Point {
    [values.within(most), values.within(most)]
}

/// So many points in a square.
fn anywhere(values: &mut Values, count: usize) -> Vec<Point> {
    let size = size(values);
    (0..count).map(|_| near(values, size)).collect()
}

/// Along the x axis, the control between the ends or above or below that.
fn bend(values: &mut Values) -> Vec<Point> {
    let size = size(values);
    vec![[0., 0.], [size * (0.1 + 0.8 * unit(values)), values.within(size)], [size, 0.]]
}

/// Along the x axis; the handles point forward.
fn arch(values: &mut Values) -> Vec<Point> {
    let size = size(values);
    let mut handle = || [size * (0.1 + 0.5 * unit(values)), values.within(0.6 * size)];
    let ([x1, y1], [x2, y2]) = (handle(), handle());
    vec![[0., 0.], [x1, y1], [size - x2, y2], [size, 0.]]
}

/// A cusp one time in four, else nearly one, with or without a loop; then the end is cut off, so that it lies anywhere.
fn cusp(values: &mut Values) -> Vec<Point> {
    let (size, most) = (size(values), power(values, -12, 11));
    let off = if values.once_in(4) { 0. } else { values.within(most) };
    let mut points = vec![[0., 0.], [size * (1. + off), size], [-size * off, size], [size, 0.]];
    let t = if values.once_in(4) { 1. } else { 0.55 + 0.45 * unit(values) };
    for first in 1..4 {
        for i in (first..4).rev() {
            points[i] = [0, 1].map(|axis| points[i - 1][axis] + (points[i][axis] - points[i - 1][axis]) * t);
        }
    }
    points
}

/// Scales by 1/4 to 8, turns, often turns over, sometimes stretches up to twofold, and moves by up to 4,096. Not by std's
/// sine: a curve must be the same on every machine.
fn transform(values: &mut Values) -> [f32; 6] {
    let scale = power(values, -2, 5);
    let t = values.within(1.);
    let (cos, sin) = ((1. - t * t) / (1. + t * t), 2. * t / (1. + t * t));
    let flip = if values.once_in(2) { scale } else { -scale };
    let stretch = if values.once_in(4) { 0.5 + 0.5 * unit(values) } else { 1. };
    let [x, y] = near(values, 4096.);
    [scale * cos, scale * sin, -flip * sin * stretch, flip * cos * stretch, x, y]
}

fn mix(a: Place, b: Place, t: f64) -> Place {
    [a[0] + (b[0] - a[0]) * t, a[1] + (b[1] - a[1]) * t]
}

impl Curve {
    fn filled(points: Vec<Point>, values: &mut Values) -> Self {
        Self { points, transform: transform(values), width: 0. }
    }

    /// As wide as 1/256 to 1/8 of the way from start to end, which is along the x axis.
    fn stroked(points: Vec<Point>, values: &mut Values) -> Self {
        let width = points[points.len() - 1][0] * power(values, -8, 5);
        Self { points, transform: transform(values), width }
    }

    /// The curve of a kind, the same at every run.
    pub fn of((_, make): &Kind, seed: u64, index: u64) -> Self {
        make(&mut Values::at(seed, index))
    }

    fn applied(&self, [x, y]: Place) -> Place {
        let z = self.transform.map(f64::from);
        [z[0] * x + z[2] * y + z[4], z[1] * x + z[3] * y + z[5]]
    }

    /// The exact curve at t from 0 to 1, so far to the left before the transform: by de Casteljau, in f64.
    pub fn at(&self, t: f64, offset: f64) -> Place {
        let mut points = [[0.; 2]; 4];
        let mut count = self.points.len();
        for (place, p) in points.iter_mut().zip(&self.points) {
            *place = p.map(f64::from);
        }
        while count > 2 {
            count -= 1;
            (0..count).for_each(|i| points[i] = mix(points[i], points[i + 1], t));
        }
        let [x, y] = mix(points[0], points[1], t);
        if offset == 0. {
            return self.applied([x, y]);
        }
        let (dx, dy) = (points[1][0] - points[0][0], points[1][1] - points[0][1]);
        let k = offset / dx.hypot(dy);
        self.applied([x - k * dy, y + k * dx])
    }

    /// The lines that the library stores for it alone.
    fn lines(&self) -> Vec<[Place; 2]> {
        let outline = Outline { start: self.points[0], segments: vec![self.points[1..].to_vec()] };
        let mut draft = Draft::default();
        if self.width == 0. {
            draft.begin_under(self.transform, FILL, 0.);
            draft.filled(&outline);
        } else {
            draft.begin_under(self.transform, BEVEL, self.width);
            draft.open_stroke(&outline);
        }
        draft.end();
        let sheet = draft.encoded();
        let (mut prefixes, mut words) = ([0; 256], vec![0; 6 * ROOM]);
        hinthevoun::scan(&sheet.scene, 0, &mut prefixes).expect("a curve can be scanned");
        let count = hinthevoun::flatten(sheet.layout, &sheet.scene, &prefixes, &mut [PathBox::EMPTY], &mut words);
        let (records, _) = words[..6 * count.expect("a curve is accepted") as usize].as_chunks::<6>();
        let place = |x, y| [x, y].map(|bits| f64::from(f32::from_bits(bits)));
        records.iter().map(|w| [place(w[2], w[3]), place(w[4], w[5])]).collect()
    }

    /// The chain of a fill, or the two of a stroke without its caps. Of these the second is stored backward.
    pub fn sides(&self) -> Vec<Side> {
        let lines = self.lines();
        let broken = lines.windows(2).position(|pair| pair[0][1] != pair[1][0]);
        let forth = &lines[..broken.map_or(lines.len(), |last| last + 1)];
        let offset = 0.5 * f64::from(self.width);
        let mut sides = vec![Side { offset, chain: chain_of(forth[0][0], forth.iter().map(|line| line[1])) }];
        if self.width > 0. {
            // a line of each cap stands behind the sides
            let back = &lines[forth.len()..lines.len() - 2];
            assert!(back.windows(2).all(|pair| pair[0][0] == pair[1][1]), "a side is one chain");
            sides.push(Side { offset: -offset, chain: chain_of(back[0][1], back.iter().map(|line| line[0])) });
        }
        sides
    }
}

fn chain_of(first: Place, rest: impl Iterator<Item = Place>) -> Vec<Place> {
    [first].into_iter().chain(rest).collect()
}
