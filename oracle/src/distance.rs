//! How far drawn lines lie from the exact curve: the greatest distance from a point of either to the other.
//! docs/ORACLE.md says how it is measured.

use std::thread;

use crate::curves::{Curve, KINDS, Kind, Place, Side};

/// The middle of each piece between two samples of an exact curve lies nearer to the straight than this.
const FLAT: f64 = 1. / 1024.;
/// An exact curve is halved at least and at most so often.
const HALVINGS: std::ops::Range<u32> = 5..16;
/// A line is looked at in so many places.
const PER_LINE: usize = 8;

/// How far, and at which part of what it was looked for along.
#[derive(Clone, Copy)]
struct Far {
    distance: f64,
    part: f64,
}

fn between(a: Place, b: Place) -> f64 {
    let (dx, dy) = (b[0] - a[0], b[1] - a[1]);
    (dx * dx + dy * dy).sqrt()
}

/// The point of a line that is nearest to a point.
pub fn foot(p: Place, a: Place, b: Place) -> Place {
    let (dx, dy) = (b[0] - a[0], b[1] - a[1]);
    let long = dx * dx + dy * dy;
    let along = (p[0] - a[0]) * dx + (p[1] - a[1]) * dy;
    let t = if long > 0. { (along / long).clamp(0., 1.) } else { 0. };
    [a[0] + t * dx, a[1] + t * dy]
}

fn to_line(p: Place, a: Place, b: Place) -> f64 {
    between(p, foot(p, a, b))
}

/// From a point to the nearest line of a chain, or to one that is near enough. Looks first where the last was found.
pub fn to_chain(p: Place, chain: &[Place], found: &mut usize, enough: f64) -> f64 {
    let lines = chain.len() - 1;
    let mut nearest = f64::INFINITY;
    let from = *found;
    for step in 0..=lines {
        let sides = [from.checked_sub(step), Some(from + step).filter(|_| step > 0)];
        for line in sides.into_iter().flatten().filter(|line| *line < lines) {
            let distance = to_line(p, chain[line], chain[line + 1]);
            if distance < nearest {
                (nearest, *found) = (distance, line);
            }
            if nearest <= enough {
                return nearest;
            }
        }
    }
    nearest
}

/// Of points along something, with their parts of it, the one furthest from a chain.
fn furthest(points: &[(f64, Place)], chain: &[Place]) -> Far {
    let (mut worst, mut found) = (Far { distance: -1., part: 0. }, 0);
    for (part, p) in points {
        let distance = to_chain(*p, chain, &mut found, worst.distance);
        if distance > worst.distance {
            worst = Far { distance, part: *part };
        }
    }
    worst
}

/// Where a function is greatest around x, by golden section; of what it was at x and what it is there, the greater.
fn refined(Far { distance, part }: Far, around: f64, at: impl Fn(f64) -> f64) -> Far {
    const GOLDEN: f64 = 0.618_033_988_749_894_9;
    let (mut low, mut high) = ((part - around).max(0.), (part + around).min(1.));
    for _ in 0..32 {
        let (left, right) = (high - GOLDEN * (high - low), low + GOLDEN * (high - low));
        if at(left) < at(right) {
            low = left;
        } else {
            high = right;
        }
    }
    let there = (low + high) / 2.;
    let found = at(there);
    if found > distance { Far { distance: found, part: there } } else { Far { distance, part } }
}

/// Samples of the exact curve between two parts of it, without the first.
fn sample(curve: &Curve, offset: f64, from: (f64, Place), to: (f64, Place), halved: u32, into: &mut Vec<(f64, Place)>) {
    let t = (from.0 + to.0) / 2.;
    let middle = (t, curve.at(t, offset));
    let is_flat = to_line(middle.1, from.1, to.1) < FLAT;
    if halved >= HALVINGS.end || halved >= HALVINGS.start && is_flat {
        into.push(to);
    } else {
        sample(curve, offset, from, middle, halved + 1, into);
        sample(curve, offset, middle, to, halved + 1, into);
    }
}

/// Samples of the whole exact curve, each with its t.
pub fn samples(curve: &Curve, offset: f64) -> Vec<(f64, Place)> {
    let ends = [0., 1.].map(|t| (t, curve.at(t, offset)));
    let mut samples = vec![ends[0]];
    sample(curve, offset, ends[0], ends[1], 0, &mut samples);
    samples
}

/// A place on a chain, at a part of its lines' number.
fn along(chain: &[Place], part: f64) -> Place {
    let lines = chain.len() - 1;
    let place = part * lines as f64;
    let line = (place as usize).min(lines - 1);
    let (a, b, t) = (chain[line], chain[line + 1], place - line as f64);
    [a[0] + (b[0] - a[0]) * t, a[1] + (b[1] - a[1]) * t]
}

/// From a point to the exact curve: the nearest piece between samples first, then along this piece.
fn to_curve(p: Place, curve: &Curve, offset: f64, samples: &[(f64, Place)], exact: &[Place]) -> f64 {
    let mut piece = 0;
    to_chain(p, exact, &mut piece, -1.);
    let (from, to) = (samples[piece].0, samples[piece + 1].0);
    let middle = Far { distance: f64::NEG_INFINITY, part: (from + to) / 2. };
    -refined(middle, (to - from) / 2., |t| -between(p, curve.at(t, offset))).distance
}

/// Where a side and the exact curve lie furthest from each other: how far, and the place, which is on either.
pub fn of_side(curve: &Curve, Side { offset, chain }: &Side) -> (f64, Place) {
    let samples = samples(curve, *offset);
    let exact: Vec<Place> = samples.iter().map(|sample| sample.1).collect();
    let to_lines = |t| to_chain(curve.at(t, *offset), chain, &mut 0, -1.);
    let step = |part: f64| {
        let i = samples.partition_point(|sample| sample.0 < part);
        samples[(i + 1).min(samples.len() - 1)].0 - samples[i.saturating_sub(1)].0
    };
    let off_lines = furthest(&samples, chain);
    let off_lines = refined(off_lines, step(off_lines.part), to_lines);

    let places = (chain.len() - 1) * PER_LINE;
    let on_lines: Vec<_> = (0..=places).map(|i| i as f64 / places as f64).map(|s| (s, along(chain, s))).collect();
    let off_curve = furthest(&on_lines, &exact);
    if off_curve.distance <= off_lines.distance + FLAT {
        return (off_lines.distance, curve.at(off_lines.part, *offset));
    }
    let to_exact = |s| to_curve(along(chain, s), curve, *offset, &samples, &exact);
    let off_curve = Far { distance: to_exact(off_curve.part), ..off_curve };
    let off_curve = refined(off_curve, 1. / places as f64, to_exact);
    (off_curve.distance, along(chain, off_curve.part))
}

/// What is told of the curves of a kind.
#[derive(Default)]
pub struct Tally {
    /// Of each curve.
    pub distances: Vec<f64>,
    pub worst: f64,
    /// The curve's index.
    pub at: u64,
}

impl Tally {
    fn take(&mut self, kind: &Kind, seed: u64, index: u64) {
        let curve = Curve::of(kind, seed, index);
        let sides = curve.sides();
        let distance = sides.iter().map(|side| of_side(&curve, side).0).fold(0., f64::max);
        self.distances.push(distance);
        if distance > self.worst {
            (self.worst, self.at) = (distance, index);
        }
    }

    fn add(&mut self, other: Self) {
        self.distances.extend(other.distances);
        if other.worst > self.worst {
            (self.worst, self.at) = (other.worst, other.at);
        }
    }

    /// So many of a thousand curves are nearer.
    fn nearer(&mut self, of_thousand: usize) -> f64 {
        let place = (self.distances.len() - 1) * of_thousand / 1000;
        *self.distances.select_nth_unstable_by(place, f64::total_cmp).1
    }
}

/// So many curves of a kind, on every core.
pub fn tally(kind: &'static Kind, seed: u64, curves: u64) -> Tally {
    let threads = thread::available_parallelism().map_or(1, usize::from);
    let mut sum = Tally::default();
    let part = |from: usize| {
        let mut tally = Tally::default();
        (from as u64..curves).step_by(threads).for_each(|index| tally.take(kind, seed, index));
        tally
    };
    thread::scope(|scope| {
        let running: Vec<_> = (0..threads).map(|i| scope.spawn(move || part(i))).collect();
        running.into_iter().for_each(|part| sum.add(part.join().expect("a panic ends the program")));
    });
    sum
}

/// The table of docs/WORKSHOP.md.
pub fn show(seed: u64, curves: u64) {
    println!("| Curves | Half lie within | 999 in 1,000 within | Over a unit off | Greatest | Number |");
    println!("|---|---|---|---|---|---|");
    for kind in &KINDS {
        let mut tally = tally(kind, seed, curves);
        let (half, most) = (tally.nearer(500), tally.nearer(999));
        let over = tally.distances.iter().filter(|distance| **distance > 1.).count();
        println!("| {} | {half:.3} | {most:.3} | {over} | {:.3} | {} |", kind.0, tally.worst, tally.at);
    }
}

#[cfg(test)]
mod tests {
    use super::*;
    use crate::shapes::Point;

    fn fill(points: &[Point]) -> Curve {
        Curve { points: points.to_vec(), transform: [1., 0., 0., 1., 0., 0.], width: 0. }
    }

    fn measured(points: &[Point], chain: &[Place]) -> f64 {
        of_side(&fill(points), &Side { offset: 0., chain: chain.to_vec() }).0
    }

    /// A parabola with its top at (1, 1), and lines that are told by hand.
    #[test]
    fn known_distances() {
        let parabola = [[0., 0.], [1., 2.], [2., 0.]];
        assert!((measured(&parabola, &[[0., 0.], [2., 0.]]) - 1.).abs() < 1e-9);
        assert!((measured(&parabola, &[[0., 0.], [1., 3.], [2., 0.]]) - 2.).abs() < 1e-9);
        let half = measured(&parabola, &[[0., 0.], [1., 1.], [2., 0.]]);
        // half of the parabola is off by a quarter upward, seen from a line at 45 degrees
        assert!((half - 0.25 / 2f64.sqrt()).abs() < 1e-9, "{half}");
    }

    #[test]
    fn a_side_lies_to_the_left_before_the_transform() {
        let curve = Curve { transform: [2., 0., 0., -2., 10., 0.], ..fill(&[[0., 0.], [1., 0.], [2., 0.]]) };
        assert_eq!(curve.at(0.5, 0.), [12., 0.]);
        assert_eq!(curve.at(0.5, 0.25), [12., -0.5]);
    }

    /// What docs/WORKSHOP.md says of the curves that a workshop draws, on a few of them.
    #[test]
    fn lines_lie_near() {
        for kind in &KINDS[..3] {
            let tally = tally(kind, 1, 1000);
            assert!((0.4..0.75).contains(&tally.worst), "{}: {}, number {}", kind.0, tally.worst, tally.at);
        }
    }

    /// The two curves that docs/WORKSHOP.md shows.
    #[test]
    fn the_worst_are_those_drawn() {
        let figures = [
            (1, 738_239, include_str!("../../docs/figures/distance.svg")),
            (2, 170_716, include_str!("../../docs/figures/distance-stroke.svg")),
        ];
        for (kind, index, figure) in figures {
            let curve = Curve::of(&KINDS[kind], 1, index);
            let distance = curve.sides().iter().map(|side| of_side(&curve, side).0).fold(0., f64::max);
            let told = format!("furthest apart: {distance:.3} units");
            assert!(distance > 2. && figure.contains(&told), "{told}");
        }
    }

    /// Cut in two, the worst of the arches and S's is drawn well, and so is a hairpin.
    #[test]
    fn halves_lie_near() {
        for curve in [Curve::of(&KINDS[1], 1, 738_239), fill(&[[0., 0.], [200., 0.], [0.1, 0.]])] {
            for part in halves(&curve) {
                let distance = of_side(&part, &part.sides()[0]).0;
                assert!(distance < 0.22, "{part:?}: {distance}");
            }
        }
    }

    /// By de Casteljau's points at the middle.
    fn halves(curve: &Curve) -> [Curve; 2] {
        let mut points = curve.points.clone();
        let (mut left, mut right) = (Vec::new(), Vec::new());
        while let (Some(first), Some(last)) = (points.first(), points.last()) {
            left.push(*first);
            right.insert(0, *last);
            points = points.windows(2).map(|pair| [0, 1].map(|axis| (pair[0][axis] + pair[1][axis]) / 2.)).collect();
        }
        [left, right].map(|points| Curve { points, ..curve.clone() })
    }

    /// What docs/WORKSHOP.md warns of: a curve that comes back to within an eighth of a unit is taken for a short line.
    #[test]
    fn hairpins() {
        let lines_and_distance = |points: &[Point]| {
            let curve = fill(points);
            let side = &curve.sides()[0];
            (side.chain.len() - 1, of_side(&curve, side).0)
        };
        let (lines, distance) = lines_and_distance(&[[0., 0.], [200., 0.], [0.1, 0.]]);
        assert!(lines == 1 && distance > 99.9, "{lines} lines, {distance}");
        for end in [0., 0.2, 1.] {
            let (lines, distance) = lines_and_distance(&[[0., 0.], [200., 0.], [end, 0.]]);
            assert!(lines > 1 && distance < 0.5, "to {end}: {lines} lines, {distance}");
        }
    }
}
