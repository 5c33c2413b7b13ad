//! A picture of one curve: what is drawn for it beside the exact curve, whole and where they lie furthest apart.

use crate::curves::{Curve, KINDS, Place, Side};
use crate::distance::{foot, of_side, samples, to_chain};

const EXACT: &str = "#0072b2";
const DRAWN: &str = "#d97f26";
const RED: &str = "#d00000";
/// The side of a panel, and what is left free around both.
const SIZE: f64 = 360.;
const MARGIN: f64 = 30.;

/// A square part of the device.
struct Panel {
    centre: Place,
    scale: f64,
}

impl Panel {
    /// All of the places, with a little around them.
    fn around(places: &[Place]) -> Self {
        let ends = |axis: usize| {
            let along = || places.iter().map(|place| place[axis]);
            (along().fold(f64::INFINITY, f64::min), along().fold(f64::NEG_INFINITY, f64::max))
        };
        let ((x0, x1), (y0, y1)) = (ends(0), ends(1));
        let longest = (x1 - x0).max(y1 - y0);
        Self { centre: [(x0 + x1) / 2., (y0 + y1) / 2.], scale: 0.9 * SIZE / longest }
    }

    fn at(&self, [x, y]: Place) -> Place {
        [(x - self.centre[0]) * self.scale + SIZE / 2., (y - self.centre[1]) * self.scale + SIZE / 2.]
    }

    fn way(&self, places: &[Place], colour: &str, width: f64) -> String {
        let points: Vec<_> =
            places.iter().map(|place| self.at(*place)).map(|[x, y]| format!("{x:.2} {y:.2}")).collect();
        let points = points.join(" ");
        format!("<path d=\"M{points}\" fill=\"none\" stroke=\"{colour}\" stroke-width=\"{width}\"/>\n")
    }

    fn dots(&self, places: &[Place], colour: &str) -> String {
        let dot = |[x, y]: Place| format!("<circle cx=\"{x:.2}\" cy=\"{y:.2}\" r=\"3\" fill=\"{colour}\"/>\n");
        places.iter().map(|place| dot(self.at(*place))).collect()
    }

    /// Of what is drawn only that on the panel is seen.
    fn drawn(&self, left: f64, exact: &[Place], chain: &[Place], gap: &[Place; 2]) -> String {
        let frame = format!(
            "<svg x=\"{left}\" y=\"{}\" width=\"{SIZE}\" height=\"{SIZE}\">\n\
             <rect width=\"{SIZE}\" height=\"{SIZE}\" fill=\"none\" stroke=\"#999999\"/>\n",
            3. * MARGIN
        );
        let [x, y] = self.at(gap[0]);
        let ring = format!("<circle cx=\"{x:.2}\" cy=\"{y:.2}\" r=\"10\" fill=\"none\" stroke=\"{RED}\"/>\n");
        let lines = self.way(chain, DRAWN, 2.) + &self.dots(chain, DRAWN);
        frame + &self.way(exact, EXACT, 2.) + &lines + &self.way(gap, RED, 2.) + &ring + "</svg>\n"
    }
}

fn text(x: f64, y: f64, words: &str, colour: &str) -> String {
    format!("<text x=\"{x}\" y=\"{y}\" font-family=\"sans-serif\" font-size=\"14\" fill=\"{colour}\">{words}</text>\n")
}

/// Where a place lies furthest off, and the point of the other that is nearest to it.
fn gap(place: Place, chain: &[Place], exact: &[Place]) -> [Place; 2] {
    let nearest = |places: &[Place]| {
        let mut line = 0;
        let distance = to_chain(place, places, &mut line, -1.);
        (distance, foot(place, places[line], places[line + 1]))
    };
    let (to_lines, to_exact) = (nearest(chain), nearest(exact));
    [place, if to_lines.0 > to_exact.0 { to_lines.1 } else { to_exact.1 }]
}

/// The side that lies furthest off, of the curve of a kind with a number.
fn worst(kind: usize, seed: u64, index: u64) -> (Curve, Side, f64, Place) {
    let curve = Curve::of(&KINDS[kind], seed, index);
    let sides = curve.sides().into_iter().map(|side| (of_side(&curve, &side), side));
    let ((distance, place), side) = sides.max_by(|a, b| a.0.0.total_cmp(&b.0.0)).expect("a curve has a side");
    (curve, side, distance, place)
}

/// An SVG file.
pub fn draw(kind: usize, seed: u64, index: u64) -> String {
    let (curve, Side { offset, chain }, distance, place) = worst(kind, seed, index);
    let exact: Vec<Place> = samples(&curve, offset).iter().map(|sample| sample.1).collect();
    let gap = gap(place, &chain, &exact);
    let whole = Panel::around(&[&exact[..], &chain[..]].concat());
    let near = Panel { centre: place, scale: SIZE / (8. * distance) };
    let (width, height) = (2. * SIZE + 3. * MARGIN, SIZE + 5. * MARGIN);
    let right = SIZE + 2. * MARGIN;
    let lines = if chain.len() == 2 { "1 line".into() } else { format!("{} lines", chain.len() - 1) };
    let told = format!("{}: number {index} of seed {seed}, {lines}", KINDS[kind].0);
    let scales = [&whole, &near].map(|panel| format!("this square is {:.3} units wide", SIZE / panel.scale));
    format!(
        "<svg xmlns=\"http://www.w3.org/2000/svg\" width=\"{width}\" height=\"{height}\" viewBox=\"0 0 {width} {height}\">\n\
         <rect width=\"{width}\" height=\"{height}\" fill=\"white\"/>\n"
    ) + &text(MARGIN, MARGIN, &told, "#222222")
        + &text(MARGIN, 2. * MARGIN, "the exact curve", EXACT)
        + &text(MARGIN + 130., 2. * MARGIN, "the lines drawn", DRAWN)
        + &text(MARGIN + 260., 2. * MARGIN, &format!("furthest apart: {distance:.3} units"), RED)
        + &whole.drawn(MARGIN, &exact, &chain, &gap)
        + &near.drawn(right, &exact, &chain, &gap)
        + &text(MARGIN, SIZE + 4. * MARGIN, &scales[0], "#555555")
        + &text(right, SIZE + 4. * MARGIN, &scales[1], "#555555")
        + "</svg>\n"
}
