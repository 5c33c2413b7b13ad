//! Writes the list that crates/replay_spiral replays: a line for each call of the published Rust, its answer with it.

use published::calls::{Numbers, answer, fitted};

use crate::values::Values;

/// The calls, by the number that a line begins with, with how many numbers each takes.
const CALLS: [(u32, usize); 21] = [
    (1, 4),   // add
    (2, 4),   // sub
    (3, 3),   // mul
    (4, 3),   // div
    (5, 2),   // neg
    (6, 4),   // dot
    (7, 2),   // length
    (8, 2),   // length_squared
    (9, 5),   // mix
    (10, 2),  // normalize
    (11, 2),  // atan2
    (12, 2),  // is_nan
    (13, 4),  // eq
    (14, 8),  // apply
    (15, 2),  // apply of identity
    (16, 9),  // CubicParams::from_points_derivs
    (17, 2),  // EulerParams::from_angles
    (18, 5),  // EulerParams::eval_th
    (19, 10), // EulerSeg::eval_with_offset
    (20, 1),  // espc_int_approx
    (21, 1),  // espc_int_inv_approx
];

/// A call, its ten numbers, and the four of its answer, zeros where it has fewer. A NaN is written in one way.
fn line(call: u32, given: &Numbers) -> String {
    let word = |x: &f32| if x.is_nan() { 0x7fc0_0000 } else { x.to_bits() };
    std::iter::once(call)
        .chain(given.iter().map(word))
        .chain(answer(call, given).iter().map(word))
        .map(|w| format!("{w:08x}"))
        .collect::<Vec<_>>()
        .join(" ")
}

/// As it comes up in flattening: points and tangents of a curve, the fitted spiral, fractions of it.
fn usual(values: &mut Values, call: u32) -> Numbers {
    let mut v: Numbers = std::array::from_fn(|_| values.within(64.));
    match call {
        16 => {
            v[8] = 1. / (1u32 << values.below(17)) as f32;
            match values.below(8) {
                // no chord, a short one, and tangents that turn back
                0 => (v[2], v[3]) = (v[0], v[1]),
                1 => (v[2], v[3]) = (v[0] + values.within(4e-6), v[1] + values.within(4e-6)),
                2 => (v[6], v[7]) = (-v[4], -v[5]),
                _ => (),
            }
        }
        17 => (v[0], v[1]) = (values.within(3.), values.within(3.)),
        18 | 19 => {
            let spiral = fitted(values.within(1.5), values.within(1.5));
            v[..4].copy_from_slice(&spiral);
            let t = values.below(17) as f32 / 16.;
            (v[4], v[8], v[9]) = (if call == 18 { t } else { v[4] }, t, values.within(2.));
        }
        20 | 21 => v[0] = values.within(3.),
        _ => (),
    }
    v
}

/// The bounds of the two approximations and their neighbours, of both signs.
fn near_bounds() -> Vec<f32> {
    let bounds =
        [0.8f32, 1.25, 2.1, 1., 0.7010707591262915, 0.903249293595206, 2.038857793595206, std::f32::consts::FRAC_PI_4];
    let near = |x: f32| [x.next_down(), x, x.next_up()];
    bounds.into_iter().flat_map(near).flat_map(|x| [x, -x]).collect()
}

pub fn list() {
    let mut values = Values::new();
    for (call, takes) in CALLS {
        let only = |mut v: Numbers| {
            v[takes..].fill(0.);
            println!("{}", line(call, &v));
        };
        let many = if call < 16 { 9 } else { 32 };
        for _ in 0..many {
            only(usual(&mut values, call));
        }
        for _ in 0..many {
            only(std::array::from_fn(|_| values.any()));
        }
        if call >= 20 {
            near_bounds().into_iter().for_each(|x| only([x; 10]));
        }
    }
}
