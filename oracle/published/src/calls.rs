//! The functions of the published files that the lists call, by the numbers of docs/ORACLE.md.

use vello_encoding::LineSoup;

use crate::cpu::euler::{CubicParams, EulerParams, EulerSeg, espc_int_approx, espc_int_inv_approx};
pub use crate::cpu::flatten::Pen;
use crate::cpu::flatten::{reach_arc, reach_cap, reach_euler, reach_join};
use crate::cpu::util::{Transform, Vec2};

pub const ARC: u32 = 1;
pub const CAP: u32 = 2;
pub const JOIN: u32 = 3;
pub const EULER: u32 = 4;

/// Draws by the function of a kind. Flags are of caps and joins, the number is an arc's angle or a curve's offset.
#[allow(clippy::too_many_arguments)]
pub fn draw(
    kind: u32,
    path: u32,
    flags: u32,
    number: f32,
    transform: [f32; 6],
    points: [[f32; 2]; 6],
    pen: &mut Pen,
    lines: &mut [LineSoup],
) {
    let p = points.map(|[x, y]| Vec2::new(x, y));
    let z = Transform(transform);
    match kind {
        ARC => reach_arc(path, &p, number, &z, pen, lines),
        CAP => reach_cap(path, flags, &p, &z, pen, lines),
        JOIN => reach_join(path, flags, &p, &z, pen, lines),
        EULER => reach_euler(path, &p, number, &z, pen, lines),
        _ => unreachable!(),
    }
}

/// The first numbers are the call's own.
pub type Numbers = [f32; 10];

fn number(x: f32) -> [f32; 4] {
    [x, 0., 0., 0.]
}

fn point(v: Vec2) -> [f32; 4] {
    [v.x, v.y, 0., 0.]
}

fn truth(b: bool) -> [f32; 4] {
    number(f32::from(u8::from(b)))
}

fn params(e: EulerParams) -> [f32; 4] {
    [e.th0, e.k0, e.k1, e.ch]
}

fn spiral_of(v: &Numbers) -> EulerParams {
    EulerParams { th0: v[0], k0: v[1], k1: v[2], ch: v[3] }
}

/// The spiral fitted to two angles.
pub fn fitted(th0: f32, th1: f32) -> [f32; 4] {
    params(EulerParams::from_angles(th0, th1))
}

/// What a function of `util.rs` or `euler.rs` answers, zeros behind it.
pub fn answer(call: u32, v: &Numbers) -> [f32; 4] {
    let at = |i: usize| Vec2::new(v[i], v[i + 1]);
    let (p, q) = (at(0), at(2));
    match call {
        1 => point(p + q),
        2 => point(p - q),
        3 => point(p * v[2]),
        4 => point(p / v[2]),
        5 => point(-p),
        6 => number(p.dot(q)),
        7 => number(p.length()),
        8 => number(p.length_squared()),
        9 => point(p.mix(q, v[4])),
        10 => point(p.normalize()),
        11 => number(p.atan2()),
        12 => truth(p.is_nan()),
        13 => truth(p == q),
        14 => point(Transform([v[0], v[1], v[2], v[3], v[4], v[5]]).apply(at(6))),
        15 => point(Transform::identity().apply(p)),
        16 => {
            let c = CubicParams::from_points_derivs(p, q, at(4), at(6), v[8]);
            [c.th0, c.th1, c.chord_len, c.err]
        }
        17 => fitted(v[0], v[1]),
        18 => number(spiral_of(v).eval_th(v[4])),
        19 => point(EulerSeg::from_params(at(4), at(6), spiral_of(v)).eval_with_offset(v[8], v[9])),
        20 => number(espc_int_approx(v[0])),
        21 => number(espc_int_inv_approx(v[0])),
        _ => unreachable!(),
    }
}
