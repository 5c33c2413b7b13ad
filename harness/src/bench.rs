//! Nanoseconds a call, beside Rust's own functions. Nothing is asserted.
//!
//! Arguments are random, so no branch can be foreseen. Independent calls may overlap in the processor; of dependent
//! calls each waits for the answer before it. The best of many short rounds counts, so that other work on the machine
//! disturbs little.

use crate::ffi;
use crate::random::Random;
use std::hint::black_box;
use std::ops::Range;
use std::time::Instant;

const CALLS: usize = 20_000;
const ROUNDS: usize = 200;

type Pairs = Vec<[f32; 2]>;

pub fn run() {
    println!("ns a call              independent           dependent");
    println!("                       ours     Rust         ours     Rust");
    let sizes = pairs(|r| of_exponents(107..147, r).abs());
    let alike = pairs(|r| of_exponents(125..129, r));
    let subnormal = pairs(|r| f32::from_bits(r.word() % (1 << 23)));
    row("sqrt", &sizes, |x, _| ffi::sqrt(x), |x, _| x.sqrt());
    row("sqrt, subnormal", &subnormal, |x, _| ffi::sqrt(x), |x, _| x.sqrt());
    row("hypot", &sizes, ffi::hypot, f32::hypot);
    row("hypot, like sizes", &alike, ffi::hypot, f32::hypot);
    for (kind, inputs) in [("", &sizes), (", subnormal", &subnormal)] {
        row(&format!("cbrt{kind}"), inputs, |x, _| ffi::cbrt(x), |x, _| x.cbrt());
        row(&format!("two_thirds{kind}"), inputs, |x, _| ffi::two_thirds(x), |x, _| x.powf(2. / 3.));
    }
    trig(&alike);
}

fn trig(alike: &Pairs) {
    use std::f32::consts::PI;
    let up_to = |limit: f32| pairs(move |r| (r.below(1 << 24) as f32 / (1 << 23) as f32 - 1.0) * limit);
    let large = pairs(|r| of_exponents(138..226, r));
    for (range, angles) in [("to 0.7", up_to(0.7)), ("to π", up_to(PI)), ("to 1024", up_to(1024.)), ("to 1e30", large)]
    {
        row(&format!("sin {range}"), &angles, |x, _| ffi::sin(x), |x, _| x.sin());
        row(&format!("cos {range}"), &angles, |x, _| ffi::cos(x), |x, _| x.cos());
    }
    let ratios = up_to(1.0);
    row("asin", &ratios, |x, _| ffi::asin(x), |x, _| x.asin());
    row("acos", &ratios, |x, _| ffi::acos(x), |x, _| x.acos());
    row("atan2", alike, ffi::atan2, f32::atan2);
}

/// A random float with its exponent field in this range.
fn of_exponents(fields: Range<u32>, random: &mut Random) -> f32 {
    let field = fields.start + random.below(fields.len() as u64) as u32;
    f32::from_bits(random.with_exponent(field))
}

fn pairs(number: impl Fn(&mut Random) -> f32) -> Pairs {
    let mut random = Random::seeded(1);
    (0..CALLS).map(|_| [number(&mut random), number(&mut random)]).collect()
}

fn row(name: &str, inputs: &Pairs, ours: impl Fn(f32, f32) -> f32, stock: impl Fn(f32, f32) -> f32) {
    let mut best = [f64::MAX; 4];
    for _ in 0..ROUNDS {
        let now = [
            independent(inputs, &ours),
            independent(inputs, &stock),
            dependent(inputs, &ours),
            dependent(inputs, &stock),
        ];
        for (best, now) in best.iter_mut().zip(now) {
            *best = best.min(now);
        }
    }
    let [a, b, c, d] = best;
    println!("{name:<22} {a:>5.1}    {b:>5.1}        {c:>5.1}    {d:>5.1}");
}

fn independent(inputs: &Pairs, call: impl Fn(f32, f32) -> f32) -> f64 {
    timed(|| {
        for &[x, y] in inputs {
            black_box(call(x, y));
        }
    })
}

/// The last answer goes into the next argument under a mask of zeros, which the compiler does not know to be zeros.
fn dependent(inputs: &Pairs, call: impl Fn(f32, f32) -> f32) -> f64 {
    let mask = black_box(0);
    timed(|| {
        let mut last = 0;
        for &[x, y] in inputs {
            last = call(f32::from_bits(x.to_bits() ^ last), y).to_bits() & mask;
        }
        black_box(last);
    })
}

fn timed(calls: impl Fn()) -> f64 {
    let start = Instant::now();
    calls();
    start.elapsed().as_secs_f64() * 1e9 / CALLS as f64
}
