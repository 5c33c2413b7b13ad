//! The smallest inputs at which this and the published Rust differ: of each mathematical function against std's, and of
//! the whole call with either.

use published::ours::Ours;

use crate::scenes::scene;
use crate::sheet::Sheet;
use crate::shrink::shrink;
use crate::stops::Stop;
use crate::whole::{Given, Main};

/// A name, ours, and std's.
type Function = (&'static str, fn(f32) -> f32, fn(f32) -> f32);

const FUNCTIONS: [Function; 11] = [
    ("sqrt(x)", |x| Ours::sqrt(x), |x| x.sqrt()),
    ("cbrt(x)", |x| Ours::cbrt(x), |x| x.cbrt()),
    ("powf(x, 2. / 3.)", |x| Ours::powf(x, 2. / 3.), |x| x.powf(2. / 3.)),
    ("powi(x, 2)", |x| Ours::powi(x, 2), |x| x.powi(2)),
    ("powi(x, 5)", |x| Ours::powi(x, 5), |x| x.powi(5)),
    ("hypot(x, 1.)", |x| Ours::hypot(x, 1.), |x| x.hypot(1.)),
    ("sin(x)", |x| Ours::sin(x), |x| x.sin()),
    ("cos(x)", |x| Ours::cos(x), |x| x.cos()),
    ("atan2(x, 1.)", |x| Ours::atan2(x, 1.), |x| x.atan2(1.)),
    ("asin(x)", |x| Ours::asin(x), |x| x.asin()),
    ("acos(x)", |x| Ours::acos(x), |x| x.acos()),
];

fn same(a: f32, b: f32) -> bool {
    a.to_bits() == b.to_bits() || a.is_nan() && b.is_nan()
}

/// The least number, from 0 up, at which the two differ.
fn show_function((name, ours, stds): &Function) {
    let mut numbers = (0..=f32::INFINITY.to_bits()).map(f32::from_bits);
    match numbers.find(|x| !same(ours(*x), stds(*x))) {
        Some(x) => {
            let [x, ours, stds] = [x, ours(x), stds(x)].map(f32::to_bits);
            println!("{name}: x = {x:08x}: here {ours:08x}, std {stds:08x}");
        }
        None => println!("{name}: nowhere from 0 to infinity"),
    }
}

/// What is told and stored with room enough: by the published Rust with our mathematics, or with std's.
fn lines_of(main: Main, given: &Given) -> (u32, Vec<[u32; 6]>) {
    let mut sheet = Sheet::new(&given.lines);
    let (stop, _) = given.call(main, given.n_wg, &mut given.boxes.clone(), sheet.lines());
    (stop.number, sheet.stored_from(0))
}

/// Both accept it, and other lines are stored.
fn lines_differ(given: &Given) -> bool {
    let (ours, stds) = (lines_of(published::reach_main, given), lines_of(shipped::reach_main, given));
    ours.0 == 0 && stds.0 == 0 && ours.1 != stds.1
}

/// An address passes 2^32 - 1: a panic only where overflow is looked for.
fn address_wraps(given: &Given) -> bool {
    lines_of(published::reach_main, given).0 == 2 && lines_of(shipped::reach_main, given).0 == 0
}

/// Shows the smallest call for which something holds.
fn show_call(name: &str, holds: &dyn Fn(&Given) -> bool) {
    let first = (0..).map(|index| scene(1, index).given).find(|given| holds(given));
    println!("{name}:");
    shrink(&first.expect("there are more scenes"), holds).show();
}

pub fn show_functions() {
    FUNCTIONS.iter().for_each(show_function);
}

pub fn show_calls() {
    show_call("other lines than with std's mathematics", &lines_differ);
    show_call("accepted by the Rust without overflow checks", &address_wraps);
    for number in 1..=9 {
        let ends = if number == 5 { 1..=2 } else { 0..=0 };
        for stop in ends.map(|end| Stop { number, end }) {
            show_call(&format!("refusal {number}, end {}", stop.end), &|given| given.told(0).stop == stop);
        }
    }
}
