//! counted [JOB CALLS]: does a job so many times, and prints its name, how much a call has to do and of what; without
//! words, how many jobs there are. `tools/instructions` counts what they take. Nothing of the published Rust is in here.

mod calls;
mod desk;
// The sheets are the oracle's own, of which not all is used here.
#[allow(dead_code)]
#[path = "../../src/drafts.rs"]
mod drafts;
#[allow(dead_code)]
#[path = "../../src/shapes.rs"]
mod shapes;
#[allow(dead_code)]
#[path = "../../src/tags.rs"]
mod tags;
#[allow(dead_code)]
#[path = "../../src/values.rs"]
mod values;

use drafts::KINDS;

/// What is counted: a call, and of how many lines, bytes, records, tags or points it is.
pub struct Job {
    name: &'static str,
    units: usize,
    unit: &'static str,
    call: Box<dyn FnMut()>,
}

impl Job {
    pub fn new(name: &'static str, units: usize, unit: &'static str, call: impl FnMut() + 'static) -> Self {
        Self { name, units, unit, call: Box::new(call) }
    }
}

/// Behind the sheets: every exported function that works on a list or a text, and the whole way's parts one by one.
const CALLS: [fn() -> Job; 13] = [
    calls::scan,
    calls::profile,
    calls::check_outline,
    calls::check_zeros,
    calls::check_paths,
    calls::mend,
    calls::to_f32,
    calls::to_i16,
    calls::import,
    calls::cut,
    calls::read_cut,
    calls::whole,
    calls::parts,
];

fn job(k: usize) -> Job {
    if k < KINDS.len() { desk::sheet(k) } else { CALLS[k - KINDS.len()]() }
}

fn main() {
    let words: Vec<usize> = std::env::args().skip(1).map(|word| word.parse().expect("a number")).collect();
    match words.as_slice() {
        [] => println!("{}", KINDS.len() + CALLS.len()),
        &[k, calls] => {
            let mut job = job(k);
            (0..calls).for_each(|_| (job.call)());
            println!("{}: {} {}", job.name, job.units, job.unit);
        }
        _ => panic!("usage: counted [JOB CALLS]"),
    }
}
