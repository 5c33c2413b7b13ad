//! What the port refuses, the published Rust panics at. The refusal's number is told by the line of the text where the
//! panic is; which end of a line is no number, by the two points that the panic shows.

use std::cell::Cell;
use std::collections::HashMap;
use std::panic::{self, AssertUnwindSafe, PanicHookInfo};
use std::process;

/// What the line has in it, and the number.
const CAUSES: [(&str, u32); 14] = [
    ("&scene[config.layout.path_tag_base", 1),
    ("&scene[config.layout.path_data_base", 1),
    ("pathtags[ix >> 2]", 2),
    (STYLE_FLAGS, 2),
    ("scene[(config.layout.style_base + style_ix + 1)", 2),
    ("transform_base + ix * 6", 2),
    ("data[base + i]", 2),
    ("pathdata[ix as usize", 2),
    ("tag_monoids[ix >> 2]", 3),
    (BOX, 4),
    ("assert!(!n.is_nan())", 8),
    ("assert!(", 5),
    ("lines[line_ix] =", 6),
    ("unreachable!()", 7),
];

/// Behind the tag itself, these two are looked at before its transform.
const STYLE_FLAGS: &str = "scene[(config.layout.style_base.wrapping_add(style_ix))";
const BOX: &str = "&mut path_bboxes[path_ix as usize]";

/// A refusal's number and, with 5, the line's end that is no number: 1 the start, 2 the end; else 0.
#[derive(Clone, Copy, Debug, PartialEq, Eq)]
pub struct Stop {
    pub number: u32,
    pub end: u32,
}

impl Stop {
    /// The call came to its end.
    pub const NONE: Self = Self { number: 0, end: 0 };

    /// Both in one word: the number in the lowest byte, the end in the next.
    pub fn word(self) -> u32 {
        self.number | self.end << 8
    }
}

thread_local! {
    static STOP: Cell<Stop> = const { Cell::new(Stop::NONE) };
    static BEFORE_TRANSFORM: Cell<bool> = const { Cell::new(false) };
}

/// Before the first point of a line that is refused, and before the second.
const POINTS: [&str; 2] = ["wrote NaNs: p0: ", ", p1: "];

/// Which point of the line has a NaN, the first one first, from what the source says as it panics.
fn end_of(panic: &PanicHookInfo) -> u32 {
    let shown = panic.payload_as_str().expect("the source panics with a text");
    let points = shown.strip_prefix(POINTS[0]).and_then(|points| points.split_once(POINTS[1]));
    let (start, end) = points.expect("it shows both points");
    assert!(start.contains("NaN") || end.contains("NaN"));
    if start.contains("NaN") { 1 } else { 2 }
}

/// A file and a line of it, counted from 1, and of a panic there what the line has in it, and the number.
type Places = HashMap<(&'static str, u32), (&'static str, u32)>;

fn places() -> Places {
    let mut places = Places::new();
    let texts = published::TEXTS.into_iter().chain(shipped::TEXTS);
    for (file, text) in texts.chain([published::TAG_BY_TAG]) {
        for (line, i) in text.lines().zip(1..) {
            if let Some(cause) = CAUSES.iter().find(|(part, _)| line.contains(part)) {
                places.insert((file, i), *cause);
            }
        }
    }
    places
}

/// A panic anywhere else ends the program.
fn note(places: &Places, panic: &PanicHookInfo) {
    match panic.location().and_then(|place| places.get(&(place.file(), place.line()))) {
        Some(&(part, number)) => {
            STOP.set(Stop { number, end: if number == 5 { end_of(panic) } else { 0 } });
            BEFORE_TRANSFORM.set([STYLE_FLAGS, BOX].contains(&part));
        }
        None => {
            eprintln!("{panic}");
            process::exit(3);
        }
    }
}

/// To be called before the published Rust is.
pub fn watch() {
    let places = places();
    panic::set_hook(Box::new(move |panic| note(&places, panic)));
}

/// The refusal that the panic stands for, if there is one. What the call was lent stays as the panic left it.
pub fn stop_of(call: impl FnOnce()) -> Stop {
    match panic::catch_unwind(AssertUnwindSafe(call)) {
        Ok(()) => Stop::NONE,
        Err(_) => STOP.get(),
    }
}

/// Of the last panic, whether it was at the style or the box of a tag.
pub fn before_transform() -> bool {
    BEFORE_TRANSFORM.get()
}
