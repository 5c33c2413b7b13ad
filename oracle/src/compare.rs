//! Compares whole calls of the published Rust with the port's: the answers, every lent word, every box.

use std::collections::BTreeMap;
use std::thread;

use hinthevoun::{Layout, LineEnd, PathBox, Refusal};
use vello_encoding::PathBbox;

use crate::scenes::{Scene, scene};
use crate::shrink::shrink;
use crate::stops::Stop;
use crate::whole::{EMPTY_BOX, Given, Told, scan};

/// What stands behind each lent list, so that a store past the end is seen.
const GUARD: usize = 8;

fn guarded<T: Clone>(list: &[T], guard: T) -> Vec<T> {
    let mut list = list.to_vec();
    list.resize(list.len() + GUARD, guard);
    list
}

fn ours(b: &PathBbox) -> PathBox {
    PathBox { x0: b.x0, y0: b.y0, x1: b.x1, y1: b.y1, draw_flags: b.draw_flags, trans_ix: b.trans_ix }
}

/// What a call leaves, the guards with it.
#[derive(Debug, PartialEq, Eq)]
struct Left {
    stop: Stop,
    tag: u64,
    count: u64,
    words: Vec<u32>,
    boxes: Vec<PathBox>,
}

fn source_scan(given: &Given) -> Left {
    let mut prefixes = given.prefixes.clone();
    let (number, count) = scan(&given.scene, given.tag_base, &mut prefixes);
    Left { stop: Stop { number, end: 0 }, tag: 0, count, words: guarded(&prefixes, !0), boxes: Vec::new() }
}

fn port_scan(given: &Given) -> Left {
    let mut words = guarded(&given.prefixes, !0);
    let told = hinthevoun::scan(&given.scene, given.tag_base, &mut words[..given.prefixes.len()]);
    left(told.map(|count| count as u64), words, Vec::new())
}

/// The tags that the port told are where the source's are looked for first.
fn source_flatten(given: &Given, port: &Left) -> Left {
    let tags: Vec<_> = port.words.chunks_exact(6).take(port.count as usize).map(|line| line[1]).collect();
    let Told { stop, tag, count, lines, boxes } = given.told_with_tags(port.tag, &tags);
    Left { stop, tag, count, words: guarded(&lines, !0), boxes: boxes_of(&boxes) }
}

fn port_flatten(given: &Given) -> Left {
    let mut words = guarded(&given.lines, !0);
    let mut boxes = boxes_of(&given.boxes);
    let layout = Layout {
        n_wg: given.n_wg,
        tag_base: given.tag_base,
        data_base: given.data_base,
        transform_base: given.transform_base,
        style_base: given.style_base,
    };
    let lent_boxes = &mut boxes[..given.boxes.len()];
    let lent_words = &mut words[..given.lines.len()];
    let told = hinthevoun::flatten(layout, &given.scene, &given.prefixes, lent_boxes, lent_words);
    left(told.map(u64::from), words, boxes)
}

fn boxes_of(boxes: &[PathBbox]) -> Vec<PathBox> {
    guarded(boxes, EMPTY_BOX).iter().map(ours).collect()
}

fn left(told: Result<u64, Refusal>, words: Vec<u32>, boxes: Vec<PathBox>) -> Left {
    let (stop, tag, count) = match told {
        Ok(count) => (Stop::NONE, 0, count),
        Err(refusal) => (stop_of(refusal), refusal.tag, refusal.lines.into()),
    };
    Left { stop, tag, count, words, boxes }
}

fn stop_of(refusal: Refusal) -> Stop {
    let end = match refusal.end {
        None => 0,
        Some(LineEnd::Start) => 1,
        Some(LineEnd::End) => 2,
    };
    Stop { number: refusal.number, end }
}

/// What each leaves of a call.
struct Both {
    call: &'static str,
    source: Left,
    port: Left,
}

impl Both {
    fn scan(given: &Given) -> Self {
        Self { call: "scan", source: source_scan(given), port: port_scan(given) }
    }

    fn flatten(given: &Given) -> Self {
        let port = port_flatten(given);
        Self { call: "flatten", source: source_flatten(given, &port), port }
    }

    fn differ(&self) -> bool {
        self.source != self.port
    }
}

fn either_differs(given: &Given) -> bool {
    Both::scan(given).differ() || Both::flatten(given).differ()
}

fn first<T: PartialEq>(a: &[T], b: &[T]) -> Option<usize> {
    a.iter().zip(b).position(|(a, b)| a != b)
}

fn show(Both { call, source, port }: &Both) {
    for (who, left) in [("the published Rust", source), ("the port", port)] {
        let Stop { number, end } = left.stop;
        println!("  {call} by {who}: number {number}, end {end}, tag {}, count {}", left.tag, left.count);
    }
    if let Some(i) = first(&source.words, &port.words) {
        println!("  word {i}: {:08x}, {:08x}", source.words[i], port.words[i]);
    }
    if let Some(i) = first(&source.boxes, &port.boxes) {
        println!("  box {i}: {:?}, {:?}", source.boxes[i], port.boxes[i]);
    }
}

/// Shows the smallest call that differs, made from the one of a scene.
fn show_smallest(seed: u64, index: u64) {
    println!("scene {index} of seed {seed} differs; made as small as can be:");
    let small = shrink(&scene(seed, index).given, &either_differs);
    [Both::scan(&small), Both::flatten(&small)].iter().filter(|both| both.differ()).for_each(show);
    small.show();
}

#[derive(Default)]
struct Tally {
    /// By the source's number.
    numbers: [u64; 10],
    /// Of those with 5, at the start of a line and at its end.
    ends: [u64; 2],
    /// Refused behind a line.
    late: u64,
    lines: u64,
    /// Scenes with it, and those of them accepted.
    names: BTreeMap<&'static str, [u64; 2]>,
    differ: Vec<u64>,
}

impl Tally {
    fn take(&mut self, index: u64, Scene { given, mut names }: Scene) {
        let (scan, both) = (Both::scan(&given), Both::flatten(&given));
        let source = &both.source;
        self.numbers[source.stop.number as usize] += 1;
        if source.stop.end > 0 {
            self.ends[source.stop.end as usize - 1] += 1;
        }
        self.lines += source.count;
        self.late += u64::from(source.stop != Stop::NONE && source.count > 0);
        names.sort_unstable();
        names.dedup();
        for name in names {
            let [all, accepted] = self.names.entry(name).or_default();
            *all += 1;
            *accepted += u64::from(source.stop == Stop::NONE);
        }
        if scan.differ() || both.differ() {
            self.differ.push(index);
        }
    }

    fn add(&mut self, other: Self) {
        let counts = self.numbers.iter_mut().chain(&mut self.ends);
        for (sum, n) in counts.zip(other.numbers.into_iter().chain(other.ends)) {
            *sum += n;
        }
        self.late += other.late;
        self.lines += other.lines;
        for (name, [all, accepted]) in other.names {
            let sums = self.names.entry(name).or_default();
            *sums = [sums[0] + all, sums[1] + accepted];
        }
        self.differ.extend(other.differ);
    }
}

/// The scenes from one on, each so many behind the last.
fn tally(seed: u64, scenes: u64, from: usize, by: usize) -> Tally {
    let mut tally = Tally::default();
    for index in (from as u64..scenes).step_by(by) {
        tally.take(index, scene(seed, index));
    }
    tally
}

/// Makes so many scenes and compares both calls on each. Whether all is the same.
pub fn compare(seed: u64, scenes: u64, with_names: bool) -> bool {
    let threads = thread::available_parallelism().map_or(1, usize::from);
    let mut sum = Tally::default();
    thread::scope(|scope| {
        let spawn = |i: usize| scope.spawn(move || tally(seed, scenes, i, threads));
        let running: Vec<_> = (0..threads).map(spawn).collect();
        running.into_iter().for_each(|part| sum.add(part.join().expect("a panic ends the program")));
    });
    if with_names {
        sum.names.iter().for_each(|(name, [all, accepted])| println!("{all:10} {accepted:10}  {name}"));
    }
    if let Some(index) = sum.differ.iter().min() {
        show_smallest(seed, *index);
    }
    let [accepted, refused @ ..] = sum.numbers;
    println!("accepted {accepted}; refused with 1 to 9 {refused:?}, {} of them behind a line", sum.late);
    println!("5 at the start of a line {}, at its end {}", sum.ends[0], sum.ends[1]);
    println!("{} lines", sum.lines);
    println!("{scenes} scenes of seed {seed}, {} differ", sum.differ.len());
    sum.differ.is_empty()
}

#[cfg(test)]
mod tests {
    use std::f32::consts::TAU;

    use super::*;
    use crate::drafts::{BEVEL, Draft, FILL as FILLED, Outline};
    use crate::scenes::{EDGES, ROOMS, lend};
    use crate::shapes::Point;
    use crate::stops;
    use crate::values::Values;

    /// What the table of edges lacks: one more entry there would make other scenes of every seed.
    const TRANSFORMS_PAST_END: fn(&mut Values, &mut Given) = |_, g| g.transform_base = g.scene.len() as u32 + 1;

    /// Every edge with every room, on the same scenes.
    #[test]
    fn edges() {
        stops::watch();
        let values = &mut Values::from(1);
        let edges = EDGES.map(|entry| entry.1.1);
        for index in 0..40 {
            let given = scene(1, index).given;
            for change in edges.iter().chain([&TRANSFORMS_PAST_END]) {
                for (_, (name, room)) in ROOMS {
                    let mut at_edge = given.clone();
                    change(values, &mut at_edge);
                    lend(values, &mut at_edge, room);
                    assert!(!either_differs(&at_edge), "scene {index}, {name}: {at_edge:x?}");
                }
            }
        }
    }

    /// About a power of 2 between these.
    fn size(values: &mut Values, least: i32, most: i32) -> f32 {
        let power = least + values.below((most - least) as u64) as i32;
        (1.5 + values.within(0.5)) * (power as f32).exp2()
    }

    fn either(values: &mut Values, x: f32) -> f32 {
        if values.once_in(2) { x } else { -x }
    }

    /// A way of nearly straight segments of all three kinds.
    fn way(values: &mut Values, scale: f32) -> Outline {
        let start = [values.within(2000.) / scale, values.within(2000.) / scale];
        let mut at = start;
        let mut segment = |values: &mut Values| {
            let (s, c) = values.within(TAU).sin_cos();
            let long = size(values, -2, 13) / scale;
            let beside = |values: &mut Values, part: f32| {
                let low = size(values, -24, -6);
                let off = either(values, low) * long;
                [at[0] + part * long * c - off * s, at[1] + part * long * s + off * c]
            };
            let controls = values.below(3) as usize;
            let mut segment: Vec<Point> =
                [1. / 3., 2. / 3.][..controls].iter().map(|part| beside(values, *part)).collect();
            at = [at[0] + long * c, at[1] + long * s];
            segment.push(at);
            segment
        };
        Outline { start, segments: (0..12).map(|_| segment(values)).collect() }
    }

    /// Slopes, lengths, scales and widths about the limits within which a side is told as one line at once.
    #[test]
    fn nearly_straight() {
        stops::watch();
        for index in 0..3000 {
            let values = &mut Values::at(3, index);
            let scale = size(values, -3, 8);
            let (s, c) = values.within(TAU).sin_cos();
            let transform = [scale * c, scale * s, -scale * s, scale * c, values.within(2000.), values.within(2000.)];
            let outline = way(values, scale);
            let mut draft = Draft::default();
            if values.once_in(2) {
                draft.begin_under(transform, FILLED, 0.);
                draft.filled(&outline);
            } else {
                let width = size(values, -3, 11);
                draft.begin_under(transform, BEVEL, width);
                draft.open_stroke(&outline);
            }
            draft.end();
            let given = Given::of(draft.encoded(), 20_000);
            assert!(!Both::flatten(&given).differ(), "sheet {index}");
        }
    }
}
