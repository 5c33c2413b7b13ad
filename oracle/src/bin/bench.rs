//! Times whole calls of the Rust as it is shipped and of the library, on the same sheets. See docs/SPEED.md.

use std::hint::black_box;
use std::process::ExitCode;
use std::time::{Duration, Instant};

use hinthevoun::{Layout, PathBox};
use oracle::drafts::{Encoded, Figures, KINDS, LINES};
use oracle::whole::{EMPTY_BOX, prefix_of};
use vello_encoding::{BumpAllocators, ConfigUniform, LineSoup, PathBbox, PathMonoid};

/// How long the rounds of one sheet may take, and the least number of them.
const PATIENCE: Duration = Duration::from_secs(4);
const LEAST_ROUNDS: usize = 11;
const GROWTH: [usize; 5] = [1_000, 10_000, 100_000, 1_000_000, 10_000_000];
/// One line in so many may be more or fewer, since std's mathematics is not ours.
const LEEWAY: u32 = 1_000;
/// A middle round that takes so much longer than the least one tells of a machine that does not let anything be timed.
const DISTURBED: f64 = 1.25;
/// The two clocks of a round may be apart by what it takes to read them, and by one part in so many.
const READING: Duration = Duration::from_micros(2);
const APART: u32 = 50;

const NO_LINE: LineSoup = LineSoup { path_ix: 0, _padding: 0, p0: [0.; 2], p1: [0.; 2] };

/// A sheet, and what is lent to either side for it.
struct Desk {
    sheet: Encoded,
    prefixes: Vec<u32>,
    monoids: Vec<PathMonoid>,
    rust_boxes: Vec<PathBbox>,
    port_boxes: Vec<PathBox>,
    rust_lines: Vec<LineSoup>,
    port_lines: Vec<u32>,
}

impl Desk {
    fn new(sheet: Encoded, room: usize) -> Self {
        let Layout { n_wg, tag_base, .. } = sheet.layout;
        let mut prefixes = vec![0; n_wg as usize * 256];
        hinthevoun::scan(&sheet.scene, tag_base, &mut prefixes).expect("a sheet can be scanned");
        let (words, _) = prefixes.as_chunks::<4>();
        let monoids = words.iter().map(prefix_of).collect();
        Self {
            rust_boxes: vec![EMPTY_BOX; sheet.paths],
            port_boxes: vec![PathBox::EMPTY; sheet.paths],
            rust_lines: vec![NO_LINE; room],
            port_lines: vec![0; 6 * room],
            sheet,
            prefixes,
            monoids,
        }
    }

    fn rust(&mut self, clear: bool) -> u32 {
        if clear {
            self.rust_lines.fill(NO_LINE);
        }
        let Layout { n_wg, tag_base, data_base, transform_base, style_base } = self.sheet.layout;
        let layout = vello_encoding::Layout {
            path_tag_base: tag_base,
            path_data_base: data_base,
            transform_base,
            style_base,
            ..Default::default()
        };
        let (scene, lines) = (&self.sheet.scene, &mut self.rust_lines);
        let mut bump = BumpAllocators::default();
        let config = ConfigUniform { layout };
        shipped::reach_main(n_wg, &config, scene, &self.monoids, &mut self.rust_boxes, &mut bump, lines);
        black_box(bump.lines)
    }

    fn port(&mut self, clear: bool) -> u32 {
        if clear {
            self.port_lines.fill(0);
        }
        let Encoded { layout, scene, .. } = &self.sheet;
        let (prefixes, lines) = (&self.prefixes, &mut self.port_lines);
        let count = hinthevoun::flatten(*layout, scene, prefixes, &mut self.port_boxes, lines);
        black_box(count.expect("a sheet is accepted"))
    }

    fn scan(&mut self) {
        let Encoded { layout, scene, .. } = &self.sheet;
        let count = hinthevoun::scan(scene, layout.tag_base, &mut self.prefixes);
        black_box(count.expect("a sheet can be scanned"));
    }
}

/// What a round took, by the processor's clock of this thread and by the clock on the wall.
struct Round {
    processor: Duration,
    wall: Duration,
}

impl Round {
    fn of(run: impl FnOnce()) -> Self {
        let (wall, start) = (Instant::now(), processor_time());
        run();
        Self { processor: processor_time() - start, wall: wall.elapsed() }
    }

    /// Whether the processor was this thread's throughout. Where it was not, a machine that is lent out may take more
    /// off the thread's clock than others had of it, up to the whole round.
    fn is_whole(&self) -> bool {
        self.wall <= self.processor + self.processor / APART + READING
    }
}

/// The times of one thing by the processor, in order of size.
struct Times {
    sorted: Vec<Duration>,
    /// Whether they are those of whole rounds. Where something broke into each, they are those of all.
    whole: bool,
}

impl Times {
    fn of(rounds: &[Round]) -> Self {
        let whole = rounds.iter().any(Round::is_whole);
        let counting = rounds.iter().filter(|round| !whole || round.is_whole());
        let mut sorted: Vec<Duration> = counting.map(|round| round.processor).collect();
        sorted.sort_unstable();
        Self { sorted, whole }
    }

    /// The least one, in nanoseconds per part.
    fn per(&self, parts: u32) -> f64 {
        self.sorted[0].as_secs_f64() * 1e9 / f64::from(parts)
    }

    /// How many times the least one the middle one is.
    fn spread(&self) -> f64 {
        self.sorted[self.sorted.len() / 2].as_secs_f64() / self.sorted[0].as_secs_f64()
    }
}

/// The time that the processor has spent on this thread: what else the machine does is not in it.
fn processor_time() -> Duration {
    /// C's, where a long has 64 bits.
    #[repr(C)]
    struct Timespec {
        seconds: i64,
        nanoseconds: i64,
    }
    unsafe extern "C" {
        fn clock_gettime(clock: i32, time: *mut Timespec) -> i32;
    }
    const CLOCK_THREAD_CPUTIME_ID: i32 = 3;
    let mut time = Timespec { seconds: 0, nanoseconds: 0 };
    // SAFETY: the clock writes one Timespec, which is lent to it alone.
    let status = unsafe { clock_gettime(CLOCK_THREAD_CPUTIME_ID, &mut time) };
    assert_eq!(status, 0, "Linux has a clock for each thread");
    Duration::new(time.seconds as u64, time.nanoseconds as u32)
}

/// The things in turn, round after round, so that what disturbs one disturbs all.
fn times<const N: usize>(mut run: impl FnMut(usize)) -> [Times; N] {
    let first: Duration = (0..N).map(|which| Round::of(|| run(which)).wall).sum();
    let count = (PATIENCE.as_nanos() / first.as_nanos().max(1)) as usize;
    let mut rounds = [const { Vec::new() }; N];
    for _ in 0..count.max(LEAST_ROUNDS) {
        for (which, rounds) in rounds.iter_mut().enumerate() {
            rounds.push(Round::of(|| run(which)));
        }
    }
    rounds.map(|rounds| Times::of(&rounds))
}

/// So many figures that they have about so many lines.
fn desk(figures: Figures, lines: usize) -> Desk {
    const SAMPLE: usize = 16;
    let sample = Desk::new(figures.sheet(SAMPLE), 100_000).rust(false);
    let count = (lines * SAMPLE).div_ceil(sample as usize);
    Desk::new(figures.sheet(count), lines * 3 / 2)
}

/// With a comma before each three digits.
fn commas(n: u32) -> String {
    let digits = n.to_string();
    let groups: Vec<&str> = digits.as_bytes().rchunks(3).rev().map(|g| str::from_utf8(g).expect("digits")).collect();
    groups.join(",")
}

/// A row of a table, and what is told of all of them at the end.
struct Row {
    lines: String,
    cells: String,
    /// Whether the counts of lines are the same, or nearly.
    alike: bool,
    spread: f64,
    /// Whether each of its times is a whole round's.
    whole: bool,
}

impl Row {
    fn of(figures: Figures, lines: usize) -> Self {
        let mut desk = desk(figures, lines);
        let counts @ [rust_count, port_count] = [desk.rust(false), desk.port(false)];
        let times: [Times; 4] = times(|which| {
            match which {
                0 => desk.rust(false),
                1 => desk.port(false),
                2 => desk.rust(true),
                _ => desk.port(true),
            };
        });
        let side = |[rust, port]: [f64; 2]| format!("{rust:.1} | {port:.1} | {:.2}", port / rust);
        let [rust, port, rust_cleared, port_cleared] = std::array::from_fn(|which| times[which].per(counts[which % 2]));
        let lines = if rust_count == port_count {
            commas(rust_count)
        } else {
            format!("{} / {}", commas(rust_count), commas(port_count))
        };
        Self {
            lines,
            cells: format!("{} | {}", side([rust, port]), side([rust_cleared, port_cleared])),
            alike: rust_count.abs_diff(port_count) <= rust_count / LEEWAY,
            spread: times.iter().map(Times::spread).fold(1., f64::max),
            whole: times.iter().all(|times| times.whole),
        }
    }
}

fn heading(first: &str) {
    println!("{first}| Lines | Rust | port | port / Rust | Rust, cleared | port, cleared | port / Rust |");
    println!("{}|---|---|---|---|---|---|---|", if first.is_empty() { "" } else { "|---" });
}

/// The tables of docs/SPEED.md.
fn tables() -> Vec<Row> {
    let mut rows = Vec::new();
    heading("| Sheet ");
    for (name, figures) in KINDS {
        let row = Row::of(figures, LINES);
        println!("| {name} | {} | {} |", row.lines, row.cells);
        rows.push(row);
    }
    println!("\nHow it grows, on the mixed sheet:\n");
    heading("");
    for lines in GROWTH {
        let row = Row::of(Figures::Pieces, lines);
        println!("| {} | {} |", row.lines, row.cells);
        rows.push(row);
    }
    rows
}

fn main() -> ExitCode {
    println!("Nanoseconds of the processor per line, the least of many rounds.\n");
    let rows = tables();
    let mut desk = desk(Figures::Pieces, LINES);
    let tags = desk.sheet.layout.n_wg * 256;
    let [scan] = times(|_| desk.scan());
    println!("\nThe scan takes {:.1} ns per tag.", scan.per(tags));
    let spread = rows.iter().map(|row| row.spread).fold(1., f64::max);
    println!("The middle round of a sheet took at most {spread:.2} times the least.");
    if spread > DISTURBED {
        println!(
            "That is far: other work disturbed the times, and the ratios may be off. Try again on a quiet machine."
        );
    }
    let broken = rows.iter().filter(|row| !row.whole).count();
    if broken > 0 {
        println!("In {broken} rows something broke into every round of one side: its time may be too short.");
    }
    if rows.iter().all(|row| row.alike) {
        return ExitCode::SUCCESS;
    }
    println!("The counts of lines differ by more than one in {LEEWAY}.");
    ExitCode::FAILURE
}
