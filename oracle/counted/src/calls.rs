//! The exported functions that work on a list or a text, each over one that is long enough for its start not to count.

use std::hint::black_box;

use hinthevoun::pattern::Pen;
use hinthevoun::{Layout, Lent, PathBox, Table, Verdict};

use crate::Job;
use crate::desk::desk;
use crate::drafts::{Figures, LINES};
use crate::values::Values;

const TABLE: Table = Table::New;
/// Forty steps of a table to a unit, with y turned round.
const TRANSFORM: [f32; 6] = [40.0, 0.0, 0.0, -40.0, 0.0, 0.0];

/// Path data of so many cubics, as wide as a table.
fn text(cubics: usize) -> Vec<u8> {
    let mut values = Values::new();
    let mut pair = || {
        let [x, y] = [(); 2].map(|()| values.below(500_000) as f64 / 100.0 - 2500.0);
        format!("{x:.2} {y:.2}")
    };
    let cubics = (0..cubics).map(|_| format!("C{} {} {}", pair(), pair(), pair())).collect::<String>();
    format!("M0 0{cubics}Z").into_bytes()
}

/// The list of a sheet of closed fills.
fn fills() -> Vec<u32> {
    let mut desk = desk(Figures::FilledLines, LINES);
    let lines = desk.flatten();
    desk.lines.truncate(6 * lines);
    desk.lines
}

/// Lines of whole coordinates of one path, each of which goes on from the last.
fn chain() -> Vec<u32> {
    let mut values = Values::new();
    let mut value = || (values.below(65_535) as f32 - 32_767.0).to_bits();
    let mut pen = [value(), value()];
    let mut list = Vec::new();
    for k in 0..LINES as u32 {
        let to = [value(), value()];
        list.extend([3, k, pen[0], pen[1], to[0], to[1]]);
        pen = to;
    }
    list
}

fn file(list: &[u32]) -> Vec<u8> {
    let mut bytes = vec![0; 32 * list.len()];
    let length = hinthevoun::cut(list, 3, &mut bytes).expect("all is in range, and there is room");
    bytes.truncate(length);
    bytes
}

/// What the whole way is lent, and where its parts find the sheet afterwards.
struct Way {
    text: Vec<u8>,
    tags: Vec<u8>,
    points: Vec<u32>,
    scene: Vec<u32>,
    prefixes: Vec<u32>,
    lines: Vec<u32>,
    bytes: Vec<u8>,
}

impl Way {
    fn new(cubics: usize) -> Self {
        let lines = 600 * cubics;
        Self {
            text: text(cubics),
            tags: vec![0; cubics + 9],
            points: vec![0; 8 * cubics + 9],
            scene: vec![0; 9 * cubics + 900],
            prefixes: vec![0; 5 * cubics + 900],
            lines: vec![0; 6 * lines],
            bytes: vec![0; 40 * lines],
        }
    }

    fn whole(&mut self) {
        let Self { text, tags, points, scene, prefixes, lines, bytes } = self;
        let mut lent = Lent { tags, points, scene, prefixes, lines };
        black_box(hinthevoun::cut_text(text, TRANSFORM, TABLE, &mut lent, bytes)).expect("it can be cut");
    }

    /// The layout of the sheet that the whole way leaves.
    fn import(&mut self) -> Layout {
        let mut pen = Pen::new();
        pen.import(&self.text, &mut self.tags, &mut self.points).expect("path data");
        let words = (pen.tags() as u32 + 3).div_ceil(256) * 64;
        let transform_base = words + pen.points() as u32;
        Layout { n_wg: words / 64, tag_base: 0, data_base: words, transform_base, style_base: transform_base + 6 }
    }

    fn profile(&self, layout: Layout) {
        black_box(hinthevoun::profile(layout, &self.scene, &self.prefixes)).expect("a lay-up sheet");
    }

    fn parts(&mut self) -> usize {
        let layout = self.import();
        hinthevoun::scan(&self.scene, 0, &mut self.prefixes).expect("a base");
        self.profile(layout);
        let Self { scene, prefixes, lines, bytes, .. } = self;
        let count = hinthevoun::flatten(layout, scene, prefixes, &mut [PathBox::EMPTY], lines).expect("room for all");
        black_box(hinthevoun::cut(&lines[..6 * count as usize], 0, bytes)).expect("a file");
        count as usize
    }
}

/// A way of about so many lines as the sheets have, and how many it draws.
fn way() -> (Way, usize) {
    let mut way = Way::new(40);
    way.whole();
    let lines = way.parts();
    (way, lines)
}

pub fn whole() -> Job {
    let (mut way, lines) = way();
    Job::new("the whole way, in one call", lines, "line", move || way.whole())
}

pub fn parts() -> Job {
    let (mut way, lines) = way();
    Job::new("the whole way, by its parts", lines, "line", move || {
        way.parts();
    })
}

pub fn import() -> Job {
    let mut way = Way::new(1000);
    Job::new("path data imported", way.text.len(), "byte", move || {
        black_box(way.import());
    })
}

pub fn scan() -> Job {
    let desk = desk(Figures::Pieces, LINES);
    let (sheet, mut prefixes) = (desk.sheet, desk.prefixes);
    Job::new("tags scanned", sheet.layout.n_wg as usize * 256, "tag", move || {
        black_box(hinthevoun::scan(&sheet.scene, sheet.layout.tag_base, &mut prefixes)).expect("a base");
    })
}

pub fn profile() -> Job {
    let mut way = Way::new(500);
    way.whole();
    let layout = way.import();
    Job::new("a lay-up sheet tested", layout.n_wg as usize * 256, "tag", move || way.profile(layout))
}

/// As many records as a list that is checked may have.
const RECORDS: usize = 2000;

/// The lines of closed paths of so many corners each, all apart or all at zero.
fn closed(corners: usize, apart: bool) -> Vec<u32> {
    let corner = |k: usize| if apart { [k as f32, -(k as f32)].map(f32::to_bits) } else { [0, 0] };
    let lines = (0..RECORDS).map(|k| {
        let (path, at) = (k / corners, k % corners);
        let ([x, y], [to_x, to_y]) = (corner(at), corner((at + 1) % corners));
        [path as u32, k as u32, x, y, to_x, to_y]
    });
    lines.flatten().collect()
}

fn check(name: &'static str, list: Vec<u32>) -> Job {
    Job::new(name, RECORDS, "record", move || {
        assert_eq!(black_box(hinthevoun::check(&list)), Ok(Verdict::Sound));
    })
}

pub fn check_outline() -> Job {
    check("a list checked, one outline", closed(RECORDS, true))
}

pub fn check_zeros() -> Job {
    check("a list checked, all its points one", closed(RECORDS, false))
}

pub fn check_paths() -> Job {
    check("a list checked, paths of four lines", closed(4, true))
}

pub fn mend() -> Job {
    // as many as it takes, of which the last path has lost its end
    let list = fills()[..6 * (RECORDS - 1)].to_vec();
    let (mut room, mut report) = (vec![0; 60], vec![0; list.len()]);
    Job::new("a list mended", list.len() / 6, "record", move || {
        black_box(hinthevoun::mend(&list, 1, &mut room, &mut report)).expect("room for all");
    })
}

/// Tags of one subpath of lines, and its points, x and y in a word.
fn old_sheet() -> (Vec<u8>, Vec<u32>) {
    let tags = [vec![0x01; LINES - 1], vec![0x05]].concat();
    (tags, (0..=LINES as u32).map(|k| k.wrapping_mul(0x9e37_79b9)).collect())
}

fn new_sheet() -> (Vec<u8>, Vec<u32>) {
    let (tags, points) = old_sheet();
    let mut moved = (vec![0; tags.len()], vec![0; 2 * points.len()]);
    hinthevoun::to_f32(&tags, &points, &mut moved.0, &mut moved.1).expect("room for all");
    moved
}

pub fn to_f32() -> Job {
    let ((tags, points), mut moved) = (old_sheet(), new_sheet());
    Job::new("points of i16 made f32", points.len(), "point", move || {
        black_box(hinthevoun::to_f32(&tags, &points, &mut moved.0, &mut moved.1)).expect("room for all");
    })
}

pub fn to_i16() -> Job {
    let ((tags, points), mut moved) = (new_sheet(), old_sheet());
    Job::new("points of f32 made i16", points.len() / 2, "point", move || {
        black_box(hinthevoun::to_i16(&tags, &points, &mut moved.0, &mut moved.1)).expect("whole numbers");
    })
}

pub fn cut() -> Job {
    let list = chain();
    let mut bytes = file(&list);
    Job::new("a file written", bytes.len(), "byte", move || {
        black_box(hinthevoun::cut(&list, 3, &mut bytes)).expect("room for all");
    })
}

pub fn read_cut() -> Job {
    let list = chain();
    let (file, mut lines) = (file(&list), vec![0; list.len()]);
    Job::new("a file read back", file.len(), "byte", move || {
        black_box(hinthevoun::read_cut(&file, TABLE, &mut lines)).expect("a file of ours");
    })
}
