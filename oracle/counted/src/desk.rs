//! A sheet that is measured, and what is lent for it.

use std::hint::black_box;

use hinthevoun::PathBox;

use crate::Job;
use crate::drafts::{Encoded, Figures, KINDS, LINES};

pub struct Desk {
    pub sheet: Encoded,
    pub prefixes: Vec<u32>,
    boxes: Vec<PathBox>,
    pub lines: Vec<u32>,
}

impl Desk {
    fn new(sheet: Encoded, room: usize) -> Self {
        let mut prefixes = vec![0; sheet.layout.n_wg as usize * 256];
        hinthevoun::scan(&sheet.scene, sheet.layout.tag_base, &mut prefixes).expect("a sheet can be scanned");
        Self { prefixes, boxes: vec![PathBox::EMPTY; sheet.paths], lines: vec![0; 6 * room], sheet }
    }

    pub fn flatten(&mut self) -> usize {
        let Encoded { layout, scene, .. } = &self.sheet;
        let count = hinthevoun::flatten(*layout, scene, &self.prefixes, &mut self.boxes, &mut self.lines);
        black_box(count.expect("a sheet is accepted")) as usize
    }
}

/// So many figures that they have about so many lines.
pub fn desk(figures: Figures, lines: usize) -> Desk {
    const SAMPLE: usize = 16;
    let sample = Desk::new(figures.sheet(SAMPLE), 100_000).flatten();
    Desk::new(figures.sheet((lines * SAMPLE).div_ceil(sample)), lines * 3 / 2)
}

/// The flattening of a sheet of docs/SPEED.md.
pub fn sheet(k: usize) -> Job {
    let (name, figures) = KINDS[k];
    let mut desk = desk(figures, LINES);
    let lines = desk.flatten();
    Job::new(name, lines, "line", move || {
        desk.flatten();
    })
}
