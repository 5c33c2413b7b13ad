//! The whole call of the source: what it answers, what it stores, and what it merges.

use std::cell::RefCell;
use std::iter;

use vello_encoding::{BumpAllocators, ConfigUniform, Layout, LineSoup, Monoid, PathBbox, PathMonoid};

use crate::drafts::Encoded;
use crate::hex::{hex, runs};
use crate::sheet::{FILL, Sheet, UNSTORED, stored};
use crate::stops::{self, Stop};

/// What a call is given and lent. Prefixes and lines are words, of which some may be left over.
#[derive(Clone, Debug, PartialEq, Eq)]
pub struct Given {
    pub n_wg: u32,
    pub tag_base: u32,
    pub data_base: u32,
    pub transform_base: u32,
    pub style_base: u32,
    pub scene: Vec<u32>,
    pub prefixes: Vec<u32>,
    pub boxes: Vec<PathBbox>,
    /// The second word of each record is not 0.
    pub lines: Vec<u32>,
}

#[derive(Debug, PartialEq, Eq)]
pub struct Told {
    pub stop: Stop,
    /// The one in turn at a refusal, else 0.
    pub tag: u64,
    /// Of the lines stored.
    pub count: u64,
    pub lines: Vec<u32>,
    pub boxes: Vec<PathBbox>,
}

/// The main function of a build of the published Rust.
pub type Main = fn(u32, &ConfigUniform, &[u32], &[PathMonoid], &mut [PathBbox], &mut BumpAllocators, &mut [LineSoup]);

/// The box of a path with no line yet.
pub const EMPTY_BOX: PathBbox =
    PathBbox { x0: i32::MAX, y0: i32::MAX, x1: i32::MIN, y1: i32::MIN, draw_flags: 0, trans_ix: 0 };

impl Given {
    /// A sheet with room for so many lines, each word of which is FILL.
    pub fn of(sheet: Encoded, room: usize) -> Self {
        let layout = sheet.layout;
        let mut prefixes = vec![0; 4 * 64 * layout.n_wg as usize];
        scan(&sheet.scene, layout.tag_base, &mut prefixes);
        Self {
            n_wg: layout.n_wg,
            tag_base: layout.tag_base,
            data_base: layout.data_base,
            transform_base: layout.transform_base,
            style_base: layout.style_base,
            scene: sheet.scene,
            prefixes,
            boxes: vec![EMPTY_BOX; sheet.paths],
            lines: vec![FILL; 6 * room],
        }
    }
}

impl Given {
    fn config(&self) -> ConfigUniform {
        ConfigUniform {
            layout: Layout {
                path_tag_base: self.tag_base,
                path_data_base: self.data_base,
                transform_base: self.transform_base,
                style_base: self.style_base,
                ..Layout::default()
            },
        }
    }

    pub fn show(&self) {
        let bases = [self.tag_base, self.data_base, self.transform_base, self.style_base];
        println!("  workgroups {:08x}, bases of tags, data, transforms, styles {}", self.n_wg, hex(&bases));
        for (name, words) in [("scene", &self.scene), ("prefixes", &self.prefixes), ("lines lent", &self.lines)] {
            println!("  {name}, {} words: {}", words.len(), runs(words).join(" "));
        }
        println!("  boxes {:?}", self.boxes);
    }

    /// Runs the source with so many workgroups. Where it stopped, and the count if it did not.
    pub fn call(&self, main: Main, n_wg: u32, boxes: &mut [PathBbox], lines: &mut [LineSoup]) -> (Stop, u32) {
        let config = self.config();
        let (prefixes, _) = self.prefixes.as_chunks::<4>();
        let prefixes: Vec<_> = prefixes.iter().map(prefix_of).collect();
        let mut bump = BumpAllocators::default();
        let stop = stops::stop_of(|| main(n_wg, &config, &self.scene, &prefixes, boxes, &mut bump, lines));
        (stop, bump.lines)
    }

    /// How many lines the source stores with so much room, whatever is lent.
    pub fn lines_stored(&self, room: usize) -> usize {
        self.lines_stored_by(published::reach_main, self.n_wg, room)
    }

    fn lines_stored_by(&self, main: Main, n_wg: u32, room: usize) -> usize {
        thread_local! {
            static LINES: RefCell<Vec<LineSoup>> = const { RefCell::new(Vec::new()) };
        }
        LINES.with_borrow_mut(|lines| {
            lines.resize(room, UNSTORED);
            self.call(main, n_wg, &mut self.boxes.clone(), lines);
            let count = stored(lines);
            lines[..count].fill(UNSTORED);
            count
        })
    }

    /// How many tags there are, or one more than the scene has: no tag is behind its end.
    fn tags(&self) -> u64 {
        (u64::from(self.n_wg) * 256).min(4 * self.scene.len() as u64 + 1)
    }

    /// The tag that drew each of the lines stored: the source is asked how many lines the first tags store, between two
    /// numbers of tags for as long as that differs. A good guess makes it quick.
    pub fn line_tags(&self, count: usize, guess: &[u32]) -> Vec<u32> {
        self.line_tags_of(self.tags(), count, guess)
    }

    /// The same of the first tags.
    fn line_tags_of(&self, first: u64, count: usize, guess: &[u32]) -> Vec<u32> {
        let mut cuts: Vec<_> = guess.iter().flat_map(|tag| [u64::from(*tag), u64::from(*tag) + 1]).collect();
        cuts.sort_unstable();
        cuts.dedup();
        let mut tags = Vec::with_capacity(count);
        self.divide((0, 0), (first, count), &cuts, &mut tags);
        tags
    }

    /// From so many tags, which store so many lines, to more of them.
    fn divide(&self, from: (u64, usize), to: (u64, usize), cuts: &[u64], tags: &mut Vec<u32>) {
        if from.1 == to.1 {
            return;
        }
        if to.0 - from.0 == 1 {
            tags.extend(iter::repeat_n(from.0 as u32, to.1 - from.1));
            return;
        }
        let cut = cuts.iter().find(|cut| (from.0 + 1..to.0).contains(cut));
        let between = cut.copied().unwrap_or((from.0 + to.0) / 2);
        let stored = self.lines_stored_by(published::reach_tag_by_tag, between as u32, self.lines.len() / 6);
        self.divide(from, (between, stored), cuts, tags);
        self.divide((between, stored), to, cuts, tags);
    }

    /// How many tags can be done, one after another, before the one at which the source panics. A good guess makes it
    /// quick; whether it is right is asked of the source.
    fn tags_done(&self, guess: u64) -> u64 {
        let mut boxes = self.boxes.clone();
        let mut sheet = Sheet::new(&self.lines);
        let mut stops =
            |tags: u64| self.call(published::reach_tag_by_tag, tags as u32, &mut boxes, sheet.lines()).0 != Stop::NONE;
        let (mut done, mut stopped) = (0, self.tags());
        let mut guesses = [guess, guess + 1].into_iter();
        while stopped - done > 1 {
            let between = guesses.find(|tags| (done + 1..stopped).contains(tags));
            let middle = between.unwrap_or((done + stopped) / 2);
            if stops(middle) {
                stopped = middle;
            } else {
                done = middle;
            }
        }
        done
    }

    /// What is to be told: what the source tells, but for a transform that is not finite.
    pub fn told(&self, guess: u64) -> Told {
        self.told_at_bad_transform().unwrap_or_else(|| self.told_by_source(guess))
    }

    /// Refusal 9, which the source does not have, and what the source leaves when it has read the transform: the lines and
    /// boxes of the tags before, and flags and transform index in the tag's own box. None where it stops before.
    fn told_at_bad_transform(&self) -> Option<Told> {
        let tag = self.bad_transform()?;
        let (mut boxes, mut sheet) = (self.boxes.clone(), Sheet::new(&self.lines));
        if self.call(published::reach_tag_by_tag, tag as u32, &mut boxes, sheet.lines()).0 != Stop::NONE {
            return None;
        }
        let (mut then, mut drawn) = (self.boxes.clone(), Sheet::new(&self.lines));
        let (stop, _) = self.call(published::reach_tag_by_tag, tag as u32 + 1, &mut then, drawn.lines());
        if stop != Stop::NONE && stops::before_transform() {
            return None;
        }
        for (b, then) in boxes.iter_mut().zip(then) {
            (b.draw_flags, b.trans_ix) = (then.draw_flags, then.trans_ix);
        }
        let count = stored(sheet.lines()) as u64;
        Some(Told { stop: Stop { number: 9, end: 0 }, tag, count, lines: sheet.words(), boxes })
    }

    fn told_by_source(&self, guess: u64) -> Told {
        let mut boxes = self.boxes.clone();
        let mut sheet = Sheet::new(&self.lines);
        let (stop, counted) = self.call(published::reach_main, self.n_wg, &mut boxes, sheet.lines());
        let count = stored(sheet.lines()) as u64;
        if stop == Stop::NONE {
            assert_eq!(u64::from(counted), count);
        }
        // The bases are looked at before any tag.
        let tag = if stop.number > 1 { self.tags_done(guess) } else { 0 };
        Told { stop, tag, count, lines: sheet.words(), boxes }
    }

    /// The same, where the second word of every line stored is the tag that drew it.
    pub fn told_with_tags(&self, guess: u64, guessed_tags: &[u32]) -> Told {
        let mut told = self.told(guess);
        // The source goes on behind a transform that is not finite.
        let first = if told.stop.number == 9 { told.tag } else { self.tags() };
        let tags = self.line_tags_of(first, told.count as usize, guessed_tags);
        told.lines.chunks_exact_mut(6).zip(tags).for_each(|(line, tag)| line[1] = tag);
        told
    }
}

/// The transforms that the tags name, read here.
impl Given {
    /// A tag and the index of its transform, if its word and its prefix are there.
    fn tag(&self, ix: u64) -> Option<(u8, u32)> {
        let word = *self.scene.get(self.tag_base as usize + ix as usize / 4)?;
        let (prefixes, _) = self.prefixes.as_chunks::<4>();
        let place = ix as usize % 4;
        let tag = word.to_le_bytes()[place];
        let prefix = if tag == 0 { PathMonoid::default() } else { prefix_of(prefixes.get(ix as usize / 4)?) };
        let sums = prefix.combine(&PathMonoid::new(word & ((1 << (8 * place)) - 1)));
        Some((tag, sums.trans_ix.wrapping_sub(1)))
    }

    /// Whether six words are there, and one of them is no finite number.
    fn is_bad_transform(&self, ix: u32) -> bool {
        let base = ix.checked_mul(6).and_then(|offset| offset.checked_add(self.transform_base));
        let words = base.and_then(|base| self.scene.get(base as usize..base as usize + 6));
        words.is_some_and(|words| words.iter().any(|word| !f32::from_bits(*word).is_finite()))
    }

    /// The first tag with a segment under a transform that is not finite. Behind a tag that is not there none counts.
    fn bad_transform(&self) -> Option<u64> {
        let there = (0..self.tags()).map_while(|ix| self.tag(ix));
        there.zip(0..).find(|((tag, trans_ix), _)| tag & 3 != 0 && self.is_bad_transform(*trans_ix)).map(|(_, ix)| ix)
    }
}

pub fn prefix_of(w: &[u32; 4]) -> PathMonoid {
    PathMonoid { path_ix: w[0], trans_ix: w[1], style_ix: w[2], pathseg_offset: w[3] }
}

/// The scan, which the source does not have: 0 and how many prefixes it filled, or 1 with none.
pub fn scan(scene: &[u32], tag_base: u32, prefixes: &mut [u32]) -> (u32, u64) {
    let Some(tags) = scene.get(tag_base as usize..) else {
        return (1, 0);
    };
    let (prefixes, _) = prefixes.as_chunks_mut::<4>();
    let mut sum = PathMonoid::default();
    let mut count = 0;
    for (prefix, tag) in prefixes.iter_mut().zip(tags) {
        *prefix = [sum.path_ix, sum.trans_ix, sum.style_ix, sum.pathseg_offset];
        sum = sum.combine(&PathMonoid::new(*tag));
        count += 1;
    }
    (0, count)
}

/// The measured examples of the whole call.
#[cfg(test)]
mod tests {
    use published::ours::Ours;

    use super::*;

    fn triangle() -> Given {
        let mut scene = vec![0; 76];
        (scene[0], scene[1]) = (0x0101_4020, 0x0000_1005);
        (scene[65], scene[66]) = (0x0000_0003, 0x0006_0000);
        (scene[68], scene[71]) = (0x3f80_0000, 0x3f80_0000);
        let mut given = Given {
            n_wg: 1,
            tag_base: 0,
            data_base: 0x40,
            transform_base: 0x44,
            style_base: 0x4a,
            scene,
            prefixes: vec![0; 4 * 1024],
            boxes: vec![EMPTY_BOX],
            lines: vec![0xa5a5_a5a5; 6000],
        };
        given.rescan();
        given
    }

    impl Given {
        fn rescan(&mut self) {
            assert_eq!(scan(&self.scene, self.tag_base, &mut self.prefixes).0, 0);
        }

        fn answer(&self) -> (u32, u64, u64) {
            stops::watch();
            let told = self.told(0);
            (told.stop.number, told.tag, told.count)
        }
    }

    const BOX: PathBbox = PathBbox { x0: 0, y0: 0, x1: 3, y1: 6, draw_flags: 0, trans_ix: 0 };

    #[test]
    fn the_triangle() {
        let given = triangle();
        assert_eq!(given.answer(), (0, 0, 3));
        let told = given.told(0);
        let [zero, three, six] = [0, 0x4040_0000, 0x40c0_0000];
        assert_eq!(told.lines[..6], [0, 0, zero, zero, three, zero]);
        assert_eq!(told.lines[6..12], [0, 0, three, zero, zero, six]);
        assert_eq!(told.lines[12..18], [0, 0, zero, six, zero, zero]);
        assert_eq!(told.lines[18..], given.lines[18..]);
        assert_eq!(given.line_tags(3, &[]), [2, 3, 4]);
        assert_eq!(given.line_tags(3, &[2, 2, 5]), [2, 3, 4]);
        assert_eq!(told.boxes, [BOX]);
    }

    #[test]
    fn too_little_room() {
        let mut given = triangle();
        given.lines.truncate(12);
        given.boxes[0].draw_flags = 9;
        assert_eq!(given.answer(), (6, 4, 2));
        assert_eq!(given.told(0).boxes, [PathBbox { draw_flags: 9, ..BOX }]);
    }

    #[test]
    fn no_box() {
        let mut given = triangle();
        given.boxes.clear();
        assert_eq!(given.answer(), (4, 5, 3));
    }

    #[test]
    fn no_transform() {
        let mut given = triangle();
        given.scene[0] = 0x0101_4000;
        given.rescan();
        assert_eq!(given.answer(), (2, 2, 0));
    }

    /// A transform with such a number, in this place.
    fn bad_transform(place: usize, number: f32) -> Given {
        let mut given = triangle();
        given.scene[68 + place] = number.to_bits();
        given
    }

    #[test]
    fn transforms() {
        for place in 0..6 {
            for number in [f32::NAN, f32::INFINITY, f32::NEG_INFINITY] {
                assert_eq!(bad_transform(place, number).answer(), (9, 2, 0));
            }
        }
        assert_eq!(bad_transform(0, f32::MAX).answer().0, 8);
        // a second one, from the third line on
        let mut given = bad_transform(0, 1.);
        (given.scene[0], given.scene[1]) = (0x2101_4020, 0x0000_1005);
        given.scene.extend([0x7fc0_0000; 6]);
        given.style_base = 80;
        given.rescan();
        assert_eq!(given.answer(), (9, 4, 2));
        assert_eq!(given.told_with_tags(0, &[]).lines[7], 3);
    }

    /// The box comes before a transform that is not finite, and the points behind it.
    #[test]
    fn around_a_bad_transform() {
        let mut given = bad_transform(5, f32::NAN);
        given.data_base = 76;
        assert_eq!(given.answer(), (9, 2, 0));
        // the first line is a path's too, of the even-odd rule
        (given.scene[0], given.scene[74]) = (0x0111_4020, 0x4000_0000);
        given.rescan();
        assert_eq!(given.answer(), (9, 2, 0));
        assert_eq!(given.told(0).boxes, [PathBbox { draw_flags: 1, ..EMPTY_BOX }]);
        given.boxes.clear();
        assert_eq!(given.answer(), (4, 2, 0));
        // no segment reads it
        given.scene[0] = 0x0000_4020;
        given.scene[1] = 0;
        given.rescan();
        assert_eq!(given.answer(), (0, 0, 0));
    }

    #[test]
    fn bases() {
        let mut given = triangle();
        (given.n_wg, given.data_base) = (0, 0);
        given.scene.clear();
        assert_eq!(given.answer(), (0, 0, 0));
        given.data_base = 1;
        assert_eq!(given.answer(), (1, 0, 0));
    }

    #[test]
    fn missing_prefix() {
        let mut given = triangle();
        given.prefixes.truncate(7);
        assert_eq!(given.answer(), (3, 4, 2));
    }

    /// A stroke of one line, with a marker behind that closes it or not.
    fn stroke(flags: u32, width: f32, marker: u32) -> Given {
        let mut given = triangle();
        given.scene[0] = 0x0001_4020 | marker << 24;
        given.scene[1] = 0x0000_0010;
        (given.scene[74], given.scene[75]) = (flags, width.to_bits());
        given.rescan();
        given
    }

    #[test]
    fn strokes() {
        // two sides, and at the end a cap or a join
        assert_eq!(stroke(0x8000_0000, 1., 0x06).answer(), (0, 0, 4));
        assert_eq!(stroke(0x8000_0000, 1., 0x05).answer(), (0, 0, 4));
        assert_eq!(stroke(0x8000_0000, f32::NAN, 0x06).answer(), (8, 2, 0));
        assert_eq!(stroke(0xb000_0000, 1., 0x05).answer(), (7, 2, 2));
        assert_eq!(stroke(0x8000_0000, 1., 0x06).line_tags(4, &[]), [2, 2, 2, 3]);
    }

    /// The ceiling and the floor that the source is given are std's.
    #[test]
    fn floors() {
        for x in (0..=u32::MAX).step_by(997).chain([0, 1 << 31, 1, 0x7f80_0000]).map(f32::from_bits) {
            let (floor, ceil) = (Ours::floor(x), Ours::ceil(x));
            assert!(
                x.is_nan() || (floor.to_bits(), ceil.to_bits()) == (x.floor().to_bits(), x.ceil().to_bits()),
                "{x}"
            );
        }
    }
}
