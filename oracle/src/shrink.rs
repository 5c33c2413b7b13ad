//! Makes a call that shows something smaller, as long as it still shows it.

use crate::sheet::FILL;
use crate::whole::{EMPTY_BOX, Given, scan};

/// No more attempts than this: what is reached then is small enough.
const MOST: usize = 200_000;

/// What must become less: how much is lent, how many words are not plain, how many bits are set, how large the bases are.
fn weight(given: &Given) -> (usize, usize, u32, u64) {
    let lists = [&given.scene, &given.prefixes, &given.lines];
    let lent = lists.iter().map(|list| list.len()).sum::<usize>() + 6 * given.boxes.len() + given.n_wg as usize;
    let words = || given.scene.iter().chain(&given.prefixes);
    let not_plain = words().filter(|w| **w != 0).count()
        + given.lines.iter().filter(|w| **w != FILL).count()
        + given.boxes.iter().filter(|b| **b != EMPTY_BOX).count();
    let bases = [given.tag_base, given.data_base, given.transform_base, given.style_base];
    (lent, not_plain, words().map(|w| w.count_ones()).sum(), bases.map(u64::from).iter().sum())
}

struct Shrinking<'a> {
    best: Given,
    shows: &'a dyn Fn(&Given) -> bool,
    left: usize,
}

impl Shrinking<'_> {
    /// Takes the change if it makes the call less and the call still shows it.
    fn attempt(&mut self, change: impl Fn(&mut Given)) -> bool {
        let mut given = self.best.clone();
        change(&mut given);
        if self.left == 0 || weight(&given) >= weight(&self.best) {
            return false;
        }
        self.left -= 1;
        let taken = (self.shows)(&given);
        if taken {
            self.best = given;
        }
        taken
    }

    /// The same, and once more with prefixes that fit the tags.
    fn attempt_with_scan(&mut self, change: impl Fn(&mut Given)) -> bool {
        self.attempt(&change)
            || self.attempt(|given| {
                change(given);
                given.prefixes.truncate(4 * given.scene.len());
                scan(&given.scene, given.tag_base, &mut given.prefixes);
            })
    }

    /// Tries a change on runs of a list, long ones first.
    fn on_runs(&mut self, len: fn(&Given) -> usize, change: fn(&mut Given, usize, usize)) {
        let mut run = len(&self.best).next_power_of_two();
        while run > 0 {
            let mut at = 0;
            while at < len(&self.best) {
                let end = len(&self.best).min(at + run);
                if !self.attempt_with_scan(|given| change(given, at, end)) {
                    at += run;
                }
            }
            run /= 2;
        }
    }

    fn on_counts(&mut self) {
        while self.attempt(|given| given.n_wg /= 2) || self.attempt(|given| given.n_wg = given.n_wg.saturating_sub(1)) {
        }
        self.on_runs(|g| g.lines.len(), |g, at, end| drop(g.lines.drain(at..end)));
        self.on_runs(|g| g.boxes.len(), |g, at, end| drop(g.boxes.drain(at..end)));
        self.on_runs(|g| g.prefixes.len(), |g, at, end| drop(g.prefixes.drain(at..end)));
        self.on_runs(|g| g.scene.len(), cut);
    }

    fn on_bases(&mut self) {
        let bases: [fn(&mut Given) -> &mut u32; 4] =
            [|g| &mut g.tag_base, |g| &mut g.data_base, |g| &mut g.transform_base, |g| &mut g.style_base];
        for base in bases {
            while self.attempt(|given| *base(given) /= 2)
                || self.attempt(|given| *base(given) = base(given).saturating_sub(1))
            {}
        }
    }

    fn on_words(&mut self) {
        self.on_runs(|g| g.scene.len(), |g, at, end| g.scene[at..end].fill(0));
        self.on_runs(|g| g.prefixes.len(), |g, at, end| g.prefixes[at..end].fill(0));
        self.on_runs(|g| g.boxes.len(), |g, at, end| g.boxes[at..end].fill(EMPTY_BOX));
        self.on_runs(|g| g.lines.len(), |g, at, end| g.lines[at..end].fill(FILL));
        for keep in [0xff00_0000, 0xffff_0000, 0xff80_0000, 0x00ff_ffff, 0xffff_ff00, 0xffff_f000] {
            for at in 0..self.best.scene.len() {
                self.attempt_with_scan(|given| given.scene[at] &= keep);
            }
        }
    }
}

/// Takes words out of the scene. What lies behind moves, and its base with it.
fn cut(given: &mut Given, at: usize, end: usize) {
    given.scene.drain(at..end);
    let moved = |base: u32| if base as usize >= end { base - (end - at) as u32 } else { base };
    given.tag_base = moved(given.tag_base);
    given.data_base = moved(given.data_base);
    given.transform_base = moved(given.transform_base);
    given.style_base = moved(given.style_base);
}

pub fn shrink(given: &Given, shows: &dyn Fn(&Given) -> bool) -> Given {
    let mut shrinking = Shrinking { best: given.clone(), shows, left: MOST };
    let mut before = None;
    while before.as_ref() != Some(&shrinking.best) {
        before = Some(shrinking.best.clone());
        shrinking.on_counts();
        shrinking.on_words();
        shrinking.on_bases();
    }
    shrinking.best
}

#[cfg(test)]
mod tests {
    use super::*;
    use crate::scenes::scene;
    use crate::stops;

    /// The first scene that shows something, made small: it still does, and no list can be cut.
    fn smallest(shows: &dyn Fn(&Given) -> bool) -> Given {
        stops::watch();
        let first = (0..).map(|index| scene(1, index).given).find(|given| shows(given));
        let small = shrink(&first.expect("some scene does"), shows);
        assert!(shows(&small));
        small
    }

    #[test]
    fn a_line_is_stored() {
        let small = smallest(&|given| given.told(0).count > 0);
        assert_eq!((small.n_wg, small.lines.len(), small.boxes.len()), (1, 6, 0));
        assert!(small.scene.len() < 40, "{small:x?}");
    }

    #[test]
    fn two_boxes_are_merged() {
        let merged = |given: &Given| given.told(0).boxes.iter().filter(|b| b.x1 > b.x0).count();
        let small = smallest(&|given| given.boxes.iter().all(|b| *b == EMPTY_BOX) && merged(given) == 2);
        assert_eq!((small.n_wg, small.lines.len(), small.boxes.len()), (1, 12, 2));
    }
}
