//! Writes the list that crates/replay_scenes replays: whole calls, what is told and the hashes of what is left.

use std::collections::BTreeMap;

use vello_encoding::PathBbox;

use crate::hex::{hex, runs};
use crate::scenes::scene;
use crate::sheet::{FILL, hash};
use crate::stops::Stop;
use crate::whole::{Given, Told, scan};

/// The seed of the scenes, and how many are looked at.
const SEED: u64 = 8;
const SCENES: u64 = 20_000;

/// Every name is in so many scenes of the list, and so many are accepted, and refused with each number and each end.
const OF_EACH_NAME: u64 = 5;
const ACCEPTED: u64 = 160;
const OF_EACH_STOP: u64 = 30;

/// The replaying program lends no more scene words, prefix words, boxes and line words.
const MOST: [usize; 4] = [4096, 4096, 64, 9216];

/// The prefix words lent are those of a scan, but for these.
fn patches(given: &Given, scanned: &[u32]) -> Vec<u32> {
    let both = given.prefixes.iter().zip(scanned).zip(0..);
    both.filter(|((word, scanned), _)| word != scanned).flat_map(|((word, _), i)| [i, *word]).collect()
}

fn box_words(boxes: &[PathBbox]) -> Vec<u32> {
    let words = |b: &PathBbox| [b.x0 as u32, b.y0 as u32, b.x1 as u32, b.y1 as u32, b.draw_flags, b.trans_ix];
    boxes.iter().flat_map(words).collect()
}

fn fits(given: &Given) -> bool {
    let lent = [given.scene.len(), given.prefixes.len(), given.boxes.len(), given.lines.len()];
    lent.iter().zip(MOST).all(|(lent, most)| *lent <= most)
}

/// A call as the list has it.
fn print(given: &Given, told: &Told) {
    let mut scanned = vec![FILL; given.prefixes.len()];
    let (scan_number, scan_count) = scan(&given.scene, given.tag_base, &mut scanned);
    let patches = patches(given, &scanned);
    let bases = [given.n_wg, given.tag_base, given.data_base, given.transform_base, given.style_base];
    let lent = [given.scene.len(), given.prefixes.len(), given.boxes.len(), given.lines.len(), patches.len() / 2];
    let of_scan = [scan_number, scan_count as u32, hash(&scanned)];
    let of_call =
        [told.stop.word(), told.tag as u32, told.count as u32, hash(&told.lines), hash(&box_words(&told.boxes))];
    println!("{}", hex(&[&bases[..], &lent.map(|n| n as u32), &of_scan, &of_call].concat()));
    // Patches are read two words at a time, so that no run may go from one to the next.
    let pairs = patches.chunks(2).flat_map(runs).collect();
    for part in [runs(&given.scene), pairs, runs(&box_words(&given.boxes))] {
        part.chunks(16).for_each(|line| println!("{}", line.join(" ")));
    }
}

/// Whether the count of any of these is still low. Counts them if so.
fn is_wanted<Name: Copy + Ord>(counts: &mut BTreeMap<Name, u64>, names: &[Name], least: u64) -> bool {
    let is_low = names.iter().any(|name| counts.get(name).is_none_or(|count| *count < least));
    if is_low {
        names.iter().for_each(|name| *counts.entry(*name).or_default() += 1);
    }
    is_low
}

pub fn list() {
    let (mut names, mut stops) = (BTreeMap::new(), BTreeMap::new());
    for index in 0..SCENES {
        let mut scene = scene(SEED, index);
        scene.given.lines.fill(FILL);
        let told = scene.given.told(0);
        let is_new = is_wanted(&mut names, &scene.names, OF_EACH_NAME);
        let least = if told.stop == Stop::NONE { ACCEPTED } else { OF_EACH_STOP };
        if fits(&scene.given) && (is_wanted(&mut stops, &[told.stop.word()], least) || is_new) {
            print(&scene.given, &scene.given.told_with_tags(told.tag, &[]));
        }
    }
}
