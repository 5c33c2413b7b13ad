//! Scenes for comparing whole calls: sound ones, ones at an edge, and damaged ones, each with little room or enough.

use vello_encoding::PathBbox;

use crate::encode::Parts;
use crate::tags;
use crate::values::Values;
use crate::whole::{EMPTY_BOX, Given, scan};

/// A call, and the names of what is in it.
pub struct Scene {
    pub given: Given,
    pub names: Vec<&'static str>,
}

/// No room is above this, so that a huge curve ends.
const MOST_LINES: usize = 800;

/// Four parts one behind another, now and then in another order, with gaps: the words and where each part begins.
fn placed(values: &mut Values, parts: [&[u32]; 4]) -> (Vec<u32>, [u32; 4]) {
    let mut order = [0, 1, 2, 3];
    if values.once_in(4) {
        (1..4).for_each(|i| order.swap(i, values.below(i as u64 + 1) as usize));
    }
    let (mut scene, mut bases) = (Vec::new(), [0; 4]);
    for i in order {
        scene.extend((0..values.below(3)).map(|_| values.word()));
        bases[i] = scene.len() as u32;
        scene.extend(parts[i]);
    }
    (scene, bases)
}

fn some_box(values: &mut Values) -> PathBbox {
    PathBbox {
        x0: values.word() as i32,
        y0: values.word() as i32,
        x1: values.word() as i32,
        y1: values.word() as i32,
        draw_flags: values.word(),
        trans_ix: values.word(),
    }
}

/// As an encoder would lend it, with no lines yet.
fn sound(values: &mut Values, parts: &Parts) -> Given {
    let (n_wg, tags) = tags::workgroups(&parts.tags);
    let (scene, [tag_base, data_base, transform_base, style_base]) =
        placed(values, [&tags, &parts.data, &parts.transforms, &parts.styles]);
    let mut prefixes = vec![0; 4 * tags.len()];
    scan(&scene, tag_base, &mut prefixes);
    let boxes = (0..parts.paths).map(|i| if i % 4 == 3 { some_box(values) } else { EMPTY_BOX }).collect();
    Given { n_wg, tag_base, data_base, transform_base, style_base, scene, prefixes, boxes, lines: Vec::new() }
}

/// A name and what is done to a call.
pub type Done = (&'static str, fn(&mut Values, &mut Given));

fn end(given: &Given) -> u32 {
    given.scene.len() as u32
}

/// The words of the prefixes that a tag needs: those behind are only for tags of zeros.
fn needed(given: &Given) -> usize {
    let tags = given.scene.get(given.tag_base as usize..).unwrap_or_default();
    let words = given.prefixes.len() / 4;
    let last = tags.iter().take(words).rposition(|word| *word != 0);
    last.map_or(0, |i| 4 * i + 4)
}

pub const EDGES: [(u64, Done); 18] = [
    (1, ("the tag base at the scene's end", |_, g| g.tag_base = end(g))),
    (1, ("the tag base one past the scene's end", |_, g| g.tag_base = end(g) + 1)),
    (1, ("the data base at the scene's end", |_, g| g.data_base = end(g))),
    (1, ("the data base one past the scene's end", |_, g| g.data_base = end(g) + 1)),
    (1, ("the transform base at the scene's end", |_, g| g.transform_base = end(g))),
    (1, ("the style base at the scene's end", |_, g| g.style_base = end(g))),
    (1, ("the style base one past the scene's end", |_, g| g.style_base = end(g) + 1)),
    (1, ("no workgroup", |_, g| g.n_wg = 0)),
    (
        1,
        ("no workgroup and no scene", |_, g| {
            g.n_wg = 0;
            g.scene.clear();
            (g.tag_base, g.data_base) = (0, 0);
        }),
    ),
    (1, ("a workgroup more", |_, g| g.n_wg = g.n_wg.saturating_add(1))),
    (1, ("the most workgroups", |_, g| g.n_wg = u32::MAX)),
    (3, ("the scene one word short", |_, g| g.scene.truncate(g.scene.len().saturating_sub(1)))),
    (3, ("prefixes just enough", |_, g| g.prefixes.truncate(needed(g)))),
    (3, ("prefixes one word short", |_, g| g.prefixes.truncate(needed(g).saturating_sub(1)))),
    (1, ("no prefixes", |_, g| g.prefixes.clear())),
    (2, ("one box short", |_, g| g.boxes.truncate(g.boxes.len().saturating_sub(1)))),
    (1, ("no boxes", |_, g| g.boxes.clear())),
    (1, ("a box more", |v, g| g.boxes.push(some_box(v)))),
];

fn shorten<T>(values: &mut Values, list: &mut Vec<T>) {
    list.truncate(values.below(list.len() as u64 + 1) as usize);
}

fn damage_word(values: &mut Values, words: &mut [u32]) {
    if words.is_empty() {
        return;
    }
    let at = values.below(words.len() as u64) as usize;
    words[at] = match values.below(3) {
        0 => values.word(),
        1 => words[at] ^ 1 << values.below(32),
        _ => values.any().to_bits(),
    };
}

/// Near where it was, near the scene's end, or near 2^32.
fn damage_base(values: &mut Values, given: &mut Given) {
    let end = end(given);
    let bases = [&mut given.tag_base, &mut given.data_base, &mut given.transform_base, &mut given.style_base];
    let near = values.below(5) as u32;
    let which = values.below(4) as usize;
    for base in bases.into_iter().skip(which).take(1) {
        *base = match values.below(4) {
            0 => end.wrapping_add(near).wrapping_sub(2),
            1 => near.wrapping_sub(2),
            _ => base.wrapping_add(near).wrapping_sub(2),
        };
    }
}

/// The styles' base far down and the prefixes' sums as far up: the flags' address wraps, the width's must not.
fn wrap_styles(given: &mut Given) {
    let down = given.style_base.wrapping_add(2);
    given.style_base = given.style_base.wrapping_sub(down);
    for prefix in given.prefixes.chunks_mut(4) {
        if let Some(style) = prefix.get_mut(2) {
            *style = style.wrapping_add(down);
        }
    }
}

/// One of the first words of tags, which are seldom zeros.
fn damage_tag(values: &mut Values, given: &mut Given) {
    let tags = given.scene.get_mut(given.tag_base as usize..).unwrap_or_default();
    let few = tags.len().min(12);
    damage_word(values, &mut tags[..few]);
}

fn damage_tag_and_scan(values: &mut Values, given: &mut Given) {
    damage_tag(values, given);
    scan(&given.scene, given.tag_base, &mut given.prefixes);
}

const DAMAGES: [(u64, Done); 9] = [
    (4, ("any word of the scene", |v, g| damage_word(v, &mut g.scene))),
    (2, ("any word of the prefixes", |v, g| damage_word(v, &mut g.prefixes))),
    (1, ("a scene cut short", |v, g| shorten(v, &mut g.scene))),
    (1, ("prefixes cut short", |v, g| shorten(v, &mut g.prefixes))),
    (1, ("boxes cut short", |v, g| shorten(v, &mut g.boxes))),
    (3, ("a base elsewhere", damage_base)),
    (1, ("styles that wrap", |_, g| wrap_styles(g))),
    (1, ("a tag anew with old prefixes", damage_tag)),
    (3, ("a tag anew", damage_tag_and_scan)),
];

/// The words lent for lines, where so many lines would be stored.
pub type Room = (&'static str, fn(&mut Values, usize) -> usize);

pub const ROOMS: [(u64, Room); 7] = [
    (12, ("room to spare", |v, lines| 6 * lines + v.below(20) as usize)),
    (8, ("room exactly full", |_, lines| 6 * lines)),
    (2, ("room one word short", |_, lines| (6 * lines).saturating_sub(1))),
    (2, ("room one line short", |_, lines| (6 * lines).saturating_sub(6))),
    (2, ("less room", |v, lines| 6 * lines - v.below(3 * lines as u64 + 1) as usize)),
    (1, ("little room", |v, _| v.below(13) as usize)),
    (1, ("no room", |_, _| 0)),
];

/// The second word of each record is not 0.
fn some_lines(values: &mut Values, n: usize) -> Vec<u32> {
    let word = values.word();
    (0..n as u32).map(|i| word.wrapping_mul(i) | u32::from(i % 6 == 1)).collect()
}

/// Lends room for lines, more or less than the call needs.
pub fn lend(values: &mut Values, given: &mut Given, room: fn(&mut Values, usize) -> usize) {
    let lent = room(values, given.lines_stored(MOST_LINES));
    given.lines = some_lines(values, lent);
}

/// The scene of an index: the same whatever others are made.
pub fn scene(seed: u64, index: u64) -> Scene {
    let values = &mut Values::at(seed, index);
    let mut parts = Parts::new(values);
    let mut given = sound(values, &parts);
    let names = &mut parts.names;
    let mut apply = |values: &mut Values, table: &[(u64, Done)]| {
        let (name, change) = *values.pick(table);
        names.push(name);
        change(values, &mut given);
    };
    match values.below(16) {
        0..10 => (),
        10..12 => apply(values, &EDGES),
        12..15 => apply(values, &DAMAGES),
        _ => (0..2 + values.below(3)).for_each(|_| apply(values, &DAMAGES)),
    }
    let (name, room) = *values.pick(&ROOMS);
    parts.names.push(name);
    lend(values, &mut given, room);
    Scene { given, names: parts.names }
}

#[cfg(test)]
mod tests {
    use super::*;
    use crate::{encode, stops};

    /// Every entry of the tables comes up, and the second word of no lent record is 0.
    #[test]
    fn all_is_made() {
        stops::watch();
        let scenes: Vec<Scene> = (0..4000).map(|index| scene(1, index)).collect();
        let made = |name: &str| scenes.iter().any(|scene| scene.names.contains(&name));
        let of_tables = EDGES.iter().chain(&DAMAGES).map(|entry| entry.1.0).chain(ROOMS.iter().map(|entry| entry.1.0));
        for name in of_tables.chain(encode::names()) {
            assert!(made(name), "{name}");
        }
        for Scene { given, .. } in &scenes {
            assert!(given.lines.iter().skip(1).step_by(6).all(|word| *word != 0));
        }
    }
}
