//! The call on a triangle, and on what is left of it without its last side.

use hinthevoun::{Layout, LineEnd, PathBox, Refusal, flatten, scan};
use std::collections::BTreeMap;

const LAYOUT: Layout = Layout { n_wg: 1, tag_base: 0, data_base: 64, transform_base: 68, style_base: 74 };
const THREE: u32 = 0x40400000;
const SIX: u32 = 0x40c00000;
/// Drawn by tags 2, 3 and 4.
const SIDES: [[u32; 6]; 3] = [[0, 2, 0, 0, THREE, 0], [0, 3, THREE, 0, 0, SIX], [0, 4, 0, SIX, 0, 0]];
const MARK: u32 = 0xa5a5a5a5;

/// A transform, a style, two lines, a line that ends the subpath, and a path.
const CLOSED: [u32; 2] = [0x01014020, 0x00001005];
/// The second line ends the subpath.
const OPEN: [u32; 2] = [0x05014020, 0x00000010];

/// The points are (0, 0), (3, 0), (0, 6), (0, 0), and the transform is the identity.
fn scene(tags: [u32; 2], style: [u32; 2]) -> Vec<u32> {
    let mut scene = vec![0; 76];
    scene[..2].copy_from_slice(&tags);
    scene[64..68].copy_from_slice(&[0, 3, 6 << 16, 0]);
    scene[68] = 1.0f32.to_bits();
    scene[71] = 1.0f32.to_bits();
    scene[74..].copy_from_slice(&style);
    scene
}

/// What a call answered, and all that it was lent.
struct Called {
    answer: Result<u32, Refusal>,
    boxes: Vec<PathBox>,
    lines: Vec<u32>,
}

/// The boxes begin with 7 for flags and transform, the lines are words with a mark.
fn call(layout: Layout, scene: &[u32], n_boxes: usize, line_words: usize) -> Called {
    let mut prefixes = vec![MARK; 4 * scene.len()];
    scan(scene, LAYOUT.tag_base, &mut prefixes).unwrap();
    let mut boxes = vec![PathBox { draw_flags: 7, trans_ix: 7, ..PathBox::EMPTY }; n_boxes];
    let mut lines = vec![MARK; line_words];
    let answer = flatten(layout, scene, &prefixes, &mut boxes, &mut lines);
    Called { answer, boxes, lines }
}

/// The lines, and then marks.
fn words(lines: &[[u32; 6]], line_words: usize) -> Vec<u32> {
    let mut words = lines.concat();
    words.resize(line_words, MARK);
    words
}

/// At each point where they differ, how many more lines start than end there.
fn surplus(lines: &[u32]) -> BTreeMap<(u32, u32), i32> {
    let mut surplus = BTreeMap::new();
    for line in lines.chunks_exact(6) {
        *surplus.entry((line[2], line[3])).or_insert(0) += 1;
        *surplus.entry((line[4], line[5])).or_insert(0) -= 1;
    }
    surplus.retain(|_, more| *more != 0);
    surplus
}

#[test]
fn the_triangle_is_accepted() {
    let called = call(LAYOUT, &scene(CLOSED, [0, 0]), 2, 23);
    assert_eq!(called.answer, Ok(3));
    assert_eq!(called.lines, words(&SIDES, 23));
    assert_eq!(called.boxes[0], PathBox { x0: 0, y0: 0, x1: 3, y1: 6, draw_flags: 0, trans_ix: 0 });
    assert_eq!(called.boxes[1], PathBox { draw_flags: 7, trans_ix: 7, ..PathBox::EMPTY });
}

#[test]
fn the_even_odd_rule_is_a_draw_flag() {
    let called = call(LAYOUT, &scene(CLOSED, [0x40000000, 0]), 1, 18);
    assert_eq!(called.answer, Ok(3));
    assert_eq!(called.boxes, [PathBox { x0: 0, y0: 0, x1: 3, y1: 6, draw_flags: 1, trans_ix: 0 }]);
}

#[test]
fn room_for_two_lines_is_too_little() {
    for line_words in 12..18 {
        let called = call(LAYOUT, &scene(CLOSED, [0, 0]), 1, line_words);
        assert_eq!(called.answer, Err(Refusal { number: 6, end: None, tag: 4, lines: 2 }));
        assert_eq!(called.lines, words(&SIDES[..2], line_words));
        assert_eq!(called.boxes, [PathBox { x0: 0, y0: 0, x1: 3, y1: 6, draw_flags: 7, trans_ix: 7 }]);
    }
}

#[test]
fn a_path_needs_a_box() {
    let called = call(LAYOUT, &scene(CLOSED, [0, 0]), 0, 18);
    assert_eq!(called.answer, Err(Refusal { number: 4, end: None, tag: 5, lines: 3 }));
    assert_eq!(called.lines, words(&SIDES, 18));
}

#[test]
fn a_base_past_the_scene_is_refused() {
    for layout in [Layout { tag_base: 77, ..LAYOUT }, Layout { data_base: 77, ..LAYOUT }] {
        let called = call(layout, &scene(CLOSED, [0, 0]), 1, 18);
        assert_eq!(called.answer, Err(Refusal { number: 1, end: None, tag: 0, lines: 0 }));
        assert_eq!(called.lines, words(&[], 18));
    }
}

#[test]
fn a_transform_is_needed() {
    let called = call(LAYOUT, &scene([0x01014000, 0x00001005], [0, 0]), 1, 18);
    assert_eq!(called.answer, Err(Refusal { number: 2, end: None, tag: 2, lines: 0 }));
}

#[test]
fn prefixes_are_needed() {
    let mut lines = [MARK; 18];
    let answer = flatten(LAYOUT, &scene(CLOSED, [0, 0]), &[0; 3], &mut [PathBox::EMPTY], &mut lines);
    assert_eq!(answer, Err(Refusal { number: 3, end: None, tag: 0, lines: 0 }));
    assert_eq!(lines, [MARK; 18]);
}

#[test]
fn a_stroke_needs_a_width() {
    let called = call(LAYOUT, &scene(CLOSED, [0x80000000, f32::NAN.to_bits()]), 1, 18);
    let refusal = called.answer.unwrap_err();
    assert_eq!(refusal, Refusal { number: 8, end: None, tag: 2, lines: 0 });
    assert_eq!(refusal.to_string(), "refused 8 at 2: the count of a curve's pieces is not a number");
    assert_eq!(called.lines, words(&[], 18));
}

/// Where the transform's numbers begin.
const TRANSFORM: usize = LAYOUT.transform_base as usize;

#[test]
fn a_transform_is_finite() {
    for bad in [f32::NAN, f32::INFINITY, f32::NEG_INFINITY] {
        for place in 0..6 {
            let mut scene = scene(CLOSED, [0, 0]);
            scene[TRANSFORM + place] = bad.to_bits();
            let called = call(LAYOUT, &scene, 1, 18);
            let refusal = called.answer.unwrap_err();
            assert_eq!(refusal, Refusal { number: 9, end: None, tag: 2, lines: 0 });
            assert_eq!(refusal.to_string(), "refused 9 at 2: a transform has a number that is not finite");
            assert_eq!(called.lines, words(&[], 18));
        }
    }
}

/// 4 and the transform that is not there come before 9, and 9 before points that are not there.
#[test]
fn a_bad_transform_has_its_place_in_the_order() {
    let mut scene = scene(CLOSED, [0x40000000, 0]);
    scene[TRANSFORM + 5] = f32::NAN.to_bits();
    let number = |layout: Layout, n_boxes: usize| call(layout, &scene, n_boxes, 18).answer.unwrap_err().number;
    assert_eq!(number(LAYOUT, 1), 9);
    assert_eq!(number(Layout { data_base: 76, ..LAYOUT }, 1), 9);
    assert_eq!(number(Layout { transform_base: 71, ..LAYOUT }, 1), 2);
    scene[0] = 0x01114020;
    let number = |n_boxes: usize| call(LAYOUT, &scene, n_boxes, 18).answer.unwrap_err().number;
    assert_eq!([number(0), number(1)], [4, 9]);
    // the line is a path's too: its flags and its transform stand in the box
    assert_eq!(call(LAYOUT, &scene, 1, 18).boxes, [PathBox { draw_flags: 1, trans_ix: 0, ..PathBox::EMPTY }]);
}

/// What no segment reads may be anything, and large numbers are none of these.
#[test]
fn only_what_is_read_is_looked_at() {
    let mut unread = scene([0x00004020, 0x00001000], [0, 0]);
    unread[TRANSFORM] = f32::NAN.to_bits();
    assert_eq!(call(LAYOUT, &unread, 1, 18).answer, Ok(0));
    let mut large = scene(CLOSED, [0, 0]);
    large[TRANSFORM] = f32::MAX.to_bits();
    assert_eq!(call(LAYOUT, &large, 1, 18).answer.unwrap_err().number, 8);
}

/// The marker of a closed subpath: it reads its transform all the same.
#[test]
fn a_marker_that_draws_nothing_needs_a_transform() {
    let mut scene = scene([0x00054020, 0x00000010], [0x80000000, 1.0f32.to_bits()]);
    assert_eq!(call(LAYOUT, &scene, 1, 18).answer, Ok(0));
    scene[TRANSFORM + 3] = f32::NEG_INFINITY.to_bits();
    assert_eq!(call(LAYOUT, &scene, 1, 18).answer, Err(Refusal { number: 9, end: None, tag: 2, lines: 0 }));
}

/// Behind a line a second transform holds, which is none. The line is drawn to its end; only the marker reads that transform.
#[test]
fn a_neighbours_transform_is_not_read() {
    let mut scene = scene([0x05214020, 0x00000010], [0x80000000, 1.0f32.to_bits()]);
    scene.splice(74..74, [f32::NAN.to_bits(); 6]);
    let called = call(Layout { style_base: 80, ..LAYOUT }, &scene, 1, 30);
    assert_eq!(called.answer, Err(Refusal { number: 9, end: None, tag: 3, lines: 4 }));
}

/// An open line with its marker, whose last point is none: the cap at the stroke's start leads nowhere.
#[test]
fn a_marker_to_no_point_has_a_bad_start() {
    let (layout, mut scene) = (Layout { transform_base: 72, style_base: 78, ..LAYOUT }, vec![0; 80]);
    scene[..2].copy_from_slice(&[0x0e094020, 0x00000010]);
    let numbers = [0., 0., 3., 0., 0., 0., f32::NAN, 0., 1., 0., 0., 1., 0., 0.];
    scene[64..78].copy_from_slice(&numbers.map(f32::to_bits));
    scene[78..].copy_from_slice(&[0x80000000, 1.0f32.to_bits()]);
    let refusal = call(layout, &scene, 1, 24).answer.unwrap_err();
    assert_eq!(refusal, Refusal { number: 5, end: Some(LineEnd::Start), tag: 3, lines: 3 });
    assert_eq!(refusal.to_string(), "refused 5 at 3: the start of a line is not a number");
}

/// The second line leads nowhere, so the join between them has a start and no end.
#[test]
fn a_stroke_to_no_point_has_a_bad_end() {
    let (layout, mut scene) = (Layout { transform_base: 72, style_base: 78, ..LAYOUT }, vec![0; 80]);
    scene[..2].copy_from_slice(&[0x09094020, 0x0000100d]);
    let numbers = [0., 0., 3., 0., f32::NAN, 6., 0., 0., 1., 0., 0., 1., 0., 0.];
    scene[64..78].copy_from_slice(&numbers.map(f32::to_bits));
    scene[78..].copy_from_slice(&[0x80000000, 1.0f32.to_bits()]);
    let refusal = call(layout, &scene, 1, 18).answer.unwrap_err();
    assert_eq!(refusal, Refusal { number: 5, end: Some(LineEnd::End), tag: 2, lines: 2 });
    assert_eq!(refusal.to_string(), "refused 5 at 2: the end of a line is not a number");
}

#[test]
fn no_workgroups_need_no_scene() {
    let layout = Layout { n_wg: 0, tag_base: 0, data_base: 0, transform_base: 0, style_base: 0 };
    assert_eq!(flatten(layout, &[], &[], &mut [], &mut []), Ok(0));
}

#[test]
fn a_subpath_left_open_stays_open() {
    let open = call(LAYOUT, &scene(OPEN, [0, 0]), 1, 18);
    assert_eq!(open.answer, Ok(2));
    assert_eq!(open.lines, words(&SIDES[..2], 18));
    assert_eq!(surplus(&open.lines[..12]), BTreeMap::from([((0, 0), 1), ((0, SIX), -1)]));
}

#[test]
fn a_closed_subpath_balances() {
    let closed = call(LAYOUT, &scene(CLOSED, [0, 0]), 1, 18);
    assert_eq!(surplus(&closed.lines), BTreeMap::new());
}

#[test]
fn the_scan_fills_whole_prefixes() {
    let mut prefixes = [MARK; 14];
    assert_eq!(scan(&scene(CLOSED, [0, 0]), 0, &mut prefixes), Ok(3));
    assert_eq!(prefixes, [0, 0, 0, 0, 0, 1, 2, 2, 1, 1, 2, 4, MARK, MARK]);
}

#[test]
fn the_scan_ends_with_the_scene() {
    let mut prefixes = [MARK; 8];
    assert_eq!(scan(&scene(CLOSED, [0, 0]), 75, &mut prefixes), Ok(1));
    assert_eq!(prefixes, [0, 0, 0, 0, MARK, MARK, MARK, MARK]);
}

#[test]
fn the_scan_refuses_a_base_past_the_scene() {
    let mut prefixes = [MARK; 8];
    let refusal = scan(&scene(CLOSED, [0, 0]), 77, &mut prefixes).unwrap_err();
    assert_eq!(refusal, Refusal { number: 1, end: None, tag: 0, lines: 0 });
    assert_eq!(refusal.to_string(), "refused 1 at 0: a base lies past the scene's end");
    assert_eq!(prefixes, [MARK; 8]);
}
