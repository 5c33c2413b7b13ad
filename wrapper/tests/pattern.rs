//! Fills drawn by commands: what is written, what is refused, and that the lines of a drawn outline are watertight.

use hinthevoun::pattern::{Pen, Refused};
use hinthevoun::{Layout, PathBox, flatten, scan};
use std::collections::BTreeMap;

/// Room that is marked, so that a word too much is seen.
struct Buffers {
    tags: Vec<u8>,
    points: Vec<u32>,
}

fn room(tags: usize, points: usize) -> Buffers {
    Buffers { tags: vec![0xa5; tags], points: vec![0xa5a5a5a5; points] }
}

fn words(points: &[f32]) -> Vec<u32> {
    points.iter().map(|x| x.to_bits()).collect()
}

#[test]
fn a_triangle_is_closed_and_its_last_segment_ends_it() {
    let (mut pen, mut b) = (Pen::new(), room(4, 9));
    pen.move_to([0.0, 0.0], &mut b.tags, &mut b.points).unwrap();
    assert_eq!((pen.tags(), pen.points()), (0, 0));
    pen.line_to([3.0, 0.0], &mut b.tags, &mut b.points).unwrap();
    pen.line_to([0.0, 6.0], &mut b.tags, &mut b.points).unwrap();
    pen.end(&mut b.tags, &mut b.points).unwrap();
    assert_eq!((pen.tags(), pen.points()), (3, 8));
    assert_eq!(b.tags, [0x09, 0x09, 0x0d, 0xa5]);
    assert_eq!(b.points[..8], words(&[0.0, 0.0, 3.0, 0.0, 0.0, 6.0, 0.0, 0.0]));
    assert_eq!(b.points[8], 0xa5a5a5a5);
}

#[test]
fn an_outline_that_ends_on_the_other_zero_is_closed_already() {
    let (mut pen, mut b) = (Pen::new(), room(2, 6));
    pen.move_to([0.0, 1.0], &mut b.tags, &mut b.points).unwrap();
    pen.line_to([5.0, 5.0], &mut b.tags, &mut b.points).unwrap();
    pen.line_to([-0.0, 1.0], &mut b.tags, &mut b.points).unwrap();
    pen.end(&mut b.tags, &mut b.points).unwrap();
    assert_eq!(b.tags, [0x09, 0x0d]);
    assert_eq!(b.points, words(&[0.0, 1.0, 5.0, 5.0, -0.0, 1.0]));
}

#[test]
fn refusals_come_in_their_order_and_change_nothing() {
    let (mut pen, mut b) = (Pen::new(), room(0, 0));
    assert_eq!(pen.line_to([f32::NAN, 0.0], &mut b.tags, &mut b.points), Err(Refused::NoMove));
    assert_eq!(pen.move_to([0.0, f32::INFINITY], &mut b.tags, &mut b.points), Err(Refused::NotFinite));
    assert_eq!(pen, Pen::new());
    pen.move_to([1.0, 2.0], &mut b.tags, &mut b.points).unwrap();
    let moved = pen;
    assert_eq!(pen.quad_to([0.0, 0.0], [f32::NAN, 0.0], &mut b.tags, &mut b.points), Err(Refused::NotFinite));
    assert_eq!(pen.quad_to([0.0, 0.0], [1.0, 0.0], &mut b.tags, &mut b.points), Err(Refused::NoRoom));
    assert_eq!(pen, moved);
    // one word short of the start, two control points and the end
    let mut b = room(1, 7);
    assert_eq!(pen.cubic_to([[0.0, 0.0]; 2], [1.0, 0.0], &mut b.tags, &mut b.points), Err(Refused::NoRoom));
    assert_eq!((b.tags, b.points, pen), (vec![0xa5], vec![0xa5a5a5a5; 7], moved));
}

#[test]
fn a_refused_move_is_no_move() {
    let (mut pen, mut b) = (Pen::new(), room(2, 5));
    pen.move_to([0.0, 0.0], &mut b.tags, &mut b.points).unwrap();
    pen.line_to([3.0, 0.0], &mut b.tags, &mut b.points).unwrap();
    // the closing line has no room, so that what is open stays open
    assert_eq!(pen.move_to([9.0, 9.0], &mut b.tags, &mut b.points), Err(Refused::NoRoom));
    assert_eq!(pen.end(&mut b.tags, &mut b.points), Err(Refused::NoRoom));
    assert_eq!(b.tags, [0x09, 0xa5]);
    let mut more = room(2, 6);
    more.tags[0] = b.tags[0];
    more.points[..4].copy_from_slice(&b.points[..4]);
    pen.end(&mut more.tags, &mut more.points).unwrap();
    assert_eq!(more.tags, [0x09, 0x0d]);
}

#[test]
fn a_made_up_pen_reads_and_writes_nothing_outside() {
    for (opened, tags, points) in [(1, 9, 0), (1, 0, 9), (2, 3, 0), (2, u64::MAX, u64::MAX), (77, 1, u64::MAX)] {
        let mut pen = Pen::from_words([opened, 0, 0, 1, 1, tags, points]);
        let (before, mut b) = (pen, room(3, 3));
        assert_eq!(pen.line_to([1.0, 1.0], &mut b.tags, &mut b.points), Err(Refused::NoRoom));
        assert_eq!((pen, b.tags, b.points), (before, vec![0xa5; 3], vec![0xa5a5a5a5; 3]));
    }
    // nothing to write: the end bit has no tag to stand on
    let mut b = room(3, 3);
    assert_eq!(Pen::from_words([2, 0, 0, 0, 0, 0, 0]).end(&mut b.tags, &mut b.points), Err(Refused::NoRoom));
    assert_eq!(Pen::from_words([2, 0, 0, 0, 0, 4, 0]).end(&mut b.tags, &mut b.points), Err(Refused::NoRoom));
    assert_eq!(b.tags, [0xa5; 3]);
    assert_eq!(Pen::from_words([1, 0, 0, 0, 0, 9, 9]).end(&mut b.tags, &mut b.points), Ok(()));
}

#[test]
fn a_drawn_outline_is_watertight() {
    let (mut pen, mut b) = (Pen::new(), room(8, 40));
    pen.move_to([10.0, 20.0], &mut b.tags, &mut b.points).unwrap();
    pen.cubic_to([[10.0, 110.0], [40.0, 120.0]], [70.0, 120.0], &mut b.tags, &mut b.points).unwrap();
    pen.quad_to([130.0, 90.0], [120.0, 60.0], &mut b.tags, &mut b.points).unwrap();
    pen.move_to([50.0, 60.0], &mut b.tags, &mut b.points).unwrap();
    pen.line_to([75.0, 85.0], &mut b.tags, &mut b.points).unwrap();
    pen.line_to([100.0, 60.0], &mut b.tags, &mut b.points).unwrap();
    pen.end(&mut b.tags, &mut b.points).unwrap();
    // a transform, a style, what was drawn, a path
    let mut tags = vec![0x20, 0x40];
    tags.extend(&b.tags[..pen.tags() as usize]);
    tags.push(0x10);
    tags.resize(256, 0);
    let mut scene: Vec<u32> = tags.chunks(4).map(|t| u32::from_le_bytes(t.try_into().unwrap())).collect();
    scene.extend(&b.points[..pen.points() as usize]);
    let transform_base = scene.len() as u32;
    scene.extend(words(&[2.0, 0.0, 0.0, 2.0, 0.0, 0.0]));
    scene.extend([0, 0]);
    let layout = Layout { n_wg: 1, tag_base: 0, data_base: 64, transform_base, style_base: transform_base + 6 };
    let (mut prefixes, mut boxes, mut lines) = (vec![0; 256], [PathBox::EMPTY], vec![0; 6000]);
    scan(&scene, 0, &mut prefixes).unwrap();
    let count = flatten(layout, &scene, &prefixes, &mut boxes, &mut lines).unwrap() as usize;
    assert!(count > 5);
    let mut surplus = BTreeMap::new();
    for line in lines[..6 * count].chunks_exact(6) {
        *surplus.entry((line[2], line[3])).or_insert(0) += 1;
        *surplus.entry((line[4], line[5])).or_insert(0) -= 1;
    }
    assert!(surplus.values().all(|more| *more == 0));
}
