//! The functions as include/hinthevoun.h declares them. A slice is passed as its pointer and its length, so what
//! they may touch is what the slice lends, and no two slices overlap where one is written.

use crate::{Layout, Lent, PathBox};

unsafe extern "C" {
    fn hinth_scan(
        scene: *const u32,
        scene_len: usize,
        tag_base: u32,
        prefixes: *mut u32,
        prefix_words: usize,
        out: *mut u64,
        out_len: usize,
    ) -> u32;

    fn hinth_flatten(
        n_wg: u32,
        tag_base: u32,
        data_base: u32,
        transform_base: u32,
        style_base: u32,
        scene: *const u32,
        scene_len: usize,
        prefixes: *const u32,
        prefix_words: usize,
        boxes: *mut PathBox,
        n_boxes: usize,
        lines: *mut u32,
        line_words: usize,
        out: *mut u64,
        out_len: usize,
    ) -> u32;
}

/// The refusal's number or 0, and the count of prefixes.
pub fn scan(scene: &[u32], tag_base: u32, prefixes: &mut [u32]) -> (u32, u64) {
    let mut out = [0];
    // SAFETY: each pointer is a slice's, with the slice's length; the slices that are written are borrowed mutably.
    let number = unsafe {
        hinth_scan(
            scene.as_ptr(),
            scene.len(),
            tag_base,
            prefixes.as_mut_ptr(),
            prefixes.len(),
            out.as_mut_ptr(),
            out.len(),
        )
    };
    (number, out[0])
}

/// The refusal's number or 0, and the tag in turn, the count of lines, and the line's end that is not a number.
pub fn flatten(
    layout: Layout,
    scene: &[u32],
    prefixes: &[u32],
    boxes: &mut [PathBox],
    lines: &mut [u32],
) -> (u32, [u64; 3]) {
    let mut out = [0; 3];
    // SAFETY: as in `scan`; `PathBox` is laid out as the header's `struct hinth_box`.
    let number = unsafe {
        hinth_flatten(
            layout.n_wg,
            layout.tag_base,
            layout.data_base,
            layout.transform_base,
            layout.style_base,
            scene.as_ptr(),
            scene.len(),
            prefixes.as_ptr(),
            prefixes.len(),
            boxes.as_mut_ptr(),
            boxes.len(),
            lines.as_mut_ptr(),
            lines.len(),
            out.as_mut_ptr(),
            out.len(),
        )
    };
    (number, out)
}

unsafe extern "C" {
    fn hinth_check(list: *const u32, list_words: usize, out: *mut u64, out_len: usize) -> u32;
}

/// The refusal's number or 0, and what is wrong and in which record.
pub fn check(list: &[u32]) -> (u32, [u64; 2]) {
    let mut out = [0; 2];
    // SAFETY: as in `scan`.
    let number = unsafe { hinth_check(list.as_ptr(), list.len(), out.as_mut_ptr(), out.len()) };
    (number, out)
}

unsafe extern "C" {
    fn hinth_profile(
        n_wg: u32,
        tag_base: u32,
        data_base: u32,
        transform_base: u32,
        style_base: u32,
        scene: *const u32,
        scene_words: usize,
        prefixes: *const u32,
        prefix_words: usize,
        out: *mut u64,
        out_len: usize,
    ) -> u32;
}

/// The refusal's number or 0; the tag that it tells, and how many segments and subpaths passed.
pub fn profile(layout: Layout, scene: &[u32], prefixes: &[u32]) -> (u32, [u64; 3]) {
    let mut out = [0; 3];
    // SAFETY: as in `scan`.
    let number = unsafe {
        hinth_profile(
            layout.n_wg,
            layout.tag_base,
            layout.data_base,
            layout.transform_base,
            layout.style_base,
            scene.as_ptr(),
            scene.len(),
            prefixes.as_ptr(),
            prefixes.len(),
            out.as_mut_ptr(),
            out.len(),
        )
    };
    (number, out)
}

/// What both ways of moving a sheet are.
type Move =
    unsafe extern "C" fn(*const u8, usize, *const u32, usize, *mut u8, usize, *mut u32, usize, *mut u64, usize) -> u32;

unsafe extern "C" {
    fn hinth_to_f32(
        tags: *const u8,
        n_tags: usize,
        points: *const u32,
        point_words: usize,
        new_tags: *mut u8,
        new_tag_room: usize,
        new_points: *mut u32,
        new_point_room: usize,
        out: *mut u64,
        out_len: usize,
    ) -> u32;
    fn hinth_to_i16(
        tags: *const u8,
        n_tags: usize,
        points: *const u32,
        point_words: usize,
        old_tags: *mut u8,
        old_tag_room: usize,
        old_points: *mut u32,
        old_point_room: usize,
        out: *mut u64,
        out_len: usize,
    ) -> u32;
}

/// The refusal's number or 0; how many tags and words were written, and the index that a refusal tells.
fn moved(way: Move, tags: &[u8], points: &[u32], to_tags: &mut [u8], to_points: &mut [u32]) -> (u32, [u64; 3]) {
    let mut out = [0; 3];
    // SAFETY: as in `scan`.
    let number = unsafe {
        way(
            tags.as_ptr(),
            tags.len(),
            points.as_ptr(),
            points.len(),
            to_tags.as_mut_ptr(),
            to_tags.len(),
            to_points.as_mut_ptr(),
            to_points.len(),
            out.as_mut_ptr(),
            out.len(),
        )
    };
    (number, out)
}

pub fn to_f32(tags: &[u8], points: &[u32], to_tags: &mut [u8], to_points: &mut [u32]) -> (u32, [u64; 3]) {
    moved(hinth_to_f32, tags, points, to_tags, to_points)
}

pub fn to_i16(tags: &[u8], points: &[u32], to_tags: &mut [u8], to_points: &mut [u32]) -> (u32, [u64; 3]) {
    moved(hinth_to_i16, tags, points, to_tags, to_points)
}

unsafe extern "C" {
    fn hinth_cut(
        list: *const u32,
        list_words: usize,
        path: u32,
        bytes: *mut u8,
        n_bytes: usize,
        out: *mut u64,
        out_len: usize,
    ) -> u32;
    fn hinth_read_cut(
        file: *const u8,
        n_bytes: usize,
        table: u32,
        lines: *mut i32,
        n_numbers: usize,
        out: *mut u64,
        out_len: usize,
    ) -> u32;
}

/// The refusal's number or 0, and the bytes that stand and the record.
pub fn cut(list: &[u32], path: u32, bytes: &mut [u8]) -> (u32, [u64; 2]) {
    let mut out = [0; 2];
    // SAFETY: as in `scan`.
    let number = unsafe {
        hinth_cut(list.as_ptr(), list.len(), path, bytes.as_mut_ptr(), bytes.len(), out.as_mut_ptr(), out.len())
    };
    (number, out)
}

/// The refusal's number or 0, and the lines that stand and the position.
pub fn read_cut(file: &[u8], table: u32, lines: &mut [i32]) -> (u32, [u64; 2]) {
    let mut out = [0; 2];
    // SAFETY: as in `scan`.
    let number = unsafe {
        hinth_read_cut(file.as_ptr(), file.len(), table, lines.as_mut_ptr(), lines.len(), out.as_mut_ptr(), out.len())
    };
    (number, out)
}

/// How many words a pen has.
pub const PEN_WORDS: usize = 7;

unsafe extern "C" {
    fn hinth_move(
        pen: *mut u64,
        pen_len: usize,
        x: f32,
        y: f32,
        tags: *mut u8,
        tags_len: usize,
        points: *mut u32,
        points_len: usize,
    ) -> u32;

    fn hinth_line(
        pen: *mut u64,
        pen_len: usize,
        x: f32,
        y: f32,
        tags: *mut u8,
        tags_len: usize,
        points: *mut u32,
        points_len: usize,
    ) -> u32;

    fn hinth_quad(
        pen: *mut u64,
        pen_len: usize,
        x1: f32,
        y1: f32,
        x: f32,
        y: f32,
        tags: *mut u8,
        tags_len: usize,
        points: *mut u32,
        points_len: usize,
    ) -> u32;

    fn hinth_cubic(
        pen: *mut u64,
        pen_len: usize,
        x1: f32,
        y1: f32,
        x2: f32,
        y2: f32,
        x: f32,
        y: f32,
        tags: *mut u8,
        tags_len: usize,
        points: *mut u32,
        points_len: usize,
    ) -> u32;

    fn hinth_end(
        pen: *mut u64,
        pen_len: usize,
        tags: *mut u8,
        tags_len: usize,
        points: *mut u32,
        points_len: usize,
    ) -> u32;
}

/// Calls a command with the pen, its coordinates and the two buffers.
macro_rules! command {
    ($symbol:ident, $pen:ident, [$($coordinate:expr),*], $tags:ident, $points:ident) => {
        // SAFETY: as in `scan`; the three slices are borrowed mutably.
        unsafe {
            $symbol(
                $pen.as_mut_ptr(),
                $pen.len(),
                $($coordinate,)*
                $tags.as_mut_ptr(),
                $tags.len(),
                $points.as_mut_ptr(),
                $points.len(),
            )
        }
    };
}

pub fn pen_move(pen: &mut [u64], [x, y]: [f32; 2], tags: &mut [u8], points: &mut [u32]) -> u32 {
    command!(hinth_move, pen, [x, y], tags, points)
}

pub fn pen_line(pen: &mut [u64], [x, y]: [f32; 2], tags: &mut [u8], points: &mut [u32]) -> u32 {
    command!(hinth_line, pen, [x, y], tags, points)
}

pub fn pen_quad(pen: &mut [u64], [[x1, y1], [x, y]]: [[f32; 2]; 2], tags: &mut [u8], points: &mut [u32]) -> u32 {
    command!(hinth_quad, pen, [x1, y1, x, y], tags, points)
}

pub fn pen_cubic(pen: &mut [u64], p: [[f32; 2]; 3], tags: &mut [u8], points: &mut [u32]) -> u32 {
    let [[x1, y1], [x2, y2], [x, y]] = p;
    command!(hinth_cubic, pen, [x1, y1, x2, y2, x, y], tags, points)
}

pub fn pen_end(pen: &mut [u64], tags: &mut [u8], points: &mut [u32]) -> u32 {
    command!(hinth_end, pen, [], tags, points)
}

unsafe extern "C" {
    fn hinth_mend(
        list: *const u32,
        list_words: usize,
        within: u32,
        room: *mut u32,
        room_words: usize,
        report: *mut u32,
        report_words: usize,
        out: *mut u64,
        out_len: usize,
    ) -> u32;
}

/// The refusal's number or 0, and the two numbers that the answer names.
pub fn mend(list: &[u32], within: u32, room: &mut [u32], report: &mut [u32]) -> (u32, [u64; 2]) {
    let mut out = [0; 2];
    // SAFETY: as in `scan`.
    let number = unsafe {
        hinth_mend(
            list.as_ptr(),
            list.len(),
            within,
            room.as_mut_ptr(),
            room.len(),
            report.as_mut_ptr(),
            report.len(),
            out.as_mut_ptr(),
            out.len(),
        )
    };
    (number, out)
}

unsafe extern "C" {
    fn hinth_import(
        pen: *mut u64,
        pen_len: usize,
        text: *const u8,
        text_len: usize,
        tags: *mut u8,
        tags_len: usize,
        points: *mut u32,
        points_len: usize,
        out: *mut u64,
        out_len: usize,
    ) -> u32;
}

/// The refusal's number or 0, and the byte that is told.
pub fn import(pen: &mut [u64], text: &[u8], tags: &mut [u8], points: &mut [u32]) -> (u32, u64) {
    let mut out = [0];
    // SAFETY: as in `scan`.
    let number = unsafe {
        hinth_import(
            pen.as_mut_ptr(),
            pen.len(),
            text.as_ptr(),
            text.len(),
            tags.as_mut_ptr(),
            tags.len(),
            points.as_mut_ptr(),
            points.len(),
            out.as_mut_ptr(),
            out.len(),
        )
    };
    (number, out[0])
}

unsafe extern "C" {
    fn hinth_cut_text(
        text: *const u8,
        text_len: usize,
        a: f32,
        b: f32,
        c: f32,
        d: f32,
        e: f32,
        f: f32,
        table: u32,
        tags: *mut u8,
        n_tags: usize,
        points: *mut u32,
        point_words: usize,
        scene: *mut u32,
        scene_words: usize,
        prefixes: *mut u32,
        prefix_words: usize,
        lines: *mut u32,
        line_words: usize,
        bytes: *mut u8,
        n_bytes: usize,
        out: *mut u64,
        out_len: usize,
    ) -> u32;
}

/// The refusal's number or 0; how many bytes were written, the stage that refused, and the place.
pub fn cut_text(text: &[u8], transform: [f32; 6], table: u32, lent: &mut Lent, bytes: &mut [u8]) -> (u32, [u64; 3]) {
    let mut out = [0; 3];
    let [a, b, c, d, e, f] = transform;
    // SAFETY: as in `scan`.
    let number = unsafe {
        hinth_cut_text(
            text.as_ptr(),
            text.len(),
            a,
            b,
            c,
            d,
            e,
            f,
            table,
            lent.tags.as_mut_ptr(),
            lent.tags.len(),
            lent.points.as_mut_ptr(),
            lent.points.len(),
            lent.scene.as_mut_ptr(),
            lent.scene.len(),
            lent.prefixes.as_mut_ptr(),
            lent.prefixes.len(),
            lent.lines.as_mut_ptr(),
            lent.lines.len(),
            bytes.as_mut_ptr(),
            bytes.len(),
            out.as_mut_ptr(),
            out.len(),
        )
    };
    (number, out)
}
