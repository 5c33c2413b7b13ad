// What follows stands behind the published text and calls its private functions.

/// The source's own box and count, kept outside of a call that may panic.
pub struct Pen {
    pub line_ix: usize,
    bbox: IntBbox,
}

impl Pen {
    pub fn new(line_ix: usize) -> Self {
        Self {
            line_ix,
            bbox: IntBbox::default(),
        }
    }

    pub fn bbox(&self) -> [i32; 4] {
        let IntBbox { x0, y0, x1, y1 } = self.bbox;
        [x0, y0, x1, y1]
    }
}

pub(crate) fn reach_arc(
    path: u32,
    p: &[Vec2; 6],
    angle: f32,
    z: &Transform,
    pen: &mut Pen,
    lines: &mut [LineSoup],
) {
    flatten_arc(
        path,
        p[0],
        p[1],
        p[2],
        angle,
        z,
        &mut pen.line_ix,
        lines,
        &mut pen.bbox,
    );
}

pub(crate) fn reach_cap(
    path: u32,
    style: u32,
    p: &[Vec2; 6],
    z: &Transform,
    pen: &mut Pen,
    lines: &mut [LineSoup],
) {
    draw_cap(
        path,
        style,
        p[0],
        p[1],
        p[2],
        p[3],
        z,
        &mut pen.line_ix,
        lines,
        &mut pen.bbox,
    );
}

pub(crate) fn reach_join(
    path: u32,
    flags: u32,
    p: &[Vec2; 6],
    z: &Transform,
    pen: &mut Pen,
    lines: &mut [LineSoup],
) {
    draw_join(
        path,
        flags,
        p[0],
        p[1],
        p[2],
        p[3],
        p[4],
        z,
        &mut pen.line_ix,
        lines,
        &mut pen.bbox,
    );
}

pub(crate) fn reach_euler(
    path: u32,
    p: &[Vec2; 6],
    offset: f32,
    z: &Transform,
    pen: &mut Pen,
    lines: &mut [LineSoup],
) {
    let cubic = CubicPoints {
        p0: p[0],
        p1: p[1],
        p2: p[2],
        p3: p[3],
    };
    flatten_euler(
        &cubic,
        path,
        z,
        offset,
        p[4],
        p[5],
        &mut pen.line_ix,
        lines,
        &mut pen.bbox,
    );
}
