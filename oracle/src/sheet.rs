//! The lent words of the lines.

use vello_encoding::LineSoup;

/// What a list lends. No stored line has it in its second word, which is 0.
pub const FILL: u32 = 0xa5a5_a5a5;

/// A line that is not stored.
pub const UNSTORED: LineSoup = LineSoup { path_ix: FILL, _padding: FILL, p0: [0.; 2], p1: [0.; 2] };

/// Whole records, and the words left over, which no call can reach.
pub struct Sheet {
    lines: Vec<LineSoup>,
    left_over: Vec<u32>,
}

fn words_of(line: &LineSoup) -> [u32; 6] {
    let [x0, y0] = line.p0.map(f32::to_bits);
    let [x1, y1] = line.p1.map(f32::to_bits);
    [line.path_ix, line._padding, x0, y0, x1, y1]
}

/// How many lines are stored: the source's count is not kept past a panic, the lines are.
pub fn stored(lines: &[LineSoup]) -> usize {
    lines.iter().take_while(|line| line._padding == 0).count()
}

/// FNV-1a, 32 bits, taken a word at a time.
pub fn hash(words: &[u32]) -> u32 {
    let step = |hash: u32, w: &u32| (hash ^ w).wrapping_mul(16_777_619);
    words.iter().fold(0x811c_9dc5, step)
}

impl Sheet {
    /// The second word of each record must not be 0.
    pub fn new(words: &[u32]) -> Self {
        let (records, left_over) = words.as_chunks::<6>();
        let line = |w: &[u32; 6]| LineSoup {
            path_ix: w[0],
            _padding: w[1],
            p0: [w[2], w[3]].map(f32::from_bits),
            p1: [w[4], w[5]].map(f32::from_bits),
        };
        Self { lines: records.iter().map(line).collect(), left_over: left_over.to_vec() }
    }

    pub fn lines(&mut self) -> &mut [LineSoup] {
        &mut self.lines
    }

    pub fn words(&self) -> Vec<u32> {
        let lines = self.lines.iter().flat_map(words_of);
        lines.chain(self.left_over.iter().copied()).collect()
    }

    /// The lines stored behind the first ones.
    pub fn stored_from(&self, first: usize) -> Vec<[u32; 6]> {
        let lines = self.lines.get(first..).unwrap_or_default();
        lines[..stored(lines)].iter().map(words_of).collect()
    }
}
