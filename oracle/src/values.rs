//! Numbers that are the same at every run.

/// Zeros of both signs, the ends of the subnormals, the least normal, 1, the largest, the infinities, a NaN, and sizes
/// between.
const CORNERS: [u32; 20] = [
    0x0000_0000,
    0x8000_0000,
    0x0000_0001,
    0x8000_0001,
    0x007f_ffff,
    0x807f_ffff,
    0x0080_0000,
    0x8080_0000,
    0x3f80_0000,
    0xbf80_0000,
    0x7f7f_ffff,
    0xff7f_ffff,
    0x7f80_0000,
    0xff80_0000,
    0x7fc0_0000,
    0x3400_0000,
    0x5f00_0000,
    0xdf00_0000,
    0x2000_0000,
    0xa000_0000,
];

pub struct Values(u64);

impl Values {
    pub fn new() -> Self {
        Self::from(1)
    }

    pub fn from(seed: u64) -> Self {
        Self(seed)
    }

    /// Those of one index, whatever those of others are.
    pub fn at(seed: u64, index: u64) -> Self {
        let first = Self(seed).next();
        Self(Self(first ^ index.wrapping_mul(0xd134_2543_de82_ef95)).next())
    }

    /// SplitMix64.
    fn next(&mut self) -> u64 {
        self.0 = self.0.wrapping_add(0x9e37_79b9_7f4a_7c15);
        let z = (self.0 ^ (self.0 >> 30)).wrapping_mul(0xbf58_476d_1ce4_e5b9);
        let z = (z ^ (z >> 27)).wrapping_mul(0x94d0_49bb_1331_11eb);
        z ^ (z >> 31)
    }

    /// Below n.
    pub fn below(&mut self, n: u64) -> u64 {
        self.next() % n
    }

    /// One time in n.
    pub fn once_in(&mut self, n: u64) -> bool {
        self.below(n) == 0
    }

    /// An entry of a table, as often as its weight says.
    pub fn pick<'a, T>(&mut self, table: &'a [(u64, T)]) -> &'a T {
        let mut left = self.below(table.iter().map(|entry| entry.0).sum());
        for (weight, entry) in table {
            if left < *weight {
                return entry;
            }
            left -= weight;
        }
        unreachable!("the weights sum up")
    }

    pub fn word(&mut self) -> u32 {
        self.next() as u32
    }

    /// From -most to most, in steps of most / 4096.
    pub fn within(&mut self, most: f32) -> f32 {
        (self.below(8193) as f32 / 4096. - 1.) * most
    }

    pub fn corner(&mut self) -> f32 {
        f32::from_bits(CORNERS[self.below(CORNERS.len() as u64) as usize])
    }

    /// An ordinary value, a corner, or any bits.
    pub fn any(&mut self) -> f32 {
        match self.below(4) {
            0 => self.corner(),
            1 => f32::from_bits(self.word()),
            _ => self.within(8.),
        }
    }
}
