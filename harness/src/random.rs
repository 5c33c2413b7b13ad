//! Random words, the same in every run: a block of a sweep is seeded by its number.

/// The generator SplitMix64.
pub struct Random(u64);

impl Random {
    pub fn seeded(seed: u64) -> Self {
        Random(seed.wrapping_mul(0xd1b5_4a32_d192_ed03))
    }

    pub fn next(&mut self) -> u64 {
        self.0 = self.0.wrapping_add(0x9e37_79b9_7f4a_7c15);
        let z = (self.0 ^ (self.0 >> 30)).wrapping_mul(0xbf58_476d_1ce4_e5b9);
        let z = (z ^ (z >> 27)).wrapping_mul(0x94d0_49bb_1331_11eb);
        z ^ (z >> 31)
    }

    pub fn word(&mut self) -> u32 {
        self.next() as u32
    }

    /// One of 0 .. n-1.
    pub fn below(&mut self, n: u64) -> u64 {
        ((u128::from(self.next()) * u128::from(n)) >> 64) as u64
    }

    /// A whole number of at most `digits` binary digits, every length equally often.
    pub fn of_any_length(&mut self, digits: u64) -> u64 {
        let dropped = self.below(digits + 1);
        self.below(1 << (digits - dropped))
    }

    /// A float's word with the given exponent field; sign and fraction are random.
    pub fn with_exponent(&mut self, field: u32) -> u32 {
        (self.word() & 0x807f_ffff) | field << 23
    }
}
