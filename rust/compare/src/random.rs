//! A small random number generator.

/// An xorshift generator with a multiplied result.
#[derive(Clone, Debug)]
pub struct Random(u64);

/// Spreads the bits of a number over 64 bits.
fn spread(number: u64) -> u64 {
    let mut bits = number.wrapping_add(0x9E37_79B9_7F4A_7C15);
    bits = (bits ^ bits >> 30).wrapping_mul(0xBF58_476D_1CE4_E5B9);
    bits = (bits ^ bits >> 27).wrapping_mul(0x94D0_49BB_1331_11EB);
    bits ^ bits >> 31
}

impl Random {
    /// The generator of trial `trial` under a seed.
    pub fn new(seed: u64, trial: u64) -> Random {
        Random(spread(spread(seed) ^ trial) | 1)
    }

    /// 64 random bits.
    pub fn number(&mut self) -> u64 {
        self.0 ^= self.0 << 13;
        self.0 ^= self.0 >> 7;
        self.0 ^= self.0 << 17;
        self.0.wrapping_mul(0x2545_F491_4F6C_DD1D)
    }

    /// A number below `count`.
    pub fn below(&mut self, count: usize) -> usize {
        ((self.number() >> 16) % count as u64) as usize
    }

    /// True once in `count` times.
    pub fn once_in(&mut self, count: usize) -> bool {
        self.below(count) == 0
    }

    /// One of the values.
    pub fn pick<T: Copy>(&mut self, from: &[T]) -> T {
        from[self.below(from.len())]
    }

    /// A number wider than 8, 16 or 32 bits that a cut to that many bits makes
    /// `number`, which is below 2^32.
    pub fn wider(&mut self, number: u64) -> u64 {
        let mut cuts = vec![8, 16, 32];
        cuts.retain(|&bits| bits == 32 || number >> bits == 0);
        let any = self.number() | 1;
        number | self.pick(&[1, any, u64::MAX]) << self.pick(&cuts)
    }

    /// Random bytes.
    pub fn bytes(&mut self, count: usize) -> Vec<u8> {
        (0..count).map(|_| self.number() as u8).collect()
    }

    /// Puts the values into a random order.
    pub fn shuffle<T>(&mut self, values: &mut [T]) {
        for i in (1..values.len()).rev() {
            values.swap(i, self.below(i + 1));
        }
    }
}
