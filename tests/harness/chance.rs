//! Repeatable random numbers (SplitMix64).

pub struct Chance(u64);

impl Chance {
    /// The numbers of one stream of one seed; streams do not depend on each other.
    pub fn new(seed: u64, stream: u64) -> Chance {
        let mut start = Chance(seed);
        let own = start.next() ^ stream.wrapping_mul(0xD1B5_4A32_D192_ED03);
        Chance(own)
    }

    fn next(&mut self) -> u64 {
        self.0 = self.0.wrapping_add(0x9E37_79B9_7F4A_7C15);
        let mut mixed = self.0;
        mixed = (mixed ^ mixed >> 30).wrapping_mul(0xBF58_476D_1CE4_E5B9);
        mixed = (mixed ^ mixed >> 27).wrapping_mul(0x94D0_49BB_1331_11EB);
        mixed ^ mixed >> 31
    }

    /// A number below `bound`.
    pub fn below(&mut self, bound: usize) -> usize {
        (self.next() >> 16) as usize % bound
    }

    /// A number from `least` to `most`.
    pub fn between(&mut self, least: usize, most: usize) -> usize {
        least + self.below(most - least + 1)
    }

    /// True once in `times`.
    pub fn once_in(&mut self, times: usize) -> bool {
        self.below(times) == 0
    }

    pub fn byte(&mut self) -> u8 {
        self.next() as u8
    }

    /// Bytes of one kind: any, full of ones, few ones, or those that stuffing and flags are about.
    pub fn bytes(&mut self, length: usize) -> Vec<u8> {
        const NEAR_FLAGS: [u8; 8] = [0xFF, 0x7E, 0x00, 0x3F, 0xF8, 0x1F, 0xFE, 0x7F];
        let kind = self.below(4);
        (0..length)
            .map(|_| match kind {
                0 => self.byte() | self.byte() | self.byte(),
                1 => self.byte() & self.byte(),
                2 => NEAR_FLAGS[self.below(NEAR_FLAGS.len())],
                _ => self.byte(),
            })
            .collect()
    }
}
