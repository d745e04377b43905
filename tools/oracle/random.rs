// Numbers that look random and are the same in every run: splitmix64 from a fixed seed.
pub struct Random {
    state: u64,
}

impl Random {
    pub fn new(seed: u64) -> Self {
        Self { state: seed }
    }

    pub fn number(&mut self) -> u64 {
        self.state = self.state.wrapping_add(0x9e37_79b9_7f4a_7c15);
        let mut x = self.state;
        x = (x ^ (x >> 30)).wrapping_mul(0xbf58_476d_1ce4_e5b9);
        x = (x ^ (x >> 27)).wrapping_mul(0x94d0_49bb_1331_11eb);
        x ^ (x >> 31)
    }

    // below a limit that is small against 2^64
    pub fn below(&mut self, limit: usize) -> usize {
        (self.number() % limit as u64) as usize
    }

    pub fn bytes(&mut self, length: usize) -> Vec<u8> {
        (0..length).map(|_| self.number() as u8).collect()
    }

    // bytes of which most are at most 4, and most of those 0
    pub fn bytes_rich_in_zeros(&mut self, length: usize) -> Vec<u8> {
        (0..length)
            .map(|_| match self.below(8) {
                0..=4 => 0,
                5 | 6 => self.below(5) as u8,
                _ => self.number() as u8,
            })
            .collect()
    }

    // a number of at most so many bits
    pub fn of_width(&mut self, width: u32) -> u32 {
        if width == 0 { 0 } else { (self.number() >> (64 - width)) as u32 }
    }
}
