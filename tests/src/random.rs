//! Random numbers from a fixed seed (splitmix64): every run sees the same jobs.

pub struct Random {
    state: u64,
}

impl Random {
    pub fn new(seed: u64) -> Self {
        Random { state: seed }
    }

    pub fn draw(&mut self) -> u64 {
        self.state = self.state.wrapping_add(0x9E37_79B9_7F4A_7C15);
        let mut z = self.state;
        z = (z ^ z >> 30).wrapping_mul(0xBF58_476D_1CE4_E5B9);
        z = (z ^ z >> 27).wrapping_mul(0x94D0_49BB_1331_11EB);
        z ^ z >> 31
    }

    /// A number from low to high, both counted.
    pub fn between(&mut self, low: u32, high: u32) -> u32 {
        assert!(low <= high);
        let choices = u64::from(high - low) + 1;
        low + (self.draw() % choices) as u32
    }

    /// An index below a length.
    pub fn index(&mut self, length: usize) -> usize {
        assert!(length > 0);
        (self.draw() % length as u64) as usize
    }

    /// True one time in this many.
    pub fn one_in(&mut self, times: u32) -> bool {
        self.between(1, times) == 1
    }

    pub fn pick<'a, T>(&mut self, choices: &'a [T]) -> &'a T {
        &choices[self.index(choices.len())]
    }

    /// A number from low to high that is often one of the two ends.
    pub fn edgy(&mut self, low: u32, high: u32) -> u32 {
        match self.between(0, 5) {
            0 => low,
            1 => high,
            _ => self.between(low, high),
        }
    }

    pub fn byte(&mut self) -> u8 {
        self.draw() as u8
    }
}
