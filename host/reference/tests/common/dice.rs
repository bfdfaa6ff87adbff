//! Numbers that look random and are the same in every run.

/// Marsaglia's xorshift, 64 bits wide.
pub struct Dice(pub u64);

impl Dice {
    pub fn next(&mut self) -> u64 {
        self.0 ^= self.0 << 13;
        self.0 ^= self.0 >> 7;
        self.0 ^= self.0 << 17;
        self.0
    }

    pub fn below(&mut self, limit: u64) -> u64 {
        (self.next() >> 11) % limit
    }

    pub fn in_a_hundred(&mut self, times: u64) -> bool {
        self.below(100) < times
    }
}
