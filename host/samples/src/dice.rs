//! Numbers that look random and are the same in every run.

/// Marsaglia's xorshift, 64 bits wide.
pub struct Dice(u64);

impl Dice {
    /// Seeds that lie side by side lead far apart.
    pub fn seeded(seed: u64) -> Dice {
        let mut dice = Dice((2 * seed + 1).wrapping_mul(0x9E37_79B9_7F4A_7C15));
        for _ in 0..8 {
            dice.next();
        }
        dice
    }

    fn next(&mut self) -> u64 {
        self.0 ^= self.0 << 13;
        self.0 ^= self.0 >> 7;
        self.0 ^= self.0 << 17;
        self.0
    }

    pub fn below(&mut self, limit: u64) -> u64 {
        (self.next() >> 11) % limit
    }

    pub fn in_a_hundred(&mut self, times: u64) -> bool {
        self.below(100) < times
    }

    /// A number below a limit, as the index of something.
    pub fn index(&mut self, limit: usize) -> usize {
        self.below(limit as u64) as usize
    }

    pub fn one_of<T: Copy>(&mut self, choices: &[T]) -> T {
        choices[self.index(choices.len())]
    }

    /// Puts the items into any order.
    pub fn shuffle<T>(&mut self, items: &mut [T]) {
        for last in (1..items.len()).rev() {
            items.swap(last, self.index(last + 1));
        }
    }

    pub fn byte(&mut self) -> u8 {
        self.below(256) as u8
    }

    pub fn bytes(&mut self, length: usize) -> Vec<u8> {
        (0..length).map(|_| self.byte()).collect()
    }

    /// Any number of 8 bytes; its greatest and its least come up often.
    pub fn wide(&mut self) -> u64 {
        let any = self.next();
        self.one_of(&[0, u64::MAX, any, any])
    }
}
