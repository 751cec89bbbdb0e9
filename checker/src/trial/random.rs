//! Random numbers from a seed (splitmix64), the same on every machine.

use crate::booking::BOUND;

pub struct Random(u64);

impl Random {
    pub fn new(seed: u64) -> Random {
        Random(seed)
    }

    pub fn bits(&mut self) -> u64 {
        self.0 = self.0.wrapping_add(0x9E37_79B9_7F4A_7C15);
        let mut bits = self.0;
        bits = (bits ^ (bits >> 30)).wrapping_mul(0xBF58_476D_1CE4_E5B9);
        bits = (bits ^ (bits >> 27)).wrapping_mul(0x94D0_49BB_1331_11EB);
        bits ^ (bits >> 31)
    }

    /// A number below the limit, which must not be 0.
    pub fn below(&mut self, limit: usize) -> usize {
        (self.bits() % limit as u64) as usize
    }

    /// A number from the first to the last, both included.
    pub fn between(&mut self, first: usize, last: usize) -> usize {
        first + self.below(last - first + 1)
    }

    /// True so many times in a hundred.
    pub fn percent(&mut self, times: usize) -> bool {
        self.below(100) < times
    }

    pub fn byte(&mut self) -> u8 {
        self.bits() as u8
    }

    pub fn pick<T: Copy>(&mut self, from: &[T]) -> T {
        from[self.below(from.len())]
    }

    pub fn shuffle<T>(&mut self, list: &mut [T]) {
        for last in (1..list.len()).rev() {
            list.swap(last, self.below(last + 1));
        }
    }

    /// Any number, with the ends of i64 and of the paper's bound well ahead of chance.
    pub fn any_number(&mut self) -> i64 {
        match self.below(4) {
            0 => self.pick(&[i64::MIN, i64::MIN + 1, i64::MAX, i64::MAX - 1, i64::MIN + BOUND, i64::MAX - BOUND]),
            1 => self.pick(&[-1, 0, 1, 2, -BOUND - 1, -BOUND, 1 - BOUND, BOUND - 1, BOUND, BOUND + 1]),
            2 => self.bits() as i64 % (2 * BOUND),
            _ => self.bits() as i64 >> self.below(64),
        }
    }

    /// A quantity or amount within its range, mostly small, with the largest ones ahead of chance.
    pub fn some_number(&mut self) -> i64 {
        match self.below(8) {
            0 => self.pick(&[BOUND, BOUND - 1, BOUND / 2, BOUND / 2 + 1]),
            1 => 1 + (self.bits() % BOUND as u64) as i64,
            _ => 1 + self.below(1000) as i64,
        }
    }
}
