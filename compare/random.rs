//! A generator of numbers that are the same for the same seed: xorshift64*.

use crate::model::Int;

pub struct Random(u64);

impl Random {
    pub fn new(seed: u64) -> Random {
        let mut random = Random(seed.wrapping_mul(0x9e37_79b9_7f4a_7c15) | 1);
        for _ in 0..8 {
            random.next();
        }
        random
    }

    fn next(&mut self) -> u64 {
        self.0 ^= self.0 >> 12;
        self.0 ^= self.0 << 25;
        self.0 ^= self.0 >> 27;
        self.0.wrapping_mul(0x2545_f491_4f6c_dd1d)
    }

    /// A number from 0 to `n` less 1.
    pub fn below(&mut self, n: usize) -> usize {
        (u128::from(self.next()) * n as u128 >> 64) as usize
    }

    /// A number from `low` to `high`; the two are less than 2^63 apart.
    pub fn between(&mut self, low: Int, high: Int) -> Int {
        low + self.below((high - low + 1) as usize) as Int
    }

    /// True once in `n` times.
    pub fn once_in(&mut self, n: usize) -> bool {
        self.below(n) == 0
    }

    pub fn pick<T: Copy>(&mut self, from: &[T]) -> T {
        from[self.below(from.len())]
    }

    /// One of the numbers, or one beside it.
    pub fn near(&mut self, limits: &[Int]) -> Int {
        self.pick(limits) + self.between(-1, 1)
    }

    /// A number from `low` to `high`, often one of the two.
    pub fn within(&mut self, low: Int, high: Int) -> Int {
        match self.below(4) {
            0 => low,
            1 => high,
            _ => self.between(low, high),
        }
    }
}
