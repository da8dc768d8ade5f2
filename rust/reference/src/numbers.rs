//! Numbers that look random and are the same in every run: xorshift64*.

pub struct Numbers(u64);

impl Numbers {
    pub fn new(seed: u64) -> Self {
        // any seed but 0 starts a long cycle; neighbouring seeds are mixed apart
        Numbers(seed.wrapping_add(1).wrapping_mul(0x9E37_79B9_7F4A_7C15) | 1)
    }

    pub fn word(&mut self) -> u64 {
        self.0 ^= self.0 >> 12;
        self.0 ^= self.0 << 25;
        self.0 ^= self.0 >> 27;
        self.0.wrapping_mul(0x2545_F491_4F6C_DD1D)
    }

    /// 0 to n - 1
    pub fn below(&mut self, n: usize) -> usize {
        ((u128::from(self.word()) * n as u128) >> 64) as usize
    }

    /// low to high, both included
    pub fn within(&mut self, low: usize, high: usize) -> usize {
        low + self.below(high - low + 1)
    }

    pub fn octet(&mut self) -> u8 {
        self.below(256) as u8
    }

    /// true once in n times
    pub fn once_in(&mut self, n: usize) -> bool {
        self.below(n) == 0
    }

    pub fn one_of<T: Copy>(&mut self, all: &[T]) -> T {
        all[self.below(all.len())]
    }

    pub fn octets(&mut self, len: usize) -> Vec<u8> {
        (0..len).map(|_| self.octet()).collect()
    }

    /// `len` levels from `low` to `high` in runs of up to `longest`.
    pub fn levels(&mut self, len: usize, low: u8, high: u8, longest: usize) -> Vec<u8> {
        let mut levels = Vec::with_capacity(len);
        while levels.len() < len {
            let level = self.within(low.into(), high.into()) as u8;
            let run = self.within(1, longest).min(len - levels.len());
            levels.resize(levels.len() + run, level);
        }
        levels
    }
}
