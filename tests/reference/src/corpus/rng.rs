//! Random numbers by xorshift, the same for the same seed.

pub struct Rng {
    state: u64,
}

impl Rng {
    pub fn new(seed: u64) -> Rng {
        let mut rng = Rng {
            state: seed ^ 0x9E37_79B9_7F4A_7C15,
        };
        if rng.state == 0 {
            rng.state = 1;
        }
        for _ in 0..16 {
            rng.word();
        }
        rng
    }

    pub fn word(&mut self) -> u64 {
        self.state ^= self.state << 13;
        self.state ^= self.state >> 7;
        self.state ^= self.state << 17;
        self.state.wrapping_mul(0x2545_F491_4F6C_DD1D) >> 16
    }

    /// A number from 0 up to, but not with, `bound`.
    pub fn below(&mut self, bound: u64) -> u64 {
        self.word() % bound
    }

    /// A number from `low` to `high`, both included.
    pub fn range(&mut self, low: u64, high: u64) -> u64 {
        low + self.below(high - low + 1)
    }

    /// True in `percent` of a hundred cases.
    pub fn chance(&mut self, percent: u64) -> bool {
        self.below(100) < percent
    }

    pub fn bytes(&mut self, count: u64) -> Vec<u8> {
        (0..count).map(|_| self.word() as u8).collect()
    }

    /// A block of `b` bytes for each trap of a choice.
    pub fn blocks(&mut self, traps: u32, b: u64) -> Vec<u8> {
        self.bytes(u64::from(traps.count_ones()) * b)
    }

    pub fn pick<T: Copy>(&mut self, from: &[T]) -> T {
        from[self.below(from.len() as u64) as usize]
    }

    /// So many traps out of those in `from`, or all of them if they are fewer.
    pub fn choose(&mut self, from: u32, size: u64) -> u32 {
        let mut traps: Vec<u32> = (0..32).filter(|bit| (from >> bit) & 1 == 1).collect();
        let mut choice = 0;
        for _ in 0..size.min(traps.len() as u64) {
            let index = self.below(traps.len() as u64) as usize;
            choice |= 1 << traps.swap_remove(index);
        }
        choice
    }
}
