//! A deterministic source of numbers: the same seed gives the same run.

/// The source's state.
/// It is a splitmix generator: a counter whose every value is stirred.
pub struct Random {
    state: u64,
}

impl Random {
    /// A source that starts from a seed.
    /// Seeds that lie side by side give unlike runs.
    pub fn new(seed: u64) -> Random {
        Random { state: seed.wrapping_mul(0x2545_f491_4f6c_dd1d) ^ 0x6a09_e667_f3bc_c909 }
    }

    /// The next 64 bits.
    /// All else here is made from these.
    pub fn word(&mut self) -> u64 {
        self.state = self.state.wrapping_add(0x9e37_79b9_7f4a_7c15);
        let mut stirred = self.state;
        stirred = (stirred ^ (stirred >> 30)).wrapping_mul(0xbf58_476d_1ce4_e5b9);
        stirred = (stirred ^ (stirred >> 27)).wrapping_mul(0x94d0_49bb_1331_11eb);
        stirred ^ (stirred >> 31)
    }

    /// A number below the bound, which is above 0.
    /// The slight lean to low numbers does not matter here.
    pub fn below(&mut self, bound: u64) -> u64 {
        self.word() % bound
    }

    /// A number from the first to the last, both included.
    /// The first is not above the last.
    pub fn range(&mut self, first: usize, last: usize) -> usize {
        first + self.below((last - first + 1) as u64) as usize
    }

    /// True so many times in a hundred.
    /// 0 is never, 100 always.
    pub fn percent(&mut self, times: u64) -> bool {
        self.below(100) < times
    }

    /// One of the values.
    /// There is at least one.
    pub fn pick<T: Copy>(&mut self, values: &[T]) -> T {
        values[self.below(values.len() as u64) as usize]
    }
}
