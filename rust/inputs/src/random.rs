//! Random numbers. In `cargo test` the seed is fixed: J8_CASES asks for more cases,
//! J8_SEED for another seed.

fn setting(name: &str) -> Option<u64> {
    let value = std::env::var(name).ok()?;
    Some(value.parse().unwrap_or_else(|_| panic!("{name}={value}")))
}

/// How many cases a test runs, never fewer than it says.
pub fn cases(least: u64) -> u64 {
    setting("J8_CASES").unwrap_or(0).max(least)
}

/// xorshift64*
pub struct Random(u64);

impl Default for Random {
    fn default() -> Self {
        Self::new()
    }
}

impl Random {
    pub fn new() -> Self {
        // The state must not be 0, or it would stay so.
        Random(setting("J8_SEED").unwrap_or(0x9e37_79b9_7f4a_7c15).max(1))
    }

    /// The numbers of one case. Mixed, so that neighbouring cases and seeds have
    /// nothing in common.
    pub fn of(seed: u64, case: u64) -> Self {
        let mix = |z: u64| {
            let z = (z ^ z >> 30).wrapping_mul(0xbf58_476d_1ce4_e5b9);
            let z = (z ^ z >> 27).wrapping_mul(0x94d0_49bb_1331_11eb);
            z ^ z >> 31
        };
        let golden = 0x9e37_79b9_7f4a_7c15_u64;
        let start = mix(seed.wrapping_add(golden)).wrapping_add(case.wrapping_mul(golden));
        Random(mix(start).max(1))
    }

    fn next(&mut self) -> u64 {
        self.0 ^= self.0 >> 12;
        self.0 ^= self.0 << 25;
        self.0 ^= self.0 >> 27;
        self.0.wrapping_mul(0x2545_f491_4f6c_dd1d)
    }

    /// From 0 to `n - 1`.
    pub fn below(&mut self, n: usize) -> usize {
        ((self.next() >> 32) as usize) % n
    }

    /// From `low` to `high`.
    pub fn from(&mut self, low: u32, high: u32) -> u32 {
        low + self.below((high - low + 1) as usize) as u32
    }

    /// True once in `n`.
    pub fn once_in(&mut self, n: usize) -> bool {
        self.below(n) == 0
    }

    pub fn pick<T: Copy>(&mut self, list: &[T]) -> T {
        list[self.below(list.len())]
    }

    pub fn byte(&mut self) -> u8 {
        (self.next() >> 32) as u8
    }
}
