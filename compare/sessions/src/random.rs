//! Numbers drawn from a seed: the same seed gives the same lists of calls on any machine.

/// splitmix64.
pub struct Random(u64);

impl Random {
    pub fn new(seed: u64) -> Random {
        Random(seed)
    }

    pub fn any(&mut self) -> u64 {
        self.0 = self.0.wrapping_add(0x9e37_79b9_7f4a_7c15);
        let mut z = self.0;
        z = (z ^ (z >> 30)).wrapping_mul(0xbf58_476d_1ce4_e5b9);
        z = (z ^ (z >> 27)).wrapping_mul(0x94d0_49bb_1331_11eb);
        z ^ (z >> 31)
    }

    /// Below n, which is not 0.
    pub fn below(&mut self, n: u64) -> u64 {
        ((u128::from(self.any()) * u128::from(n)) >> 64) as u64
    }

    /// From low to high, both included.
    pub fn between(&mut self, low: u64, high: u64) -> u64 {
        match (high - low).checked_add(1) {
            Some(n) => low + self.below(n),
            None => self.any(),
        }
    }

    /// True that many times in a thousand.
    pub fn chance(&mut self, of_thousand: u64) -> bool {
        self.below(1000) < of_thousand
    }

    pub fn flag(&mut self) -> bool {
        self.any() & 1 == 1
    }

    pub fn pick<T: Copy>(&mut self, all: &[T]) -> T {
        all[self.below(all.len() as u64) as usize]
    }

    /// From low to high, each doubling about as often as any other.
    pub fn spread(&mut self, low: u64, high: u64) -> u64 {
        let doublings = (high / low).ilog2() + 1;
        let from = low << self.below(u64::from(doublings));
        self.between(from, high.min(from * 2))
    }

    /// Any number of bits up to 64.
    pub fn any_width(&mut self) -> u64 {
        let cut = self.below(64);
        self.any() >> cut
    }
}
