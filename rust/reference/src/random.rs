//! A small seeded generator of random numbers: the same seed gives the same numbers everywhere.

/// The state of the generator, which is SplitMix64.
#[derive(Clone, Debug)]
pub struct Random {
    state: u64,
}

impl Random {
    pub fn new(seed: u64) -> Random {
        Random { state: seed }
    }

    /// The next 64 bits.
    pub fn bits(&mut self) -> u64 {
        self.state = self.state.wrapping_add(0x9e37_79b9_7f4a_7c15);
        let mut z = self.state;
        z = (z ^ (z >> 30)).wrapping_mul(0xbf58_476d_1ce4_e5b9);
        z = (z ^ (z >> 27)).wrapping_mul(0x94d0_49bb_1331_11eb);
        z ^ (z >> 31)
    }

    /// A number below the limit, which isn't 0.
    pub fn below(&mut self, limit: usize) -> usize {
        (self.bits() % limit as u64) as usize
    }

    /// A number from `low` to `high`, both included.
    pub fn from_to(&mut self, low: usize, high: usize) -> usize {
        low + self.below(high - low + 1)
    }

    /// True with so many chances in a thousand.
    pub fn chance(&mut self, thousandths: usize) -> bool {
        self.below(1000) < thousandths
    }

    /// A set in which each of so many members stands with so many chances in a thousand.
    pub fn set(&mut self, count: usize, thousandths: usize) -> Vec<u8> {
        (0..count).map(|_| u8::from(self.chance(thousandths))).collect()
    }

    /// A set of exactly `size` of `count` members.
    pub fn set_of_size(&mut self, count: usize, size: usize) -> Vec<u8> {
        let mut members: Vec<usize> = (0..count).collect();
        let mut set = vec![0; count];
        for taken in 0..size {
            members.swap(taken, self.from_to(taken, count - 1));
            set[members[taken]] = 1;
        }
        set
    }
}
