//! Numbers that look random and are the same for the same seed, on every machine.

/// SplitMix64.
#[derive(Clone)]
pub struct Random(u64);

impl Random {
    /// The numbers that belong to these words, in this order.
    pub fn new(words: &[u64]) -> Random {
        let mut random = Random(0);
        for word in words {
            random.0 ^= *word;
            random.0 = random.word();
        }
        random
    }

    /// Any number.
    pub fn word(&mut self) -> u64 {
        self.0 = self.0.wrapping_add(0x9e37_79b9_7f4a_7c15);
        let mixed = (self.0 ^ (self.0 >> 30)).wrapping_mul(0xbf58_476d_1ce4_e5b9);
        let mixed = (mixed ^ (mixed >> 27)).wrapping_mul(0x94d0_49bb_1331_11eb);
        mixed ^ (mixed >> 31)
    }

    /// A number below `limit`, which is not 0.
    pub fn below(&mut self, limit: u64) -> u64 {
        self.word() % limit
    }

    /// True in `parts` of 100 cases.
    pub fn percent(&mut self, parts: u64) -> bool {
        self.below(100) < parts
    }

    /// One of some things.
    pub fn of<'a, A>(&mut self, things: &'a [A]) -> &'a A {
        &things[self.below(things.len() as u64) as usize]
    }
}
