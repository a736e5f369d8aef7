//! A small generator of numbers (splitmix64), so that a seed names its cases.

pub struct Random(u64);

impl Random {
    pub fn new(seed: u64) -> Self {
        Self(seed)
    }

    pub fn next(&mut self) -> u64 {
        self.0 = self.0.wrapping_add(0x9e37_79b9_7f4a_7c15);
        let mut x = self.0;
        x = (x ^ (x >> 30)).wrapping_mul(0xbf58_476d_1ce4_e5b9);
        x = (x ^ (x >> 27)).wrapping_mul(0x94d0_49bb_1331_11eb);
        x ^ (x >> 31)
    }

    /// A sequence of its own from here on, which takes nothing from this one.
    pub fn aside(&self) -> Self {
        Self(!self.0)
    }

    /// A number below `bound`, which is not 0.
    pub fn below(&mut self, bound: u64) -> u64 {
        self.next() % bound
    }

    /// One of `choices`, which are not none.
    pub fn pick<T: Copy>(&mut self, choices: &[T]) -> T {
        choices[self.below(choices.len() as u64) as usize]
    }

    /// One of `shares`, each as often as its share says.
    pub fn share(&mut self, shares: &[(u8, u64)]) -> u8 {
        let all = shares.iter().map(|(_, share)| share).sum();
        let mut at = self.below(all);
        for (choice, share) in shares {
            if at < *share {
                return *choice;
            }
            at -= share;
        }
        unreachable!("the shares add up")
    }
}
