//! A small generator of pseudo-random numbers; the same seed gives the same nights.

use std::ops::RangeInclusive;

pub struct Random {
    state: u64,
}

impl Random {
    /// One stream for each trial of each seed, so that a trial can be run again alone.
    pub fn new(seed: u64, trial: u64) -> Random {
        let mut random = Random { state: seed };
        let mixed = random.bits() ^ trial.wrapping_mul(0xd605_bbb5_8c8a_bbfd);
        Random { state: mixed }
    }

    /// The next 64 bits, by the splitmix64 rule.
    pub fn bits(&mut self) -> u64 {
        self.state = self.state.wrapping_add(0x9e37_79b9_7f4a_7c15);
        let mut bits = self.state;
        bits = (bits ^ (bits >> 30)).wrapping_mul(0xbf58_476d_1ce4_e5b9);
        bits = (bits ^ (bits >> 27)).wrapping_mul(0x94d0_49bb_1331_11eb);
        bits ^ (bits >> 31)
    }

    /// A number below `bound`, which is at least 1.
    pub fn below(&mut self, bound: usize) -> usize {
        (self.bits() % bound as u64) as usize
    }

    pub fn within(&mut self, range: RangeInclusive<usize>) -> usize {
        range.start() + self.below(range.end() - range.start() + 1)
    }

    pub fn chance(&mut self, percent: usize) -> bool {
        self.below(100) < percent
    }

    /// One of the items, of which there is at least one.
    pub fn pick<T: Copy>(&mut self, items: &[T]) -> T {
        items[self.below(items.len())]
    }

    pub fn shuffle<T>(&mut self, items: &mut [T]) {
        for end in (1..items.len()).rev() {
            items.swap(end, self.below(end + 1));
        }
    }
}
