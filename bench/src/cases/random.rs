//! Random numbers from a seed: SplitMix64, the same on every machine.

use std::ops::RangeInclusive;

pub struct Random {
    state: u64,
}

impl Random {
    /// The numbers from which a script is made.
    pub fn of_script(seed: u64, number: usize) -> Random {
        let mut random = Random { state: seed };
        random.state = random.next() ^ number as u64;
        random.state = random.next();
        random
    }

    fn next(&mut self) -> u64 {
        self.state = self.state.wrapping_add(0x9e37_79b9_7f4a_7c15);
        let mut mixed = self.state;
        mixed = (mixed ^ (mixed >> 30)).wrapping_mul(0xbf58_476d_1ce4_e5b9);
        mixed = (mixed ^ (mixed >> 27)).wrapping_mul(0x94d0_49bb_1331_11eb);
        mixed ^ (mixed >> 31)
    }

    /// A number below a limit, which is not 0.
    pub fn below(&mut self, limit: usize) -> usize {
        (self.next() % limit as u64) as usize
    }

    pub fn among(&mut self, numbers: RangeInclusive<usize>) -> usize {
        numbers.start() + self.below(numbers.end() - numbers.start() + 1)
    }

    pub fn one_in(&mut self, count: usize) -> bool {
        self.below(count) == 0
    }

    /// One of the items, of which there is at least one.
    pub fn pick<T: Copy>(&mut self, items: &[T]) -> T {
        items[self.below(items.len())]
    }

    pub fn shuffle<T>(&mut self, items: &mut [T]) {
        for end in (1..items.len()).rev() {
            items.swap(end, self.below(end + 1));
        }
    }

    /// An amount within limits: often small, so that much happens at once, and sometimes at a limit.
    pub fn amount(&mut self, most: u32) -> u32 {
        match self.below(8) {
            0 => most,
            1 | 2 => self.among(1..=most as usize) as u32,
            _ => self.among(1..=12) as u32,
        }
    }
}
