//! Random numbers that depend on a seed and the number of a case alone, so that each case can be drawn again.

pub struct Random {
    state: u64,
}

impl Random {
    pub fn of(seed: u64, case: u64) -> Self {
        let mut random = Random { state: seed };
        random.state = random.word() ^ case.wrapping_mul(0xd134_2543_de82_ef95);
        random.word();
        random
    }

    /// The next word of the splitmix64 generator (Steele, Lea and Flood, 2014).
    pub fn word(&mut self) -> u64 {
        self.state = self.state.wrapping_add(0x9e37_79b9_7f4a_7c15);
        let mut mixed = self.state;
        mixed = (mixed ^ (mixed >> 30)).wrapping_mul(0xbf58_476d_1ce4_e5b9);
        mixed = (mixed ^ (mixed >> 27)).wrapping_mul(0x94d0_49bb_1331_11eb);
        mixed ^ (mixed >> 31)
    }

    /// A number below the bound, which is positive.
    pub fn below(&mut self, bound: usize) -> usize {
        (self.word() % bound as u64) as usize
    }

    /// A number from the least to the greatest, both included.
    pub fn between(&mut self, least: i128, greatest: i128) -> i128 {
        least + (self.word() as i128) % (greatest - least + 1)
    }

    pub fn one_in(&mut self, count: usize) -> bool {
        self.below(count) == 0
    }

    pub fn choose<T: Clone>(&mut self, list: &[T]) -> T {
        list[self.below(list.len())].clone()
    }

    pub fn shuffle<T>(&mut self, list: &mut [T]) {
        for last in (1..list.len()).rev() {
            let other = self.below(last + 1);
            list.swap(last, other);
        }
    }
}
