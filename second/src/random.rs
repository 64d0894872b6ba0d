//! The random numbers behind made files and corpora: the same ones for the same
//! seed and number.

/// The generator splitmix64, with the few ways of asking that are used here.
pub struct Random {
    state: u64,
}

impl Random {
    /// Each number has its own start, far from its neighbours'.
    pub fn new(seed: u64, index: u64) -> Random {
        let mut outer = Random { state: seed };
        let mixed = outer.next() ^ index.wrapping_mul(0xD134_2543_DE82_EF95);
        Random { state: mixed }
    }

    fn next(&mut self) -> u64 {
        self.state = self.state.wrapping_add(0x9E37_79B9_7F4A_7C15);
        let mut mixed = self.state;
        mixed = (mixed ^ (mixed >> 30)).wrapping_mul(0xBF58_476D_1CE4_E5B9);
        mixed = (mixed ^ (mixed >> 27)).wrapping_mul(0x94D0_49BB_1331_11EB);
        mixed ^ (mixed >> 31)
    }

    pub fn under(&mut self, limit: usize) -> usize {
        (self.next() % limit as u64) as usize
    }

    pub fn between(&mut self, least: usize, most: usize) -> usize {
        least + self.under(most - least + 1)
    }

    pub fn chance(&mut self, percent: usize) -> bool {
        self.under(100) < percent
    }

    pub fn pick<'l, T>(&mut self, list: &'l [T]) -> &'l T {
        &list[self.under(list.len())]
    }

    pub fn shuffle<T>(&mut self, list: &mut [T]) {
        for last in (1..list.len()).rev() {
            list.swap(last, self.under(last + 1));
        }
    }

    /// From `least` to `most` numbers, each under the limit (256 at most).
    pub fn numbers(&mut self, least: usize, most: usize, limit: usize) -> Vec<u8> {
        let count = self.between(least, most);
        (0..count).map(|_| self.under(limit) as u8).collect()
    }

    /// This many different numbers under the limit, rising.
    pub fn rising(&mut self, count: usize, limit: usize) -> Vec<u8> {
        let mut all: Vec<u8> = (0..limit as u8).collect();
        self.shuffle(&mut all);
        all.truncate(count);
        all.sort();
        all
    }

    /// A few different numbers under the limit, rising; often one, seldom many.
    pub fn some_rising(&mut self, limit: usize) -> Vec<u8> {
        let most = if self.chance(80) { limit.min(2) } else { limit };
        let count = self.between(0, most);
        self.rising(count, limit)
    }
}
