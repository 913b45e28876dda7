//! Random numbers that are the same for a seed wherever they are drawn.

/// splitmix64.
pub struct Random(u64);

impl Random {
    /// Each case of a seed has a sequence of its own, so that one can be run
    /// again by itself.
    pub fn new(seed: u64, case: u64) -> Self {
        let mut first = Self(seed);
        let start = first.next() ^ case.wrapping_mul(0xd134_2543_de82_ef95);
        Self(start)
    }

    pub fn next(&mut self) -> u64 {
        self.0 = self.0.wrapping_add(0x9e37_79b9_7f4a_7c15);
        let mut mixed = self.0;
        mixed = (mixed ^ (mixed >> 30)).wrapping_mul(0xbf58_476d_1ce4_e5b9);
        mixed = (mixed ^ (mixed >> 27)).wrapping_mul(0x94d0_49bb_1331_11eb);
        mixed ^ (mixed >> 31)
    }

    /// From 0 to one less than `count`.
    pub fn below(&mut self, count: usize) -> usize {
        (self.next() % count as u64) as usize
    }

    /// Both ends included.
    pub fn between(&mut self, low: usize, high: usize) -> usize {
        low + self.below(high - low + 1)
    }

    /// True so many times of a hundred.
    pub fn percent(&mut self, chance: usize) -> bool {
        self.below(100) < chance
    }

    pub fn pick<'a, T>(&mut self, items: &'a [T]) -> &'a T {
        &items[self.below(items.len())]
    }

    /// Any of the items that pass the test.
    pub fn pick_where<T>(&mut self, items: &[T], test: impl Fn(&T) -> bool) -> Option<usize> {
        let fitting: Vec<usize> = (0..items.len()).filter(|&i| test(&items[i])).collect();
        (!fitting.is_empty()).then(|| *self.pick(&fitting))
    }

    pub fn shuffle<T>(&mut self, items: &mut [T]) {
        for last in (1..items.len()).rev() {
            items.swap(last, self.below(last + 1));
        }
    }
}
