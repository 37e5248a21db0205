//! A small generator of random numbers: the same seed, the same numbers.

#[derive(Clone)]
pub struct Random(u64);

impl Random {
    pub fn new(seed: u64) -> Random {
        Random(seed)
    }

    /// A generator of its own for one part of a seed's work.
    pub fn part(seed: u64, part: u64) -> Random {
        let mut mixed = Random(seed ^ 0x5851_F42D_4C95_7F2D);
        let first = mixed.next();
        Random(first ^ part.wrapping_mul(0xD134_2543_DE82_EF95))
    }

    /// SplitMix64.
    #[allow(clippy::should_implement_trait)]
    pub fn next(&mut self) -> u64 {
        self.0 = self.0.wrapping_add(0x9E37_79B9_7F4A_7C15);
        let mut mixed = self.0;
        mixed = (mixed ^ (mixed >> 30)).wrapping_mul(0xBF58_476D_1CE4_E5B9);
        mixed = (mixed ^ (mixed >> 27)).wrapping_mul(0x94D0_49BB_1331_11EB);
        mixed ^ (mixed >> 31)
    }

    /// From 0 to `bound` - 1.
    pub fn below(&mut self, bound: usize) -> usize {
        (self.next() % bound as u64) as usize
    }

    /// From `low` to `high`, both included.
    pub fn between(&mut self, low: usize, high: usize) -> usize {
        low + self.below(high - low + 1)
    }

    pub fn chance(&mut self, percent: usize) -> bool {
        self.below(100) < percent
    }

    pub fn byte(&mut self) -> u8 {
        self.next() as u8
    }

    pub fn bytes(&mut self, length: usize) -> Vec<u8> {
        (0..length).map(|_| self.byte()).collect()
    }

    pub fn pick<T: Copy>(&mut self, items: &[T]) -> T {
        items[self.below(items.len())]
    }

    /// What is drawn, again and again until it holds.
    pub fn until<T>(&mut self, draw: impl Fn(&mut Random) -> T, holds: impl Fn(&T) -> bool) -> T {
        loop {
            let drawn = draw(self);
            if holds(&drawn) {
                return drawn;
            }
        }
    }

    /// One of the items, each as often as its weight says.
    pub fn weighted<T: Copy>(&mut self, items: &[(usize, T)]) -> T {
        let total = items.iter().map(|(weight, _)| weight).sum();
        let mut drawn = self.below(total);
        for &(weight, item) in items {
            if drawn < weight {
                return item;
            }
            drawn -= weight;
        }
        items[items.len() - 1].1
    }
}
