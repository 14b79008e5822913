//! A small deterministic source of numbers (splitmix64).

pub struct Random(u64);

impl Random {
    /// Each book has its own source, so a book can be had again from its index.
    pub fn new(seed: u64, index: u64) -> Random {
        let mut source = Random(seed);
        let mixed = source.number() ^ index.wrapping_mul(0xD134_2543_DE82_EF95);
        Random(mixed)
    }

    pub fn number(&mut self) -> u64 {
        self.0 = self.0.wrapping_add(0x9E37_79B9_7F4A_7C15);
        let mut z = self.0;
        z = (z ^ (z >> 30)).wrapping_mul(0xBF58_476D_1CE4_E5B9);
        z = (z ^ (z >> 27)).wrapping_mul(0x94D0_49BB_1331_11EB);
        z ^ (z >> 31)
    }

    /// From 0 to one less than the count.
    pub fn below(&mut self, count: u64) -> u64 {
        self.number() % count
    }

    /// From low to high, both counted.
    pub fn between(&mut self, low: u64, high: u64) -> u64 {
        low + self.below(high - low + 1)
    }

    pub fn chance(&mut self, percent: u64) -> bool {
        self.below(100) < percent
    }

    pub fn pick<T: Copy>(&mut self, from: &[T]) -> T {
        from[self.below(from.len() as u64) as usize]
    }
}
