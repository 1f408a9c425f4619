//! Random numbers from a seed.

/// A small random number generator (splitmix64).
#[derive(Clone, Debug)]
pub struct Rng(u64);

impl Rng {
    /// A generator that starts from a seed.
    pub fn new(seed: u64) -> Rng {
        Rng(seed)
    }

    /// The next 64 bits.
    pub fn bits(&mut self) -> u64 {
        self.0 = self.0.wrapping_add(0x9E37_79B9_7F4A_7C15);
        let mut z = self.0;
        z = (z ^ (z >> 30)).wrapping_mul(0xBF58_476D_1CE4_E5B9);
        z = (z ^ (z >> 27)).wrapping_mul(0x94D0_49BB_1331_11EB);
        z ^ (z >> 31)
    }

    /// Any number.
    pub fn number(&mut self) -> i64 {
        self.bits() as i64
    }

    /// An index below `count`, which is not 0.
    pub fn below(&mut self, count: usize) -> usize {
        (self.bits() % count as u64) as usize
    }

    /// A number from `low` to `high`, or `low` if `high` is below it. The two
    /// are less than 2^63 apart.
    pub fn between(&mut self, low: i64, high: i64) -> i64 {
        let count = (high - low).max(0) as u64 + 1;
        low + (self.bits() % count) as i64
    }

    /// True in so many of a hundred cases.
    pub fn chance(&mut self, percent: usize) -> bool {
        self.below(100) < percent
    }

    /// One of the items, which are not none.
    pub fn pick<T: Copy>(&mut self, items: &[T]) -> T {
        items[self.below(items.len())]
    }

    /// A number at or beyond the edges of its limits.
    pub fn edge(&mut self, low: i64, high: i64) -> i64 {
        let any = self.number();
        self.pick(&[
            i64::MIN,
            i64::MIN + 1,
            -1,
            0,
            1,
            low.saturating_sub(1),
            low,
            high,
            high.saturating_add(1),
            i64::MAX - 1,
            i64::MAX,
            any,
        ])
    }
}
