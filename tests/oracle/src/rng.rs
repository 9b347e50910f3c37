//! A deterministic pseudo random generator (splitmix64).

/// The generator's state.
#[derive(Clone, Debug)]
pub struct Rng {
    state: u64,
}

impl Rng {
    /// A generator of a seed.
    pub fn new(seed: u64) -> Self {
        Rng { state: seed }
    }

    /// A generator for one round of a test of a seed.
    pub fn of_round(seed: u64, round: u64) -> Self {
        Rng::new(Rng::new(seed).bits() ^ Rng::new(round).bits())
    }

    /// The next 64 bits.
    pub fn bits(&mut self) -> u64 {
        self.state = self.state.wrapping_add(0x9E37_79B9_7F4A_7C15);
        let mut z = self.state;
        z = (z ^ (z >> 30)).wrapping_mul(0xBF58_476D_1CE4_E5B9);
        z = (z ^ (z >> 27)).wrapping_mul(0x94D0_49BB_1331_11EB);
        z ^ (z >> 31)
    }

    /// A number below `end`, which is not 0.
    pub fn below(&mut self, end: usize) -> usize {
        (self.bits() % end as u64) as usize
    }

    /// A number from `low` to `high`.
    pub fn between(&mut self, low: usize, high: usize) -> usize {
        low + self.below(high - low + 1)
    }

    /// A byte from `low` to `high`.
    pub fn byte(&mut self, low: u8, high: u8) -> u8 {
        self.between(low.into(), high.into()) as u8
    }

    /// True in `percent` of 100 times.
    pub fn chance(&mut self, percent: usize) -> bool {
        self.below(100) < percent
    }

    /// One of the items, if there are any.
    pub fn pick<T: Clone>(&mut self, items: &[T]) -> Option<T> {
        if items.is_empty() {
            None
        } else {
            Some(items[self.below(items.len())].clone())
        }
    }

    /// One of a fixed list of items.
    pub fn one_of<T: Clone, const N: usize>(&mut self, items: [T; N]) -> T {
        items[self.below(N)].clone()
    }

    /// Puts items into a random order.
    pub fn shuffle<T>(&mut self, items: &mut [T]) {
        for last in (1..items.len()).rev() {
            items.swap(last, self.below(last + 1));
        }
    }

    /// A value: small, at an edge of 32 bits, or any.
    pub fn value(&mut self) -> i32 {
        match self.below(10) {
            0..=5 => self.between(0, 8) as i32 - 3,
            6 => self.one_of([i32::MIN, i32::MAX, i32::MIN + 1, i32::MAX - 1]),
            7 => self.one_of([1 << 30, -(1 << 30), 65_535, 65_536]),
            _ => self.bits() as i32,
        }
    }
}
