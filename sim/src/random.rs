//! A small seeded generator of numbers (splitmix64).

pub struct Random(u64);

impl Random {
    pub fn new(seed: u64) -> Random {
        Random(seed)
    }

    pub fn bits(&mut self) -> u64 {
        self.0 = self.0.wrapping_add(0x9E37_79B9_7F4A_7C15);
        let mut z = self.0;
        z = (z ^ (z >> 30)).wrapping_mul(0xBF58_476D_1CE4_E5B9);
        z = (z ^ (z >> 27)).wrapping_mul(0x94D0_49BB_1331_11EB);
        z ^ (z >> 31)
    }

    /// A number from `low` to `high`, both included.
    pub fn range(&mut self, low: u64, high: u64) -> u64 {
        assert!(low <= high, "empty range {low} to {high}");
        match (high - low).checked_add(1) {
            Some(size) => low + self.bits() % size,
            None => self.bits(),
        }
    }

    /// True in `percent` of a hundred draws.
    pub fn chance(&mut self, percent: u64) -> bool {
        self.range(0, 99) < percent
    }

    /// True in half of all cases. It takes no number, so that all draws after it are what they
    /// would be without it. (the top bit of the next number, on which no small range depends)
    pub fn coin(&self) -> bool {
        Random(self.0).bits() >> 63 == 1
    }

    /// Another generator, which begins where the present state says. Like `coin` it takes no number,
    /// and it goes with none that comes after it here: its beginning is a number from far off.
    pub fn aside(&self) -> Random {
        Random(Random(!self.0).bits())
    }

    pub fn pick<'a, T>(&mut self, items: &'a [T]) -> &'a T {
        &items[self.range(0, items.len() as u64 - 1) as usize]
    }

    pub fn shuffle<T>(&mut self, items: &mut [T]) {
        for last in (1..items.len()).rev() {
            items.swap(last, self.range(0, last as u64) as usize);
        }
    }
}
