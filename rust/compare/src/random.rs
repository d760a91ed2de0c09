//! A small random generator (splitmix64): a seed gives the same numbers on every machine.

pub struct Random {
    state: u64,
}

impl Random {
    pub fn new(seed: u64) -> Random {
        Random { state: seed }
    }

    pub fn any(&mut self) -> u64 {
        self.state = self.state.wrapping_add(0x9E37_79B9_7F4A_7C15);
        let mut mixed = self.state;
        mixed = (mixed ^ mixed >> 30).wrapping_mul(0xBF58_476D_1CE4_E5B9);
        mixed = (mixed ^ mixed >> 27).wrapping_mul(0x94D0_49BB_1331_11EB);
        mixed ^ mixed >> 31
    }

    /// Draws a number from `low` to `high`, both included.
    pub fn between(&mut self, low: u32, high: u32) -> u32 {
        let span = u64::from(high - low) + 1;
        low + (self.any() % span) as u32
    }

    /// Draws a number from `low` to `high`, one time in four one of these two.
    pub fn with_ends(&mut self, low: u32, high: u32) -> u32 {
        match self.between(0, 7) {
            0 => low,
            1 => high,
            _ => self.between(low, high),
        }
    }

    /// Draws a number of any size below 4,294,967,296: each count of bits is as likely as any other.
    pub fn of_any_size(&mut self) -> u32 {
        let width = self.between(1, 32);
        self.any() as u32 >> (32 - width)
    }

    /// Returns true one time in `times`.
    pub fn one_in(&mut self, times: u32) -> bool {
        self.between(1, times) == 1
    }

    /// Draws a place in a list of `items` items, at least one.
    pub fn place(&mut self, items: usize) -> usize {
        self.between(0, items as u32 - 1) as usize
    }

    pub fn pick<T: Copy>(&mut self, items: &[T]) -> T {
        items[self.place(items.len())]
    }

    pub fn bytes(&mut self, count: usize) -> Vec<u8> {
        (0..count).map(|_| self.any() as u8).collect()
    }
}
