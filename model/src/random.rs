//! A deterministic pseudo-random generator (splitmix64), the same numbers for
//! the same seed on every machine.

pub struct Random {
    state: u64,
}

impl Random {
    pub fn new(seed: u64) -> Random {
        Random { state: seed }
    }

    pub fn draw(&mut self) -> u64 {
        self.state = self.state.wrapping_add(0x9E37_79B9_7F4A_7C15);
        let mut mixed = self.state;
        mixed = (mixed ^ (mixed >> 30)).wrapping_mul(0xBF58_476D_1CE4_E5B9);
        mixed = (mixed ^ (mixed >> 27)).wrapping_mul(0x94D0_49BB_1331_11EB);
        mixed ^ (mixed >> 31)
    }

    /// A number from `least` to `most`, both included.
    pub fn between(&mut self, least: i64, most: i64) -> i64 {
        assert!(least <= most, "no number between {least} and {most}");
        let span = (most - least) as u64 + 1;
        least + (self.draw() % span) as i64
    }

    /// True in so many of a thousand cases.
    pub fn chance(&mut self, per_thousand: i64) -> bool {
        self.between(0, 999) < per_thousand
    }

    pub fn pick<T: Clone>(&mut self, values: &[T]) -> T {
        values[self.between(0, values.len() as i64 - 1) as usize].clone()
    }

    /// A number from `least` to `most` that leans to both ends.
    pub fn leaning(&mut self, least: i64, most: i64) -> i64 {
        match self.between(0, 7) {
            0 | 1 => least,
            2 | 3 => most,
            4 => (least + 1).min(most),
            5 => (most - 1).max(least),
            _ => self.between(least, most),
        }
    }

    /// The number with either sign.
    pub fn either_sign(&mut self, value: i64) -> i64 {
        if self.chance(500) {
            value
        } else {
            -value
        }
    }
}
