//! Seeded random numbers, and lengths of lent buffers.

/// A seeded generator (splitmix64).
pub struct Random(u64);

impl Random {
    pub fn new(seed: u64) -> Self {
        Random(seed)
    }

    pub fn word(&mut self) -> u64 {
        self.0 = self.0.wrapping_add(0x9e37_79b9_7f4a_7c15);
        let mut z = self.0;
        z = (z ^ z >> 30).wrapping_mul(0xbf58_476d_1ce4_e5b9);
        z = (z ^ z >> 27).wrapping_mul(0x94d0_49bb_1331_11eb);
        z ^ z >> 31
    }

    pub fn byte(&mut self) -> u8 {
        self.word() as u8
    }

    /// A number from 0 to `number` - 1.
    pub fn below(&mut self, number: usize) -> usize {
        ((u128::from(self.word()) * number as u128) >> 64) as usize
    }

    /// A number from `low` to `high`, both included.
    pub fn between(&mut self, low: usize, high: usize) -> usize {
        low + self.below(high - low + 1)
    }

    /// True so many times in a hundred.
    pub fn chance(&mut self, percent: usize) -> bool {
        self.below(100) < percent
    }

    pub fn pick<T: Copy>(&mut self, choices: &[T]) -> T {
        choices[self.below(choices.len())]
    }

    pub fn bytes(&mut self, number: usize) -> Vec<u8> {
        (0..number).map(|_| self.byte()).collect()
    }
}

// ---- Buffers ----

/// A buffer length that is enough: exact or longer.
pub fn enough_room(random: &mut Random, text: usize) -> usize {
    match random.below(4) {
        0 | 1 => text,
        2 => text + 1,
        _ => text + random.between(2, 100),
    }
}

/// A buffer length that is too short: by one byte, empty, or any.
pub fn too_little_room(random: &mut Random, text: usize) -> usize {
    match random.below(4) {
        0 | 1 => text - 1,
        2 => 0,
        _ => random.below(text),
    }
}
