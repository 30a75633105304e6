//! Pseudo-random numbers from a seed.

/// Pseudo-random numbers: a counter whose bits are stirred by shifts and multiplications.
pub struct Random {
    counter: u64,
}

impl Random {
    pub fn new(seed: u64) -> Random {
        Random { counter: seed }
    }

    pub fn bits(&mut self) -> u64 {
        self.counter = self.counter.wrapping_add(0x9E37_79B9_7F4A_7C15);
        let mut bits = self.counter;
        bits = (bits ^ (bits >> 30)).wrapping_mul(0xBF58_476D_1CE4_E5B9);
        bits = (bits ^ (bits >> 27)).wrapping_mul(0x94D0_49BB_1331_11EB);
        bits ^ (bits >> 31)
    }

    /// A number from low to high, both included.
    pub fn between(&mut self, low: i64, high: i64) -> i64 {
        let width = (high - low + 1) as u64;
        low + (self.bits() % width) as i64
    }

    /// A place in a list of the given length.
    pub fn place(&mut self, length: usize) -> usize {
        self.between(0, length as i64 - 1) as usize
    }

    /// True once in the given number of times.
    pub fn once_in(&mut self, times: i64) -> bool {
        self.between(1, times) == 1
    }

    pub fn pick<T: Copy>(&mut self, list: &[T]) -> T {
        list[self.place(list.len())]
    }

    pub fn shuffle<T>(&mut self, list: &mut [T]) {
        for end in (1..list.len()).rev() {
            list.swap(end, self.place(end + 1));
        }
    }

    pub fn vector(&mut self, length: usize, span: i64) -> Vec<i64> {
        (0..length).map(|_| self.between(-span, span)).collect()
    }

    pub fn byte(&mut self) -> u8 {
        self.between(0, 255) as u8
    }
}
