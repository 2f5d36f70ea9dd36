//! Random numbers from a fixed seed (splitmix64), so that each run compares the same strings.

pub struct Random(pub u64);

impl Random {
    pub fn next(&mut self) -> u64 {
        self.0 = self.0.wrapping_add(0x9E37_79B9_7F4A_7C15);
        let mut z = self.0;
        z = (z ^ z >> 30).wrapping_mul(0xBF58_476D_1CE4_E5B9);
        z = (z ^ z >> 27).wrapping_mul(0x94D0_49BB_1331_11EB);
        z ^ z >> 31
    }

    /// A number from 0 to `most`.
    pub fn upto(&mut self, most: usize) -> usize {
        (self.next() % (most as u64 + 1)) as usize
    }

    pub fn bytes(&mut self, count: usize) -> Vec<u8> {
        (0..count).map(|_| self.next() as u8).collect()
    }
}

/// Whether something happens that happens once in so many times.
pub fn once_in(random: &mut Random, times: usize) -> bool {
    random.upto(times - 1) == 0
}

/// One of the values.
pub fn one_of<T: Copy>(random: &mut Random, values: &[T]) -> T {
    values[random.upto(values.len() - 1)]
}
