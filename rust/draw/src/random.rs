//! SplitMix64: the same cases on every machine.

pub struct Random(pub u64);

impl Random {
    #[allow(clippy::should_implement_trait)]
    pub fn next(&mut self) -> u64 {
        self.0 = self.0.wrapping_add(0x9E37_79B9_7F4A_7C15);
        let z = (self.0 ^ (self.0 >> 30)).wrapping_mul(0xBF58_476D_1CE4_E5B9);
        let z = (z ^ (z >> 27)).wrapping_mul(0x94D0_49BB_1331_11EB);
        z ^ (z >> 31)
    }

    pub fn below(&mut self, bound: usize) -> usize {
        (self.next() % bound as u64) as usize
    }

    pub fn pick<T: Copy>(&mut self, from: &[T]) -> T {
        from[self.below(from.len())]
    }

    pub fn bytes(&mut self, length: usize) -> Vec<u8> {
        (0..length).map(|_| self.next() as u8).collect()
    }

    /// Fewer than `bound` bytes.
    pub fn bytes_below(&mut self, bound: usize) -> Vec<u8> {
        let length = self.below(bound);
        self.bytes(length)
    }

    /// Changes a bit, if there is one.
    pub fn change_bit(&mut self, bytes: &mut [u8]) {
        if !bytes.is_empty() {
            bytes[self.below(bytes.len())] ^= 1 << self.below(8);
        }
    }

    /// A bit pattern: zeros, ones, one bit, sparse, dense or any.
    pub fn pattern(&mut self) -> u32 {
        let (a, b) = (self.next() as u32, self.next() as u32);
        match self.below(8) {
            0 => 0,
            1 => u32::MAX,
            2 => 1 << (a % 32),
            3 => a & b,
            4 => a | b,
            _ => a,
        }
    }
}

#[cfg(test)]
mod tests {
    use super::*;

    /// SplitMix64's first numbers from the seed 1234567.
    #[test]
    fn first_numbers() {
        let mut random = Random(1_234_567);
        let expected =
            [6_457_827_717_110_365_317, 3_203_168_211_198_807_973, 9_817_491_932_198_370_423];
        assert_eq!(expected.map(|_| random.next()), expected);
    }
}
