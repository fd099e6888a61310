//! Random numbers that a seed fixes, for tests, vectors and random cases.

use crate::bits::Bits;

/// A splitmix generator.
pub struct Chance(u64);

impl Chance {
    pub fn new(seed: u64) -> Chance {
        Chance(seed)
    }

    /// Mixed twice, so that neighbouring cases have nothing in common.
    pub fn of_case(seed: u64, number: u64) -> Chance {
        let mixed = Chance(seed).draw() ^ number;
        Chance(Chance(mixed).draw())
    }

    fn draw(&mut self) -> u64 {
        self.0 = self.0.wrapping_add(0x9E37_79B9_7F4A_7C15);
        let mut z = self.0;
        z = (z ^ z >> 30).wrapping_mul(0xBF58_476D_1CE4_E5B9);
        z = (z ^ z >> 27).wrapping_mul(0x94D0_49BB_1331_11EB);
        z ^ z >> 31
    }

    pub fn number(&mut self) -> u32 {
        self.draw() as u32
    }

    pub fn below(&mut self, bound: usize) -> usize {
        (self.draw() % bound as u64) as usize
    }

    /// A number from low to high, both among them.
    pub fn between(&mut self, low: usize, high: usize) -> usize {
        low + self.below(high - low + 1)
    }

    pub fn one_in(&mut self, count: usize) -> bool {
        self.below(count) == 0
    }

    pub fn pick<T: Copy>(&mut self, items: &[T]) -> T {
        items[self.below(items.len())]
    }

    pub fn shuffle<T>(&mut self, items: &mut [T]) {
        for place in 1..items.len() {
            let other = self.below(place + 1);
            items.swap(place, other);
        }
    }

    pub fn bytes_below(&mut self, bound: usize, count: usize) -> Vec<u8> {
        (0..count).map(|_| self.below(bound) as u8).collect()
    }

    pub fn bytes(&mut self, count: usize) -> Vec<u8> {
        self.bytes_below(256, count)
    }

    pub fn bits(&mut self, count: usize) -> Bits {
        (0..count).map(|_| self.below(2) == 1).collect()
    }
}
