//! A fixed-seed generator, so that every run compares the same inputs.

use crate::area::Area;

/// Marks at the limits: those from 32,768 on are of elements not yet scanned.
const MARKS: [u16; 9] = [0, 1, 7, 32_766, 32_767, 32_768, 32_769, 65_534, 65_535];

/// Xorshift with a multiplier.
pub struct Rng(u64);

impl Rng {
    /// Each seed gives another sequence.
    pub fn new(seed: u64) -> Rng {
        Rng(seed.wrapping_mul(0x9e37_79b9_7f4a_7c15) | 1)
    }

    fn next(&mut self) -> u64 {
        self.0 ^= self.0 >> 12;
        self.0 ^= self.0 << 25;
        self.0 ^= self.0 >> 27;
        self.0.wrapping_mul(0x2545_f491_4f6c_dd1d)
    }

    /// A number below the limit, which is not 0.
    pub fn below(&mut self, limit: usize) -> usize {
        ((self.next() >> 16) % limit as u64) as usize
    }

    /// A number from first to last.
    pub fn between(&mut self, first: usize, last: usize) -> usize {
        first + self.below(last - first + 1)
    }

    /// True once in so many times.
    pub fn one_in(&mut self, times: usize) -> bool {
        self.below(times) == 0
    }

    /// One of these.
    pub fn pick<T: Copy>(&mut self, of: &[T]) -> T {
        of[self.below(of.len())]
    }

    /// Any 16-bit word.
    pub fn word(&mut self) -> u16 {
        (self.next() >> 32) as u16
    }

    /// A node number of n+m nodes, or 0; now and then one just past them, or any word.
    pub fn node(&mut self, nodes: usize) -> u16 {
        match self.below(24) {
            0 => nodes as u16 + 1,
            1 => self.pick(&[u16::MAX, 1_000, 1_001, 5_000, 32_768]),
            2 => self.word(),
            _ => self.below(nodes + 1) as u16,
        }
    }

    /// A mark: none, or one at a limit; now and then any word.
    pub fn mark(&mut self) -> u16 {
        match self.below(8) {
            0..=2 => 0,
            3 => self.word(),
            _ => self.pick(&MARKS),
        }
    }

    /// So many words of noise.
    pub fn words(&mut self, words: usize) -> Vec<u16> {
        (0..words).map(|_| self.word()).collect()
    }

    /// An area of noise.
    pub fn noise(&mut self, words: usize) -> Area<u16> {
        self.words(words).into()
    }

    /// Puts the items in any order.
    pub fn shuffle<T>(&mut self, items: &mut [T]) {
        for last in (1..items.len()).rev() {
            items.swap(last, self.below(last + 1));
        }
    }
}
