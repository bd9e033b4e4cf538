//! Numbers with no pattern, and from them sizes, sets and messages that are right most of the time.

use crate::LONGEST;

/// Numbers with no pattern (xorshift), from a seed that is printed.
pub struct Dice(pub u64);

impl Dice {
    fn next(&mut self) -> u64 {
        self.0 ^= self.0 << 13;
        self.0 ^= self.0 >> 7;
        self.0 ^= self.0 << 17;
        self.0
    }

    pub fn below(&mut self, n: usize) -> usize {
        (self.next() >> 11) as usize % n
    }

    pub fn bytes(&mut self, n: usize) -> Vec<u8> {
        (0..n).map(|_| (self.next() >> 32) as u8).collect()
    }

    /// A size: mostly the right one, else one beside it or anything small.
    pub fn size(&mut self, right: usize) -> usize {
        match self.below(8) {
            0 => right.saturating_sub(1),
            1 => right + 1,
            2 => self.below(2 * right + 2),
            3 => 0,
            _ => right,
        }
    }

    /// Room for an output: long enough most of the time.
    pub fn room(&mut self, least: usize) -> usize {
        match self.below(8) {
            0 => least.saturating_sub(1),
            1 => self.below(least + 1),
            2 => least,
            _ => least + self.below(200),
        }
    }

    pub fn set(&mut self, right: usize) -> usize {
        match self.below(12) {
            0 => [0, 7, 8, 255, 256 + right, 1 << 32, (1 << 32) + right, usize::MAX][self.below(8)],
            _ => right,
        }
    }

    pub fn message(&mut self) -> Vec<u8> {
        let n = match self.below(12) {
            0 => LONGEST + 1,
            1 => LONGEST,
            2 => 0,
            _ => self.below(400),
        };
        self.bytes(n)
    }
}
