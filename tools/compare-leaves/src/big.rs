//! Whole numbers below 2^640, with the few operations that the exact answers need.

use std::array;
use std::cmp::Ordering;

/// The number of words: four times the sum of the squares of two f32s, in units of 2^-298, is below 2^557.
const WORDS: usize = 10;

/// Least significant word first.
#[derive(Clone, Copy, PartialEq, Eq)]
pub struct Big([u64; WORDS]);

impl Big {
    /// v * 2^shift
    pub fn shifted(v: u64, shift: u32) -> Big {
        let mut words = [0; WORDS];
        let (at, by) = ((shift / 64) as usize, shift % 64);
        words[at] = v << by;
        let over = if by == 0 { 0 } else { v >> (64 - by) };
        if over != 0 {
            words[at + 1] = over;
        }
        Big(words)
    }

    pub fn plus(&self, other: &Big) -> Big {
        let mut carry = false;
        let words = array::from_fn(|i| {
            let word;
            (word, carry) = self.0[i].carrying_add(other.0[i], carry);
            word
        });
        assert!(!carry, "a sum of 2^640 or more");
        Big(words)
    }

    pub fn minus(&self, other: &Big) -> Big {
        let mut borrow = false;
        let words = array::from_fn(|i| {
            let word;
            (word, borrow) = self.0[i].borrowing_sub(other.0[i], borrow);
            word
        });
        assert!(!borrow, "a difference below 0");
        Big(words)
    }

    /// The number of bits up to the highest that is set.
    pub fn length(&self) -> u32 {
        for i in (0..WORDS).rev() {
            if self.0[i] != 0 {
                return i as u32 * 64 + 64 - self.0[i].leading_zeros();
            }
        }
        0
    }

    pub fn bit(&self, i: u32) -> bool {
        self.0[(i / 64) as usize] >> (i % 64) & 1 == 1
    }

    /// Whether a bit below bit i is set.
    pub fn any_below(&self, i: u32) -> bool {
        let (at, by) = ((i / 64) as usize, i % 64);
        self.0[..at].iter().any(|&w| w != 0) || self.0[at] & ((1 << by) - 1) != 0
    }

    /// self / 2^shift, rounded down, which must be below 2^64.
    pub fn down(&self, shift: u32) -> u64 {
        let (at, by) = ((shift / 64) as usize, shift % 64);
        assert!(self.length() <= shift + 64, "a quotient of 2^64 or more");
        let high = if by == 0 || at + 1 == WORDS {
            0
        } else {
            self.0[at + 1] << (64 - by)
        };
        self.0[at] >> by | high
    }
}

impl Ord for Big {
    fn cmp(&self, other: &Big) -> Ordering {
        self.0.iter().rev().cmp(other.0.iter().rev())
    }
}

impl PartialOrd for Big {
    fn partial_cmp(&self, other: &Big) -> Option<Ordering> {
        Some(self.cmp(other))
    }
}
