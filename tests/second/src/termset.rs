//! Sets of terms, one bit a term.

use std::ops::{BitAnd, BitOr, BitOrAssign, Sub};

const WORDS: usize = 4;

#[derive(Clone, Copy, PartialEq, Eq)]
pub struct TermSet([u64; WORDS]);

impl TermSet {
    pub const EMPTY: TermSet = TermSet([0; WORDS]);

    #[inline]
    pub fn has(&self, term: u8) -> bool {
        self.0[usize::from(term >> 6)] >> (term & 63) & 1 == 1
    }

    #[inline]
    pub fn insert(&mut self, term: u8) {
        self.0[usize::from(term >> 6)] |= 1 << (term & 63);
    }

    pub fn is_empty(&self) -> bool {
        *self == TermSet::EMPTY
    }

    pub fn count(&self) -> u32 {
        self.0.iter().map(|word| word.count_ones()).sum()
    }

    /// The terms by rising number.
    pub fn rising(self) -> Rising {
        Rising(self)
    }
}

impl BitOr for TermSet {
    type Output = TermSet;
    fn bitor(mut self, other: TermSet) -> TermSet {
        self |= other;
        self
    }
}

impl BitOrAssign for TermSet {
    fn bitor_assign(&mut self, other: TermSet) {
        for (word, more) in self.0.iter_mut().zip(other.0) {
            *word |= more;
        }
    }
}

impl BitAnd for TermSet {
    type Output = TermSet;
    fn bitand(mut self, other: TermSet) -> TermSet {
        for (word, common) in self.0.iter_mut().zip(other.0) {
            *word &= common;
        }
        self
    }
}

impl Sub for TermSet {
    type Output = TermSet;
    fn sub(mut self, other: TermSet) -> TermSet {
        for (word, gone) in self.0.iter_mut().zip(other.0) {
            *word &= !gone;
        }
        self
    }
}

#[derive(Clone)]
pub struct Rising(TermSet);

impl Iterator for Rising {
    type Item = u8;

    fn next(&mut self) -> Option<u8> {
        let index = self.0 .0.iter().position(|&word| word != 0)?;
        let word = &mut self.0 .0[index];
        let bit = word.trailing_zeros();
        *word &= *word - 1;
        Some((index as u32 * 64 + bit) as u8)
    }
}

impl DoubleEndedIterator for Rising {
    fn next_back(&mut self) -> Option<u8> {
        let index = self.0 .0.iter().rposition(|&word| word != 0)?;
        let word = &mut self.0 .0[index];
        let bit = 63 - word.leading_zeros();
        *word &= !(1 << bit);
        Some((index as u32 * 64 + bit) as u8)
    }
}
