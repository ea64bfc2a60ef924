//! Sets of addresses of a program, all methods together, as bits.

use crate::checker::sets::elements;

/// 16 methods of 32 instructions, 64 bits a word.
const WORDS: usize = 16 * 32 / 64;

#[derive(Clone, Copy, Default)]
pub struct Addresses([u64; WORDS]);

impl Addresses {
    /// Whether it was not in the set before.
    #[inline]
    pub fn insert(&mut self, address: usize) -> bool {
        let (word, bit) = (&mut self.0[address / 64], 1 << (address % 64));
        let is_new = *word & bit == 0;
        *word |= bit;
        is_new
    }

    /// All of them, rising.
    #[inline]
    pub fn iter(self) -> impl Iterator<Item = usize> {
        (0..WORDS).flat_map(move |word| elements(self.0[word]).map(move |bit| 64 * word + bit))
    }
}

/// Addresses that are to be visited: the lowest of 64, then on to others.
#[derive(Default)]
pub struct Worklist {
    waiting: Addresses,
    word: usize,
}

impl Worklist {
    #[inline]
    pub fn insert(&mut self, address: usize) {
        self.waiting.insert(address);
    }

    /// Takes an address; none if no one waits.
    #[inline]
    pub fn take(&mut self) -> Option<usize> {
        for _ in 0..WORDS {
            let waiting = &mut self.waiting.0[self.word];
            if *waiting != 0 {
                let bit = waiting.trailing_zeros() as usize;
                *waiting &= *waiting - 1;
                return Some(64 * self.word + bit);
            }
            self.word = (self.word + 1) % WORDS;
        }
        None
    }
}

#[cfg(test)]
mod tests {
    use super::*;

    #[test]
    fn a_set_holds_each_address_once() {
        let mut set = Addresses::default();
        assert!([511, 0, 64, 63].into_iter().all(|address| set.insert(address)));
        assert!(!set.insert(64));
        assert!(set.iter().eq([0, 63, 64, 511]));
    }

    #[test]
    fn every_address_that_waits_is_taken_once() {
        let mut worklist = Worklist::default();
        assert_eq!(worklist.take(), None);
        [511, 3, 200, 3].into_iter().for_each(|address| worklist.insert(address));
        assert_eq!(worklist.take(), Some(3));
        worklist.insert(2);
        assert_eq!([worklist.take(), worklist.take()], [Some(2), Some(200)]);
        worklist.insert(2);
        assert_eq!([(); 3].map(|_| worklist.take()), [Some(511), Some(2), None]);
    }
}
