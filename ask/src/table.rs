//! Tables of states: words whose high bits are the state, the key, and whose low bits are what is noted of it.

use std::fmt::Debug;
use std::ops::{BitAnd, BitOr, BitXor, Not, Shl, Shr};

/// A word of 64 or 128 bits.
pub trait Word:
    Copy
    + Ord
    + Debug
    + std::hash::Hash
    + Shl<u32, Output = Self>
    + Shr<u32, Output = Self>
    + BitAnd<Output = Self>
    + BitOr<Output = Self>
    + BitXor<Output = Self>
    + Not<Output = Self>
{
    const BITS: u32;
    const ZERO: Self;
    fn of(number: u64) -> Self;
    fn low(self) -> u64;
    fn hash_of(self) -> u64;
}

/// Its highest bits are what is gone by.
fn mixed(word: u64) -> u64 {
    (word ^ (word >> 32)).wrapping_mul(0x9E37_79B9_7F4A_7C15)
}

impl Word for u64 {
    const BITS: u32 = 64;
    const ZERO: u64 = 0;

    #[inline]
    fn of(number: u64) -> u64 {
        number
    }

    #[inline]
    fn low(self) -> u64 {
        self
    }

    #[inline]
    fn hash_of(self) -> u64 {
        mixed(self)
    }
}

impl Word for u128 {
    const BITS: u32 = 128;
    const ZERO: u128 = 0;

    #[inline]
    fn of(number: u64) -> u128 {
        u128::from(number)
    }

    #[inline]
    fn low(self) -> u64 {
        self as u64
    }

    #[inline]
    fn hash_of(self) -> u64 {
        mixed(self as u64 ^ mixed((self >> 64) as u64))
    }
}

/// What of a word is its key, a mask; and how many of the lowest bits are noted by all who come to a state alike.
#[derive(Clone, Copy, Debug)]
pub struct Notes<W> {
    pub key: W,
    pub by_all: u32,
}

/// States in the order in which they were found, and where each is. A search keeps one for all that have the same shared words, and goes through a layer shelf by shelf: what it looks up
/// in a row then lies close together, most of it in a cache.
pub struct Shelf<W> {
    words: Vec<W>,
    /// By hashes: the number of a word from 1 on, or 0. As many places as there is room for words, and half as many more.
    places: Box<[u32]>,
    /// Words before this one are closed: nothing is noted of them any more.
    closed: u32,
}

/// Room for so few is doubled.
const FEW: usize = 512;
const FEWEST: usize = 4;

/// There are fewer than 2^32 places.
#[inline]
fn place(hash: u64, places: usize) -> usize {
    ((hash >> 32) * places as u64 >> 32) as usize
}

impl<W: Word> Shelf<W> {
    pub fn new() -> Shelf<W> {
        Shelf { words: vec![], places: Box::new([]), closed: 0 }
    }

    /// With these, so many of them closed.
    pub fn of(words: Vec<W>, closed: u32, key: W) -> Shelf<W> {
        let mut shelf = Shelf { words, places: Box::new([]), closed };
        shelf.index(key);
        shelf
    }

    #[inline]
    pub fn words(&self) -> &[W] {
        &self.words
    }

    pub fn into_words(self) -> Vec<W> {
        self.words
    }

    pub fn closed(&self) -> u32 {
        self.closed
    }

    /// Closes all.
    pub fn close(&mut self) {
        self.closed = self.words.len() as u32;
    }

    /// States are come to; no two of these are one. A new one is kept if `takes` says so, else it stops, and says no. Of one that is there and not closed the lesser word is kept, the bits
    /// that are noted by all left out; of equal words those of both.
    #[inline]
    pub fn come_to(&mut self, these: &[W], notes: Notes<W>, mut takes: impl FnMut() -> bool) -> bool {
        if self.places.is_empty() {
            self.index(notes.key);
        }
        for word in these {
            let word = *word;
            let mut at = place((word & notes.key).hash_of(), self.places.len());
            loop {
                let number = self.places[at];
                if number == 0 {
                    if !takes() {
                        return false;
                    }
                    self.places[at] = self.words.len() as u32 + 1;
                    self.words.push(word);
                    if self.words.len() == self.words.capacity() {
                        self.index(notes.key);
                    }
                    break;
                }
                let known = &mut self.words[number as usize - 1];
                if (*known ^ word) & notes.key == W::ZERO {
                    let (old, new) = (*known >> notes.by_all, word >> notes.by_all);
                    let better = if new < old { word } else { *known };
                    let better = if new == old { *known | word } else { better };
                    if number > self.closed {
                        *known = better;
                    }
                    break;
                }
                at += 1;
                if at == self.places.len() {
                    at = 0;
                }
            }
        }
        true
    }

    /// Makes room for more, and finds all their places again.
    #[cold]
    fn index(&mut self, key: W) {
        let count = self.words.len();
        let room = if count < FEW { (2 * count).max(FEWEST) } else { count + count / 2 };
        self.words.reserve_exact(room - count);
        let places = self.words.capacity() * 3 / 2;
        self.places = vec![0; places].into_boxed_slice();
        for (number, word) in self.words.iter().enumerate() {
            let mut at = place((*word & key).hash_of(), places);
            while self.places[at] != 0 {
                at += 1;
                if at == places {
                    at = 0;
                }
            }
            self.places[at] = number as u32 + 1;
        }
    }
}
