//! Which queue a run is of, and what is known of each without its source.

use crate::state::Kind;

/// A refusal's number, or 0; document 01 lists them.
pub type Refusal = u64;

#[derive(Clone, Copy, Debug, PartialEq, Eq)]
pub enum Queue {
    /// `lent`: its records are lent, up to 64 of them (document 02, item 11).
    Bounded {
        edition: u64,
        bits: Bits,
        lent: bool,
    },
    Single,
    Unbounded,
}

/// How wide a ring's head, tail and stamps are.
#[derive(Clone, Copy, Debug, PartialEq, Eq)]
pub enum Bits {
    Sixteen,
    SixtyFour,
}

/// What differs from queue to queue beside the source itself.
pub struct Facts {
    /// As `--queue` has it; the source is the file of this name.
    pub name: &'static str,
    /// The name of the fixed list's files.
    pub list: &'static str,
    /// The numbers before the entries of a schedule.
    pub begins_with: &'static str,
    pub places: &'static [&'static [Kind]],
    /// The places of weak and of strong exchanges.
    pub weak: &'static [Kind],
    pub strong: &'static [Kind],
    /// How many different answers all calls have together.
    pub answers: usize,
    /// Refusals that a schedule from a fresh machine can meet. 6 comes after a refused making alone; 7 needs 4,294,967,295
    /// acts and 10 a buffer, which a schedule has not.
    pub refusals: &'static [Refusal],
    /// What the blank machine after a refused making shows.
    pub blank_words: &'static str,
    pub blank_slots: &'static str,
}
