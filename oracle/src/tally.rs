//! How often each place, answer, refusal and ending of an exchange was seen.

use crate::call::Call;
use crate::causes::Backs;
use crate::plain::{Account, Fault};
use crate::queue::Queue;
use crate::state::Kind;
use std::fmt;

/// How an exchange ended; a strong one wins or is lost by the words.
#[derive(Clone, Copy)]
pub enum Ending {
    Won,
    LostByWords,
    LostBySchedule,
    /// Code 9 where the words differed anyway.
    LostByBoth,
}

const ENDINGS: [&str; 4] = ["won", "lost by the words", "lost by the schedule", "lost by both"];
const KINDS: usize = Kind::COUNT;
/// No refusal has a higher number.
const REFUSALS: usize = 24;

#[derive(Clone)]
pub struct Tally {
    queue: Queue,
    pub schedules: u64,
    pub acts: u64,
    /// Sequences that walks listed, and the bytes of their lists.
    pub sequences: u64,
    pub sequence_bytes: u64,
    /// Marks that F7 met in tail: edition 1 wipes them out, edition 2 keeps them.
    pub closes_met: u64,
    /// Entries after which a worker stood in a place or was idle with an answer.
    places: [u64; KINDS],
    answers: [[u64; KINDS]; 8],
    exchanges: [[u64; 4]; KINDS],
    refusals: [u64; REFUSALS],
    pub contents_refused: [u64; REFUSALS],
    /// Items that `Drop` met.
    pub items_met: u64,
    /// Not among what the fixed lists tell of themselves, nor shown with the rest.
    pub backs: Backs,
    /// Answers that are the plain queue's, and those of `is_empty` that are not, as the unbounded source has it. Not shown with the rest either.
    pub plain_answers: u64,
    pub no_of_empty: u64,
    /// The first thing that was not as a plain queue has it, if that was asked for.
    pub fault: Option<Fault>,
}

impl Tally {
    pub fn new(queue: Queue) -> Tally {
        Tally {
            queue,
            schedules: 0,
            acts: 0,
            sequences: 0,
            sequence_bytes: 0,
            closes_met: 0,
            places: [0; KINDS],
            answers: [[0; KINDS]; 8],
            exchanges: [[0; 4]; KINDS],
            refusals: [0; REFUSALS],
            contents_refused: [0; REFUSALS],
            items_met: 0,
            backs: Backs::new(),
            plain_answers: 0,
            no_of_empty: 0,
            fault: None,
        }
    }

    pub fn count_plain(&mut self, plain: &Account) {
        let (answers, no_of_empty) = plain.answers();
        self.plain_answers += answers;
        self.no_of_empty += no_of_empty;
    }

    pub fn place(&mut self, kind: Kind) {
        self.places[kind as usize] += 1;
    }

    pub fn answer(&mut self, call: Call, kind: Kind) {
        self.answers[call.code()][kind as usize] += 1;
    }

    pub fn exchange(&mut self, place: Kind, ending: Ending) {
        self.exchanges[place as usize][ending as usize] += 1;
    }

    pub fn refusal(&mut self, refusal: u64) {
        self.refusals[refusal as usize] += 1;
    }

    pub fn times_at(&self, kind: Kind) -> u64 {
        self.places[kind as usize]
    }

    /// Exchanges won at a place.
    pub fn times_won(&self, place: Kind) -> u64 {
        self.exchanges[place as usize][Ending::Won as usize]
    }

    pub fn times_refused(&self, refusal: u64) -> u64 {
        self.refusals[refusal as usize]
    }

    /// Whether every place, every answer of every call, every ending of every exchange and every refusal but these was seen, and
    /// some item among the contents.
    pub fn complete(&self, but: &[u64]) -> bool {
        let facts = self.queue.facts();
        let seen = |counts: &[u64]| counts.iter().filter(|times| **times > 0).count();
        self.queue.places().all(|kind| self.times_at(kind) > 0)
            && seen(self.answers.as_flattened()) == facts.answers
            && seen(self.exchanges.as_flattened()) == 4 * facts.weak.len() + 2 * facts.strong.len()
            && facts.refusals.iter().all(|refusal| self.times_refused(*refusal) > 0 || but.contains(refusal))
            && self.items_met > 0
            && (!matches!(self.queue, Queue::Bounded { .. }) || self.closes_met > 0)
    }

    pub fn add(&mut self, other: &Tally) {
        self.schedules += other.schedules;
        self.acts += other.acts;
        self.sequences += other.sequences;
        self.sequence_bytes += other.sequence_bytes;
        self.closes_met += other.closes_met;
        self.items_met += other.items_met;
        self.backs.add(&other.backs);
        self.plain_answers += other.plain_answers;
        self.no_of_empty += other.no_of_empty;
        add_all(&mut self.places, &other.places);
        add_all(self.answers.as_flattened_mut(), other.answers.as_flattened());
        add_all(self.exchanges.as_flattened_mut(), other.exchanges.as_flattened());
        add_all(&mut self.refusals, &other.refusals);
        add_all(&mut self.contents_refused, &other.contents_refused);
    }
}

fn add_all(to: &mut [u64], from: &[u64]) {
    to.iter_mut().zip(from).for_each(|(to, from)| *to += from);
}

impl fmt::Display for Tally {
    fn fmt(&self, f: &mut fmt::Formatter<'_>) -> fmt::Result {
        writeln!(f, "{} schedules, {} entries, {} acts", self.schedules, self.refusals[0], self.acts)?;
        if self.sequences > 0 {
            writeln!(f, "{} sequences in {} bytes", self.sequences, self.sequence_bytes)?;
        }
        for kind in self.queue.places() {
            writeln!(f, "place {} {}", kind.name(), self.times_at(kind))?;
        }
        for (call, answers) in Call::NAMES.iter().zip(&self.answers) {
            for kind in Kind::ANSWERS.iter().filter(|kind| answers[**kind as usize] > 0) {
                writeln!(f, "answer {call} {} {}", kind.name(), answers[*kind as usize])?;
            }
        }
        for kind in self.queue.places() {
            for (ending, times) in ENDINGS.iter().zip(self.exchanges[kind as usize]).filter(|(_, times)| *times > 0) {
                writeln!(f, "exchange {} {ending} {times}", kind.name())?;
            }
        }
        if let Queue::Bounded { edition, .. } = self.queue {
            writeln!(f, "closes {} at F7 {}", if edition == 1 { "lost" } else { "kept" }, self.closes_met)?;
        }
        for (refusal, times) in self.refusals.iter().enumerate().skip(1).filter(|(_, times)| **times > 0) {
            writeln!(f, "refusal {refusal} {times}")?;
        }
        for (refusal, times) in self.contents_refused.iter().enumerate().filter(|(_, times)| **times > 0) {
            writeln!(f, "contents refused {refusal} {times}")?;
        }
        Ok(())
    }
}
