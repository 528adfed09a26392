//! Why a call goes back (document 02, item 9), counted along the actions of the running source.

use crate::call::Call;
use crate::stage::{Action, Met, Word};
use crate::state::Kind;
use std::fmt;

const CAUSES: [&str; 4] = ["schedule", "own-end", "other-end", "hand"];

/// The causes that hold where a call goes back.
#[derive(Clone, Copy, Debug, Default, PartialEq, Eq)]
pub struct Causes {
    /// The schedule made this act's exchange fail.
    pub schedule: bool,
    /// The call's own end moved or was marked since an action gave the call its word.
    pub own_end: bool,
    /// The other end moved since the call's last load of a stamp.
    pub other_end: bool,
    /// Another worker had a slot in hand at that load.
    pub hand: bool,
}

impl Causes {
    fn holding(self) -> [bool; 4] {
        [self.schedule, self.own_end, self.other_end, self.hand]
    }
}

impl fmt::Display for Causes {
    fn fmt(&self, f: &mut fmt::Formatter<'_>) -> fmt::Result {
        let named: Vec<_> =
            CAUSES.into_iter().zip(self.holding()).filter_map(|(name, holds)| holds.then_some(name)).collect();
        f.write_str(if named.is_empty() { "none".into() } else { named.join(",") }.as_str())
    }
}

/// What was done to the ends so far, and what stood so when each worker last looked.
pub struct Watch {
    tail_claims: u64,
    head_claims: u64,
    /// Closes that answered yes.
    marks: u64,
    workers: Vec<Looked>,
}

#[derive(Clone, Copy, Default)]
struct Looked {
    /// From a won exchange until the store of a stamp.
    in_hand: bool,
    /// The changes of its own end when an action gave it its word.
    own: u64,
    /// The claims at the other end when it last loaded a stamp, and whether another had a slot in hand.
    other: u64,
    hand: bool,
}

/// The end that a call works with, and the other. To the calls that never go back it does not matter.
fn ends(call: Call) -> (Word, Word) {
    match call {
        Call::Pop => (Word::Head, Word::Tail),
        _ => (Word::Tail, Word::Head),
    }
}

impl Watch {
    pub fn new(workers: usize) -> Watch {
        Watch { tail_claims: 0, head_claims: 0, marks: 0, workers: vec![Looked::default(); workers] }
    }

    /// Takes in an action that is done. Answers the causes that hold if its call goes back with it.
    pub fn act(&mut self, worker: usize, call: Call, action: Action, met: Met) -> Causes {
        let (own, other) = ends(call);
        if matches!(action, Action::Load(Word::Stamp(_))) {
            self.workers[worker].other = self.claims(other);
            self.workers[worker].hand = (0..self.workers.len()).any(|w| w != worker && self.workers[w].in_hand);
        }
        let schedule = matches!(action, Action::WeakExchange(_, expected, _) if !met.won && met.found == expected);
        let causes = Causes { schedule, ..self.causes(worker, call) };
        self.change(worker, action, met);
        match action {
            Action::Load(word) if word == own => self.workers[worker].own = self.changes(own),
            Action::WeakExchange(word, ..) if word == own && !met.won => self.workers[worker].own = self.changes(own),
            _ => {}
        }
        causes
    }

    /// Those that hold of a worker's call, but for the schedule's.
    pub fn causes(&self, worker: usize, call: Call) -> Causes {
        let (own, other) = ends(call);
        let looked = self.workers[worker];
        let own_end = self.changes(own) > looked.own;
        if call == Call::Len {
            return Causes { own_end, ..Causes::default() };
        }
        Causes { schedule: false, own_end, other_end: self.claims(other) > looked.other, hand: looked.hand }
    }

    fn claims(&self, end: Word) -> u64 {
        match end {
            Word::Tail => self.tail_claims,
            _ => self.head_claims,
        }
    }

    /// Claims and marks; a mark is tail's.
    fn changes(&self, end: Word) -> u64 {
        match end {
            Word::Tail => self.tail_claims + self.marks,
            _ => self.head_claims,
        }
    }

    fn change(&mut self, worker: usize, action: Action, met: Met) {
        match action {
            Action::WeakExchange(end, ..) if met.won => {
                self.workers[worker].in_hand = true;
                match end {
                    Word::Tail => self.tail_claims += 1,
                    _ => self.head_claims += 1,
                }
            }
            // F7, the tail claim of a force_push that won head
            Action::Store(Word::Tail, _) | Action::FetchAdd(Word::Tail, _) => self.tail_claims += 1,
            Action::FetchOr(Word::Tail, mark) if met.found & mark == 0 => self.marks += 1,
            Action::Store(Word::Stamp(_), _) => self.workers[worker].in_hand = false,
            _ => {}
        }
    }
}

/// How often calls went back from each place, by each cause and by none.
#[derive(Clone)]
pub struct Backs([[u64; CAUSES.len() + 1]; Kind::COUNT]);

impl Backs {
    pub fn new() -> Backs {
        Backs([[0; CAUSES.len() + 1]; Kind::COUNT])
    }

    pub fn count(&mut self, from: Kind, causes: Causes) {
        let [schedule, own_end, other_end, hand] = causes.holding();
        let none = causes == Causes::default();
        for (times, holds) in self.0[from as usize].iter_mut().zip([schedule, own_end, other_end, hand, none]) {
            *times += u64::from(holds);
        }
    }

    pub fn add(&mut self, other: &Backs) {
        self.0.as_flattened_mut().iter_mut().zip(other.0.as_flattened()).for_each(|(to, from)| *to += from);
    }

    /// How often there was this cause, or `none`, wherever it was.
    pub fn times(&self, cause: &str) -> u64 {
        self.each().filter(|(_, name, _)| *name == cause).map(|(_, _, times)| times).sum()
    }

    fn each(&self) -> impl Iterator<Item = (Kind, &'static str, u64)> + '_ {
        let causes = || CAUSES.into_iter().chain(["none"]);
        [Kind::BOUNDED, Kind::LOOKERS]
            .concat()
            .into_iter()
            .flat_map(move |from| causes().zip(self.0[from as usize]).map(move |(cause, times)| (from, cause, times)))
    }
}

impl fmt::Display for Backs {
    fn fmt(&self, f: &mut fmt::Formatter<'_>) -> fmt::Result {
        for (from, cause, times) in self.each().filter(|(_, _, times)| *times > 0) {
            writeln!(f, "back from {} because {cause} {times}", from.name())?;
        }
        Ok(())
    }
}
