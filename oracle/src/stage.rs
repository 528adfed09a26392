//! Where the stand-ins and the judge meet.
//!
//! A worker's call runs in a coroutine. Before each action the stand-in says here what it is about to do and pauses; the judge
//! reads that, and when it resumes the coroutine the action is done and the source runs on to its next action or its answer.
//! Outside a coroutine nothing stops: so `new` and `Drop` run through.

use crate::coroutine;
use crate::state::State;
use std::cell::Cell;
use std::panic::Location;

/// The name of a shared word.
#[derive(Clone, Copy, Debug, PartialEq, Eq)]
pub enum Word {
    Head,
    Tail,
    Stamp(usize),
    /// The one word of the one-slot queue.
    State,
    // Of the unbounded queue: head and tail are the indices; slots are counted through all blocks of the pool.
    HeadBlock,
    TailBlock,
    Next(usize),
    SlotState(usize),
}

/// One action of the source. What stands in a word that names a block is the block's number.
#[derive(Clone, Copy, Debug, PartialEq, Eq)]
pub enum Action {
    Load(Word),
    Store(Word, usize),
    /// The word, the word expected there, the new word.
    Exchange(Word, usize, usize),
    WeakExchange(Word, usize, usize),
    FetchOr(Word, usize),
    FetchAnd(Word, usize),
    FetchAdd(Word, usize),
    /// Read, write or replace the value of this slot.
    Value(usize),
    /// Take a block, or free this one.
    Take,
    Free(usize),
    /// An act in which the source does nothing to what is shared.
    Nothing,
}

/// An action not yet done, and the line of the source that does it.
#[derive(Clone, Copy, Debug, PartialEq, Eq)]
pub struct Pending {
    pub action: Action,
    pub line: u32,
}

/// What a worker that was let go says when it comes to rest again.
#[derive(Clone, Copy, Debug)]
pub enum Said {
    Pending(Pending),
    Answer(State),
}

/// What the last action met: the word or value before it and, for an exchange, whether it won.
#[derive(Clone, Copy, Debug, Default)]
pub struct Met {
    pub found: usize,
    pub won: bool,
}

thread_local! {
    static SAID: Cell<Option<Said>> = const { Cell::new(None) };
    static MET: Cell<Met> = const { Cell::new(Met { found: 0, won: false }) };
    static LOSE: Cell<bool> = const { Cell::new(false) };
}

/// Called by a stand-in before an action. Answers whether the schedule makes a weak exchange fail.
#[track_caller]
pub fn before(action: impl FnOnce() -> Action) -> bool {
    if !coroutine::inside() {
        return false;
    }
    // The stand-ins are all marked `track_caller`, so this is the line of the source.
    let line = Location::caller().line();
    SAID.set(Some(Said::Pending(Pending { action: action(), line })));
    coroutine::pause();
    LOSE.get()
}

/// Called by a stand-in with what its action met.
pub fn after(found: usize, won: bool) {
    MET.set(Met { found, won });
}

/// Called by a worker whose call has returned.
pub fn answer(state: State) {
    SAID.set(Some(Said::Answer(state)));
    coroutine::pause();
}

/// The judge's side: how the pending action shall go.
pub fn let_lose(lose: bool) {
    LOSE.set(lose);
}

/// The judge's side: what the worker said when it came to rest.
pub fn said() -> Said {
    SAID.take().expect("a worker rests only before an action or with an answer")
}

/// The judge's side: what the last action met.
pub fn met() -> Met {
    MET.get()
}
