//! What the judge needs of a queue of the crate. Each queue's own file has the unmodified source and the rest of what differs from
//! queue to queue: its calls, the names of its words, and the places where its calls pause.

use crate::call::Call;
use crate::stage::{Action, Met, Pending, Word};
use crate::state::{Kind, State, NONE};
use crate::{ForcePushError, PopError, PushError};
use std::cell::RefCell;

pub trait Source {
    /// Makes a call of the source.
    fn answer(&self, call: Call) -> State;

    /// Keeps what a worker's own action gave it.
    fn note(&self, seen: &mut Seen, done: Pending, met: Met) {
        seen.note(done, met);
    }

    /// The name of the place where a call stands: which action of the source is pending, and which words the worker's earlier
    /// actions gave it. There is no table of transitions; an action that no place stands for ends the judge.
    fn place(&self, call: Call, pending: Pending, seen: &Seen) -> State;

    fn word(&self, word: Word) -> u64;

    fn value(&self, slot: usize) -> u64;

    /// The shared words as the line of an entry has them.
    fn write_words(&self, out: &mut String);

    /// The lines before the contents.
    fn write_slots(&self, out: &mut String);

    /// Called before the source runs.
    fn enter(&self) {}

    /// Whether a call that takes a block finds none: refusal 23.
    fn none_free(&self) -> bool {
        false
    }

    /// Called before the end of a queue that a call still uses. `Drop` may run only if nothing can go wrong in it.
    fn abandon(&self) {}
}

/// An item. Its end is noted while `MET_BY_DROP` holds a list: so the source's `Drop` tells what it meets.
#[repr(transparent)]
pub struct Item(pub u64);

thread_local! {
    static MET_BY_DROP: RefCell<Option<Vec<u64>>> = const { RefCell::new(None) };
}

impl Drop for Item {
    fn drop(&mut self) {
        MET_BY_DROP.with_borrow_mut(|list| list.iter_mut().for_each(|list| list.push(self.0)));
    }
}

/// The items that end while `end` runs.
pub fn items_dropped(end: impl FnOnce()) -> Vec<u64> {
    MET_BY_DROP.set(Some(Vec::new()));
    end();
    MET_BY_DROP.take().expect("set above")
}

// Document 01's names of what the calls return.

impl From<Result<(), PushError<Item>>> for State {
    fn from(pushed: Result<(), PushError<Item>>) -> State {
        match pushed {
            Ok(()) => Kind::Pushed.alone(),
            Err(PushError::Full(item)) => Kind::Full.with(&[item.0]),
            Err(PushError::Closed(item)) => Kind::ClosedPush.with(&[item.0]),
        }
    }
}

impl From<Result<Option<Item>, ForcePushError<Item>>> for State {
    fn from(pushed: Result<Option<Item>, ForcePushError<Item>>) -> State {
        match pushed {
            Ok(None) => Kind::Pushed.alone(),
            Ok(Some(old)) => Kind::Displaced.with(&[old.0]),
            Err(ForcePushError(item)) => Kind::ClosedPush.with(&[item.0]),
        }
    }
}

impl From<Result<Item, PopError>> for State {
    fn from(popped: Result<Item, PopError>) -> State {
        match popped {
            Ok(item) => Kind::Popped.with(&[item.0]),
            Err(PopError::Empty) => Kind::Empty.alone(),
            Err(PopError::Closed) => Kind::ClosedPop.alone(),
        }
    }
}

impl From<usize> for State {
    fn from(len: usize) -> State {
        Kind::Len.with(&[len as u64])
    }
}

impl From<bool> for State {
    fn from(yes: bool) -> State {
        if yes {
            Kind::Yes.alone()
        } else {
            Kind::No.alone()
        }
    }
}

/// What a worker has seen in its present call.
#[derive(Clone, Copy, Default)]
pub struct Seen {
    /// The last word of tail and of head that a load or a lost exchange gave it.
    pub tail: Option<u64>,
    pub head: Option<u64>,
    /// The value of the slot just before it accessed it.
    pub value: u64,
    /// The word whose exchange it won, and what it became by that.
    pub won: Option<Word>,
    pub won_new: u64,
    pub last: Option<Pending>,
    pub blocks: SeenBlocks,
}

/// Blocks that a worker of the unbounded queue knows; `NONE` where it knows none.
#[derive(Clone, Copy)]
pub struct SeenBlocks {
    /// The last block of tail and of head that a load gave it; of tail also the first block, once it has installed that.
    pub of_tail: u64,
    pub of_head: u64,
    /// The block set aside, up to the store that links it.
    pub aside: u64,
    /// The block that it took as the first one but could not install.
    pub lost: u64,
    /// The block after that of head, and the one after that.
    pub next: u64,
    pub after_next: u64,
}

impl Default for SeenBlocks {
    fn default() -> Self {
        SeenBlocks { of_tail: NONE, of_head: NONE, aside: NONE, lost: NONE, next: NONE, after_next: NONE }
    }
}

impl Seen {
    /// Keeps what the worker's own action gave it.
    pub fn note(&mut self, done: Pending, met: Met) {
        let found = met.found as u64;
        match done.action {
            Action::WeakExchange(word, _, new) | Action::Exchange(word, _, new) if met.won => {
                self.won = Some(word);
                self.won_new = new as u64;
            }
            Action::Load(word) | Action::WeakExchange(word, ..) | Action::Exchange(word, ..) => self.given(word, found),
            Action::Value(_) => self.value = found,
            _ => {}
        }
        self.last = Some(done);
    }

    fn given(&mut self, word: Word, found: u64) {
        match word {
            Word::Tail => self.tail = Some(found),
            Word::Head => self.head = Some(found),
            Word::TailBlock => self.blocks.of_tail = found,
            Word::HeadBlock => self.blocks.of_head = found,
            _ => {}
        }
    }

    pub fn last_was(&self, action: Action) -> bool {
        self.last.is_some_and(|last| last.action == action)
    }

    /// The line of the last action; 0 if there was none.
    pub fn last_line(&self) -> u32 {
        self.last.map_or(0, |last| last.line)
    }

    pub fn t(&self) -> u64 {
        self.tail.expect("the worker has loaded tail")
    }

    pub fn h(&self) -> u64 {
        self.head.expect("the worker has loaded head")
    }
}

/// A word the worker holds, where the pending action carries it too: both must agree.
pub fn agree(word: u64, operand: usize) -> u64 {
    assert_eq!(word, operand as u64, "the word held is not the word used");
    word
}
