//! The one-slot queue: single.rs. Numbers of lines are that file's.

use crate::call::Call;
use crate::facts::Facts;
use crate::source::{Item, Seen, Source};
use crate::stage::{Action, Pending, Word};
use crate::state::{Kind, State};
use single::Single;
use std::fmt::Write;

#[allow(dead_code)]
mod single {
    include!("single.rs");

    /// The judge's window on the private words.
    impl<T> Single<T> {
        pub fn state(&self) -> &AtomicUsize {
            &self.state
        }

        pub fn slot(&self) -> &UnsafeCell<MaybeUninit<T>> {
            &self.slot
        }
    }
}

pub const FACTS: Facts = Facts {
    name: "single",
    list: "single",
    begins_with: "workers",
    places: &[Kind::SINGLE, &[Kind::Len1, Kind::Empty1, Kind::Full1, Kind::Close1, Kind::IsClosed1]],
    weak: &[],
    strong: &[Kind::A1, Kind::B1, Kind::C1],
    // Three each of push, force_push and pop; two of the others, since len is 0 or 1 but has one name.
    answers: 18,
    refusals: &[2, 3, 4, 5, 6, 8, 9, 11],
    blank_words: "s=0",
    blank_slots: "value 0\n",
};

pub struct OneSlot(Single<Item>);

impl OneSlot {
    pub fn new() -> OneSlot {
        let queue = Single::new();
        queue.state().name.set(Word::State);
        queue.slot().name.set(0);
        OneSlot(queue)
    }
}

impl Source for OneSlot {
    fn answer(&self, call: Call) -> State {
        match call {
            Call::Push(item) => self.0.push(Item(item)).into(),
            Call::ForcePush(item) => self.0.force_push(Item(item)).into(),
            Call::Pop => self.0.pop().into(),
            Call::Len => self.0.len().into(),
            Call::IsEmpty => self.0.is_empty().into(),
            Call::IsFull => self.0.is_full().into(),
            Call::Close => self.0.close().into(),
            Call::IsClosed => self.0.is_closed().into(),
        }
    }

    fn place(&self, call: Call, pending: Pending, seen: &Seen) -> State {
        use Action::{Exchange, FetchAnd, FetchOr, Load, Value};
        use Word::State;
        match (call, pending.line, pending.action) {
            (Call::Push(item), 34, Exchange(State, 0, _)) => Kind::A1.with(&[item]),
            (Call::Push(item), 39, Value(_)) => Kind::A2.with(&[item]),
            (Call::Push(_), 42, FetchAnd(State, _)) => Kind::A3.alone(),

            (Call::ForcePush(item), 60, Exchange(State, e, _)) => Kind::B1.with(&[e as u64, item]),
            (Call::ForcePush(item), 71, Value(_)) => Kind::B2.with(&[item]),
            (Call::ForcePush(_), 87, FetchAnd(State, _)) if seen.last_line() == 71 => Kind::B3.alone(),
            (Call::ForcePush(item), 79, Value(_)) => Kind::B4.with(&[item]),
            (Call::ForcePush(_), 87, FetchAnd(State, _)) if seen.last_line() == 79 => Kind::B5.with(&[seen.value]),

            (Call::Pop, 111, Exchange(State, e, _)) => Kind::C1.with(&[e as u64]),
            (Call::Pop, 123, Value(_)) => Kind::C2.alone(),
            (Call::Pop, 124, FetchAnd(State, _)) => Kind::C3.with(&[seen.value]),

            (Call::Len, 147, Load(State)) => Kind::Len1.alone(),
            (Call::IsEmpty, 147, Load(State)) => Kind::Empty1.alone(),
            (Call::IsFull, 147, Load(State)) => Kind::Full1.alone(),
            (Call::Close, 164, FetchOr(State, _)) => Kind::Close1.alone(),
            (Call::IsClosed, 170, Load(State)) => Kind::IsClosed1.alone(),
            _ => panic!("no place stands for {pending:?} in {call:?}"),
        }
    }

    fn word(&self, word: Word) -> u64 {
        assert_eq!(word, Word::State, "the one-slot queue has one word");
        self.0.state().peek()
    }

    fn value(&self, slot: usize) -> u64 {
        assert_eq!(slot, 0, "the one-slot queue has one slot");
        self.0.slot().peek()
    }

    fn write_words(&self, out: &mut String) {
        let _ = write!(out, "s={}", self.word(Word::State));
    }

    fn write_slots(&self, out: &mut String) {
        let _ = writeln!(out, "value {}", self.value(0));
    }
}
