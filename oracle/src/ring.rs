//! The ring: bounded.rs, and the copies of it for edition 2 and for sixteen bits (`edition_2.patch`, `sixteen_bits.patch`, applied when the judge is built).

use crate::call::Call;
use crate::facts::{Bits, Facts};
use crate::source::{agree, Item, Seen, Source};
use crate::stage::{Action, Pending, Word};
use crate::state::{Kind, State};
use crate::sync::atomic::Watched;
use crate::sync::cell::UnsafeCell;
use std::fmt::Write;
use std::mem::MaybeUninit;

/// A ring's calls, and the judge's window on its private words.
trait Bounded {
    fn call(&self, call: Call) -> State;
    fn head(&self) -> &dyn Watched;
    fn tail(&self) -> &dyn Watched;
    fn stamp(&self, slot: usize) -> &dyn Watched;
    fn value(&self, slot: usize) -> &UnsafeCell<MaybeUninit<Item>>;
}

macro_rules! bounded {
    () => {
        impl super::Bounded for Bounded<super::Item> {
            fn call(&self, call: super::Call) -> super::State {
                use super::{Call, Item};
                match call {
                    Call::Push(item) => self.push(Item(item)).into(),
                    Call::ForcePush(item) => self.force_push(Item(item)).into(),
                    Call::Pop => self.pop().into(),
                    Call::Len => self.len().into(),
                    Call::IsEmpty => self.is_empty().into(),
                    Call::IsFull => self.is_full().into(),
                    Call::Close => self.close().into(),
                    Call::IsClosed => self.is_closed().into(),
                }
            }

            fn head(&self) -> &dyn super::Watched {
                &*self.head
            }

            fn tail(&self) -> &dyn super::Watched {
                &*self.tail
            }

            fn stamp(&self, slot: usize) -> &dyn super::Watched {
                &self.buffer[slot].stamp
            }

            fn value(&self, slot: usize) -> &UnsafeCell<MaybeUninit<super::Item>> {
                &self.buffer[slot].value
            }
        }
    };
}

#[allow(dead_code)]
mod edition_1 {
    include!("bounded.rs");
    bounded!();
}

#[allow(dead_code)]
mod edition_2 {
    include!(concat!(env!("OUT_DIR"), "/edition_2.rs"));
    bounded!();
}

#[allow(dead_code)]
mod sixteen_bits {
    include!(concat!(env!("OUT_DIR"), "/sixteen_bits.rs"));
    bounded!();
}

#[allow(dead_code)]
mod edition_2_sixteen_bits {
    include!(concat!(env!("OUT_DIR"), "/edition_2_sixteen_bits.rs"));
    bounded!();
}

pub const FACTS: Facts = Facts {
    name: "bounded",
    list: "list",
    begins_with: "capacity, workers",
    places: &[Kind::BOUNDED, Kind::LOOKERS],
    weak: &[Kind::P3Push, Kind::P3Force, Kind::F6, Kind::O3],
    strong: &[],
    // Three each of push, force_push and pop, one of len, two each of the other four.
    answers: 18,
    refusals: &[1, 2, 3, 4, 5, 6, 8, 9, 11],
    blank_words: "h=0 t=0",
    blank_slots: "slots\n",
};

pub struct Ring {
    queue: Box<dyn Bounded>,
    capacity: usize,
}

impl Ring {
    /// None if there is no such edition.
    pub fn new(capacity: usize, edition: u64, bits: Bits) -> Option<Ring> {
        let queue: Box<dyn Bounded> = match (edition, bits) {
            (1, Bits::SixtyFour) => Box::new(edition_1::Bounded::new(capacity)),
            (2, Bits::SixtyFour) => Box::new(edition_2::Bounded::new(capacity)),
            (1, Bits::Sixteen) => Box::new(sixteen_bits::Bounded::new(capacity)),
            (2, Bits::Sixteen) => Box::new(edition_2_sixteen_bits::Bounded::new(capacity)),
            _ => return None,
        };
        Some(Ring::over(queue, capacity))
    }

    fn over(queue: Box<dyn Bounded>, capacity: usize) -> Ring {
        queue.head().give_name(Word::Head);
        queue.tail().give_name(Word::Tail);
        for slot in 0..capacity {
            queue.stamp(slot).give_name(Word::Stamp(slot));
            queue.value(slot).name.set(slot);
        }
        Ring { queue, capacity }
    }
}

impl Source for Ring {
    fn answer(&self, call: Call) -> State {
        self.queue.call(call)
    }

    fn place(&self, call: Call, pending: Pending, seen: &Seen) -> State {
        use Action::{FetchAdd, FetchOr, Load, Store, Value, WeakExchange};
        use Word::{Head, Stamp, Tail};
        let (t, h) = (|| seen.t(), || seen.h());
        match (call, pending.action) {
            (Call::Push(item), Load(Tail)) => Kind::P1Push.with(&[item]),
            (Call::Push(item), Load(Stamp(_))) => Kind::P2Push.with(&[t(), item]),
            (Call::Push(item), WeakExchange(Tail, tail, _)) => Kind::P3Push.with(&[agree(t(), tail), item]),
            (Call::Push(item), Load(Head)) => Kind::P6.with(&[t(), item]),

            (Call::ForcePush(item), Load(Tail)) => Kind::P1Force.with(&[item]),
            (Call::ForcePush(item), Load(Stamp(_))) => Kind::P2Force.with(&[t(), item]),
            (Call::ForcePush(item), WeakExchange(Tail, tail, _)) => Kind::P3Force.with(&[agree(t(), tail), item]),
            (Call::ForcePush(item), WeakExchange(Head, ..)) => Kind::F6.with(&[t(), item]),
            (Call::ForcePush(item), Store(Tail, _) | FetchAdd(Tail, _)) => Kind::F7.with(&[t(), item]),
            (Call::ForcePush(item), Value(_)) if seen.won == Some(Head) => Kind::F8.with(&[t(), item]),
            (Call::ForcePush(_), Store(Stamp(_), stamp)) if seen.won == Some(Head) => {
                Kind::F9.with(&[agree(t() + 1, stamp) - 1, seen.value])
            }

            (Call::Push(item) | Call::ForcePush(item), Value(_)) if seen.won == Some(Tail) => {
                Kind::P4.with(&[t(), item])
            }
            (Call::Push(_) | Call::ForcePush(_), Store(Stamp(_), stamp)) if seen.won == Some(Tail) => {
                Kind::P5.with(&[agree(t() + 1, stamp) - 1])
            }

            (Call::Pop, Load(Head)) => Kind::O1.alone(),
            (Call::Pop, Load(Stamp(_))) => Kind::O2.with(&[h()]),
            (Call::Pop, WeakExchange(Head, head, _)) => Kind::O3.with(&[agree(h(), head)]),
            (Call::Pop, Value(_)) if seen.won == Some(Head) => Kind::O4.with(&[h()]),
            (Call::Pop, Store(Stamp(_), _)) if seen.won == Some(Head) => Kind::O5.with(&[h(), seen.value]),
            (Call::Pop, Load(Tail)) => Kind::O6.with(&[h()]),

            (Call::Len, Load(Head)) => Kind::Len2.with(&[t()]),
            (Call::Len, Load(Tail)) if seen.last_was(Load(Head)) => Kind::Len3.with(&[t(), h()]),
            (Call::Len, Load(Tail)) => Kind::Len1.alone(),
            (Call::IsEmpty, Load(Head)) => Kind::Empty1.alone(),
            (Call::IsEmpty, Load(Tail)) => Kind::Empty2.with(&[h()]),
            (Call::IsFull, Load(Tail)) => Kind::Full1.alone(),
            (Call::IsFull, Load(Head)) => Kind::Full2.with(&[t()]),
            (Call::Close, FetchOr(Tail, _)) => Kind::Close1.alone(),
            (Call::IsClosed, Load(Tail)) => Kind::IsClosed1.alone(),
            _ => panic!("no place stands for {pending:?} in {call:?}"),
        }
    }

    fn word(&self, word: Word) -> u64 {
        match word {
            Word::Head => self.queue.head().peek(),
            Word::Tail => self.queue.tail().peek(),
            Word::Stamp(slot) => self.queue.stamp(slot).peek(),
            _ => panic!("a ring has no {word:?}"),
        }
    }

    fn value(&self, slot: usize) -> u64 {
        self.queue.value(slot).peek()
    }

    fn write_words(&self, out: &mut String) {
        let _ = write!(out, "h={} t={}", self.word(Word::Head), self.word(Word::Tail));
    }

    fn write_slots(&self, out: &mut String) {
        out.push_str("slots");
        for slot in 0..self.capacity {
            let _ = write!(out, " ({},{})", self.word(Word::Stamp(slot)), self.value(slot));
        }
        out.push('\n');
    }
}

/// That the plain queue finds what is wrong: slips of `slips.rs`, planted in copies of bounded.rs.
#[cfg(test)]
mod tests {
    use super::*;
    use crate::interleaved::mixed;
    use crate::machine::Machine;
    use crate::plain::Fault;
    use crate::queue::Queue;
    use crate::random::Random;
    use crate::schedule::Schedule;

    /// The item that a slip writes in the place of its call's.
    const ANOTHER: u64 = 777;

    include!("slips.rs");
    include!(concat!(env!("OUT_DIR"), "/slips.rs"));

    /// A ring whose places have no names: a slip may come to an action that no place stands for.
    struct Nameless(Ring);

    impl Source for Nameless {
        fn answer(&self, call: Call) -> State {
            self.0.answer(call)
        }

        fn place(&self, _: Call, _: Pending, _: &Seen) -> State {
            Kind::None.alone()
        }

        fn word(&self, word: Word) -> u64 {
            self.0.word(word)
        }

        fn value(&self, slot: usize) -> u64 {
            self.0.value(slot)
        }

        fn write_words(&self, out: &mut String) {
            self.0.write_words(out);
        }

        fn write_slots(&self, out: &mut String) {
            self.0.write_slots(out);
        }
    }

    /// The first fault in random schedules of small rings with closes in them, counted as of this edition.
    fn first_fault(edition: u64, ring: impl Fn(usize) -> Ring) -> Option<Fault> {
        let mut random = Random::new(5);
        for _ in 0..3000 {
            let (capacity, workers) = (1 + random.below(2), 2 + random.below(2) as u64);
            let making = Queue::ring(edition, Bits::SixtyFour).making(capacity as u64);
            let mut machine = Machine::over(making, Box::new(Nameless(ring(capacity))), workers as usize);
            mixed(&mut random, &mut Schedule::new(making, workers), &mut machine, 150, 60);
            if let Some(fault) = machine.plain().fault() {
                return Some(fault.clone());
            }
        }
        None
    }

    #[test]
    fn each_slip_is_found() {
        for (number, (name, ..)) in SLIPS.iter().enumerate() {
            let ring = |capacity| Ring::over(slipped(capacity).swap_remove(number).1, capacity);
            let fault = first_fault(1, ring).unwrap_or_else(|| panic!("{name}: not found"));
            println!("{name}: {fault}");
        }
    }

    #[test]
    fn the_other_edition_is_found_and_the_same_is_right() {
        for (counted, run) in [(1, 2), (2, 1)] {
            let ring = |edition| move |capacity| Ring::new(capacity, edition, Bits::SixtyFour).expect("an edition");
            assert!(first_fault(counted, ring(run)).is_some(), "edition {run} counted as {counted}");
            assert_eq!(first_fault(counted, ring(counted)), None);
        }
    }
}
