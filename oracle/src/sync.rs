//! Stand-ins for what the sources import from the crate's sync.rs. Each shared word and each slot's value has a name, which the
//! judge gives it as soon as the queue or the block is made, and each action on one asks `stage` first. `peek` is the judge's look: no
//! action.

pub mod prelude {}

pub mod atomic {
    use super::Name;
    use crate::pool;
    use crate::stage::{self, Action, Word};
    use std::cell::Cell;
    use std::ops::{BitAnd, BitOr};

    pub use std::sync::atomic::Ordering;

    pub type AtomicUsize = Atomic<usize>;
    pub type AtomicU16 = Atomic<u16>;
    pub type AtomicPtr<T> = Atomic<*mut T>;

    pub struct Atomic<V> {
        pub name: Name<Word>,
        word: Cell<V>,
    }

    /// What stands in a shared word, as the judge names it: a number, or the block that a pointer points to.
    pub trait Shown: Copy + PartialEq {
        fn shown(self) -> usize;
    }

    impl Shown for usize {
        fn shown(self) -> usize {
            self
        }
    }

    impl<T> Shown for *mut T {
        fn shown(self) -> usize {
            pool::number_of(self.cast())
        }
    }

    impl Shown for u16 {
        fn shown(self) -> usize {
            self.into()
        }
    }

    /// A word that is a number; sums are modulo its width.
    pub trait Number: Shown + BitAnd<Output = Self> + BitOr<Output = Self> {
        fn plus(self, number: Self) -> Self;
    }

    impl Number for usize {
        fn plus(self, number: usize) -> usize {
            self.wrapping_add(number)
        }
    }

    impl Number for u16 {
        fn plus(self, number: u16) -> u16 {
            self.wrapping_add(number)
        }
    }

    /// The judge's side of a word, whatever its width.
    pub trait Watched {
        fn give_name(&self, name: Word);
        fn peek(&self) -> u64;
    }

    impl<V: Shown> Watched for Atomic<V> {
        fn give_name(&self, name: Word) {
            self.name.set(name);
        }

        fn peek(&self) -> u64 {
            Atomic::peek(self)
        }
    }

    impl<V> Atomic<V> {
        pub const fn new(value: V) -> Self {
            Atomic { name: Name::none(), word: Cell::new(value) }
        }

        /// Only `Drop` uses this, with the queue to itself: no action.
        pub fn with_mut<R>(&mut self, f: impl FnOnce(&mut V) -> R) -> R {
            f(self.word.get_mut())
        }
    }

    impl<V: Shown> Atomic<V> {
        pub fn peek(&self) -> u64 {
            self.word.get().shown() as u64
        }

        #[track_caller]
        pub fn load(&self, _: Ordering) -> V {
            self.change(Action::Load, |found| found)
        }

        #[track_caller]
        pub fn store(&self, value: V, _: Ordering) {
            self.change(|word| Action::Store(word, value.shown()), |_| value);
        }

        /// Fails when the words differ.
        #[track_caller]
        pub fn compare_exchange(&self, expected: V, new: V, _: Ordering, _: Ordering) -> Result<V, V> {
            stage::before(|| Action::Exchange(self.name.get(), expected.shown(), new.shown()));
            self.exchange(expected, new, false)
        }

        /// Fails when the words differ, and also when the schedule says so.
        #[track_caller]
        pub fn compare_exchange_weak(&self, expected: V, new: V, _: Ordering, _: Ordering) -> Result<V, V> {
            let lose = stage::before(|| Action::WeakExchange(self.name.get(), expected.shown(), new.shown()));
            self.exchange(expected, new, lose)
        }

        /// An action that gives the word found and leaves what `becomes` makes of it.
        #[track_caller]
        fn change(&self, action: impl FnOnce(Word) -> Action, becomes: impl FnOnce(V) -> V) -> V {
            stage::before(|| action(self.name.get()));
            let found = self.word.get();
            self.word.set(becomes(found));
            stage::after(found.shown(), false);
            found
        }

        fn exchange(&self, expected: V, new: V, lose: bool) -> Result<V, V> {
            let found = self.word.get();
            let won = found == expected && !lose;
            stage::after(found.shown(), won);
            if won {
                self.word.set(new);
                Ok(found)
            } else {
                Err(found)
            }
        }
    }

    impl<V: Number> Atomic<V> {
        #[track_caller]
        pub fn fetch_or(&self, bits: V, _: Ordering) -> V {
            self.change(|word| Action::FetchOr(word, bits.shown()), |found| found | bits)
        }

        #[track_caller]
        pub fn fetch_and(&self, bits: V, _: Ordering) -> V {
            self.change(|word| Action::FetchAnd(word, bits.shown()), |found| found & bits)
        }

        #[track_caller]
        pub fn fetch_add(&self, number: V, _: Ordering) -> V {
            self.change(|word| Action::FetchAdd(word, number.shown()), |found| found.plus(number))
        }
    }
}

pub mod cell {
    use super::Name;
    use crate::stage::{self, Action};
    use std::mem::MaybeUninit;

    /// A slot's value.
    pub struct UnsafeCell<T> {
        pub name: Name<usize>,
        place: std::cell::UnsafeCell<T>,
    }

    impl<T> UnsafeCell<MaybeUninit<T>> {
        /// The source gives no value here, so zero bytes are as good as any; document 01 says a fresh value is 0.
        pub const fn new(_: MaybeUninit<T>) -> Self {
            UnsafeCell { name: Name::none(), place: std::cell::UnsafeCell::new(MaybeUninit::zeroed()) }
        }

        /// The value as a number, which an item is.
        pub fn peek(&self) -> u64 {
            const { assert!(size_of::<T>() == size_of::<u64>() && align_of::<T>() == align_of::<u64>()) };
            // SAFETY: zero bytes or an item stand here, read as the number of the same size.
            unsafe { self.place.get().cast::<u64>().read() }
        }

        #[track_caller]
        pub fn with_mut<R>(&self, f: impl FnOnce(*mut MaybeUninit<T>) -> R) -> R {
            stage::before(|| Action::Value(self.name.get()));
            stage::after(self.peek() as usize, false);
            f(self.place.get())
        }
    }
}

use std::cell::Cell;

/// The name of a word or of a slot's value, once the judge has given it.
pub struct Name<N>(Cell<Option<N>>);

impl<N: Copy> Name<N> {
    const fn none() -> Self {
        Name(Cell::new(None))
    }

    pub fn set(&self, name: N) {
        self.0.set(Some(name));
    }

    /// The word is gone until it is named anew: an action on it ends the judge.
    pub fn clear(&self) {
        self.0.set(None);
    }

    fn get(&self) -> N {
        self.0.get().expect("an action on a word that has no name")
    }
}
