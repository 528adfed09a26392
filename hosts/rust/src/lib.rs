//! The bounded queue of concurrent-queue 2.5.0, proved, and stepped one atomic action at a time.
//!
//! Each worker has a call under way or is idle. [`Ring::begin`] begins a call, [`Ring::act`] does the one atomic action that comes next in it, in
//! whatever order you choose among the workers; [`Ring::call`] does a whole call with nobody acting meanwhile, where no other worker has a slot in hand. A refused call of this library changes nothing.
//!
//! ```
//! use fernmoldew::{Answer, Call, Edition, Ring, Workers};
//!
//! let mut workers = Workers::new(2);
//! let mut ring = Ring::new(4, Edition::Source, &mut workers)?;
//! assert_eq!(ring.call(&mut workers, 0, Call::Push(2950))?, Some(Answer::Pushed));
//! // worker 1 pops, action by action
//! ring.begin(&mut workers, 1, Call::Pop)?;
//! let mut acts = 0;
//! while workers.get(1).busy() {
//!     ring.act(&mut workers, 1)?;
//!     acts += 1;
//! }
//! assert_eq!((workers.get(1).answer(), acts), (Some(Answer::Popped(2950)), 5));
//! # Ok::<(), fernmoldew::Refusal>(())
//! ```
//!
//! A [`Machine`] is a ring that owns its workers. A [`OneSlot`] is the torque station's one-slot queue, an [`Unbounded`] the unbounded queue, in the same way; [`Queue`] is what they have in common. A [`Tape`] is a schedule as bytes, for an archive.
//! [`ConcurrentQueue`] has the names of the crate concurrent-queue over these machines, and [`model`] runs a program of yours around it in orders that it chooses, action by action.
//!
//! With no feature `std` (it is on unless you turn it off) the crate needs `alloc` alone; [`ConcurrentQueue`] and [`model`] need `std`.
//!
//! The library behind it is compiled from proved Rattle (crates/bounded_host, crates/bounded_host_step, crates/single_host, crates/unbounded_host, crates/tapes_host); its promises are of the words that a [`Ring`] and its [`Workers`], a [`OneSlot`] or an [`Unbounded`] hold, and of a tape's bytes and words.
//! They hold if a ring is lent the same workers throughout, as this crate's borrows leave to you: lend another ring's and refusal 6 alone judges them. What this crate does beside those calls is Rust, and not proved.

#![cfg_attr(not(feature = "std"), no_std)]
#![deny(missing_docs)]

extern crate alloc;

use alloc::boxed::Box;
use alloc::vec;
use alloc::vec::Vec;
use core::fmt;
#[cfg(feature = "std")]
use std::error::Error;

mod machine;
#[cfg(feature = "std")]
pub mod model;
mod one_slot;
mod place;
#[cfg(feature = "std")]
mod queue;
mod unbounded;

pub use machine::{Machine, Queue};
pub use place::Place;
#[cfg(feature = "std")]
pub use queue::{ConcurrentQueue, ForcePushError, IntoIter, PopError, PushError, TryIter};

pub use one_slot::{OneSlot, ONE_SLOT_HEAD_WORDS, ONE_SLOT_MOST_ACTS_ALONE, ONE_SLOT_RECORDS_WORDS, ONE_SLOT_RECORD_WORDS};
pub use unbounded::{Unbounded, UNBOUNDED_HEAD_WORDS, UNBOUNDED_ITEMS, UNBOUNDED_MOST_ACTS_ALONE, UNBOUNDED_POOL_WORDS, UNBOUNDED_RECORDS_WORDS, UNBOUNDED_RECORD_WORDS};

#[repr(C)]
struct Reply {
    refusal: u64,
    number: u64,
}

extern "C" {
    fn fern_ring_make(head: *mut u64, n: usize, slots: *mut u64, m: usize, records: *mut u64, k: usize, capacity: u64, edition: u64) -> u64;
    fn fern_ring_step(head: *mut u64, n: usize, slots: *mut u64, m: usize, records: *mut u64, k: usize, first: u64, second: u64) -> u64;
    fn fern_ring_run(head: *mut u64, n: usize, slots: *mut u64, m: usize, records: *mut u64, k: usize, schedule: *const u64, length: usize) -> Reply;
    fn fern_ring_contents(head: *const u64, n: usize, slots: *const u64, m: usize, records: *const u64, k: usize, buffer: *mut u64, room: usize) -> Reply;
    fn fern_ring_capacity(head: *const u64, n: usize, slots: *const u64, m: usize, records: *const u64, k: usize) -> Reply;
    fn fern_ring_broken(head: *const u64, n: usize, slots: *const u64, m: usize, records: *const u64, k: usize) -> u64;
    fn fern_tape_write(variant: u64, capacity: u64, workers: u64, schedule: *const u64, length: usize, tape: *mut u8, room: usize) -> Reply;
    fn fern_tape_read(tape: *const u8, length: usize, about: *mut u64, n: usize, schedule: *mut u64, room: usize) -> Reply;
    fn fern_recorder_begin(recorder: *mut u64, n: usize, variant: u64, capacity: u64, workers: u64, tape: *mut u8, room: usize) -> Reply;
    fn fern_recorder_append(recorder: *mut u64, n: usize, first: u64, second: u64, tape: *mut u8, room: usize) -> Reply;
    fn fern_recorder_end(recorder: *const u64, n: usize, tape: *mut u8, room: usize) -> Reply;
}

/// The words of a ring but for its slots.
pub const HEAD_WORDS: usize = 8;
/// The words of a ring's slots, two for each of 1,024.
pub const SLOT_WORDS: usize = 2048;
/// The words of a worker's record.
pub const RECORD_WORDS: usize = 5;

/// The most acts that a call on a ring needs with nobody else acting, where no other worker has a slot in hand.
pub const MOST_ACTS_ALONE: usize = 7;

/// Why something was refused. This library answers 1 to 18, and 23 of the unbounded queue; the others are those of walks.
#[derive(Clone, Copy, Debug, PartialEq, Eq, Hash, PartialOrd, Ord)]
#[repr(u64)]
pub enum Refusal {
    /// The capacity is 0 or above 1,024.
    Capacity = 1,
    /// There are no workers, or more than 64.
    Count = 2,
    /// The worker's number is not below the count.
    NoSuchWorker = 3,
    /// A busy worker was to begin a call; contents while any is busy.
    Busy = 4,
    /// An act of an idle worker.
    Idle = 5,
    /// The words stand for no machine, or for a broken one.
    Broken = 6,
    /// The meter is at its last number.
    Meter = 7,
    /// An act was to lose its weak exchange, and none comes next.
    NoWeakExchange = 8,
    /// An entry cannot be read.
    Unreadable = 9,
    /// The buffer is shorter than the contents.
    BufferShort = 10,
    /// The schedule has an odd number of words.
    OddSchedule = 11,
    /// The tape is cut short.
    TapeCut = 12,
    /// A tape's field has an unknown tag, a wrong length or place, or is of the other variant.
    TapeField = 13,
    /// A code is not allowed under its tag.
    TapeCode = 14,
    /// There are bytes after the tape's end.
    TapeMore = 15,
    /// The output buffer is too short.
    TapeRoom = 16,
    /// A tape can't carry an entry.
    TapeEntry = 17,
    /// The edition is neither 1 nor 2.
    Edition = 18,
    /// A walk of more than 3 workers or 12 acts.
    WalkLimits = 19,
    /// A walk with an idle worker.
    WalkIdle = 20,
    /// Fewer acts are left on the meter than the walk is deep.
    WalkMeter = 21,
    /// The buffer is shorter than the walk's list.
    WalkRoom = 22,
    /// No block is free.
    NoBlock = 23,
}

impl Refusal {
    /// Every refusal, in the order of its numbers.
    pub const ALL: [Refusal; 23] = [
        Refusal::Capacity,
        Refusal::Count,
        Refusal::NoSuchWorker,
        Refusal::Busy,
        Refusal::Idle,
        Refusal::Broken,
        Refusal::Meter,
        Refusal::NoWeakExchange,
        Refusal::Unreadable,
        Refusal::BufferShort,
        Refusal::OddSchedule,
        Refusal::TapeCut,
        Refusal::TapeField,
        Refusal::TapeCode,
        Refusal::TapeMore,
        Refusal::TapeRoom,
        Refusal::TapeEntry,
        Refusal::Edition,
        Refusal::WalkLimits,
        Refusal::WalkIdle,
        Refusal::WalkMeter,
        Refusal::WalkRoom,
        Refusal::NoBlock,
    ];

    /// The refusal of this number.
    ///
    /// ```
    /// use fernmoldew::Refusal;
    /// assert_eq!(Refusal::of(6), Some(Refusal::Broken));
    /// assert_eq!(Refusal::of(0), None);
    /// ```
    pub fn of(number: u64) -> Option<Refusal> {
        let place = usize::try_from(number).ok()?.checked_sub(1)?;
        Refusal::ALL.get(place).copied()
    }

    /// Its number, as the library answers it.
    pub fn number(self) -> u64 {
        self as u64
    }
}

impl fmt::Display for Refusal {
    fn fmt(&self, f: &mut fmt::Formatter<'_>) -> fmt::Result {
        let why = match self {
            Refusal::Capacity => "the capacity is 0 or above 1,024",
            Refusal::Count => "there are no workers, or more than 64",
            Refusal::NoSuchWorker => "there is no such worker",
            Refusal::Busy => "a worker is busy",
            Refusal::Idle => "the worker is idle",
            Refusal::Broken => "the words stand for no ring and records, or for broken ones",
            Refusal::Meter => "the meter is at its last number",
            Refusal::NoWeakExchange => "no weak exchange comes next",
            Refusal::Unreadable => "an entry cannot be read",
            Refusal::BufferShort => "the buffer is shorter than the contents",
            Refusal::OddSchedule => "the schedule has an odd number of words",
            Refusal::TapeCut => "the tape is cut short",
            Refusal::TapeField => "a tape's field has an unknown tag, a wrong length or place, or is of the other variant",
            Refusal::TapeCode => "a code is not allowed under its tag",
            Refusal::TapeMore => "there are bytes after the tape's end",
            Refusal::TapeRoom => "the output buffer is too short",
            Refusal::TapeEntry => "a tape can't carry an entry",
            Refusal::Edition => "the edition is neither 1 nor 2",
            Refusal::WalkLimits => "a walk of more than 3 workers or 12 acts",
            Refusal::WalkIdle => "a walk with an idle worker",
            Refusal::WalkMeter => "fewer acts are left on the meter than the walk is deep",
            Refusal::WalkRoom => "the buffer is shorter than the walk's list",
            Refusal::NoBlock => "no block is free",
        };
        write!(f, "refusal {}: {why}", self.number())
    }
}

#[cfg(feature = "std")]
impl Error for Refusal {}

/// A schedule that was refused, and the place of the entry, from 0.
#[derive(Clone, Copy, Debug, PartialEq, Eq)]
pub struct Stopped {
    /// Why.
    pub refusal: Refusal,
    /// Which entry, from 0.
    pub place: u64,
}

impl fmt::Display for Stopped {
    fn fmt(&self, f: &mut fmt::Formatter<'_>) -> fmt::Result {
        write!(f, "entry {}: {}", self.place, self.refusal)
    }
}

#[cfg(feature = "std")]
impl Error for Stopped {}

/// The library answers no number but those of refusals.
fn judged(number: u64) -> Result<(), Refusal> {
    match Refusal::of(number) {
        None => Ok(()),
        Some(refusal) => Err(refusal),
    }
}

fn told(reply: Reply) -> Result<u64, Refusal> {
    judged(reply.refusal).map(|()| reply.number)
}

/// Which ring it is: the source's, or the one in which a close holds (a force_push does not lose it).
#[derive(Clone, Copy, Debug, PartialEq, Eq)]
pub enum Edition {
    /// As in concurrent-queue 2.5.0.
    Source = 1,
    /// A force_push does not lose a close.
    CloseHolds = 2,
}

/// What a worker is asked to do.
#[derive(Clone, Copy, Debug, PartialEq, Eq)]
pub enum Call {
    /// Put this item in, if there is room.
    Push(u64),
    /// Put this item in; where there is no room, the oldest goes out for it.
    ForcePush(u64),
    /// Take the oldest item out.
    Pop,
    /// How many items there are.
    Len,
    /// Whether there is none.
    IsEmpty,
    /// Whether there is no room.
    IsFull,
    /// Take no more items; yes where it was open.
    Close,
    /// Whether it is closed.
    IsClosed,
}

impl Call {
    fn words(self) -> (u64, u64) {
        match self {
            Call::Push(item) => (0, item),
            Call::ForcePush(item) => (1, item),
            Call::Pop => (2, 0),
            Call::Len => (3, 0),
            Call::IsEmpty => (4, 0),
            Call::IsFull => (5, 0),
            Call::Close => (6, 0),
            Call::IsClosed => (7, 0),
        }
    }

    /// The entry of a schedule with which a worker begins this call.
    ///
    /// ```
    /// use fernmoldew::{Call, Edition, Refusal, Ring, Workers};
    ///
    /// assert_eq!(Call::Push(7).entry(2), [32, 7]);
    /// // a number that no worker has is never another worker's, however large it is
    /// let mut workers = Workers::new(1);
    /// let mut ring = Ring::new(1, Edition::Source, &mut workers)?;
    /// assert_eq!(ring.begin(&mut workers, 1 << 60, Call::Push(7)), Err(Refusal::NoSuchWorker));
    /// # Ok::<(), Refusal>(())
    /// ```
    pub fn entry(self, worker: usize) -> [u64; 2] {
        let (code, item) = self.words();
        [first_word(worker, code), item]
    }
}

/// 16 times the worker's number, plus the code. A number of which a word can't hold that becomes the last one of which it can: no queue has either, and the library refuses it.
fn first_word(worker: usize, code: u64) -> u64 {
    16 * (worker as u64).min(u64::MAX / 16) + code
}

/// The entry of a schedule for an act of a worker.
pub fn act_entry(worker: usize) -> [u64; 2] {
    [first_word(worker, 8), 0]
}

/// The entry of a schedule for an act of a worker whose weak exchange fails.
pub fn losing_entry(worker: usize) -> [u64; 2] {
    [first_word(worker, 9), 0]
}

/// What a call answered.
#[derive(Clone, Copy, Debug, PartialEq, Eq, Hash)]
pub enum Answer {
    /// No call yet.
    Nothing,
    /// The item is in; of a force_push, with none displaced.
    Pushed,
    /// There was none to pop.
    Empty,
    /// There was none to pop, and the queue is closed.
    PopClosed,
    /// Of a question; of a close, that it was open.
    Yes,
    /// Of a question; of a close, that it was closed.
    No,
    /// The item is handed back.
    Full(u64),
    /// The queue is closed, and the item is handed back.
    Closed(u64),
    /// The item is in, and this one went out for it.
    Displaced(u64),
    /// This item is out.
    Popped(u64),
    /// So many items.
    Len(u64),
}

impl fmt::Display for Answer {
    fn fmt(&self, f: &mut fmt::Formatter<'_>) -> fmt::Result {
        match self {
            Answer::Nothing => f.write_str("nothing"),
            Answer::Pushed => f.write_str("pushed"),
            Answer::Empty => f.write_str("empty"),
            Answer::PopClosed => f.write_str("closed"),
            Answer::Yes => f.write_str("yes"),
            Answer::No => f.write_str("no"),
            Answer::Full(item) => write!(f, "full {item}"),
            Answer::Closed(item) => write!(f, "closed {item}"),
            Answer::Displaced(item) => write!(f, "displaced {item}"),
            Answer::Popped(item) => write!(f, "popped {item}"),
            Answer::Len(count) => write!(f, "len {count}"),
        }
    }
}

/// What a record's code and first word answer; none of a busy worker's.
fn answer_of(code: u64, value: u64) -> Option<Answer> {
    Some(match code {
        0 => Answer::Nothing,
        1 => Answer::Pushed,
        2 => Answer::Empty,
        3 => Answer::PopClosed,
        4 => Answer::Yes,
        5 => Answer::No,
        6 => Answer::Full(value),
        7 => Answer::Closed(value),
        8 => Answer::Displaced(value),
        9 => Answer::Popped(value),
        10 => Answer::Len(value),
        _ => return None,
    })
}

/// Where one worker stands.
#[derive(Clone, Copy, PartialEq, Eq)]
pub struct Worker {
    words: [u64; RECORD_WORDS],
}

impl Worker {
    /// Whether it has a call under way.
    pub fn busy(&self) -> bool {
        self.words[0] > 10
    }

    /// What its last call answered; none while it is busy.
    pub fn answer(&self) -> Option<Answer> {
        answer_of(self.words[0], self.words[1])
    }

    /// Where it stands in its call; none while it is idle, or where the words stand for no place.
    pub fn place(&self) -> Option<Place> {
        Place::of_ring(self.words[0])
    }

    /// How many exchanges its present or last call lost because the words differed.
    pub fn differed(&self) -> u64 {
        self.words[3]
    }

    /// And how many because the schedule made them fail.
    pub fn failed(&self) -> u64 {
        self.words[4]
    }
}

/// Its answer, or the place where it stands.
impl fmt::Debug for Worker {
    fn fmt(&self, f: &mut fmt::Formatter<'_>) -> fmt::Result {
        place::stands(f, self.answer(), self.place())
    }
}

/// The records of a ring's workers, side by side.
#[derive(Clone, PartialEq, Eq)]
pub struct Workers {
    words: Vec<u64>,
}

impl Workers {
    /// So many idle workers; a ring takes 1 to 64.
    pub fn new(count: usize) -> Workers {
        Workers { words: vec![0; RECORD_WORDS * count] }
    }

    /// Workers whose records are these words: five each, as fernmoldew.h lays them out. They are judged with each call.
    pub fn from_words(words: Vec<u64>) -> Workers {
        Workers { words }
    }

    /// Their words.
    pub fn words(&self) -> &[u64] {
        &self.words
    }

    /// How many there are.
    pub fn len(&self) -> usize {
        self.words.len() / RECORD_WORDS
    }

    /// Whether there is none.
    pub fn is_empty(&self) -> bool {
        self.words.is_empty()
    }

    /// Where this one stands.
    ///
    /// # Panics
    /// Where there is no such worker.
    pub fn get(&self, worker: usize) -> Worker {
        let record = self.words.chunks_exact(RECORD_WORDS).nth(worker).expect("there is no such worker");
        Worker { words: record.try_into().expect("five words") }
    }

    /// Where each stands, in their order.
    pub fn iter(&self) -> impl Iterator<Item = Worker> + '_ {
        (0..self.len()).map(|worker| self.get(worker))
    }
}

impl fmt::Debug for Workers {
    fn fmt(&self, f: &mut fmt::Formatter<'_>) -> fmt::Result {
        f.debug_list().entries(self.iter()).finish()
    }
}

/// A ring.
#[derive(Clone, PartialEq, Eq)]
pub struct Ring {
    head: [u64; HEAD_WORDS],
    slots: Box<[u64; SLOT_WORDS]>,
}

impl Ring {
    /// A fresh ring of 1 to 1,024 slots; all workers become idle.
    pub fn new(capacity: u64, edition: Edition, workers: &mut Workers) -> Result<Ring, Refusal> {
        let mut ring = Ring::from_words([0; HEAD_WORDS], Box::new([0; SLOT_WORDS]));
        ring.make(workers, capacity, edition as u64)?;
        Ok(ring)
    }

    /// A ring of these words, as fernmoldew.h lays them out: another's, an archive's. They are judged with each call.
    pub fn from_words(head: [u64; HEAD_WORDS], slots: Box<[u64; SLOT_WORDS]>) -> Ring {
        Ring { head, slots }
    }

    /// Its words but for the slots.
    pub fn head_words(&self) -> &[u64; HEAD_WORDS] {
        &self.head
    }

    /// The words of its slots, also of those that are not used.
    pub fn slot_words(&self) -> &[u64; SLOT_WORDS] {
        &self.slots
    }

    /// Makes it anew, in an edition by its number.
    pub fn make(&mut self, workers: &mut Workers, capacity: u64, edition: u64) -> Result<(), Refusal> {
        let (Ring { head, slots }, Workers { words }) = (self, workers);
        // SAFETY: three slices that are borrowed apart, each as long as is said; no other call runs on them.
        judged(unsafe { fern_ring_make(head.as_mut_ptr(), head.len(), slots.as_mut_ptr(), slots.len(), words.as_mut_ptr(), words.len(), capacity, edition) })
    }

    /// One entry of two words, as schedules have them.
    pub fn step(&mut self, workers: &mut Workers, first: u64, second: u64) -> Result<(), Refusal> {
        let (Ring { head, slots }, Workers { words }) = (self, workers);
        // SAFETY: as above.
        judged(unsafe { fern_ring_step(head.as_mut_ptr(), head.len(), slots.as_mut_ptr(), slots.len(), words.as_mut_ptr(), words.len(), first, second) })
    }

    /// A schedule, two words an entry, to its end: how many entries it has. Refusals 6, 11 and 9 come before anything is run; of any other the entries before it stand.
    pub fn run(&mut self, workers: &mut Workers, schedule: &[u64]) -> Result<u64, Stopped> {
        let (Ring { head, slots }, Workers { words }) = (self, workers);
        // SAFETY: as above; the schedule is read alone.
        let Reply { refusal, number } = unsafe { fern_ring_run(head.as_mut_ptr(), head.len(), slots.as_mut_ptr(), slots.len(), words.as_mut_ptr(), words.len(), schedule.as_ptr(), schedule.len()) };
        judged(refusal).map(|()| number).map_err(|refusal| Stopped { refusal, place: number })
    }

    /// A worker begins a call: no act yet.
    pub fn begin(&mut self, workers: &mut Workers, worker: usize, call: Call) -> Result<(), Refusal> {
        let [first, second] = call.entry(worker);
        self.step(workers, first, second)
    }

    /// The one atomic action that comes next in a worker's call.
    pub fn act(&mut self, workers: &mut Workers, worker: usize) -> Result<(), Refusal> {
        let [first, second] = act_entry(worker);
        self.step(workers, first, second)
    }

    /// The same, where that is a weak exchange, and it fails.
    pub fn act_losing(&mut self, workers: &mut Workers, worker: usize) -> Result<(), Refusal> {
        let [first, second] = losing_entry(worker);
        self.step(workers, first, second)
    }

    /// A whole call, nobody else acting meanwhile. It ends within seven acts unless another worker has a slot in hand; then it is left under way, and there is no answer: let that worker act, and go on with [`Ring::act`].
    ///
    /// ```
    /// use fernmoldew::{Answer, Call, Edition, Ring, Workers};
    ///
    /// let mut workers = Workers::new(2);
    /// let mut ring = Ring::new(1, Edition::Source, &mut workers)?;
    /// // worker 0 pushes, and has claimed the slot and not let go yet
    /// ring.begin(&mut workers, 0, Call::Push(7))?;
    /// (0..3).try_for_each(|_| ring.act(&mut workers, 0))?;
    /// assert_eq!(ring.call(&mut workers, 1, Call::Pop)?, None);
    /// while workers.get(0).busy() {
    ///     ring.act(&mut workers, 0)?;
    /// }
    /// while workers.get(1).busy() {
    ///     ring.act(&mut workers, 1)?;
    /// }
    /// assert_eq!(workers.get(1).answer(), Some(Answer::Popped(7)));
    /// # Ok::<(), fernmoldew::Refusal>(())
    /// ```
    pub fn call(&mut self, workers: &mut Workers, worker: usize, call: Call) -> Result<Option<Answer>, Refusal> {
        self.begin(workers, worker, call)?;
        for _ in 0..MOST_ACTS_ALONE {
            self.act(workers, worker)?;
            if !workers.get(worker).busy() {
                break;
            }
        }
        Ok(workers.get(worker).answer())
    }

    /// The items in the order in which they would be popped. Nothing is removed.
    ///
    /// ```
    /// use fernmoldew::{Call, Edition, Refusal, Ring, Workers};
    ///
    /// let mut workers = Workers::new(1);
    /// let mut ring = Ring::new(2, Edition::Source, &mut workers)?;
    /// ring.call(&mut workers, 0, Call::Push(7))?;
    /// ring.call(&mut workers, 0, Call::Push(8))?;
    /// assert_eq!(ring.contents(&workers)?, [7, 8]);
    /// ring.begin(&mut workers, 0, Call::Pop)?;
    /// assert_eq!(ring.contents(&workers), Err(Refusal::Busy));
    /// # Ok::<(), Refusal>(())
    /// ```
    pub fn contents(&self, workers: &Workers) -> Result<Vec<u64>, Refusal> {
        let mut items = vec![0; SLOT_WORDS / 2];
        let count = self.contents_into(workers, &mut items)?;
        items.truncate(count);
        Ok(items)
    }

    /// The same into a buffer, of which the rest is left as it was: how many.
    pub fn contents_into(&self, workers: &Workers, buffer: &mut [u64]) -> Result<usize, Refusal> {
        let (Ring { head, slots }, Workers { words }) = (self, workers);
        // SAFETY: the three are read alone, and the buffer is borrowed apart from them; each is as long as is said.
        let count = told(unsafe { fern_ring_contents(head.as_ptr(), head.len(), slots.as_ptr(), slots.len(), words.as_ptr(), words.len(), buffer.as_mut_ptr(), buffer.len()) })?;
        Ok(count as usize)
    }

    /// How many slots it has. Refusal 6.
    pub fn capacity(&self, workers: &Workers) -> Result<u64, Refusal> {
        let (Ring { head, slots }, Workers { words }) = (self, workers);
        // SAFETY: the three are read alone, each as long as is said.
        told(unsafe { fern_ring_capacity(head.as_ptr(), head.len(), slots.as_ptr(), slots.len(), words.as_ptr(), words.len()) })
    }

    /// Whether every call would be refused for the words of the ring and these workers.
    pub fn broken(&self, workers: &Workers) -> bool {
        let (Ring { head, slots }, Workers { words }) = (self, workers);
        // SAFETY: as above.
        unsafe { fern_ring_broken(head.as_ptr(), head.len(), slots.as_ptr(), slots.len(), words.as_ptr(), words.len()) != 0 }
    }

    /// How many acts were accepted since it was made.
    pub fn meter(&self) -> u64 {
        self.head[6]
    }
}

/// Its numbers, and of its slots stamp and value of those that are used.
impl fmt::Debug for Ring {
    fn fmt(&self, f: &mut fmt::Formatter<'_>) -> fmt::Result {
        let [_, _, capacity, edition, head, tail, meter, _] = self.head;
        let used = usize::try_from(capacity).unwrap_or(usize::MAX).min(SLOT_WORDS / 2);
        let slots: Vec<(u64, u64)> = self.slots.chunks_exact(2).take(used).map(|slot| (slot[0], slot[1])).collect();
        f.debug_struct("Ring").field("capacity", &capacity).field("edition", &edition).field("head", &head).field("tail", &tail).field("meter", &meter).field("slots", &slots).finish()
    }
}

/// How a tape has its numbers; its own number is the byte with which the tape begins.
#[derive(Clone, Copy, Debug, PartialEq, Eq, Hash)]
#[repr(u64)]
pub enum Variant {
    /// Lengths and numbers are big-endian.
    BigEndian = 1,
    /// Little-endian, and every tag has 128 added.
    LittleEndian = 129,
}

/// What a tape tells beside its schedule: how it has its numbers, and the capacity and the count of workers that the schedule is meant for, neither above 65,535.
#[derive(Clone, Copy, Debug, PartialEq, Eq, Hash)]
pub struct About {
    /// How it has its numbers.
    pub variant: Variant,
    /// The capacity that the schedule is meant for.
    pub capacity: u64,
    /// The count of workers that it is meant for.
    pub workers: u64,
}

/// A tape, or a schedule for one, that was refused. `number` is the byte at which the field at fault begins, or the first byte after the end; of 17 the entry's place, from 0; of 16 how many
/// bytes or words it would take; of 11 it is 0.
#[derive(Clone, Copy, Debug, PartialEq, Eq)]
pub struct Spoiled {
    /// Why.
    pub refusal: Refusal,
    /// Where, or how much room it takes.
    pub number: u64,
}

impl fmt::Display for Spoiled {
    fn fmt(&self, f: &mut fmt::Formatter<'_>) -> fmt::Result {
        let Spoiled { refusal, number } = self;
        match refusal {
            Refusal::OddSchedule => write!(f, "{refusal}"),
            Refusal::TapeRoom => write!(f, "{refusal}: it takes {number}"),
            Refusal::TapeEntry => write!(f, "entry {number}: {refusal}"),
            _ => write!(f, "byte {number}: {refusal}"),
        }
    }
}

#[cfg(feature = "std")]
impl Error for Spoiled {}

fn taped(Reply { refusal, number }: Reply) -> Result<usize, Spoiled> {
    judged(refusal).map(|()| number as usize).map_err(|refusal| Spoiled { refusal, number })
}

/// A schedule, two words an entry, and what its tape tells beside it.
///
/// ```
/// use fernmoldew::{act_entry, About, Call, Refusal, Tape, Variant};
///
/// let about = About { variant: Variant::BigEndian, capacity: 2, workers: 1 };
/// let tape = Tape { about, schedule: [Call::Push(5).entry(0), act_entry(0)].concat() };
/// let bytes = tape.to_bytes()?;
/// assert_eq!(bytes, *b"\x01\0\x04\0\x02\0\x01\x02\0\x09\0\0\0\0\0\0\0\0\x05\x03\0\x01\x80\x04\0\0");
/// assert_eq!(Tape::from_bytes(&bytes)?, tape);
///
/// let cut = Tape::from_bytes(&bytes[..25]).unwrap_err();
/// assert_eq!((cut.refusal, cut.number), (Refusal::TapeCut, 23));
/// assert_eq!(cut.to_string(), "byte 23: refusal 12: the tape is cut short");
/// # Ok::<(), fernmoldew::Spoiled>(())
/// ```
#[derive(Clone, Debug, PartialEq, Eq)]
pub struct Tape {
    /// What it tells beside the schedule.
    pub about: About,
    /// The entries, two words each.
    pub schedule: Vec<u64>,
}

impl Tape {
    /// The tape as bytes. Refusals 11 and 17.
    pub fn to_bytes(&self) -> Result<Vec<u8>, Spoiled> {
        // the first and the last field have 10 bytes, and no entry has more than 12
        let mut bytes = vec![0; 10 + 6 * self.schedule.len()];
        let count = Tape::write_into(self.about, &self.schedule, &mut bytes)?;
        bytes.truncate(count);
        Ok(bytes)
    }

    /// The tape that these bytes are. Refusals 12 to 15: the first fault, from left to right.
    pub fn from_bytes(bytes: &[u8]) -> Result<Tape, Spoiled> {
        // no entry has less than 4 bytes
        let mut schedule = vec![0; bytes.len() / 2];
        let (about, count) = Tape::read_into(bytes, &mut schedule)?;
        schedule.truncate(count);
        Ok(Tape { about, schedule })
    }

    /// The tape of a schedule at a buffer's start, of which the rest is left as it was: how many bytes. Refusals 11, 17 and 16, which write nothing.
    pub fn write_into(about: About, schedule: &[u64], tape: &mut [u8]) -> Result<usize, Spoiled> {
        let About { variant, capacity, workers } = about;
        // SAFETY: the schedule is read alone, and the buffer is borrowed apart from it; each is as long as is said.
        taped(unsafe { fern_tape_write(variant as u64, capacity, workers, schedule.as_ptr(), schedule.len(), tape.as_mut_ptr(), tape.len()) })
    }

    /// A tape's schedule at a buffer's start, of which the rest is left as it was: how many words. Refusals 12 to 15, and then 16, which write nothing.
    pub fn read_into(tape: &[u8], schedule: &mut [u64]) -> Result<(About, usize), Spoiled> {
        let mut about = [0; 3];
        // SAFETY: the tape is read alone, and the other two are borrowed apart from it and from each other; each is as long as is said.
        let count = taped(unsafe { fern_tape_read(tape.as_ptr(), tape.len(), about.as_mut_ptr(), about.len(), schedule.as_mut_ptr(), schedule.len()) })?;
        let [name, capacity, workers] = about;
        let variant = if name == Variant::BigEndian as u64 { Variant::BigEndian } else { Variant::LittleEndian };
        Ok((About { variant, capacity, workers }, count))
    }
}

/// A tape entry by entry into a lent buffer, which is a whole tape after each [`end`](Recorder::end): proved to be what [`Tape::write_into`] makes of the entries that were accepted.
///
/// ```
/// use fernmoldew::{act_entry, About, Call, Recorder, Refusal, Tape, Variant};
///
/// let about = About { variant: Variant::BigEndian, capacity: 2, workers: 1 };
/// let mut buffer = [0; 30];
/// let mut recorder = Recorder::begin(about, &mut buffer)?;
/// recorder.append(Call::Push(5).entry(0))?;
/// recorder.append(act_entry(0))?;
/// assert_eq!(Tape::from_bytes(recorder.end())?.schedule, [Call::Push(5).entry(0), act_entry(0)].concat());
/// // no room for another push; what is refused changes nothing, and an act still fits
/// assert_eq!(recorder.append(Call::Push(6).entry(0)).unwrap_err().refusal, Refusal::TapeRoom);
/// assert_eq!(recorder.append(act_entry(0)), Ok(30));
/// assert_eq!(recorder.end().len(), 30);
/// # Ok::<(), fernmoldew::Spoiled>(())
/// ```
#[derive(Debug)]
pub struct Recorder<'a> {
    words: [u64; 3],
    tape: &'a mut [u8],
}

impl<'a> Recorder<'a> {
    /// With no entry yet. Refusals 17 and 16.
    pub fn begin(about: About, tape: &'a mut [u8]) -> Result<Self, Spoiled> {
        let (About { variant, capacity, workers }, mut words) = (about, [0; 3]);
        // SAFETY: words and buffer are borrowed apart from each other; each is as long as is said. So of the two below.
        taped(unsafe { fern_recorder_begin(words.as_mut_ptr(), words.len(), variant as u64, capacity, workers, tape.as_mut_ptr(), tape.len()) })?;
        Ok(Recorder { words, tape })
    }

    /// One entry more: how many bytes the tape has with it. Refusals 17, with the entry's place, and 16, with the bytes that it would take; what is refused changes nothing.
    pub fn append(&mut self, [first, second]: [u64; 2]) -> Result<usize, Spoiled> {
        // SAFETY: as said above.
        taped(unsafe { fern_recorder_append(self.words.as_mut_ptr(), self.words.len(), first, second, self.tape.as_mut_ptr(), self.tape.len()) })
    }

    /// The whole tape. More entries may follow, and another end.
    pub fn end(&mut self) -> &[u8] {
        // SAFETY: as said above.
        let ended = taped(unsafe { fern_recorder_end(self.words.as_ptr(), self.words.len(), self.tape.as_mut_ptr(), self.tape.len()) });
        &self.tape[..ended.expect("a recorder's own words are never refused, and keep room for the last field")]
    }
}
