use alloc::boxed::Box;
use alloc::vec::Vec;

use crate::{act_entry, losing_entry, Answer, Call, Edition, OneSlot, Place, Refusal, Ring, Stopped, Workers};
use crate::{HEAD_WORDS, MOST_ACTS_ALONE, ONE_SLOT_HEAD_WORDS, ONE_SLOT_MOST_ACTS_ALONE, ONE_SLOT_RECORDS_WORDS, RECORD_WORDS, SLOT_WORDS};

/// What all queues have in common: workers, each with a call under way or idle, stepped one atomic action at a time.
///
/// ```
/// use fernmoldew::{Answer, Call, Edition, Machine, OneSlot, Queue, Refusal};
///
/// fn one_through(queue: &mut dyn Queue) -> Result<Option<Answer>, Refusal> {
///     queue.call(0, Call::Push(7))?;
///     queue.call(1, Call::Pop)
/// }
/// assert_eq!(one_through(&mut Machine::new(4, 2, Edition::Source)?)?, Some(Answer::Popped(7)));
/// assert_eq!(one_through(&mut OneSlot::new(2)?)?, Some(Answer::Popped(7)));
/// # Ok::<(), Refusal>(())
/// ```
pub trait Queue {
    /// One entry of two words, as schedules have them.
    fn step(&mut self, first: u64, second: u64) -> Result<(), Refusal>;

    /// A schedule, two words an entry, to its end: how many entries it has. Refusals 6, 11 and 9 come before anything is run; of any other the entries before it stand.
    fn run(&mut self, schedule: &[u64]) -> Result<u64, Stopped>;

    /// How many workers there are.
    fn workers(&self) -> usize;

    /// What a worker's last call answered; none while it is busy.
    ///
    /// # Panics
    /// Where there is no such worker.
    fn answer(&self, worker: usize) -> Option<Answer>;

    /// Where a worker stands in its call; none while it is idle, or where the words stand for no place.
    ///
    /// # Panics
    /// Where there is no such worker.
    fn place(&self, worker: usize) -> Option<Place>;

    /// The items in the order in which they would be popped. Nothing is removed. Refusals 6 and 4.
    fn contents(&self) -> Result<Vec<u64>, Refusal>;

    /// Whether every call would be refused for the words.
    fn broken(&self) -> bool;

    /// How many acts were accepted since it was made.
    fn meter(&self) -> u64;

    /// The most acts of a call with nobody else acting, where no other worker has a slot in hand.
    fn most_acts_alone(&self) -> usize;

    /// The words, part by part, as fernmoldew.h lays them out: the records are the last part.
    fn words(&self) -> Vec<&[u64]>;

    /// A worker begins a call: no act yet.
    fn begin(&mut self, worker: usize, call: Call) -> Result<(), Refusal> {
        let [first, second] = call.entry(worker);
        self.step(first, second)
    }

    /// The one atomic action that comes next in a worker's call.
    fn act(&mut self, worker: usize) -> Result<(), Refusal> {
        let [first, second] = act_entry(worker);
        self.step(first, second)
    }

    /// The same, where that is a weak exchange, and it fails.
    fn act_losing(&mut self, worker: usize) -> Result<(), Refusal> {
        let [first, second] = losing_entry(worker);
        self.step(first, second)
    }

    /// Whether a worker has a call under way.
    ///
    /// # Panics
    /// Where there is no such worker.
    fn busy(&self, worker: usize) -> bool {
        self.answer(worker).is_none()
    }

    /// A whole call, nobody else acting meanwhile. Where another worker has a slot in hand it may not end; then it is left under way, and there is no answer: let that worker act, and go on with [`Queue::act`].
    fn call(&mut self, worker: usize, call: Call) -> Result<Option<Answer>, Refusal> {
        self.begin(worker, call)?;
        for _ in 0..self.most_acts_alone() {
            self.act(worker)?;
            if !self.busy(worker) {
                break;
            }
        }
        Ok(self.answer(worker))
    }

    /// A snapshot: all words, eight bytes each, the lowest first on any machine. `from_bytes` of the same queue reads it.
    fn to_bytes(&self) -> Vec<u8> {
        self.words().into_iter().flatten().flat_map(|word| word.to_le_bytes()).collect()
    }
}

/// The words of a snapshot.
pub(crate) fn words_of(bytes: &[u8]) -> Option<Vec<u64>> {
    let words = bytes.chunks_exact(8);
    words.remainder().is_empty().then(|| words.map(|word| u64::from_le_bytes(word.try_into().expect("eight bytes"))).collect())
}

/// A ring with its workers' records.
///
/// ```
/// use fernmoldew::{Answer, Call, Edition, Machine, Queue, Refusal};
///
/// let mut machine = Machine::new(2, 2, Edition::Source)?;
/// machine.call(0, Call::Push(7))?;
/// machine.begin(1, Call::Pop)?;
/// machine.act(1)?;
/// assert_eq!(format!("{machine:?}"), "Machine { ring: Ring { capacity: 2, edition: 1, head: 0, tail: 1, meter: 6, slots: [(1, 7), (1, 0)] }, workers: [pushed, at O2] }");
///
/// let later = Machine::from_bytes(&machine.to_bytes())?;
/// assert_eq!(later, machine);
/// assert_eq!(Machine::from_bytes(b"no words"), Err(Refusal::Broken));
/// # Ok::<(), Refusal>(())
/// ```
#[derive(Clone, Debug, PartialEq, Eq)]
pub struct Machine {
    ring: Ring,
    workers: Workers,
}

impl Machine {
    /// A fresh ring of 1 to 1,024 slots and of 1 to 64 workers, all idle.
    pub fn new(capacity: u64, workers: usize, edition: Edition) -> Result<Machine, Refusal> {
        let mut workers = Workers::new(workers);
        Ok(Machine { ring: Ring::new(capacity, edition, &mut workers)?, workers })
    }

    /// A ring and the workers that it was made with.
    pub fn of(ring: Ring, workers: Workers) -> Machine {
        Machine { ring, workers }
    }

    /// The machine of a snapshot. Refusal 6 where the bytes are of none.
    pub fn from_bytes(bytes: &[u8]) -> Result<Machine, Refusal> {
        let words = words_of(bytes).filter(|words| words.len() > HEAD_WORDS + SLOT_WORDS).ok_or(Refusal::Broken)?;
        let (head, rest) = words.split_at(HEAD_WORDS);
        let (slots, records) = rest.split_at(SLOT_WORDS);
        let slots: Box<[u64]> = slots.into();
        let ring = Ring::from_words(head.try_into().expect("as long"), slots.try_into().expect("as long"));
        let machine = Machine { ring, workers: Workers::from_words(records.into()) };
        if machine.broken() { Err(Refusal::Broken) } else { Ok(machine) }
    }

    /// The ring.
    pub fn ring(&self) -> &Ring {
        &self.ring
    }

    /// Its workers' records.
    pub fn records(&self) -> &Workers {
        &self.workers
    }

    /// How many slots it has. Refusal 6.
    pub fn capacity(&self) -> Result<u64, Refusal> {
        self.ring.capacity(&self.workers)
    }
}

impl Queue for Machine {
    fn step(&mut self, first: u64, second: u64) -> Result<(), Refusal> {
        self.ring.step(&mut self.workers, first, second)
    }

    fn run(&mut self, schedule: &[u64]) -> Result<u64, Stopped> {
        self.ring.run(&mut self.workers, schedule)
    }

    fn workers(&self) -> usize {
        self.workers.words().len() / RECORD_WORDS
    }

    fn answer(&self, worker: usize) -> Option<Answer> {
        self.workers.get(worker).answer()
    }

    fn place(&self, worker: usize) -> Option<Place> {
        self.workers.get(worker).place()
    }

    fn contents(&self) -> Result<Vec<u64>, Refusal> {
        self.ring.contents(&self.workers)
    }

    fn broken(&self) -> bool {
        self.ring.broken(&self.workers)
    }

    fn meter(&self) -> u64 {
        self.ring.meter()
    }

    fn most_acts_alone(&self) -> usize {
        MOST_ACTS_ALONE
    }

    fn words(&self) -> Vec<&[u64]> {
        [&self.ring.head_words()[..], &self.ring.slot_words()[..], self.workers.words()].into()
    }
}

impl OneSlot {
    /// The queue of a snapshot. Refusal 6 where the bytes are of none.
    ///
    /// ```
    /// use fernmoldew::{Call, OneSlot, Queue, Refusal};
    ///
    /// let mut slot = OneSlot::new(2)?;
    /// slot.call(0, Call::Push(240))?;
    /// assert_eq!(OneSlot::from_bytes(&slot.to_bytes())?, slot);
    /// assert_eq!(format!("{slot:?}"), "OneSlot { state: 2, value: 240, meter: 3, workers: [pushed, nothing] }");
    /// # Ok::<(), Refusal>(())
    /// ```
    pub fn from_bytes(bytes: &[u8]) -> Result<OneSlot, Refusal> {
        let words = words_of(bytes).filter(|words| words.len() == ONE_SLOT_HEAD_WORDS + ONE_SLOT_RECORDS_WORDS).ok_or(Refusal::Broken)?;
        let (head, records) = words.split_at(ONE_SLOT_HEAD_WORDS);
        let slot = OneSlot::from_words(head.try_into().expect("as long"), records.try_into().expect("as long"));
        if slot.broken() { Err(Refusal::Broken) } else { Ok(slot) }
    }
}

impl Queue for OneSlot {
    fn step(&mut self, first: u64, second: u64) -> Result<(), Refusal> {
        OneSlot::step(self, first, second)
    }

    fn run(&mut self, schedule: &[u64]) -> Result<u64, Stopped> {
        OneSlot::run(self, schedule)
    }

    fn workers(&self) -> usize {
        OneSlot::workers(self)
    }

    fn answer(&self, worker: usize) -> Option<Answer> {
        OneSlot::answer(self, worker)
    }

    fn place(&self, worker: usize) -> Option<Place> {
        OneSlot::place(self, worker)
    }

    fn contents(&self) -> Result<Vec<u64>, Refusal> {
        OneSlot::contents(self).map(|item| item.into_iter().collect())
    }

    fn broken(&self) -> bool {
        OneSlot::broken(self)
    }

    fn meter(&self) -> u64 {
        OneSlot::meter(self)
    }

    fn most_acts_alone(&self) -> usize {
        ONE_SLOT_MOST_ACTS_ALONE
    }

    fn words(&self) -> Vec<&[u64]> {
        [&self.head_words()[..], &self.record_words()[..]].into()
    }
}
