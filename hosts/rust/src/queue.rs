use std::collections::HashMap;
use std::error::Error;
use std::fmt;
use std::sync::{Arc, Mutex, MutexGuard, PoisonError};

use crate::model::Bed;
use crate::{About, Answer, Call, Edition, Machine, OneSlot, Queue, Refusal, Tape, Unbounded, Variant};

/// A task is a worker of every queue that it calls: so many there can be, as many as a one-slot queue has and replay takes.
pub(crate) const MOST_TASKS: usize = 16;

/// concurrent-queue's queue, by its names, over the proved machines: of capacity 1 [`OneSlot`], else the ring of a [`Machine`]; of no capacity [`Unbounded`].
///
/// In a task of [`model`](crate::model) each begin and each act of a call is a step that the test bed chooses. Elsewhere a call is done at once, one after the other.
///
/// ```
/// use fernmoldew::{ConcurrentQueue, PopError, PushError};
///
/// let q = ConcurrentQueue::bounded(2);
/// assert_eq!(q.push("a"), Ok(()));
/// assert_eq!(q.push("b"), Ok(()));
/// assert_eq!(q.push("c"), Err(PushError::Full("c")));
/// assert_eq!(q.force_push("d"), Ok(Some("a")));
/// assert!(q.close());
/// assert_eq!(q.try_iter().collect::<Vec<_>>(), ["b", "d"]);
/// assert_eq!(q.pop(), Err(PopError::Closed));
/// ```
pub struct ConcurrentQueue<T> {
    /// None of an unbounded queue
    capacity: Option<usize>,
    shared: Arc<Mutex<Stepped>>,
    items: Mutex<HashMap<u64, T>>,
    /// The queue's number in the run of a test bed that it was made in
    run: Option<(u64, usize)>,
}

/// A machine, and the entries that it accepted.
pub(crate) struct Stepped {
    queue: Box<dyn Queue + Send>,
    capacity: Option<usize>,
    edition: Edition,
    recorded: Vec<u64>,
    /// How many items each task has brought. An item's name is 100 times its place among its task's, plus the task: 201 is the second of task 1, whatever the order of the tasks.
    brought: [u64; MOST_TASKS],
}

impl Stepped {
    fn step(&mut self, [first, second]: [u64; 2]) {
        match self.queue.step(first, second) {
            Err(Refusal::NoBlock) => panic!("an unbounded queue has used up its pool: 64 blocks of 31 slots"),
            other => other.expect("a task begins where it is idle and acts where it is busy"),
        }
        self.recorded.extend([first, second]);
    }

    /// What it does next depends on: all but the meter and the counts of losses.
    pub(crate) fn key(&self, into: &mut Vec<u64>) {
        let parts = self.queue.words();
        match (&parts[..], self.capacity) {
            // a free block is cleared when it is taken
            (&[head, pool, records], None) => {
                into.extend(&head[..4]);
                for (number, block) in (0..).zip(pool.chunks(64)).filter(|(_, block)| block[1] == 0) {
                    into.push(number);
                    into.extend(block);
                }
                into.extend(records);
            }
            (&[head, slots, records], Some(capacity)) => {
                into.extend(&head[4..6]);
                into.extend(&slots[..2 * capacity]);
                into.extend(records.chunks(5).flat_map(|record| &record[..3]));
            }
            (&[head, records], _) => {
                into.extend(&head[..2]);
                into.extend(records);
            }
            _ => unreachable!("two parts or three"),
        }
    }

    pub(crate) fn weak_next(&self, task: usize) -> bool {
        self.queue.place(task).map_or(false, |place| place.is_weak())
    }

    pub(crate) fn edition(&self) -> Edition {
        self.edition
    }

    pub(crate) fn name(&self) -> &'static str {
        match self.capacity {
            None => "unbounded",
            Some(1) => "single",
            Some(_) => "bounded",
        }
    }

    pub(crate) fn tape(&self) -> Tape {
        let workers = self.recorded.iter().step_by(2).map(|first| first / 16 + 1).max().unwrap_or(1);
        let about = About { variant: Variant::BigEndian, capacity: self.capacity.unwrap_or(1) as u64, workers };
        Tape { about, schedule: self.recorded.clone() }
    }
}

/// A task that panicked while it had a lock has left whole words.
pub(crate) fn locked<T>(mutex: &Mutex<T>) -> MutexGuard<'_, T> {
    mutex.lock().unwrap_or_else(PoisonError::into_inner)
}

impl<T> ConcurrentQueue<T> {
    /// A queue of so many slots, up to 1,024; in a test bed of the bed's edition, elsewhere as in concurrent-queue 2.5.0.
    ///
    /// # Panics
    /// Where the capacity is 0, or above 1,024.
    pub fn bounded(capacity: usize) -> ConcurrentQueue<T> {
        let edition = Bed::here().map_or(Edition::Source, |here| here.edition());
        ConcurrentQueue::bounded_of(capacity, edition)
    }

    /// The same in an edition.
    ///
    /// # Panics
    /// Where the capacity is 0, or above 1,024.
    pub fn bounded_of(capacity: usize, edition: Edition) -> ConcurrentQueue<T> {
        assert!(capacity > 0, "capacity must be positive");
        let queue: Box<dyn Queue + Send> = if capacity == 1 {
            Box::new(OneSlot::new(MOST_TASKS as u64).expect("so many workers"))
        } else {
            Box::new(Machine::new(capacity as u64, MOST_TASKS, edition).unwrap_or_else(|refusal| panic!("{refusal}")))
        };
        ConcurrentQueue::over(queue, Some(capacity), edition)
    }

    /// A queue with no bound, over a pool of 64 blocks of 31 slots: a push that finds the pool used up panics.
    ///
    /// ```
    /// use fernmoldew::ConcurrentQueue;
    ///
    /// let q = ConcurrentQueue::unbounded();
    /// (0..100).for_each(|i| q.push(i).unwrap());
    /// assert_eq!((q.capacity(), q.is_full(), q.len(), q.pop()), (None, false, 100, Ok(0)));
    /// ```
    pub fn unbounded() -> ConcurrentQueue<T> {
        ConcurrentQueue::over(Box::new(Unbounded::new(MOST_TASKS as u64).expect("so many workers")), None, Edition::Source)
    }

    fn over(queue: Box<dyn Queue + Send>, capacity: Option<usize>, edition: Edition) -> ConcurrentQueue<T> {
        let shared = Arc::new(Mutex::new(Stepped { queue, capacity, edition, recorded: Vec::new(), brought: [0; MOST_TASKS] }));
        let run = Bed::here().map(|here| here.adds(Arc::clone(&shared)));
        ConcurrentQueue { capacity, shared, items: Mutex::new(HashMap::new()), run }
    }

    fn call(&self, call: impl FnOnce(u64) -> Call, item: Option<T>) -> Answer {
        let here = Bed::here().filter(|here| self.run.map_or(false, |(run, _)| run == here.run()));
        let (task, number) = match &here {
            Some(here) => (here.task(), self.run.map_or(0, |(_, number)| number)),
            None => (0, 0),
        };
        // where the others' calls are under way, and who asks is ended, or no task: as if all had ended
        if self.run.is_some() && (here.is_none() || here.as_ref().map_or(false, |here| here.is_ended())) {
            return self.without_steps(call, item);
        }
        let begun = |stepped: &mut Stepped| {
            let mut name = 0;
            if let Some(item) = item {
                stepped.brought[task] += 1;
                name = 100 * stepped.brought[task] + task as u64;
                locked(&self.items).insert(name, item);
            }
            let call = call(name);
            stepped.step(call.entry(task));
            call.entry(0)
        };
        let here = match here {
            Some(here) => here,
            None => {
                let mut stepped = locked(&self.shared);
                begun(&mut stepped);
                while stepped.queue.busy(0) {
                    stepped.step(crate::act_entry(0)); // alone, a call ends; the meter has room for four thousand million acts
                }
                stepped.recorded.clear();
                return stepped.queue.answer(0).expect("it is idle");
            }
        };
        here.begins(number);
        let [code, _] = begun(&mut locked(&self.shared));
        loop {
            let loses = here.acts(number);
            let mut stepped = locked(&self.shared);
            stepped.step(if loses { crate::losing_entry(task) } else { crate::act_entry(task) });
            if let Some(answer) = stepped.queue.answer(task) {
                drop(stepped);
                here.answered(number, code, answer);
                return answer;
            }
        }
    }

    /// What a call answers that is made when the run is over, or while a task is ended and drops what it has: the items go in no order that a machine is asked for.
    fn without_steps(&self, call: impl FnOnce(u64) -> Call, item: Option<T>) -> Answer {
        let mut items = locked(&self.items);
        match call(u64::MAX) {
            Call::Push(name) | Call::ForcePush(name) => {
                items.extend(item.map(|item| (name, item)));
                Answer::Closed(name)
            }
            Call::Pop => Answer::PopClosed,
            Call::Len => Answer::Len(items.len() as u64),
            Call::IsEmpty => if items.is_empty() { Answer::Yes } else { Answer::No },
            Call::IsFull => if self.capacity.is_some_and(|capacity| items.len() >= capacity) { Answer::Yes } else { Answer::No },
            Call::Close => Answer::No,
            Call::IsClosed => Answer::Yes,
        }
    }

    fn take(&self, name: u64) -> T {
        locked(&self.items).remove(&name).expect("an item is handed out once: proved")
    }

    /// Puts an item in, if there is room and the queue is open.
    pub fn push(&self, value: T) -> Result<(), PushError<T>> {
        match self.call(Call::Push, Some(value)) {
            Answer::Full(name) => Err(PushError::Full(self.take(name))),
            Answer::Closed(name) => Err(PushError::Closed(self.take(name))),
            _ => Ok(()),
        }
    }

    /// Puts an item in if the queue is open; where there is no room the oldest goes out for it, and is the answer. An unbounded queue has room: there it is a push, as in concurrent-queue.
    pub fn force_push(&self, value: T) -> Result<Option<T>, ForcePushError<T>> {
        if self.capacity.is_none() {
            return self.push(value).map(|()| None).map_err(|back| ForcePushError(back.into_inner()));
        }
        match self.call(Call::ForcePush, Some(value)) {
            Answer::Displaced(name) => Ok(Some(self.take(name))),
            Answer::Closed(name) => Err(ForcePushError(self.take(name))),
            _ => Ok(None),
        }
    }

    /// Takes the oldest item out.
    pub fn pop(&self) -> Result<T, PopError> {
        match self.call(|_| Call::Pop, None) {
            Answer::Popped(name) => Ok(self.take(name)),
            Answer::PopClosed => Err(PopError::Closed),
            _ => Err(PopError::Empty),
        }
    }

    /// Pops while there are items.
    pub fn try_iter(&self) -> TryIter<'_, T> {
        TryIter { queue: self }
    }

    /// Whether there is no item.
    pub fn is_empty(&self) -> bool {
        self.call(|_| Call::IsEmpty, None) == Answer::Yes
    }

    /// Whether there is no room.
    pub fn is_full(&self) -> bool {
        self.call(|_| Call::IsFull, None) == Answer::Yes
    }

    /// How many items there are.
    pub fn len(&self) -> usize {
        match self.call(|_| Call::Len, None) {
            Answer::Len(count) => count as usize,
            other => unreachable!("len answers a number, and not {other}"),
        }
    }

    /// How many there can be; none of an unbounded queue. It is no action: no step of a test bed.
    pub fn capacity(&self) -> Option<usize> {
        self.capacity
    }

    /// Takes no more items from now on; true where it was open.
    pub fn close(&self) -> bool {
        self.call(|_| Call::Close, None) == Answer::Yes
    }

    /// Whether it is closed.
    pub fn is_closed(&self) -> bool {
        self.call(|_| Call::IsClosed, None) == Answer::Yes
    }
}

/// Its capacity alone: to look at more would be calls.
impl<T> fmt::Debug for ConcurrentQueue<T> {
    fn fmt(&self, f: &mut fmt::Formatter<'_>) -> fmt::Result {
        f.debug_struct("ConcurrentQueue").field("capacity", &self.capacity).finish_non_exhaustive()
    }
}

impl<T> IntoIterator for ConcurrentQueue<T> {
    type Item = T;
    type IntoIter = IntoIter<T>;

    fn into_iter(self) -> IntoIter<T> {
        IntoIter { queue: self }
    }
}

/// Pops while there are items; a queue that is lent.
#[must_use = "iterators are lazy and do nothing unless consumed"]
#[derive(Clone, Debug)]
pub struct TryIter<'a, T> {
    queue: &'a ConcurrentQueue<T>,
}

impl<T> Iterator for TryIter<'_, T> {
    type Item = T;

    fn next(&mut self) -> Option<T> {
        self.queue.pop().ok()
    }
}

/// Pops while there are items; a queue of its own.
#[must_use = "iterators are lazy and do nothing unless consumed"]
#[derive(Debug)]
pub struct IntoIter<T> {
    queue: ConcurrentQueue<T>,
}

impl<T> Iterator for IntoIter<T> {
    type Item = T;

    fn next(&mut self) -> Option<T> {
        self.queue.pop().ok()
    }
}

/// Why nothing was popped.
#[derive(Clone, Copy, Debug, PartialEq, Eq)]
pub enum PopError {
    /// There is no item, and the queue is open.
    Empty,
    /// There is no item, and the queue is closed.
    Closed,
}

impl PopError {
    /// Whether the queue is open.
    pub fn is_empty(&self) -> bool {
        *self == PopError::Empty
    }

    /// Whether it is closed.
    pub fn is_closed(&self) -> bool {
        *self == PopError::Closed
    }
}

impl fmt::Display for PopError {
    fn fmt(&self, f: &mut fmt::Formatter<'_>) -> fmt::Result {
        fmt::Debug::fmt(self, f)
    }
}

impl Error for PopError {}

/// Why an item was not pushed; it is handed back.
#[derive(Clone, Copy, Debug, PartialEq, Eq)]
pub enum PushError<T> {
    /// There is no room, and the queue is open.
    Full(T),
    /// The queue is closed.
    Closed(T),
}

impl<T> PushError<T> {
    /// The item.
    pub fn into_inner(self) -> T {
        match self {
            PushError::Full(item) | PushError::Closed(item) => item,
        }
    }

    /// Whether there was no room.
    pub fn is_full(&self) -> bool {
        matches!(self, PushError::Full(_))
    }

    /// Whether it is closed.
    pub fn is_closed(&self) -> bool {
        matches!(self, PushError::Closed(_))
    }
}

impl<T> fmt::Display for PushError<T> {
    fn fmt(&self, f: &mut fmt::Formatter<'_>) -> fmt::Result {
        f.write_str(if self.is_full() { "Full" } else { "Closed" })
    }
}

impl<T: fmt::Debug> Error for PushError<T> {}

/// The queue is closed, and the item of a force_push is handed back.
#[derive(Clone, Copy, Debug, PartialEq, Eq)]
pub struct ForcePushError<T>(pub T);

impl<T> ForcePushError<T> {
    /// The item.
    pub fn into_inner(self) -> T {
        self.0
    }
}

impl<T> fmt::Display for ForcePushError<T> {
    fn fmt(&self, f: &mut fmt::Formatter<'_>) -> fmt::Result {
        f.write_str("Closed")
    }
}

impl<T: fmt::Debug> Error for ForcePushError<T> {}
