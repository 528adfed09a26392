use alloc::boxed::Box;
use alloc::vec;
use alloc::vec::Vec;
use core::fmt;

use crate::machine::words_of;
use crate::{act_entry, answer_of, judged, losing_entry, place, told, Answer, Call, Place, Queue, Refusal, Reply, Stopped};

extern "C" {
    fn fern_unbounded_make(head: *mut u64, n: usize, pool: *mut u64, m: usize, records: *mut u64, k: usize, workers: u64) -> u64;
    fn fern_unbounded_step(head: *mut u64, n: usize, pool: *mut u64, m: usize, records: *mut u64, k: usize, first: u64, second: u64) -> u64;
    fn fern_unbounded_run(head: *mut u64, n: usize, pool: *mut u64, m: usize, records: *mut u64, k: usize, schedule: *const u64, length: usize) -> Reply;
    fn fern_unbounded_contents(head: *const u64, n: usize, pool: *const u64, m: usize, records: *const u64, k: usize, buffer: *mut u64, room: usize) -> Reply;
    fn fern_unbounded_broken(head: *const u64, n: usize, pool: *const u64, m: usize, records: *const u64, k: usize) -> u64;
}

/// The words of an unbounded queue but for its pool and records.
pub const UNBOUNDED_HEAD_WORDS: usize = 8;
/// The words of its pool, 64 for each of 64 blocks.
pub const UNBOUNDED_POOL_WORDS: usize = 4096;
/// The words of a record of an unbounded queue.
pub const UNBOUNDED_RECORD_WORDS: usize = 5;
/// The words of all sixteen records of an unbounded queue.
pub const UNBOUNDED_RECORDS_WORDS: usize = 80;

/// The most items that its contents have: the slots of its 64 blocks.
pub const UNBOUNDED_ITEMS: usize = 1984;

/// The most acts that a call on an unbounded queue needs with nobody else acting, where no other worker has a slot in hand: a pop's. A push needs ten.
pub const UNBOUNDED_MOST_ACTS_ALONE: usize = 43;

/// The unbounded queue (`unbounded.rs` of concurrent-queue) over a pool of 64 blocks of 31 slots, with its workers' records, stepped one atomic action at a time.
///
/// Its pool stands on the heap, 32 KB. A call of it takes more stack than one of the other queues (`FERN_UNBOUNDED_STACK_BYTES` of fernmoldew.h).
///
/// ```
/// use fernmoldew::{Answer, Call, Unbounded};
///
/// let mut queue = Unbounded::new(2)?;
/// for item in 0..40 {
///     assert_eq!(queue.call(0, Call::Push(item))?, Some(Answer::Pushed));
/// }
/// assert_eq!(queue.call(1, Call::Pop)?, Some(Answer::Popped(0)));
/// assert_eq!(queue.contents()?, (1..40).collect::<Vec<_>>());
/// // there is no force_push here
/// assert_eq!(queue.begin(0, Call::ForcePush(1)).map_err(|refusal| refusal.number()), Err(9));
/// # Ok::<(), fernmoldew::Refusal>(())
/// ```
#[derive(Clone, PartialEq, Eq)]
pub struct Unbounded {
    head: [u64; UNBOUNDED_HEAD_WORDS],
    pool: Box<[u64; UNBOUNDED_POOL_WORDS]>,
    records: [u64; UNBOUNDED_RECORDS_WORDS],
}

impl Unbounded {
    /// A fresh queue of 1 to 16 workers, all idle.
    pub fn new(workers: u64) -> Result<Unbounded, Refusal> {
        let pool: Box<[u64]> = vec![0; UNBOUNDED_POOL_WORDS].into();
        let mut queue = Unbounded::from_words([0; UNBOUNDED_HEAD_WORDS], pool.try_into().expect("as long"), [0; UNBOUNDED_RECORDS_WORDS]);
        queue.make(workers)?;
        Ok(queue)
    }

    /// A queue of these words, as fernmoldew.h lays them out: another's, an archive's. They are judged with each call.
    pub fn from_words(head: [u64; UNBOUNDED_HEAD_WORDS], pool: Box<[u64; UNBOUNDED_POOL_WORDS]>, records: [u64; UNBOUNDED_RECORDS_WORDS]) -> Unbounded {
        Unbounded { head, pool, records }
    }

    /// Its words but for pool and records.
    pub fn head_words(&self) -> &[u64; UNBOUNDED_HEAD_WORDS] {
        &self.head
    }

    /// The words of its blocks.
    pub fn pool_words(&self) -> &[u64; UNBOUNDED_POOL_WORDS] {
        &self.pool
    }

    /// The words of all sixteen records.
    pub fn record_words(&self) -> &[u64; UNBOUNDED_RECORDS_WORDS] {
        &self.records
    }

    /// Makes it anew. Refusal 2.
    pub fn make(&mut self, workers: u64) -> Result<(), Refusal> {
        let Unbounded { head, pool, records } = self;
        // SAFETY: three slices that are borrowed apart, each as long as is said; no other call runs on them.
        judged(unsafe { fern_unbounded_make(head.as_mut_ptr(), head.len(), pool.as_mut_ptr(), pool.len(), records.as_mut_ptr(), records.len(), workers) })
    }

    /// One entry of two words, as schedules have them.
    pub fn step(&mut self, first: u64, second: u64) -> Result<(), Refusal> {
        let Unbounded { head, pool, records } = self;
        // SAFETY: as above.
        judged(unsafe { fern_unbounded_step(head.as_mut_ptr(), head.len(), pool.as_mut_ptr(), pool.len(), records.as_mut_ptr(), records.len(), first, second) })
    }

    /// A schedule, two words an entry, to its end: how many entries it has. Refusals 6, 11 and 9 come before anything is run; of any other the entries before it stand.
    pub fn run(&mut self, schedule: &[u64]) -> Result<u64, Stopped> {
        let Unbounded { head, pool, records } = self;
        // SAFETY: as above; the schedule is read alone.
        let Reply { refusal, number } = unsafe { fern_unbounded_run(head.as_mut_ptr(), head.len(), pool.as_mut_ptr(), pool.len(), records.as_mut_ptr(), records.len(), schedule.as_ptr(), schedule.len()) };
        judged(refusal).map(|()| number).map_err(|refusal| Stopped { refusal, place: number })
    }

    /// A worker begins a call: no act yet.
    pub fn begin(&mut self, worker: usize, call: Call) -> Result<(), Refusal> {
        let [first, second] = call.entry(worker);
        self.step(first, second)
    }

    /// The one atomic action that comes next in a worker's call.
    pub fn act(&mut self, worker: usize) -> Result<(), Refusal> {
        let [first, second] = act_entry(worker);
        self.step(first, second)
    }

    /// The same, where that is a weak exchange, and it fails.
    pub fn act_losing(&mut self, worker: usize) -> Result<(), Refusal> {
        let [first, second] = losing_entry(worker);
        self.step(first, second)
    }

    /// A whole call, nobody else acting meanwhile. It ends within 43 acts unless another worker has a slot in hand; then it is left under way, and there is no answer: let that worker act, and go on with [`Unbounded::act`].
    /// A push that needs a block where none is free is left under way too: refusal 23, and it can act once a block is free.
    pub fn call(&mut self, worker: usize, call: Call) -> Result<Option<Answer>, Refusal> {
        self.begin(worker, call)?;
        for _ in 0..UNBOUNDED_MOST_ACTS_ALONE {
            self.act(worker)?;
            if !self.busy(worker) {
                break;
            }
        }
        Ok(self.answer(worker))
    }

    fn record(&self, worker: usize) -> &[u64] {
        self.records.chunks_exact(UNBOUNDED_RECORD_WORDS).nth(worker).expect("there is no such record")
    }

    /// Whether a worker has a call under way.
    ///
    /// # Panics
    /// Where there is no such record.
    pub fn busy(&self, worker: usize) -> bool {
        self.answer(worker).is_none()
    }

    /// What a worker's last call answered; none while it is busy.
    ///
    /// # Panics
    /// Where there is no such record.
    pub fn answer(&self, worker: usize) -> Option<Answer> {
        let record = self.record(worker);
        answer_of(record[0], record[1])
    }

    /// Where a worker stands in its call; none while it is idle, or where the words stand for no place.
    ///
    /// # Panics
    /// Where there is no such record.
    pub fn place(&self, worker: usize) -> Option<Place> {
        Place::of_unbounded(self.record(worker)[0])
    }

    /// How many workers it was made with.
    pub fn workers(&self) -> usize {
        usize::try_from(self.head[4]).unwrap_or(usize::MAX)
    }

    /// The items in the order in which they would be popped. Nothing is removed. Refusals 6 and 4.
    pub fn contents(&self) -> Result<Vec<u64>, Refusal> {
        let mut items = vec![0; UNBOUNDED_ITEMS];
        let count = self.contents_into(&mut items)?;
        items.truncate(count);
        Ok(items)
    }

    /// The same into a buffer, of which the rest is left as it was: how many. Refusal 10 for a buffer that is too short.
    pub fn contents_into(&self, buffer: &mut [u64]) -> Result<usize, Refusal> {
        let Unbounded { head, pool, records } = self;
        // SAFETY: the three are read alone, and the buffer is borrowed apart from them; each is as long as is said.
        let count = told(unsafe { fern_unbounded_contents(head.as_ptr(), head.len(), pool.as_ptr(), pool.len(), records.as_ptr(), records.len(), buffer.as_mut_ptr(), buffer.len()) })?;
        Ok(count as usize)
    }

    /// Whether every call would be refused for the words.
    pub fn broken(&self) -> bool {
        let Unbounded { head, pool, records } = self;
        // SAFETY: the three are read alone, each as long as is said.
        unsafe { fern_unbounded_broken(head.as_ptr(), head.len(), pool.as_ptr(), pool.len(), records.as_ptr(), records.len()) != 0 }
    }

    /// How many acts were accepted since it was made.
    pub fn meter(&self) -> u64 {
        self.head[5]
    }
}

impl Unbounded {
    /// The queue of a snapshot. Refusal 6 where the bytes are of none.
    ///
    /// ```
    /// use fernmoldew::{Call, Queue, Refusal, Unbounded};
    ///
    /// let mut queue = Unbounded::new(2)?;
    /// queue.call(0, Call::Push(240))?;
    /// assert_eq!(Unbounded::from_bytes(&queue.to_bytes())?, queue);
    /// assert_eq!(format!("{queue:?}"), "Unbounded { head: 0, front: 0, tail: 2, back: 0, meter: 8, blocks: [0], workers: [pushed, nothing] }");
    /// # Ok::<(), Refusal>(())
    /// ```
    pub fn from_bytes(bytes: &[u8]) -> Result<Unbounded, Refusal> {
        let words = words_of(bytes).filter(|words| words.len() == UNBOUNDED_HEAD_WORDS + UNBOUNDED_POOL_WORDS + UNBOUNDED_RECORDS_WORDS).ok_or(Refusal::Broken)?;
        let (head, rest) = words.split_at(UNBOUNDED_HEAD_WORDS);
        let (pool, records) = rest.split_at(UNBOUNDED_POOL_WORDS);
        let pool: Box<[u64]> = pool.into();
        let queue = Unbounded::from_words(head.try_into().expect("as long"), pool.try_into().expect("as long"), records.try_into().expect("as long"));
        if queue.broken() { Err(Refusal::Broken) } else { Ok(queue) }
    }
}

impl Queue for Unbounded {
    fn step(&mut self, first: u64, second: u64) -> Result<(), Refusal> {
        Unbounded::step(self, first, second)
    }

    fn run(&mut self, schedule: &[u64]) -> Result<u64, Stopped> {
        Unbounded::run(self, schedule)
    }

    fn workers(&self) -> usize {
        Unbounded::workers(self)
    }

    fn answer(&self, worker: usize) -> Option<Answer> {
        Unbounded::answer(self, worker)
    }

    fn place(&self, worker: usize) -> Option<Place> {
        Unbounded::place(self, worker)
    }

    fn contents(&self) -> Result<Vec<u64>, Refusal> {
        Unbounded::contents(self)
    }

    fn broken(&self) -> bool {
        Unbounded::broken(self)
    }

    fn meter(&self) -> u64 {
        Unbounded::meter(self)
    }

    fn most_acts_alone(&self) -> usize {
        UNBOUNDED_MOST_ACTS_ALONE
    }

    fn words(&self) -> Vec<&[u64]> {
        [&self.head_words()[..], &self.pool_words()[..], &self.record_words()[..]].into()
    }
}

/// Its ends, its blocks that are taken, and where each worker stands.
impl fmt::Debug for Unbounded {
    fn fmt(&self, f: &mut fmt::Formatter<'_>) -> fmt::Result {
        struct Stands(Option<Answer>, Option<Place>);
        impl fmt::Debug for Stands {
            fn fmt(&self, f: &mut fmt::Formatter<'_>) -> fmt::Result {
                place::stands(f, self.0, self.1)
            }
        }
        let [head, front, tail, back, _, meter, ..] = self.head;
        let blocks: Vec<usize> = self.pool.chunks_exact(64).enumerate().filter(|(_, words)| words[1] == 0).map(|(number, _)| number).collect();
        let workers: Vec<Stands> = (0..self.workers().min(UNBOUNDED_RECORDS_WORDS / UNBOUNDED_RECORD_WORDS)).map(|worker| Stands(self.answer(worker), self.place(worker))).collect();
        f.debug_struct("Unbounded").field("head", &head).field("front", &front).field("tail", &tail).field("back", &back).field("meter", &meter).field("blocks", &blocks).field("workers", &workers).finish()
    }
}
