use core::fmt;

use crate::{act_entry, answer_of, judged, place, told, Answer, Call, Place, Refusal, Reply, Stopped};

extern "C" {
    fn fern_slot_make(head: *mut u64, n: usize, records: *mut u64, k: usize, workers: u64) -> u64;
    fn fern_slot_step(head: *mut u64, n: usize, records: *mut u64, k: usize, first: u64, second: u64) -> u64;
    fn fern_slot_run(head: *mut u64, n: usize, records: *mut u64, k: usize, schedule: *const u64, length: usize) -> Reply;
    fn fern_slot_contents(head: *const u64, n: usize, records: *const u64, k: usize, buffer: *mut u64, room: usize) -> Reply;
    fn fern_slot_broken(head: *const u64, n: usize, records: *const u64, k: usize) -> u64;
}

/// The words of a one-slot queue but for its records.
pub const ONE_SLOT_HEAD_WORDS: usize = 5;
/// The words of a record of a one-slot queue.
pub const ONE_SLOT_RECORD_WORDS: usize = 3;
/// The words of all sixteen records of a one-slot queue.
pub const ONE_SLOT_RECORDS_WORDS: usize = 48;

/// The most acts that a call on a one-slot queue needs with nobody else acting, where no other worker has the slot in hand.
pub const ONE_SLOT_MOST_ACTS_ALONE: usize = 4;

/// The torque station's one-slot queue (`single.rs` of concurrent-queue) with its workers' records, stepped one atomic action at a time.
///
/// ```
/// use fernmoldew::{Answer, Call, OneSlot};
///
/// let mut slot = OneSlot::new(2)?;
/// assert_eq!(slot.call(0, Call::Push(240))?, Some(Answer::Pushed));
/// assert_eq!(slot.call(0, Call::ForcePush(255))?, Some(Answer::Displaced(240)));
/// // worker 1 pops, and has not let go yet: a push answers Full, although nothing waits
/// slot.begin(1, Call::Pop)?;
/// slot.act(1)?;
/// assert_eq!(slot.call(0, Call::Push(260))?, Some(Answer::Full(260)));
/// slot.act(1)?;
/// slot.act(1)?;
/// assert_eq!(slot.answer(1), Some(Answer::Popped(255)));
/// # Ok::<(), fernmoldew::Refusal>(())
/// ```
#[derive(Clone, PartialEq, Eq)]
pub struct OneSlot {
    head: [u64; ONE_SLOT_HEAD_WORDS],
    records: [u64; ONE_SLOT_RECORDS_WORDS],
}

impl OneSlot {
    /// A fresh queue of 1 to 16 workers, all idle.
    pub fn new(workers: u64) -> Result<OneSlot, Refusal> {
        let mut slot = OneSlot::from_words([0; ONE_SLOT_HEAD_WORDS], [0; ONE_SLOT_RECORDS_WORDS]);
        slot.make(workers)?;
        Ok(slot)
    }

    /// A queue of these words, as fernmoldew.h lays them out: another's, an archive's. They are judged with each call.
    pub fn from_words(head: [u64; ONE_SLOT_HEAD_WORDS], records: [u64; ONE_SLOT_RECORDS_WORDS]) -> OneSlot {
        OneSlot { head, records }
    }

    /// Its words but for the records.
    pub fn head_words(&self) -> &[u64; ONE_SLOT_HEAD_WORDS] {
        &self.head
    }

    /// The words of all sixteen records.
    pub fn record_words(&self) -> &[u64; ONE_SLOT_RECORDS_WORDS] {
        &self.records
    }

    /// Makes it anew. Refusal 2.
    pub fn make(&mut self, workers: u64) -> Result<(), Refusal> {
        let OneSlot { head, records } = self;
        // SAFETY: two slices that are borrowed apart, each as long as is said; no other call runs on them.
        judged(unsafe { fern_slot_make(head.as_mut_ptr(), head.len(), records.as_mut_ptr(), records.len(), workers) })
    }

    /// One entry of two words, as schedules have them.
    pub fn step(&mut self, first: u64, second: u64) -> Result<(), Refusal> {
        let OneSlot { head, records } = self;
        // SAFETY: as above.
        judged(unsafe { fern_slot_step(head.as_mut_ptr(), head.len(), records.as_mut_ptr(), records.len(), first, second) })
    }

    /// A schedule, two words an entry, to its end: how many entries it has. Refusals 6, 11 and 9 come before anything is run; of any other the entries before it stand.
    pub fn run(&mut self, schedule: &[u64]) -> Result<u64, Stopped> {
        let OneSlot { head, records } = self;
        // SAFETY: as above; the schedule is read alone.
        let Reply { refusal, number } = unsafe { fern_slot_run(head.as_mut_ptr(), head.len(), records.as_mut_ptr(), records.len(), schedule.as_ptr(), schedule.len()) };
        judged(refusal).map(|()| number).map_err(|refusal| Stopped { refusal, place: number })
    }

    /// A worker begins a call: no act yet.
    pub fn begin(&mut self, worker: usize, call: Call) -> Result<(), Refusal> {
        let [first, second] = call.entry(worker);
        self.step(first, second)
    }

    /// The one atomic action that comes next in a worker's call.
    pub fn act(&mut self, worker: usize) -> Result<(), Refusal> {
        let [first, second] = act_entry(worker);
        self.step(first, second)
    }

    /// A whole call, nobody else acting meanwhile. It ends within four acts unless another worker has the slot in hand; then it is left under way, and there is no answer: let that worker act, and go on with [`OneSlot::act`].
    pub fn call(&mut self, worker: usize, call: Call) -> Result<Option<Answer>, Refusal> {
        self.begin(worker, call)?;
        for _ in 0..ONE_SLOT_MOST_ACTS_ALONE {
            self.act(worker)?;
            if !self.busy(worker) {
                break;
            }
        }
        Ok(self.answer(worker))
    }

    fn record(&self, worker: usize) -> &[u64] {
        self.records.chunks_exact(ONE_SLOT_RECORD_WORDS).nth(worker).expect("there is no such record")
    }

    /// Whether a worker has a call under way.
    ///
    /// # Panics
    /// Where there is no such record.
    pub fn busy(&self, worker: usize) -> bool {
        self.answer(worker).is_none()
    }

    /// What a worker's last call answered; none while it is busy.
    ///
    /// # Panics
    /// Where there is no such record.
    pub fn answer(&self, worker: usize) -> Option<Answer> {
        let record = self.record(worker);
        answer_of(record[0], record[1])
    }

    /// Where a worker stands in its call; none while it is idle, or where the words stand for no place.
    ///
    /// # Panics
    /// Where there is no such record.
    pub fn place(&self, worker: usize) -> Option<Place> {
        Place::of_one_slot(self.record(worker)[0])
    }

    /// How many workers it was made with.
    pub fn workers(&self) -> usize {
        usize::try_from(self.head[2]).unwrap_or(usize::MAX)
    }

    /// The item, if there is one. Nothing is removed. Refusals 6 and 4.
    pub fn contents(&self) -> Result<Option<u64>, Refusal> {
        let mut item = [0];
        Ok((self.contents_into(&mut item)? == 1).then_some(item[0]))
    }

    /// The same into a buffer, of which the rest is left as it was: how many. Refusal 10 for a buffer that is too short.
    pub fn contents_into(&self, buffer: &mut [u64]) -> Result<usize, Refusal> {
        let OneSlot { head, records } = self;
        // SAFETY: the two are read alone, and the buffer is borrowed apart from them; each is as long as is said.
        let count = told(unsafe { fern_slot_contents(head.as_ptr(), head.len(), records.as_ptr(), records.len(), buffer.as_mut_ptr(), buffer.len()) })?;
        Ok(count as usize)
    }

    /// Whether every call would be refused for the words.
    pub fn broken(&self) -> bool {
        let OneSlot { head, records } = self;
        // SAFETY: the two are read alone, each as long as is said.
        unsafe { fern_slot_broken(head.as_ptr(), head.len(), records.as_ptr(), records.len()) != 0 }
    }

    /// How many acts were accepted since it was made.
    pub fn meter(&self) -> u64 {
        self.head[3]
    }
}

/// Its numbers, and where each worker stands.
impl fmt::Debug for OneSlot {
    fn fmt(&self, f: &mut fmt::Formatter<'_>) -> fmt::Result {
        struct Stands(Option<Answer>, Option<Place>);
        impl fmt::Debug for Stands {
            fn fmt(&self, f: &mut fmt::Formatter<'_>) -> fmt::Result {
                place::stands(f, self.0, self.1)
            }
        }
        let [state, value, _, meter, _] = self.head;
        let workers: alloc::vec::Vec<Stands> = (0..self.workers().min(ONE_SLOT_RECORDS_WORDS / ONE_SLOT_RECORD_WORDS)).map(|worker| Stands(self.answer(worker), self.place(worker))).collect();
        f.debug_struct("OneSlot").field("state", &state).field("value", &value).field("meter", &meter).field("workers", &workers).finish()
    }
}
