//! The machine that is asked: the ring of either edition or the one-slot queue, with its workers, as the proved library steps it (hosts/rust).

use fernmoldew::{
    Answer, Call, Edition, OneSlot, Refusal, Ring, Workers, HEAD_WORDS, ONE_SLOT_HEAD_WORDS, ONE_SLOT_RECORDS_WORDS,
    ONE_SLOT_RECORD_WORDS, RECORD_WORDS, SLOT_WORDS,
};

/// Which queue it is.
#[derive(Clone, Copy, Debug, PartialEq, Eq)]
pub enum Queue {
    Ring(Edition),
    OneSlot,
}

/// What the programs ask of a queue beside its machine. Another queue is a name here, an arm of each of these, one of each of `Machine`'s, and its places in `world::ways_alone`.
impl Queue {
    pub const SOURCE: Queue = Queue::Ring(Edition::Source);
    pub const CLOSE_HOLDS: Queue = Queue::Ring(Edition::CloseHolds);

    /// What `--queue` wants.
    pub const NAMES: &'static str = "one of bounded, single";

    /// By its name, in the source's edition.
    pub fn named(name: &str) -> Option<Queue> {
        match name {
            "bounded" => Some(Queue::SOURCE),
            "single" => Some(Queue::OneSlot),
            _ => None,
        }
    }

    pub fn name(self) -> &'static str {
        match self {
            Queue::Ring(_) => "bounded",
            Queue::OneSlot => "single",
        }
    }

    /// Whether there is more than one of it: of two editions.
    pub fn has_editions(self) -> bool {
        matches!(self, Queue::Ring(_))
    }

    /// Whether a text about it has a line `capacity`.
    pub fn has_capacity(self) -> bool {
        matches!(self, Queue::Ring(_))
    }

    /// The most workers that the library takes.
    pub fn most_workers(self) -> u64 {
        match self {
            Queue::Ring(_) => 64,
            Queue::OneSlot => 16,
        }
    }

    /// Whether a close stays, whatever force_pushes do.
    pub fn keeps_close(self) -> bool {
        self != Queue::SOURCE
    }

    /// What replay must be told to run its schedules, each with a space before it.
    pub fn replay_options(self, workers: u64) -> String {
        let queue = match self {
            Queue::Ring(Edition::Source) => "",
            Queue::Ring(Edition::CloseHolds) => " --edition 2",
            Queue::OneSlot => " --queue single",
        };
        let lent = if matches!(self, Queue::Ring(_)) && workers > MOST_OF_REPLAY { " --lent" } else { "" };
        format!("{queue}{lent}")
    }
}

/// So many workers replay takes without `--lent`.
const MOST_OF_REPLAY: u64 = 16;

/// Where a worker stands: the code, first and second word of its record. Its losses are no part of it.
pub type Place = [u64; 3];

/// The place of a worker that has called nothing yet.
pub const FRESH: Place = [0; 3];

/// Codes of records up to this one are answers (FERN_LAST_ANSWER).
const LAST_ANSWER: u64 = 10;

/// Whether a worker there has a call under way.
pub fn is_busy(place: Place) -> bool {
    place[0] > LAST_ANSWER
}

/// What a worker's last call answered that stands there; none of a call under way. Codes of answers are the same in both queues.
pub fn answer_at([code, first, second]: Place) -> Option<Answer> {
    Workers::from_words(vec![code, first, second, 0, 0]).get(0).answer()
}

/// A queue and its workers.
#[derive(Clone, Debug)]
pub struct Machine {
    held: Held,
    capacity: usize,
}

#[derive(Clone, Debug)]
enum Held {
    Ring(Ring, Workers),
    OneSlot(Box<OneSlot>),
}

// The words of heads (hosts/c/fernmoldew.h) that acts change and that are more than a count.
const RING_ENDS: [usize; 2] = [4, 5];
const RING_METER: usize = 6;
const ONE_SLOT_SHARED: [usize; 2] = [0, 1];
const ONE_SLOT_METER: usize = 3;

impl Machine {
    /// A fresh one, all workers idle. The one-slot queue has capacity 1, whatever is said.
    pub fn new(queue: Queue, capacity: u64, workers: usize) -> Result<Machine, Refusal> {
        match queue {
            Queue::Ring(edition) => {
                let mut records = Workers::new(workers);
                let ring = Ring::new(capacity, edition, &mut records)?;
                Ok(Machine { held: Held::Ring(ring, records), capacity: capacity as usize })
            }
            Queue::OneSlot => Ok(Machine { held: Held::OneSlot(Box::new(OneSlot::new(workers as u64)?)), capacity: 1 }),
        }
    }

    /// One entry of two words, as schedules have them.
    pub fn step(&mut self, entry: [u64; 2]) -> Result<(), Refusal> {
        match &mut self.held {
            Held::Ring(ring, workers) => ring.step(workers, entry[0], entry[1]),
            Held::OneSlot(slot) => slot.step(entry[0], entry[1]),
        }
    }

    pub fn begin(&mut self, worker: usize, call: Call) -> Result<(), Refusal> {
        self.step(call.entry(worker))
    }

    pub fn act(&mut self, worker: usize) -> Result<(), Refusal> {
        self.step(fernmoldew::act_entry(worker))
    }

    /// An act whose weak exchange fails; refusal 8 where none comes next.
    pub fn fail(&mut self, worker: usize) -> Result<(), Refusal> {
        self.step(fernmoldew::losing_entry(worker))
    }

    /// A whole schedule, two words an entry; the entry that is refused, and why.
    pub fn run(&mut self, schedule: &[u64]) -> Result<(), fernmoldew::Stopped> {
        match &mut self.held {
            Held::Ring(ring, workers) => ring.run(workers, schedule),
            Held::OneSlot(slot) => slot.run(schedule),
        }
        .map(|_| ())
    }

    pub fn place(&self, worker: usize) -> Place {
        let (words, each) = match &self.held {
            Held::Ring(_, workers) => (workers.words(), RECORD_WORDS),
            Held::OneSlot(slot) => (&slot.record_words()[..], ONE_SLOT_RECORD_WORDS),
        };
        let record = &words[each * worker..];
        [record[0], record[1], record[2]]
    }

    pub fn busy(&self, worker: usize) -> bool {
        is_busy(self.place(worker))
    }

    /// What a worker's last call answered; none while it is busy.
    pub fn answer(&self, worker: usize) -> Option<Answer> {
        answer_at(self.place(worker))
    }

    /// The words that all workers share: of the ring head, tail and the slots that are used, of the one-slot queue state and value. The meter is none of them.
    pub fn shared(&self) -> Vec<u64> {
        match &self.held {
            Held::Ring(ring, _) => {
                let mut words: Vec<u64> = RING_ENDS.iter().map(|at| ring.head_words()[*at]).collect();
                words.extend(&ring.slot_words()[..2 * self.capacity]);
                words
            }
            Held::OneSlot(slot) => ONE_SLOT_SHARED.iter().map(|at| slot.head_words()[*at]).collect(),
        }
    }

    /// Puts it where these shared words and these workers' places say, with a meter of 0 and no losses. As many places as it was made with.
    pub fn put(&mut self, shared: &[u64], places: &[Place]) {
        match &mut self.held {
            Held::Ring(ring, workers) => {
                let mut head: [u64; HEAD_WORDS] = *ring.head_words();
                for (word, at) in shared.iter().zip(RING_ENDS) {
                    head[at] = *word;
                }
                head[RING_METER] = 0;
                let mut slots: Box<[u64; SLOT_WORDS]> =
                    vec![0; SLOT_WORDS].into_boxed_slice().try_into().expect("as many words");
                slots[..2 * self.capacity].copy_from_slice(&shared[RING_ENDS.len()..]);
                *ring = Ring::from_words(head, slots);
                *workers = Workers::from_words(
                    places.iter().flat_map(|[code, first, second]| [*code, *first, *second, 0, 0]).collect(),
                );
            }
            Held::OneSlot(slot) => {
                let mut head: [u64; ONE_SLOT_HEAD_WORDS] = *slot.head_words();
                for (word, at) in shared.iter().zip(ONE_SLOT_SHARED) {
                    head[at] = *word;
                }
                head[ONE_SLOT_METER] = 0;
                let mut records = [0; ONE_SLOT_RECORDS_WORDS];
                for (record, place) in records.chunks_mut(ONE_SLOT_RECORD_WORDS).zip(places) {
                    record.copy_from_slice(place);
                }
                **slot = OneSlot::from_words(head, records);
            }
        }
    }

    /// What waits, front first. Refusal 4 while a worker is busy.
    pub fn contents(&self) -> Result<Vec<u64>, Refusal> {
        match &self.held {
            Held::Ring(ring, workers) => ring.contents(workers),
            Held::OneSlot(slot) => Ok(slot.contents()?.into_iter().collect()),
        }
    }
}
