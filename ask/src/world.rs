//! What a search knows of the machine: everything that it has met is numbered, and every step of the library is taken once.
//!
//! A state is the words that all share, and of each worker where it stands, how many calls it has begun and what they answered. The shared words are one number, what belongs to a worker
//! another, its part; an entry leads from one shared number and one part to others, whatever the other workers' parts are. Two statements say so: what an entry leaves is `turnedOf` of the
//! ends, the slot, the worker's own record, meter and count, and no other record is an argument of it (the `ensures` of bounded_step_record::turn_on); and no other record is changed
//! (`OnlyTheActing`, `OnlyTheActingWords`). Of the one-slot queue the definitions of acts (single_acts) are of the slot and the worker's own place.

use crate::machine::{answer_at, is_busy, Machine, Place, Queue, FRESH};
use fernmoldew::{Answer, Call, Refusal};
use std::collections::HashMap;

/// What belongs to one worker.
#[derive(Clone, Copy, PartialEq, Eq, Hash)]
struct Part {
    place: Place,
    begun: u32,
    answers: u32,
}

/// How an entry of a worker leads on: numbers of the shared words and of its part.
#[derive(Clone, Copy, PartialEq, Eq, Hash, Debug)]
pub struct Next {
    pub shared: u32,
    pub part: u32,
}

/// Numbers to numbers. Keys are below the last of 64 bits, values too.
struct Memo {
    slots: Vec<(u64, u64)>,
    shift: u32,
    len: usize,
}

const UNKNOWN: u64 = u64::MAX;
/// There is no such entry: the worker has nothing left to call, or no weak exchange comes next.
const NONE: u64 = u64::MAX - 1;
const WEAK: u64 = 1 << 31;

impl Memo {
    fn new() -> Memo {
        Memo { slots: vec![(UNKNOWN, 0); 64], shift: 58, len: 0 }
    }

    #[inline]
    fn slot(&self, key: u64) -> usize {
        let mask = self.slots.len() - 1;
        // of one shared number all stand close together
        let mut at =
            ((key >> 32).wrapping_mul(0x9E37_79B9_7F4A_7C15) >> self.shift) as usize + (key & 0xFFFF_FFFF) as usize;
        loop {
            let found = self.slots[at & mask].0;
            if found == key || found == UNKNOWN {
                return at & mask;
            }
            at += 1;
        }
    }

    #[inline]
    fn get(&self, key: u64) -> u64 {
        let (found, value) = self.slots[self.slot(key)];
        if found == key {
            value
        } else {
            UNKNOWN
        }
    }

    fn put(&mut self, key: u64, value: u64) {
        let at = self.slot(key);
        self.slots[at] = (key, value);
        self.len += 1;
        if 2 * self.len > self.slots.len() {
            let wider = vec![(UNKNOWN, 0); 2 * self.slots.len()];
            let old = std::mem::replace(&mut self.slots, wider);
            self.shift -= 1;
            for entry in old.into_iter().filter(|entry| entry.0 != UNKNOWN) {
                let at = self.slot(entry.0);
                self.slots[at] = entry;
            }
        }
    }

    fn iter(&self) -> impl Iterator<Item = (u64, u64)> + '_ {
        self.slots.iter().copied().filter(|slot| slot.0 != UNKNOWN && slot.1 != NONE)
    }
}

fn key_of(shared: u32, part: u32) -> u64 {
    u64::from(shared) << 32 | u64::from(part)
}

fn next_of(value: u64) -> Next {
    Next { shared: (value >> 32) as u32, part: (value & (WEAK - 1)) as u32 }
}

/// One worker's parts, and where its entries lead.
struct Worker {
    calls: Vec<Call>,
    parts: Vec<Part>,
    numbers: HashMap<Part, u32>,
    plain: Memo,
    losing: Memo,
}

pub struct World {
    /// Of one worker, since no other's record is read.
    machine: Machine,
    shared: Vec<Box<[u64]>>,
    shared_numbers: HashMap<Box<[u64]>, u32>,
    workers: Vec<Worker>,
    /// Answers in a row: those before, and the last.
    answers: Vec<(u32, Answer)>,
    answer_numbers: HashMap<(u32, Place), u32>,
    places: Vec<Place>,
    place_numbers: HashMap<Place, u32>,
    /// Acts that the library has taken, plain and with an exchange that fails, from shared words and a place to others: workers share them, whatever was answered.
    taken: [Memo; 2],
    /// How many steps the library has taken.
    pub steps: u64,
    alone: Vec<u64>,
}

/// What a step of the library leaves.
type Left = (u32, Place);

impl World {
    /// From what a machine is now, with these calls to be made.
    pub fn new(queue: Queue, capacity: u64, from: &Machine, calls: &[Vec<Call>]) -> Result<World, Refusal> {
        let mut world = World {
            machine: Machine::new(queue, capacity, 1)?,
            shared: vec![],
            shared_numbers: HashMap::new(),
            workers: vec![],
            answers: vec![(0, Answer::Nothing)],
            answer_numbers: HashMap::new(),
            places: vec![],
            place_numbers: HashMap::new(),
            taken: [Memo::new(), Memo::new()],
            steps: 0,
            alone: alone_places(queue)?,
        };
        world.shared_number(from.shared());
        for (worker, calls) in calls.iter().enumerate() {
            let first = Part { place: from.place(worker), begun: 0, answers: 0 };
            world.workers.push(Worker {
                calls: calls.clone(),
                parts: vec![first],
                numbers: HashMap::from([(first, 0)]),
                plain: Memo::new(),
                losing: Memo::new(),
            });
        }
        Ok(world)
    }

    /// Whether this worker ever does anything.
    pub fn is_active(&self, worker: usize) -> bool {
        let Worker { calls, parts, .. } = &self.workers[worker];
        !calls.is_empty() || is_busy(parts[0].place)
    }

    pub fn workers(&self) -> usize {
        self.workers.len()
    }

    fn shared_number(&mut self, words: Vec<u64>) -> u32 {
        let words = words.into_boxed_slice();
        if let Some(number) = self.shared_numbers.get(&words) {
            return *number;
        }
        let number = self.shared.len() as u32;
        self.shared.push(words.clone());
        self.shared_numbers.insert(words, number);
        number
    }

    /// The call that comes next of a worker there; none where one is under way or none is left.
    pub fn call_next(&self, worker: usize, part: u32) -> Option<Call> {
        let Worker { calls, parts, .. } = &self.workers[worker];
        let Part { place, begun, .. } = parts[part as usize];
        if is_busy(place) {
            return None;
        }
        calls.get(begun as usize).copied()
    }

    /// Whether the worker is idle there, with all its calls begun.
    pub fn is_done(&self, worker: usize, part: u32) -> bool {
        let Worker { calls, parts, .. } = &self.workers[worker];
        let Part { place, begun, .. } = parts[part as usize];
        !is_busy(place) && begun as usize == calls.len()
    }

    /// How many calls a worker is to begin.
    pub fn calls(&self, worker: usize) -> usize {
        self.workers[worker].calls.len()
    }

    /// Whether nothing that the worker does next can be seen by others, nor seen otherwise by it later: a begin, or an act on the value of a slot in its hand.
    #[inline]
    pub fn is_alone(&self, worker: usize, part: u32) -> bool {
        let Worker { calls, parts, .. } = &self.workers[worker];
        let Part { place, begun, .. } = parts[part as usize];
        if is_busy(place) {
            return self.alone.contains(&place[0]);
        }
        (begun as usize) < calls.len()
    }

    /// The worker's next entry, with its weak exchange not failing.
    #[inline]
    pub fn next(&mut self, worker: usize, shared: u32, part: u32) -> Option<(Next, bool)> {
        let mut value = self.workers[worker].plain.get(key_of(shared, part));
        if value == UNKNOWN {
            value = self.learn(worker, shared, part, false);
        }
        if value == NONE {
            return None;
        }
        Some((next_of(value), value & WEAK != 0))
    }

    /// And failing, where `next` says that it leads elsewhere.
    #[inline]
    pub fn next_losing(&mut self, worker: usize, shared: u32, part: u32) -> Option<Next> {
        let mut value = self.workers[worker].losing.get(key_of(shared, part));
        if value == UNKNOWN {
            value = self.learn(worker, shared, part, true);
        }
        (value != NONE).then(|| next_of(value))
    }

    #[cold]
    fn learn(&mut self, worker: usize, shared: u32, part: u32, losing: bool) -> u64 {
        let mut value = match self.follow(worker, shared, part, losing) {
            None => NONE,
            Some(next) => key_of(next.shared, next.part),
        };
        if !losing && value != NONE {
            // one that fails anyway, since the words differ, is the same entry
            if let Some(lost) = self.follow(worker, shared, part, true) {
                if key_of(lost.shared, lost.part) != value {
                    value |= WEAK;
                }
            }
        }
        let Worker { plain, losing: lost, .. } = &mut self.workers[worker];
        if losing { lost } else { plain }.put(key_of(shared, part), value);
        value
    }

    fn follow(&mut self, worker: usize, shared: u32, part: u32, losing: bool) -> Option<Next> {
        let before = self.workers[worker].parts[part as usize];
        let mut after = before;
        let shared = if is_busy(before.place) {
            let (shared, place) = self.act(shared, before.place, losing)?;
            after.place = place;
            if !is_busy(place) {
                after.answers = self.with_answer(before.answers, place);
            }
            shared
        } else {
            if losing {
                return None;
            }
            let call = self.call_next(worker, part)?;
            let (shared, place) = self.step(shared, before.place, call.entry(0))?;
            after.place = place;
            after.begun += 1;
            shared
        };
        let Worker { parts, numbers, .. } = &mut self.workers[worker];
        let part = *numbers.entry(after).or_insert_with(|| {
            parts.push(after);
            parts.len() as u32 - 1
        });
        assert!(u64::from(part) < WEAK, "fewer parts than that fit any memory");
        Some(Next { shared, part })
    }

    fn with_answer(&mut self, before: u32, place: Place) -> u32 {
        if let Some(number) = self.answer_numbers.get(&(before, place)) {
            return *number;
        }
        let answer = answer_at(place).expect("the call has ended there");
        let number = self.answers.len() as u32;
        self.answers.push((before, answer));
        self.answer_numbers.insert((before, place), number);
        number
    }

    fn place_number(&mut self, place: Place) -> u32 {
        let places = &mut self.places;
        *self.place_numbers.entry(place).or_insert_with(|| {
            places.push(place);
            places.len() as u32 - 1
        })
    }

    /// An act of a worker that stands there.
    fn act(&mut self, shared: u32, place: Place, losing: bool) -> Option<Left> {
        let key = key_of(shared, self.place_number(place));
        let known = self.taken[usize::from(losing)].get(key);
        if known == NONE {
            return None;
        }
        if known != UNKNOWN {
            let Next { shared, part } = next_of(known);
            return Some((shared, self.places[part as usize]));
        }
        let left =
            self.step(shared, place, if losing { fernmoldew::losing_entry(0) } else { fernmoldew::act_entry(0) });
        let value = left.map_or(NONE, |(shared, place)| key_of(shared, self.place_number(place)));
        self.taken[usize::from(losing)].put(key, value);
        left
    }

    /// One entry of a worker that stands there, taken by the library.
    fn step(&mut self, shared: u32, place: Place, entry: [u64; 2]) -> Option<Left> {
        self.machine.put(&self.shared[shared as usize], &[place]);
        self.steps += 1;
        match self.machine.step(entry) {
            Ok(()) => Some((self.shared_number(self.machine.shared()), self.machine.place(0))),
            Err(Refusal::NoWeakExchange) => None,
            Err(refusal) => panic!("an entry of a machine that was reached: {refusal}"),
        }
    }

    /// The number of what a worker's calls have answered.
    pub fn answers_number(&self, worker: usize, part: u32) -> u32 {
        self.workers[worker].parts[part as usize].answers
    }

    /// In the order of the calls.
    pub fn answers_of(&self, mut number: u32) -> Vec<Answer> {
        let mut answers = vec![];
        while number > 0 {
            let (before, answer) = self.answers[number as usize];
            answers.push(answer);
            number = before;
        }
        answers.reverse();
        answers
    }

    /// What waits when all workers are idle.
    pub fn contents(&mut self, shared: u32) -> Vec<u64> {
        self.machine.put(&self.shared[shared as usize], &[FRESH]);
        self.machine.contents().expect("its worker is idle")
    }

    /// Every step of a worker that was taken, as (from, to, whether its weak exchange failed).
    pub fn steps_of(&self, worker: usize) -> impl Iterator<Item = (Next, Next, bool)> + '_ {
        let Worker { plain, losing, .. } = &self.workers[worker];
        let from = |key: u64| Next { shared: (key >> 32) as u32, part: key as u32 };
        let plain = plain.iter().map(move |(key, value)| (from(key), next_of(value), false));
        plain.chain(losing.iter().map(move |(key, value)| (from(key), next_of(value), true)))
    }
}

/// Ways of a call alone to the places whose act is on the value of a slot in the worker's hand (P4, F8 and O4 of the ring, A2, B2, B4 and C2 of the one-slot queue): whether the queue is full
/// before it, the call, and after how many acts it comes there.
fn ways_alone(queue: Queue) -> &'static [(bool, Call, usize)] {
    match queue {
        Queue::Ring(_) => &[(false, Call::Push(ITEM), 3), (true, Call::ForcePush(ITEM), 4), (true, Call::Pop, 3)],
        Queue::OneSlot => &[
            (false, Call::Push(ITEM), 1),
            (false, Call::ForcePush(ITEM), 1),
            (true, Call::ForcePush(ITEM), 2),
            (true, Call::Pop, 1),
        ],
    }
}

const ITEM: u64 = 1;

/// The codes of these places, as the library has them.
fn alone_places(queue: Queue) -> Result<Vec<u64>, Refusal> {
    let mut codes = vec![];
    for (is_full, call, acts) in ways_alone(queue) {
        let mut machine = Machine::new(queue, 1, 1)?;
        if *is_full {
            machine.begin(0, Call::Push(ITEM))?;
            while machine.busy(0) {
                machine.act(0)?;
            }
        }
        machine.begin(0, *call)?;
        for _ in 0..*acts {
            machine.act(0)?;
        }
        codes.push(machine.place(0)[0]);
    }
    Ok(codes)
}
