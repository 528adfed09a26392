//! Random schedules of 1 to 16 workers, 17 to 64 whose records are lent. What is likely changes from phase to phase, so that queues run full and empty, exchanges
//! are lost, and workers sleep over whole laps with stale words in hand.

use crate::call::code::{POP, PUSH};
use crate::call::Entry;
use crate::drive::Run;
use crate::machine::Machine;
use crate::queue::{Making, Queue};
use crate::random::Random;
use crate::schedule::{whole_call, Schedule};
use crate::stage::Action;

/// How likely each call is, in the order of the codes; close has its own rule.
const MIXES: [[usize; 8]; 7] = [
    [4, 4, 4, 1, 1, 1, 0, 1], // everything
    [9, 1, 2, 1, 0, 1, 0, 0], // runs full
    [2, 1, 9, 1, 1, 0, 0, 0], // runs empty
    [1, 9, 1, 0, 0, 0, 0, 0], // displaces
    [5, 0, 5, 0, 0, 0, 0, 0], // in and out
    [0, 6, 4, 1, 0, 0, 0, 0], // displacing against popping
    [2, 1, 2, 4, 4, 4, 0, 4], // looks on
];

/// The unbounded queue has no force_push: its share goes to push.
pub fn mix_for(queue: Queue, mut mix: [usize; 8]) -> [usize; 8] {
    if queue == Queue::Unbounded {
        mix[0] += std::mem::take(&mut mix[1]);
    }
    mix
}

/// What is likely for a while.
struct Phase {
    left: usize,
    mix: [usize; 8],
    /// How often each worker is chosen; some sleep.
    weights: Vec<usize>,
    /// The chosen worker goes on for about this many entries.
    stay: usize,
    /// A weak exchange is made to fail once in so many times.
    lose: usize,
}

impl Phase {
    fn new(random: &mut Random, schedule: &Schedule) -> Phase {
        Phase {
            left: 30 + random.below(300 + 12 * schedule.making.room()),
            mix: mix_for(schedule.making.queue(), random.pick(&MIXES)),
            weights: (0..schedule.workers).map(|_| random.pick(&[1, 10, 10, 30])).collect(),
            stay: random.pick(&[1, 1, 4, 20]),
            lose: random.pick(&[0, 0, 8, 2]),
        }
    }

    /// An entry that will not be refused.
    fn entry(&self, random: &mut Random, machine: &Machine, worker: u64, close: bool) -> (u64, u64) {
        let (code, item) = match machine.pending(worker) {
            Some(Action::WeakExchange(..)) if random.once_in(self.lose) => (9, 0),
            Some(_) => (8, 0),
            None => self.call(random, close),
        };
        (16 * worker + code, item)
    }

    fn call(&self, random: &mut Random, close: bool) -> (u64, u64) {
        if close && random.once_in(20) {
            return (6, 0);
        }
        match random.weighted(&self.mix) as u64 {
            code @ 0..=1 => (code, random.item()),
            code => (code, 0),
        }
    }
}

/// Schedules until so many acts were done; with `closing`, short ones in which closes come at any time.
pub fn drive(run: &mut Run, acts: u64, seed: u64, closing: bool) -> Result<(), String> {
    let mut random = Random::new(seed);
    while run.tally.acts < acts {
        let schedule = if random.once_in(25) {
            refused_whole(run.queue, &mut random)
        } else if closing {
            let making = Making::small(run.queue, &mut random);
            let length = 20 + random.below(200);
            let (workers, close_from) = (2 + random.below(4) as u64, random.below(length));
            let before = Before { gone: gone_at_first(making, &mut random), held: 0 };
            schedule_closed(&mut random, making, workers, before, length, close_from)
        } else {
            let making = Making::random(run.queue, &mut random);
            let workers = run.queue.workers(&mut random);
            // One process for each schedule wants long ones.
            let length = if run.many() { 100 + random.below(most_entries(making)) } else { run.batch };
            let held = held_at_first(making, &mut random);
            schedule(&mut random, making, workers, held, length)
        };
        run.add(schedule)?;
    }
    run.flush()
}

/// A large ring needs time to run full; the unbounded queue has its own way.
fn most_entries(making: Making) -> usize {
    match making {
        Making::Bounded { .. } | Making::Single => 6000 + 60 * making.room(),
        Making::Unbounded => 3000,
    }
}

/// How many items are pushed before the schedule proper: one in sixteen unbounded queues has nearly all blocks taken, so that some call
/// finds none free.
fn held_at_first(making: Making, random: &mut Random) -> u64 {
    if making == Making::Unbounded && random.once_in(16) {
        return (ALL_SLOTS - random.below(100)) as u64;
    }
    0
}

/// How many items go through a short schedule's queue before: in the unbounded one so many that its workers meet at the end of a block.
fn gone_at_first(making: Making, random: &mut Random) -> u64 {
    if making == Making::Unbounded {
        return random.pick(&[0, 28, 29, 30, 31]);
    }
    0
}

/// Items pushed and popped, and items pushed, before the schedule proper.
struct Before {
    gone: u64,
    held: u64,
}

/// Items that fit into all blocks but for the last slot, which needs one block more.
const ALL_SLOTS: usize = 64 * 31 - 1;

/// A schedule that is accepted but perhaps for its end.
pub fn schedule(random: &mut Random, making: Making, workers: u64, held: u64, length: usize) -> Schedule {
    // Little happens once the queue is closed, so closing comes late or not at all.
    let close_from = if random.once_in(2) { length - random.below(length.min(1500)) } else { length };
    schedule_closed(random, making, workers, Before { gone: 0, held }, length, close_from)
}

fn schedule_closed(
    random: &mut Random,
    making: Making,
    workers: u64,
    before: Before,
    length: usize,
    close_from: usize,
) -> Schedule {
    let mut schedule = Schedule::new(making, workers);
    let mut machine = Machine::make(making, workers).expect("within the limits");
    let mut whole = |code, item| whole_call(&mut schedule, &mut machine, code, item);
    for item in 0..before.gone {
        whole(PUSH, item);
        whole(POP, 0);
    }
    (0..before.held).for_each(|item| whole(PUSH, item));
    mixed(random, &mut schedule, &mut machine, length, close_from);
    if random.once_in(2) {
        end_all_calls(&mut schedule, &mut machine);
    }
    if !random.once_in(4) {
        refused_end(random, &mut schedule, &mut machine);
    }
    schedule
}

/// So many entries that are accepted; fewer if no worker finds a block. From `close_from` on a call may be a close.
pub fn mixed(random: &mut Random, schedule: &mut Schedule, machine: &mut Machine, length: usize, close_from: usize) {
    let workers = schedule.workers;
    let mut phase = Phase::new(random, schedule);
    let mut worker = 0;
    for done in 0..length {
        if phase.left == 0 {
            phase = Phase::new(random, schedule);
        }
        phase.left -= 1;
        if random.once_in(phase.stay) {
            worker = random.weighted(&phase.weights) as u64;
        }
        let Some(able) = (worker..workers).chain(0..worker).find(|worker| !machine.lacks_a_block(*worker)) else {
            break;
        };
        worker = able;
        let (first, second) = phase.entry(random, machine, worker, done >= close_from);
        assert_eq!(machine.enter(first, second), 0);
        schedule.push(first, second);
    }
}

/// Acts in turn until no worker is busy, so that the contents can be seen. The workers take turns: one may wait for another. Only those
/// that find no block free are left as they are; nobody waits for them.
pub fn end_all_calls(schedule: &mut Schedule, machine: &mut Machine) {
    while let Some(round) = busy(machine) {
        for worker in round {
            if machine.lacks_a_block(worker) {
                continue;
            }
            let first = 16 * worker + 8;
            assert_eq!(machine.enter(first, 0), 0);
            schedule.push(first, 0);
        }
    }
}

fn busy(machine: &Machine) -> Option<Vec<u64>> {
    let acts = |worker: &u64| machine.busy(*worker) && !machine.lacks_a_block(*worker);
    let busy: Vec<u64> = (0..machine.workers() as u64).filter(acts).collect();
    (!busy.is_empty()).then_some(busy)
}

/// An entry that is refused for any reason but the reading, and perhaps some more that must not be run. Once in a while one that
/// can't be read stands anywhere, and nothing is run.
fn refused_end(random: &mut Random, schedule: &mut Schedule, machine: &mut Machine) {
    if let Some(worker) = (0..schedule.workers).find(|worker| machine.lacks_a_block(*worker)) {
        return schedule.push(16 * worker + 8, 0);
    }
    loop {
        let (first, second) = any_entry(random, schedule.workers);
        if Entry::decode(schedule.making.queue(), first % 16, second).is_none() {
            continue;
        }
        // An entry that happens to be accepted is kept.
        let refusal = machine.enter(first, second);
        schedule.push(first, second);
        if refusal != 0 {
            break;
        }
    }
    for _ in 0..random.below(3) {
        schedule.push(8, 0);
    }
    if random.once_in(12) {
        for _ in 0..1 + random.below(2) {
            let at = 2 * random.below(schedule.words.len() / 2);
            schedule.words.splice(at..at, random.pick(&[[10, 0], [15, 3], [2, 1], [8, 1], [16 * 99 + 12, 0]]));
        }
    }
}

/// Any worker, any code, any item.
pub fn any_entry(random: &mut Random, workers: u64) -> (u64, u64) {
    let beyond = [workers, workers + 1, 16, 17, u64::MAX / 16];
    let worker = if random.once_in(6) { random.pick(&beyond) } else { random.below(workers as usize) as u64 };
    let code = if random.once_in(6) { 10 + random.below(6) } else { random.below(10) } as u64;
    let item = if code <= 1 || random.once_in(12) { random.item() } else { 0 };
    (16 * worker + code, item)
}

/// A making refused, or an odd number of words, or both.
pub fn refused_whole(queue: Queue, random: &mut Random) -> Schedule {
    let making = Making::among(queue, random, &[0, 1, 2, 257, 1024, 1025, u64::MAX]);
    let most = queue.workers_most();
    let workers = random.pick(&[0, 1, 2, most, most + 1, 64, u64::MAX]);
    let mut schedule = Schedule::new(making, workers);
    for _ in 0..random.below(3) {
        schedule.push(random.below(10) as u64, 0);
    }
    if random.once_in(2) {
        schedule.words.push(0);
    }
    schedule
}
