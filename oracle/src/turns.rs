//! Schedules in which a ring's sixteen-bit words come round (document 02, item 14), on small rings with three workers.
//!
//! A turn is what it takes until head and tail have the same words again. Through nearly all of it one worker displaces, six acts to a claim of each end, while
//! the others sleep in a call with the words that they have loaded, for less time than item 14 allows. Around the place where the words begin anew all three
//! are awake and call anything. After the last turn closes come too.

use crate::call::code::{FORCE_PUSH, LEN, POP, PUSH};
use crate::drive::Run;
use crate::interleaved::{end_all_calls, mixed};
use crate::machine::Machine;
use crate::queue::{Bits, Making, Queue};
use crate::random::Random;
use crate::schedule::{whole_call, Schedule};
use crate::stage::Word;
use std::ops::RangeInclusive;

const WORKERS: u64 = 3;
/// Claims of tail before the words begin anew when the others wake up; entries at a time from then on, and at least once after it.
const AWAKE_BEFORE: u64 = 80;
const AWAKE: usize = 1000;

/// One schedule of so many turns for each of these capacities.
pub fn drive(run: &mut Run, turns: u64, seed: u64, capacities: RangeInclusive<u64>) -> Result<(), String> {
    if !matches!(run.queue, Queue::Bounded { bits: Bits::Sixteen, .. }) {
        return Err("turns are of --bits 16 alone".into());
    }
    let mut random = Random::new(seed);
    for capacity in capacities {
        run.add(schedule(&mut random, run.queue.making(capacity), capacity, turns))?;
    }
    run.flush()
}

pub fn schedule(random: &mut Random, making: Making, capacity: u64, turns: u64) -> Schedule {
    let mut schedule = Schedule::new(making, WORKERS);
    let mut machine = Machine::make(making, WORKERS).expect("within the limits");
    for _ in 0..turns {
        end_all_calls(&mut schedule, &mut machine);
        (1..WORKERS).for_each(|worker| asleep(random, &mut schedule, &mut machine, worker));
        while claims_left(&machine, capacity) > AWAKE_BEFORE {
            whole_call(&mut schedule, &mut machine, FORCE_PUSH, random.item());
        }
        end_all_calls(&mut schedule, &mut machine);
        while claims_left(&machine, capacity) <= AWAKE_BEFORE {
            mixed(random, &mut schedule, &mut machine, AWAKE, AWAKE);
        }
        mixed(random, &mut schedule, &mut machine, AWAKE, AWAKE);
    }
    mixed(random, &mut schedule, &mut machine, AWAKE, 0);
    end_all_calls(&mut schedule, &mut machine);
    schedule
}

/// One or two acts into a call, with nothing in hand: who has a slot in hand stops the one that is awake.
fn asleep(random: &mut Random, schedule: &mut Schedule, machine: &mut Machine, worker: u64) {
    let code = random.pick(&[PUSH, FORCE_PUSH, POP, LEN]);
    let item = if code <= FORCE_PUSH { random.item() } else { 0 };
    let acts = 1 + random.below(2);
    for (code, item) in std::iter::once((code, item)).chain(std::iter::repeat_n((8, 0), acts)) {
        assert_eq!(machine.enter(16 * worker + code, item), 0);
        schedule.push(16 * worker + code, item);
    }
}

/// Claims of tail until its word is 0 again.
fn claims_left(machine: &Machine, capacity: u64) -> u64 {
    let lap = 2 * (capacity + 1).next_power_of_two();
    let tail = machine.word(Word::Tail);
    capacity * (65_536 / lap - tail / lap) - tail % lap
}
