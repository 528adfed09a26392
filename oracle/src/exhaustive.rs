//! Every schedule of a few calls at once: two on rings of one and two slots, three on the one-slot queue, two on the unbounded queue
//! when it is fresh and where a block ends.
//!
//! Either all sequences of so many acts (which busy worker goes, and code 8 or, at a weak exchange, code 9), after which the
//! calls are ended in turn so that the contents are seen. Or the compact set, without a bound: every act from every state that
//! can be reached, each in a schedule that ends right after it, so that all slots are compared after each act.

use crate::call::code::{CLOSE, FORCE_PUSH, IS_EMPTY, LEN, POP, PUSH};
use crate::drive::{Program, Run};
use crate::interleaved::end_all_calls;
use crate::machine::Machine;
use crate::queue::{Making, Queue};
use crate::schedule::{whole_call, Schedule};
use std::collections::{HashSet, VecDeque};

#[derive(Clone, Copy)]
pub enum Extent {
    Depth(usize),
    Compact,
}

/// How the queue stands when the calls begin.
#[derive(Clone, Copy, Debug)]
pub struct Preload {
    making: Making,
    /// Items pushed and popped before.
    pub gone: u64,
    pub held: u64,
    pub closed: bool,
}

pub fn drive(run: &mut Run, extent: Extent) -> Result<(), String> {
    for (preload, calls) in cases(run.queue) {
        match extent {
            Extent::Depth(depth) => deep(run, depth, preload, &calls)?,
            Extent::Compact => compact(run, preload, &calls)?,
        }
    }
    run.flush()
}

/// How the queue stands, and the codes of the calls, one for each worker.
pub fn cases(queue: Queue) -> Vec<(Preload, Vec<u64>)> {
    match queue {
        Queue::Bounded { .. } => crossed(&rings(queue), &pairs()),
        Queue::Single => crossed(&preloads(Making::Single, &[1]), &threes()),
        Queue::Unbounded => {
            let of = |gone, held| Preload { making: Making::Unbounded, gone, held, closed: false };
            let mut all = crossed(&[of(0, 0)], &pairs_without_force_push());
            // Where a block ends: tail at its last slot; head there too; tail in the next block; two slots left to be popped.
            for (gone, held, pairs) in [
                (0, 30, [[PUSH, PUSH], [PUSH, POP], [PUSH, LEN], [PUSH, CLOSE]].as_slice()),
                (30, 0, &[[PUSH, PUSH], [PUSH, POP]]),
                (30, 1, &[[POP, POP], [POP, LEN], [POP, IS_EMPTY]]),
                (29, 2, &[[POP, POP]]),
            ] {
                all.extend(pairs.iter().map(|pair| (of(gone, held), pair.to_vec())));
            }
            all
        }
    }
}

/// Rings of one and two slots, as the calls find them.
pub fn rings(queue: Queue) -> Vec<Preload> {
    let Queue::Bounded { .. } = queue else { return Vec::new() };
    let rings = [1, 2].map(|capacity| queue.making(capacity));
    rings.iter().flat_map(|ring| preloads(*ring, &[0, 1])).collect()
}

fn crossed(preloads: &[Preload], calls: &[Vec<u64>]) -> Vec<(Preload, Vec<u64>)> {
    preloads.iter().flat_map(|preload| calls.iter().map(|calls| (*preload, calls.clone()))).collect()
}

/// Empty, partly full and full, open and closed, with so many items gone before: a ring on a later lap, a slot with an old value in it.
fn preloads(making: Making, gone: &[u64]) -> Vec<Preload> {
    let mut all = Vec::new();
    for gone in gone.iter().copied() {
        for held in 0..=making.room() as u64 {
            all.extend([false, true].map(|closed| Preload { making, gone, held, closed }));
        }
    }
    all
}

/// Each two calls, in both orders.
fn pairs() -> Vec<Vec<u64>> {
    (0..64).map(|pair| vec![pair / 8, pair % 8]).collect()
}

/// Each two calls of the unbounded queue, in one order.
fn pairs_without_force_push() -> Vec<Vec<u64>> {
    pairs().into_iter().filter(|pair| pair.is_sorted() && !pair.contains(&FORCE_PUSH)).collect()
}

/// Each three calls, in one order: workers differ in nothing but their numbers.
fn threes() -> Vec<Vec<u64>> {
    let all = (0..512).map(|three| vec![three / 64, three / 8 % 8, three % 8]);
    all.filter(|three| three.is_sorted()).collect()
}

/// All sequences of acts of these calls, up to their ends or so many acts.
fn deep(run: &mut Run, depth: usize, preload: Preload, calls: &[u64]) -> Result<(), String> {
    let mut open = vec![Vec::new()];
    while let Some(path) = open.pop() {
        let (mut schedule, mut machine) = walked(preload, calls, &path);
        let options = machine.acts();
        if options.is_empty() || path.len() == depth {
            end_all_calls(&mut schedule, &mut machine);
            run.add(schedule)?;
        } else {
            open.extend(options.iter().map(|option| [path.as_slice(), &[*option]].concat()));
        }
    }
    Ok(())
}

/// Every act from every state, by a shortest way to the state.
fn compact(run: &mut Run, preload: Preload, calls: &[u64]) -> Result<(), String> {
    let mut seen = HashSet::new();
    let mut open = VecDeque::from([Vec::new()]);
    while let Some(path) = open.pop_front() {
        let (schedule, machine) = walked(preload, calls, &path);
        run.add(schedule)?;
        if seen.insert(snapshot(&machine, run.program)) {
            open.extend(machine.acts().iter().map(|option| [path.as_slice(), &[*option]].concat()));
        }
    }
    Ok(())
}

/// The queue loaded, all calls begun, and the acts of a path done.
fn walked(preload: Preload, calls: &[u64], path: &[u64]) -> (Schedule, Machine) {
    let (mut schedule, mut machine) = begun(preload, calls);
    for first in path {
        assert_eq!(machine.enter(*first, 0), 0);
        schedule.push(*first, 0);
    }
    (schedule, machine)
}

pub fn begun(preload: Preload, calls: &[u64]) -> (Schedule, Machine) {
    let workers = calls.len() as u64;
    let mut schedule = Schedule::new(preload.making, workers);
    let mut machine = Machine::make(preload.making, workers).expect("within the limits");
    let mut whole = |code, item| whole_call(&mut schedule, &mut machine, code, item);
    for item in 0..preload.gone {
        whole(PUSH, 11 + item);
        whole(POP, 0);
    }
    for item in 0..preload.held {
        whole(PUSH, 21 + item);
    }
    if preload.closed {
        whole(CLOSE, 0);
    }
    for (worker, code) in calls.iter().enumerate() {
        let item = if *code <= 1 { 31 + worker as u64 } else { 0 };
        let first = 16 * worker as u64 + code;
        assert_eq!(machine.enter(first, item), 0);
        schedule.push(first, item);
    }
    (schedule, machine)
}

/// All but the meter, which no act looks at below its limit, and what workers have lost, which none looks at; where causes are shown,
/// also what they would be told by, and where answers are held to the plain queue, also what that would be.
fn snapshot(machine: &Machine, program: Program) -> String {
    let causes = program.shows_causes();
    let states: Vec<_> = (0..machine.workers() as u64).filter_map(|worker| machine.state(worker)).collect();
    let told_by: Vec<_> = (0..machine.workers()).filter(|_| causes).map(|worker| machine.would_be(worker)).collect();
    let mut shown = String::new();
    machine.source().write_words(&mut shown);
    machine.source().write_slots(&mut shown);
    let plain = if program.tells_plain() { machine.plain().shown() } else { String::new() };
    format!("{shown} {states:?} {told_by:?} {plain}")
}
