//! The fixed list: schedules and the output of each, for tests that have no Rust at hand.

use crate::call::code::{CLOSE, IS_CLOSED, IS_EMPTY, IS_FULL, LEN, POP, PUSH};
use crate::facts::Refusal;
use crate::interleaved::{self, refused_whole};
use crate::machine::Machine;
use crate::queue::{Facts, Making, Queue};
use crate::random::Random;
use crate::schedule::{join, run, whole_call, Schedule, Show, SEPARATOR};
use crate::sequential;
use crate::tally::Tally;

/// The input and the output, as texts.
pub fn list(queue: Queue, seed: u64) -> (String, String) {
    let mut random = Random::new(seed);
    let mut schedules = match queue {
        Queue::Bounded { .. } => ring(&mut random, queue),
        Queue::Single => one_slot(&mut random),
        Queue::Unbounded => blocks(&mut random),
    };
    schedules.extend((0..8).map(|_| refused_whole(queue, &mut random)));
    let mut tally = Tally::new(queue);
    let mut out = judged(&schedules, &mut tally);
    // Rare places are left to chance, but not whether they come.
    while !tally.complete(left_out(queue)) {
        let more = interleaved::schedule(&mut random, queue.making(1), 3, 0, 150);
        out += &judged(std::slice::from_ref(&more), &mut tally);
        schedules.push(more);
    }
    (header(queue, seed) + &join(&schedules) + &footer(&tally), out)
}

/// Refusals that a schedule can meet but that are not in the list: 23 needs all blocks taken, which takes 11,000 entries.
fn left_out(queue: Queue) -> &'static [Refusal] {
    match queue {
        Queue::Bounded { .. } | Queue::Single => &[],
        Queue::Unbounded => &[23],
    }
}

fn ring(random: &mut Random, queue: Queue) -> Vec<Schedule> {
    let of = |capacity| queue.making(capacity);
    let mut schedules = runs_on_paper(of);
    let limits = [(0, 1), (1025, 1), (1, 1), (1024, 16), (1, 0), (1, 17), (0, 0), (1025, 17)];
    schedules.extend(limits.map(|(capacity, workers)| Schedule::new(of(capacity), workers)));
    schedules.extend(refusals(of(2)));
    schedules.push(Schedule { making: of(0), workers: 1, words: vec![8] });
    schedules.extend([1, 2, 3].map(of).map(closed_full_and_emptied));
    schedules.extend([255, 256, 257, 512, 1023, 1024].map(of).map(full_and_round));
    schedules.extend([1, 2, 3, 4, 5, 7, 8].map(of).iter().flat_map(|making| any(random, *making)));
    schedules
}

fn one_slot(random: &mut Random) -> Vec<Schedule> {
    let mut schedules = one_slot_runs();
    schedules.extend([0, 1, 16, 17].map(|workers| Schedule::new(Making::Single, workers)));
    schedules.extend(refusals(Making::Single));
    schedules.push(Schedule { making: Making::Single, workers: 0, words: vec![8] });
    schedules.push(closed_full_and_emptied(Making::Single));
    schedules.extend((0..3).flat_map(|_| any(random, Making::Single)));
    schedules
}

fn blocks(random: &mut Random) -> Vec<Schedule> {
    let mut schedules =
        vec![first_block(), first_block_raced(), one_block_after_another(), end_of_a_block(), last_reader()];
    schedules.extend([0, 1, 16, 17].map(|workers| Schedule::new(Making::Unbounded, workers)));
    schedules.extend(refusals(Making::Unbounded));
    let more: [&[(u64, u64)]; 2] = [
        &[(1, 5)],                                                         // 9: no force_push
        &[(0, 5), (8, 0), (8, 0), (8, 0), (8, 0), (8, 0), (9, 0), (9, 0)], // a lost exchange, then 8
    ];
    schedules.extend(more.map(|entries| of_entries(Making::Unbounded, entries)));
    schedules.push(Schedule { making: Making::Unbounded, workers: 0, words: vec![8] });
    schedules.extend((0..2).flat_map(|_| any(random, Making::Unbounded)));
    // From items in most of a block on, so that its end is passed.
    schedules.extend([2, 3, 16].map(|workers| interleaved::schedule(random, Making::Unbounded, workers, 28, 400)));
    schedules
}

/// A random schedule of calls one after another, and three of interleaved acts.
fn any(random: &mut Random, making: Making) -> Vec<Schedule> {
    let mut schedules = vec![sequential::schedule(random, making, 40)];
    schedules.extend([2, 3, 16].map(|workers| interleaved::schedule(random, making, workers, 0, 150)));
    schedules
}

fn judged(schedules: &[Schedule], tally: &mut Tally) -> String {
    schedules.iter().map(|schedule| run(schedule, Show::default(), tally) + SEPARATOR + "\n").collect()
}

fn header(queue: Queue, seed: u64) -> String {
    let Facts { name, list, begins_with, .. } = queue.facts();
    let option = if queue == Queue::RING { String::new() } else { queue.options() + " " };
    let left_out =
        if left_out(queue).is_empty() { "" } else { "# Nor is 23: all blocks are taken after some 11,000 entries.\n" };
    format!(
        "# The fixed list, made by `judge list {option}--seed {seed}`: the unmodified {name}.rs of concurrent-queue 2.5.0, run one
# action at a time, gave the outputs in {list}.out. Schedules stand in replay's input format ({begins_with}, then pairs;
# '#' starts a comment) and are separated by a line with a single percent sign; each output is followed by such a line.
# Not in the list: refusal 6 but after a refused making, 7 (it needs 4,294,967,295 acts) and 10 (a schedule has no buffer).
{left_out}"
    )
}

fn footer(tally: &Tally) -> String {
    let counts: String = tally.to_string().lines().map(|line| format!("# {line}\n")).collect();
    format!("# How often each place, answer, refusal and ending of an exchange was seen in the whole list:\n{counts}")
}

/// A schedule written down together with the machine that runs it.
struct Writer {
    schedule: Schedule,
    machine: Machine,
}

impl Writer {
    fn new(making: Making, workers: u64) -> Writer {
        Writer {
            schedule: Schedule::new(making, workers),
            machine: Machine::make(making, workers).expect("within the limits"),
        }
    }

    /// Whole calls, each from its begin to its answer.
    fn calls(&mut self, calls: &[(u64, u64)]) {
        for (first, item) in calls {
            whole_call(&mut self.schedule, &mut self.machine, *first, *item);
        }
    }

    fn entry(&mut self, first: u64, item: u64) {
        assert_eq!(self.machine.enter(first, item), 0);
        self.schedule.push(first, item);
    }

    /// Acts to the answer.
    fn end(&mut self, worker: u64) {
        while self.machine.busy(worker) {
            self.acts(worker, 1);
        }
    }

    fn acts(&mut self, worker: u64, count: usize) {
        for _ in 0..count {
            self.entry(16 * worker + 8, 0);
        }
    }
}

/// Document 01's runs B to G: B to E in one, then F and G.
fn runs_on_paper(of: impl Fn(u64) -> Making) -> Vec<Schedule> {
    let mut b_to_e = Writer::new(of(2), 1);
    b_to_e.calls(&[(0, 5), (0, 6), (2, 0), (0, 7), (0, 8), (1, 8), (6, 0), (0, 9), (2, 0), (2, 0), (2, 0)]);
    let mut f = Writer::new(of(1), 2);
    f.calls(&[(0, 7)]);
    f.entry(1, 8);
    f.acts(0, 2);
    f.calls(&[(16 + 6, 0)]);
    f.acts(0, 4);
    f.calls(&[(16 + 7, 0)]);
    let mut g = Writer::new(of(1), 2);
    g.calls(&[(0, 7)]);
    g.entry(1, 8);
    g.acts(0, 3);
    g.calls(&[(16 + 3, 0), (16 + 4, 0)]);
    g.entry(16 + 2, 0);
    g.acts(1, 2);
    vec![b_to_e.schedule, f.schedule, g.schedule]
}

/// The run of request 1, and the two oddities that are kept: with worker 0's pop at C3 push answers Full, and pop Empty or, once
/// closed, Closed. The last leaves an item in the closed queue.
fn one_slot_runs() -> Vec<Schedule> {
    let mut whole = Writer::new(Making::Single, 1);
    whole.calls(&[(0, 5), (2, 0), (0, 6), (0, 7), (1, 8), (6, 0), (0, 9), (1, 9), (2, 0), (2, 0)]);
    let mut odd = Writer::new(Making::Single, 2);
    odd.calls(&[(0, 5)]);
    odd.entry(2, 0);
    odd.acts(0, 2);
    odd.calls(&[(16, 6), (16 + 2, 0), (16 + 6, 0), (16 + 2, 0), (16, 7)]);
    odd.acts(0, 1);
    let mut held = Writer::new(Making::Single, 1);
    held.calls(&[(0, 5), (1, 6), (6, 0)]);
    vec![whole.schedule, odd.schedule, held.schedule]
}

const LOOKS: [(u64, u64); 4] = [(LEN, 0), (IS_EMPTY, 0), (IS_FULL, 0), (IS_CLOSED, 0)];

/// The first push installs a block; empty again, closed, and the answers then.
fn first_block() -> Schedule {
    let mut writer = Writer::new(Making::Unbounded, 1);
    for call in [(POP, 0), (PUSH, 5), (PUSH, 6), (POP, 0), (POP, 0), (POP, 0), (PUSH, 7), (CLOSE, 0)] {
        writer.calls(&[call]);
        writer.calls(&LOOKS);
    }
    writer.calls(&[(CLOSE, 0), (PUSH, 8), (POP, 0), (POP, 0)]);
    writer.schedule
}

/// Three pushes take a first block. Worker 0 installs its own; worker 1 passes it before head has the block, so that worker 3's pop finds
/// none; worker 2 finds the queue closed. The blocks not installed go back.
fn first_block_raced() -> Schedule {
    let mut writer = Writer::new(Making::Unbounded, 5);
    for worker in 0..3 {
        writer.entry(16 * worker + PUSH, 5 + worker);
        writer.acts(worker, 3);
    }
    writer.acts(0, 1);
    writer.acts(1, 6);
    writer.entry(3 * 16 + POP, 0);
    writer.acts(3, 3);
    writer.acts(0, 1);
    writer.calls(&[(4 * 16 + CLOSE, 0)]);
    for worker in [2, 0, 1, 3] {
        writer.end(worker);
    }
    writer.schedule
}

/// So many items in that three blocks are taken, and all but one out, which frees two; and some more, with blocks that were freed.
fn one_block_after_another() -> Schedule {
    let mut writer = Writer::new(Making::Unbounded, 1);
    for items in [63, 40] {
        (0..items).for_each(|item| writer.calls(&[(PUSH, 100 + item)]));
        writer.calls(&LOOKS);
        (1..items).for_each(|_| writer.calls(&[(POP, 0)]));
        writer.calls(&LOOKS);
    }
    writer.schedule
}

/// Worker 0 has won a block's last slot and not yet moved tail past its end: len and is_empty look on, and worker 1, with a block set aside
/// for nothing, waits. Then the same at head, where worker 2 waits for the next block and for the value, and worker 3 for head; worker 4
/// looks on where both stand at the end.
fn end_of_a_block() -> Schedule {
    let mut writer = Writer::new(Making::Unbounded, 5);
    (0..30).for_each(|item| writer.calls(&[(PUSH, 100 + item)]));
    for worker in 0..2 {
        writer.entry(16 * worker + PUSH, 130 + worker);
        writer.acts(worker, 3);
    }
    writer.acts(0, 1);
    writer.calls(&[(2 * 16 + LEN, 0), (2 * 16 + IS_EMPTY, 0)]);
    writer.acts(1, 5);
    writer.acts(0, 1);
    writer.acts(1, 2);
    (0..30).for_each(|_| writer.calls(&[(2 * 16 + POP, 0)]));
    for worker in 2..4 {
        writer.entry(16 * worker + POP, 0);
        writer.acts(worker, 3);
    }
    writer.acts(2, 3);
    writer.acts(3, 4);
    writer.calls(&LOOKS.map(|(code, item)| (4 * 16 + code, item)));
    writer.acts(0, 1);
    writer.acts(2, 1);
    writer.acts(0, 1);
    writer.acts(2, 5);
    (0..4).for_each(|worker| writer.end(worker));
    writer.schedule
}

/// Readers are still at slots 3, 7 and 29 when the last slot's reader, worker 0, begins to destroy the block. The one at 3 goes on where
/// worker 0 stopped; the one at 7 is done just before it would be asked to; the one at 29 frees the block.
fn last_reader() -> Schedule {
    let mut writer = Writer::new(Making::Unbounded, 4);
    (0..33).for_each(|item| writer.calls(&[(PUSH, 100 + item)]));
    for slot in 0..30 {
        match [3, 7, 29].iter().position(|late| *late == slot) {
            None => writer.calls(&[(POP, 0)]),
            Some(late) => {
                let worker = 1 + late as u64;
                writer.entry(16 * worker + POP, 0);
                writer.acts(worker, 5);
            }
        }
    }
    writer.calls(&[(POP, 0)]);
    writer.acts(1, 5);
    [2, 1, 3].into_iter().for_each(|worker| writer.end(worker));
    writer.schedule
}

/// Each refusal of an entry by itself, the order where two would apply, and an odd number of words.
fn refusals(making: Making) -> Vec<Schedule> {
    let refused: [&[(u64, u64)]; 19] = [
        &[(0, 5), (8, 0), (16 + 8, 0)],            // 3: act of no worker
        &[(16 * 16, 5)],                           // 3: begin of no worker
        &[(0, 5), (0, 6)],                         // 4
        &[(2, 0), (8, 0), (3, 0)],                 // 4
        &[(8, 0)],                                 // 5
        &[(9, 0)],                                 // 5 before 8
        &[(0, 5), (9, 0)],                         // 8
        &[(0, 5), (8, 0), (8, 0), (9, 0), (9, 0)], // a lost exchange, then 8
        &[(10, 0)],                                // 9
        &[(15, 0)],                                // 9
        &[(2, 1)],                                 // 9: an item where none may be
        &[(0, 5), (8, 1)],                         // 9: the same in an act
        &[(8, 1)],                                 // 9 before 5
        &[(16 * 99 + 12, 0)],                      // 9 before 3
        &[(0, 5), (3, 7)],                         // 9 before 4
        &[(0, 5), (8, 0), (11, 0), (8, 0)],        // 9 of the whole: nothing is run
        &[(0, 5), (8, 0), (5, 2), (13, 0)],        // the first of two
        &[(8, 0), (0, 5), (8, 0), (14, 0)],        // 9 although 5 comes before it
        &[(0, 5), (8, 0), (0, 6), (8, 0)],         // nothing is run after a refusal
    ];
    let odd = [vec![0], vec![0, 5, 8], vec![10, 0, 8]];
    let mut all: Vec<Schedule> = refused.map(|entries| of_entries(making, entries)).into();
    all.extend(odd.map(|words| Schedule { making, workers: 1, words }));
    all
}

fn of_entries(making: Making, entries: &[(u64, u64)]) -> Schedule {
    let mut schedule = Schedule::new(making, 1);
    entries.iter().for_each(|(first, second)| schedule.push(*first, *second));
    schedule
}

/// A queue looked at after each call while it fills, is closed, and empties.
fn closed_full_and_emptied(making: Making) -> Schedule {
    let looks = [(3, 0), (4, 0), (5, 0), (7, 0)];
    let capacity = making.room() as u64;
    let mut writer = Writer::new(making, 1);
    let mut call = |code, item| {
        writer.calls(&[(code, item)]);
        writer.calls(&looks);
    };
    (0..=capacity).for_each(|item| call(0, 70 + item));
    call(6, 0);
    call(1, 90);
    (0..=capacity).for_each(|_| call(2, 0));
    call(6, 0);
    writer.schedule
}

/// A large ring filled, found full, displaced in and popped over its end.
fn full_and_round(making: Making) -> Schedule {
    let mut writer = Writer::new(making, 1);
    let pushes: Vec<_> = (0..making.room() as u64).map(|item| (0, 1000 + item)).collect();
    writer.calls(&pushes);
    writer.calls(&[(5, 0), (0, 1), (1, 2), (2, 0), (3, 0), (0, 3), (1, 4), (6, 0), (2, 0), (3, 0), (4, 0)]);
    writer.schedule
}
