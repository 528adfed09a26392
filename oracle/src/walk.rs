//! Request 10: every sequence of acts from where a schedule leaves its machine, and the text that `walk` must print for them.
//!
//! The source cannot be stepped back, so each sequence has a queue of its own: the schedule is run on it, then the acts.

use crate::facts::Refusal;
use crate::machine::Machine;
use crate::schedule::{refused_whole, Schedule};
use crate::tally::Tally;
use std::fmt::Write;

const WORKERS_MOST: usize = 3;
pub const DEPTH_MOST: u64 = 12;

/// What is asked of a walk.
#[derive(Clone, Copy)]
pub struct Walk {
    pub depth: u64,
    /// The sequences and nothing else.
    pub list: bool,
    /// The bytes of the buffer, if it is not as long as the list.
    pub buffer: Option<u64>,
}

/// What `walk` must print, or the line with which it refuses.
pub fn run(schedule: &Schedule, walk: Walk, tally: &mut Tally) -> Result<String, String> {
    tally.schedules += 1;
    refused(&reached(schedule)?, walk.depth)?;
    let (mut list, mut sequences, mut bytes) = (String::new(), 0, 0);
    let mut counts: Vec<Counts> = (0..=schedule.workers).map(|_| Counts::default()).collect();
    each_sequence(schedule, walk.depth as usize, |acts, machine| {
        sequences += 1;
        bytes += 1 + acts.len() as u64;
        tally.add(&machine.tally);
        if walk.list {
            list += &words(acts);
            list.push('\n');
        } else {
            count(&mut counts, acts, machine);
        }
    });
    tally.sequences += sequences;
    tally.sequence_bytes += bytes;
    match walk.buffer {
        Some(buffer) if buffer < bytes => {
            let what = format!("the list has {sequences} sequences in {bytes} bytes, and the buffer {buffer}");
            Err(refused_as(22, &what))
        }
        _ if walk.list => Ok(list),
        _ => Ok(format!("walked depth={} sequences={sequences} bytes={bytes}\n{}", walk.depth, rows(&counts))),
    }
}

/// The machine that a schedule leaves.
fn reached(schedule: &Schedule) -> Result<Machine, String> {
    let mut machine = Machine::make(schedule.making, schedule.workers).map_err(refused_for)?;
    if let Some((place, refusal)) = refused_whole(schedule) {
        return Err(refused_at(place, refusal));
    }
    for (place, (first, second)) in schedule.entries().enumerate() {
        let refusal = machine.enter(first, second);
        if refusal != 0 {
            return Err(refused_at(place, refusal));
        }
    }
    Ok(machine)
}

/// 19, 20, 21. Refusal 6 is none of them: from a fresh machine the source never comes to a broken one.
fn refused(machine: &Machine, depth: u64) -> Result<(), String> {
    if machine.workers() > WORKERS_MOST || depth > DEPTH_MOST {
        return Err(refused_for(19));
    }
    if let Some(worker) = (0..machine.workers() as u64).find(|worker| !machine.busy(*worker)) {
        return Err(refused_as(20, &format!("worker {worker} is idle")));
    }
    if machine.acts_left() < depth {
        return Err(refused_for(21));
    }
    Ok(())
}

fn refused_as(refusal: Refusal, what: &str) -> String {
    format!("refused {refusal}: {what}")
}

fn refused_for(refusal: Refusal) -> String {
    refused_as(refusal, meaning(refusal))
}

/// 11 is of the whole schedule and has no place.
fn refused_at(place: usize, refusal: Refusal) -> String {
    match refusal {
        11 => refused_for(11),
        _ => refused_as(refusal, &format!("entry {place}: {}", meaning(refusal))),
    }
}

fn meaning(refusal: Refusal) -> &'static str {
    match refusal {
        1 => "a capacity of 0 or above 1,024",
        2 => "a worker count of 0 or above 16",
        3 => "no such worker",
        4 => "a call begun by a busy worker",
        5 => "an act of an idle worker",
        7 => "no act left on the meter",
        8 => "code 9 where the next action is no weak exchange",
        9 => "code above 9, or an item where none may be",
        11 => "an odd number of words",
        18 => "an edition that is not 1 or 2",
        19 => "more than 3 workers, or a depth above 12",
        21 => "fewer acts left on the meter than the depth",
        _ => panic!("refusal {refusal} is given by no schedule and no walk"),
    }
}

/// Hands over every sequence, in order, as the first words of its acts, with the machine at its end.
fn each_sequence(schedule: &Schedule, depth: usize, mut see: impl FnMut(&[u64], &Machine)) {
    let mut acts = Vec::new();
    // What comes after each of them at its place.
    let mut others = Vec::new();
    loop {
        let mut machine = reached(schedule).expect("it was reached before");
        acts.iter().for_each(|first| assert_eq!(machine.enter(*first, 0), 0));
        while acts.len() < depth {
            let mut choices = machine.acts().into_iter();
            let Some(first) = choices.next() else { break };
            assert_eq!(machine.enter(first, 0), 0);
            acts.push(first);
            others.push(choices);
        }
        see(&acts, &machine);
        while let Some(choices) = others.last_mut() {
            acts.pop();
            if let Some(first) = choices.next() {
                acts.push(first);
                break;
            }
            others.pop();
        }
        if others.is_empty() {
            return;
        }
    }
}

/// Acts as the words of a schedule.
fn words(acts: &[u64]) -> String {
    let entries: Vec<_> = acts.iter().map(|first| format!("{first} 0")).collect();
    entries.join(" ")
}

/// Ways to end, in the order in which they were met.
#[derive(Default)]
struct Counts(Vec<Ending>);

struct Ending {
    shown: String,
    sequences: u64,
    /// The first of them.
    shortest: Vec<u64>,
}

impl Counts {
    fn add(&mut self, shown: String, acts: &[u64]) {
        let Some(ending) = self.0.iter_mut().find(|ending| ending.shown == shown) else {
            return self.0.push(Ending { shown, sequences: 1, shortest: acts.into() });
        };
        ending.sequences += 1;
        if acts.len() < ending.shortest.len() {
            ending.shortest = acts.into();
        }
    }
}

/// How a sequence ended: for each worker, and then for all together.
fn count(counts: &mut [Counts], acts: &[u64], machine: &Machine) {
    let mut together = String::from("ends");
    for worker in 0..machine.workers() {
        let shown = worker_at_its_end(machine, worker as u64);
        let _ = write!(together, " {shown}");
        counts[worker].add(shown, acts);
    }
    counts[machine.workers()].add(together, acts);
}

fn worker_at_its_end(machine: &Machine, worker: u64) -> String {
    match machine.state(worker) {
        Some(answer) if !machine.busy(worker) => format!("w{worker}={answer}"),
        _ => format!("w{worker}=busy"),
    }
}

fn rows(counts: &[Counts]) -> String {
    let mut out = String::new();
    for Ending { shown, sequences, shortest } in counts.iter().flat_map(|counts| &counts.0) {
        let _ = writeln!(out, "{}", format!("{shown} sequences={sequences} shortest {}", words(shortest)).trim_end());
    }
    out
}
