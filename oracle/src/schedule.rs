//! Schedules in `replay`'s input format, and the text that `replay` must print for them.

use crate::call::Entry;
use crate::facts::Refusal;
use crate::machine::{Losses, Machine};
use crate::queue::{Making, Queue};
use crate::tally::Tally;
use std::fmt::Write;

/// A line that stands between two schedules, and after each output, where there are several in one text.
pub const SEPARATOR: &str = "%";

/// What the machine is made of and the words of the entries, two to an entry if nothing is wrong.
#[derive(Clone, Debug, PartialEq, Eq)]
pub struct Schedule {
    pub making: Making,
    pub workers: u64,
    pub words: Vec<u64>,
}

impl Schedule {
    pub fn new(making: Making, workers: u64) -> Schedule {
        Schedule { making, workers, words: Vec::new() }
    }

    /// Unsigned decimal numbers separated by white space; `#` starts a comment.
    pub fn parse(queue: Queue, text: &str) -> Result<Schedule, String> {
        let mut numbers = text
            .lines()
            .flat_map(|line| line.split('#').next().unwrap_or("").split_whitespace())
            .map(|word| word.parse::<u64>().map_err(|_| format!("not an unsigned 64-bit number: {word}")));
        let mut need = |what| numbers.next().unwrap_or_else(|| Err(format!("no {what}")));
        let making = match queue {
            Queue::Bounded { .. } => queue.making(need("capacity")?),
            Queue::Single | Queue::Unbounded => queue.making(0),
        };
        let workers = need("number of workers")?;
        let words = numbers.collect::<Result<_, _>>()?;
        Ok(Schedule { making, workers, words })
    }

    pub fn parse_many(queue: Queue, text: &str) -> Result<Vec<Schedule>, String> {
        split(text).iter().map(|part| Schedule::parse(queue, part)).collect()
    }

    /// The input format, an entry to a line.
    pub fn text(&self) -> String {
        let mut text = match self.making {
            Making::Bounded { capacity, .. } => format!("{capacity} "),
            Making::Single | Making::Unbounded => String::new(),
        };
        text += &format!("{}\n", self.workers);
        for entry in self.words.chunks(2) {
            text += &entry.iter().map(u64::to_string).collect::<Vec<_>>().join(" ");
            text += "\n";
        }
        text
    }

    pub fn push(&mut self, first: u64, second: u64) {
        self.words.extend([first, second]);
    }

    pub fn entries(&self) -> impl Iterator<Item = (u64, u64)> + '_ {
        self.words.chunks_exact(2).map(|entry| (entry[0], entry[1]))
    }

    /// The schedule with only its first entries.
    pub fn prefix(&self, entries: usize) -> Schedule {
        let mut prefix = self.clone();
        prefix.words.truncate(2 * entries);
        prefix
    }
}

/// The parts of a text between lines with a single separator; one at the very end begins no further part.
pub fn split(text: &str) -> Vec<String> {
    let mut parts = vec![String::new()];
    for line in text.lines() {
        if line == SEPARATOR {
            parts.push(String::new());
        } else {
            let part = parts.last_mut().expect("never empty");
            part.push_str(line);
            part.push('\n');
        }
    }
    parts.pop_if(|last| last.is_empty());
    parts
}

/// Schedules as one text for a module that takes many.
pub fn join<'a>(schedules: impl IntoIterator<Item = &'a Schedule>) -> String {
    let texts: Vec<_> = schedules.into_iter().map(Schedule::text).collect();
    texts.join(&format!("{SEPARATOR}\n"))
}

/// What is printed of the entries.
#[derive(Clone, Copy, Default)]
pub struct Show {
    /// No line for each, one for the whole.
    pub quiet: bool,
    /// The causes where a call goes back.
    pub causes: bool,
    /// The worker's losses after each.
    pub losses: bool,
    /// The stock after each.
    pub stock: bool,
    /// The moment that an answer is named at.
    pub moments: bool,
    /// Nothing more; but an answer that is not the plain queue's is a fault.
    pub plain: bool,
    /// So beyond the window of sixteen-bit words too.
    pub beyond: bool,
}

/// What `replay` must print.
pub fn run(schedule: &Schedule, show: Show, tally: &mut Tally) -> String {
    tally.schedules += 1;
    let mut out = String::new();
    match Machine::make(schedule.making, schedule.workers) {
        Err(refusal) => refused_making(&mut out, schedule.making.queue(), refusal, tally),
        Ok(mut machine) => {
            if show.beyond {
                machine.judged_beyond_the_window();
            }
            run_on(machine, schedule, show, &mut out, tally)
        }
    }
    out
}

/// The blank machine is broken: refusal 6 for the schedule and for the contents.
fn refused_making(out: &mut String, queue: Queue, refusal: Refusal, tally: &mut Tally) {
    tally.refusal(refusal);
    tally.refusal(6);
    tally.contents_refused[6] += 1;
    let (words, slots) = (queue.facts().blank_words, queue.facts().blank_slots);
    *out = format!("made {refusal}\n0 6 {words} m=0\n{slots}contents refused 6\n");
}

fn run_on(mut machine: Machine, schedule: &Schedule, show: Show, out: &mut String, tally: &mut Tally) {
    out.push_str("made 0\n");
    if let Some((place, refusal)) = refused_whole(schedule) {
        machine.tally.refusal(refusal);
        report(out, place, refusal, &machine);
        out.push('\n');
    } else {
        let (place, refusal) = run_entries(&mut machine, schedule, show, out);
        if show.quiet {
            report(out, place, refusal, &machine);
            out.push('\n');
        }
    }
    tally.add(&machine.tally);
    machine.source().write_slots(out);
    contents(out, machine, show.plain, tally);
}

/// Place and refusal of a schedule of which nothing is run, on a machine that is not broken: 11, then 9 at its first place.
pub fn refused_whole(schedule: &Schedule) -> Option<(usize, Refusal)> {
    if schedule.words.len() % 2 == 1 {
        return Some((0, 11));
    }
    let unreadable = |(first, second): (u64, u64)| Entry::decode(schedule.making.queue(), first % 16, second).is_none();
    schedule.entries().position(unreadable).map(|place| (place, 9))
}

/// Entry by entry to the first refusal. The report: that entry's place and refusal, or the count of entries and 0.
fn run_entries(machine: &mut Machine, schedule: &Schedule, show: Show, out: &mut String) -> (usize, Refusal) {
    for (place, (first, second)) in schedule.entries().enumerate() {
        let refusal = machine.enter(first, second);
        if !show.quiet {
            report(out, place, refusal, machine);
            worker(out, machine, first / 16);
            if let Some(causes) = machine.because().filter(|_| show.causes) {
                let _ = write!(out, " because={causes}");
            }
            if show.losses {
                losses(out, machine, first / 16);
            }
            if show.stock {
                let _ = write!(out, " stock={}", machine.stock());
            }
            if let Some(moment) = machine.plain().moment().filter(|_| show.moments) {
                let _ = write!(out, " at={moment}");
            }
            out.push('\n');
            if show.moments && machine.window().leaves() {
                let _ = writeln!(out, "left the window at entry {place}");
            }
        }
        if refusal != 0 {
            return (place, refusal);
        }
    }
    (schedule.words.len() / 2, 0)
}

// Writing to a `String` cannot fail, so the results of `write!` are let go below.

fn report(out: &mut String, place: usize, refusal: Refusal, machine: &Machine) {
    let _ = write!(out, "{place} {refusal} ");
    machine.source().write_words(out);
    let _ = write!(out, " m={}", machine.meter());
}

fn worker(out: &mut String, machine: &Machine, worker: u64) {
    let _ = match machine.state(worker) {
        Some(state) => write!(out, " w{worker}={state}"),
        None => write!(out, " w{worker}=-"),
    };
}

fn losses(out: &mut String, machine: &Machine, worker: u64) {
    let _ = match machine.losses(worker) {
        Some(Losses { differed, failed }) => write!(out, " lost={differed},{failed}"),
        None => write!(out, " lost=-"),
    };
}

fn contents(out: &mut String, machine: Machine, checks_plain: bool, tally: &mut Tally) {
    out.push_str("contents");
    let (contents, mut plain) = machine.ended();
    match contents {
        Ok(items) => {
            plain.left(&items);
            tally.items_met += items.len() as u64;
            for item in items {
                let _ = write!(out, " {item}");
            }
        }
        Err(refusal) => {
            tally.contents_refused[refusal as usize] += 1;
            let _ = write!(out, " refused {refusal}");
        }
    }
    out.push('\n');
    tally.count_plain(&plain);
    if checks_plain && tally.fault.is_none() {
        tally.fault = plain.fault().cloned();
    }
}

/// A call from its begin to its answer.
pub fn whole_call(schedule: &mut Schedule, machine: &mut Machine, first: u64, item: u64) {
    assert_eq!(machine.enter(first, item), 0);
    schedule.push(first, item);
    let worker = first / 16;
    while machine.busy(worker) {
        assert_eq!(machine.enter(16 * worker + 8, 0), 0);
        schedule.push(16 * worker + 8, 0);
    }
}
