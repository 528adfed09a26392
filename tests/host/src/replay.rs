//! What replay prints of schedules, by a face that a host links: one way for every queue. After each call that is refused no word has changed.

use crate::number;
use fernmoldew::{Refusal, Stopped};
use plain::Queue;
use std::fmt::{Debug, Write as _};
use std::io::{self, BufWriter, Read, Write};

/// A queue in a host's memory, its workers' records with it.
pub trait Told: Clone + Debug + PartialEq {
    /// Why a schedule is refused as a whole, and where, if it is.
    fn refused_whole(entries: &[u64]) -> Option<(u64, u64)> {
        plain::Machine::refused_whole(entries)
    }

    fn step(&mut self, first: u64, second: u64) -> Result<(), Refusal>;

    fn run(&mut self, schedule: &[u64]) -> Result<u64, Stopped>;

    fn contents(&self) -> Result<Vec<u64>, Refusal>;

    /// Its words and its meter, as every line has them.
    fn ends(&self) -> String;

    /// Where a worker stands, as the line of its entry has it.
    fn worker(&self, worker: u64) -> String;

    /// The line of its slots, or several, or none.
    fn slots(&self) -> String;

    /// Fails where its words are not as they should be.
    fn held(&self) {}

    /// Fails where the words spoiled in one place, which the entry's own place decides, are taken.
    fn spoiled(&self, _place: u64, _entry: [u64; 2]) {}
}

/// A schedule in pieces of seven entries, each a call of `run`, or, where it is refused as a whole, in one: refusal and place.
fn run<T: Told>(queue: &mut T, entries: &[u64]) -> (u64, u64) {
    if let Some(whole) = T::refused_whole(entries) {
        let before = queue.clone();
        let Err(Stopped { refusal, place }) = queue.run(entries) else { panic!("{entries:?} was run") };
        assert_eq!((refusal.number(), place), whole);
        assert_eq!(*queue, before);
        return whole;
    }
    let mut done = 0;
    for piece in entries.chunks(14) {
        match queue.run(piece) {
            Ok(count) => done += count,
            Err(Stopped { refusal, place }) => return (refusal.number(), done + place),
        }
    }
    (0, done)
}

/// A line for each entry, or with `runs` the last one's, and what stands at the end.
pub fn replayed<T: Told>(mut queue: T, entries: &[u64], runs: bool) -> String {
    let mut out = String::from("made 0\n");
    if runs || T::refused_whole(entries).is_some() {
        let (refusal, place) = run(&mut queue, entries);
        queue.held();
        let _ = writeln!(out, "{place} {refusal} {}", queue.ends());
    } else {
        for (place, entry) in (0..).zip(entries.chunks_exact(2)) {
            let before = queue.clone();
            let stepped = queue.step(entry[0], entry[1]);
            let w = entry[0] / 16;
            let _ = writeln!(out, "{place} {} {} w{w}={}", number(&stepped), queue.ends(), queue.worker(w));
            queue.held();
            queue.spoiled(place, [entry[0], entry[1]]);
            if stepped.is_err() {
                assert_eq!(queue, before);
                break;
            }
        }
    }
    let _ = write!(out, "{}contents", ended(&queue.slots()));
    match queue.contents() {
        Ok(items) => {
            for item in items {
                let _ = write!(out, " {item}");
            }
        }
        Err(refusal) => {
            let _ = write!(out, " refused {}", refusal.number());
        }
    }
    out.push('\n');
    out
}

fn ended(lines: &str) -> String {
    if lines.is_empty() { String::new() } else { format!("{lines}\n") }
}

/// What is printed where none is made: of the blank queue, which is broken.
pub fn unmade(refusal: u64, ends: &str, slots: &str) -> String {
    format!("made {refusal}\n0 6 {ends}\n{}contents refused 6\n", ended(slots))
}

/// Each schedule of standard input, separated and followed by lines `%`, as `told` tells its numbers.
pub fn each_schedule(told: impl Fn(&[u64]) -> String) -> io::Result<()> {
    let mut text = String::new();
    io::stdin().read_to_string(&mut text)?;
    let mut out = BufWriter::new(io::stdout().lock());
    for schedule in text.split("%\n") {
        let list = plain::numbers(schedule.as_bytes()).expect("numbers");
        out.write_all(told(&list).as_bytes())?;
        out.write_all(b"%\n")?;
    }
    out.flush()
}
