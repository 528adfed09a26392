//! What the races share: processor time, a schedule's words, five runs of each in turns. Each race is a program of its own, since a plain loop with
//! two callers in one program is compiled otherwise, and slower.

pub mod words;

use plain::{stray, Machine, Queue};
use std::process::exit;

extern "C" {
    fn clock_gettime(clock: i32, time: *mut [i64; 2]) -> i32;
}

/// A function of the proved library: a machine of so many slots, workers and this edition is made, and a schedule run on it.
pub type Exported = unsafe extern "C" fn(u64, u64, u64, *const u64, usize, *mut [u64; 4]) -> u64;

/// The same of a queue that has no capacity.
pub type ByWorkers = unsafe extern "C" fn(u64, *const u64, usize, *mut [u64; 4]) -> u64;

/// The refusal; place, head, tail and meter (of the one-slot queue: state and value in place of head and tail).
pub type Told = (u64, [u64; 4]);

pub fn called(function: Exported, list: &[u64]) -> Told {
    let mut told = [0; 4];
    let entries = &list[2..];
    // SAFETY: the slice is as long as is said, and told is four words.
    let refusal = unsafe { function(list[0], list[1], 1, entries.as_ptr(), entries.len(), &mut told) };
    (refusal, told)
}

pub fn called_by_workers(function: ByWorkers, list: &[u64]) -> Told {
    let mut told = [0; 4];
    let entries = &list[1..];
    // SAFETY: the slice is as long as is said, and told is four words.
    let refusal = unsafe { function(list[0], entries.as_ptr(), entries.len(), &mut told) };
    (refusal, told)
}

/// The plain machine of up to 64 workers, which tests once whether it is broken, and a schedule run on it.
pub fn plain_judged(list: &[u64]) -> Told {
    // so that the test is made, and of a machine that nothing is known of
    let mut m = std::hint::black_box(Machine::of_at_most(64, list[0], list[1], 1).expect("a machine"));
    if m.broken() {
        return (6, [0; 4]);
    }
    let (refusal, place) = m.run(&list[2..]);
    (refusal, [place, m.head, m.tail, m.meter])
}

/// Nothing is known of the machine from one step to the next, as of words that a host lends.
#[inline(never)]
fn step(m: &mut Machine, entry: &[u64]) -> u64 {
    if m.broken() {
        return 6;
    }
    if stray(entry[0], entry[1]) {
        return 9;
    }
    m.step(entry[0], entry[1])
}

/// Entry by entry, each time with the test whether the machine is broken, over all records.
pub fn plain_steps(list: &[u64]) -> Told {
    let mut m = Machine::of_at_most(64, list[0], list[1], 1).expect("a machine");
    for (place, entry) in list[2..].chunks_exact(2).enumerate() {
        let refusal = step(&mut m, entry);
        if refusal != 0 {
            return (refusal, [place as u64, m.head, m.tail, m.meter]);
        }
    }
    (0, [list.len() as u64 / 2 - 1, m.head, m.tail, m.meter])
}

/// The processor time of this process so far, in seconds: what other programs take does not count.
fn processor() -> f64 {
    const PROCESS: i32 = 2; // CLOCK_PROCESS_CPUTIME_ID
    let mut time = [0; 2];
    // SAFETY: the two words of a timespec.
    unsafe { clock_gettime(PROCESS, &mut time) };
    time[0] as f64 + time[1] as f64 / 1e9
}

fn timed(run: fn(&[u64]) -> Told, list: &[u64], least: &mut f64) -> Told {
    let begun = processor();
    let told = std::hint::black_box(run(std::hint::black_box(list)));
    *least = least.min(processor() - begun);
    told
}

fn read(file: &str) -> Vec<u64> {
    let text = std::fs::read(file).unwrap_or_else(|e| {
        eprintln!("loops: {file}: {e}");
        exit(2)
    });
    plain::numbers(&text).expect("a schedule")
}

/// The least time of each of the two, in nanoseconds an entry.
fn raced(file: &str, ours: fn(&[u64]) -> Told, theirs: fn(&[u64]) -> Told, list: &[u64]) -> (f64, f64) {
    let (mut a, mut b) = (f64::MAX, f64::MAX);
    for _ in 0..5 {
        if timed(ours, list, &mut a) != timed(theirs, list, &mut b) {
            eprintln!("loops: {file}: the two do not answer alike");
            exit(1)
        }
    }
    // what makes the machine is two words, or one
    let entry = 1e9 / ((list.len() - 1) / 2) as f64;
    (a * entry, b * entry)
}

/// Of each schedule that the arguments name: the least processor time of each of the two in nanoseconds an entry, and their ratio; ends with status 1 where they do not answer alike.
pub fn race(ours: fn(&[u64]) -> Told, theirs: fn(&[u64]) -> Told) {
    for file in std::env::args().skip(1) {
        let (a, b) = raced(&file, ours, theirs, &read(&file));
        println!("{file} {a:.2} {b:.2} {:.2}", a / b);
    }
}
