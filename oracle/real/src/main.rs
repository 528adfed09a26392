//! real QUEUE CAPACITY WORKERS CALLS SEED MIX [SLIP]: so many calls by so many threads on the unmodified source, with the standard library's atomics, as a log with two times of one clock.
//!
//! QUEUE is bounded, single or unbounded; MIX is a row of MIXES; SLIP the number, from 0, of a slip that is planted in a copy of bounded.rs. At its end worker 0 pops until nothing waits, so
//! that what was lost is missed. `real slips` names the slips. Threads that come no further for so long are given up: their calls have no answer.

extern crate alloc;
// The sources import `CachePadded` from this crate; ours stands below.
extern crate self as crossbeam_utils;

mod sync;

#[allow(dead_code, clippy::all)]
mod bounded {
    include!("../../src/bounded.rs");
}
#[allow(dead_code, clippy::all)]
mod single {
    include!("../../src/single.rs");
}
#[allow(dead_code, clippy::all)]
mod unbounded {
    include!("../../src/unbounded.rs");
}

use std::cell::UnsafeCell;
use std::io::{self, BufWriter, Write};
use std::sync::atomic::{AtomicUsize, Ordering};
use std::sync::{Arc, Barrier};
use std::time::{Duration, Instant};
use std::{env, process, thread};

/// `crossbeam_utils::CachePadded`: on a line of its own.
#[repr(align(128))]
pub struct CachePadded<T>(T);

include!("../../src/alike.rs");

// As in the crate's lib.rs.
pub enum PushError<T> {
    Full(T),
    Closed(T),
}

pub struct ForcePushError<T>(pub T);

pub enum PopError {
    Empty,
    Closed,
}

fn busy_wait() {
    thread::yield_now();
}

/// As in the crate's lib.rs: on x86 an instruction with a lock.
#[inline]
fn full_fence() {
    #[cfg(target_arch = "x86_64")]
    {
        let a = UnsafeCell::new(0_usize);
        // SAFETY: the word is this function's own.
        unsafe {
            core::arch::asm!("lock not qword ptr [{0}]", in(reg) a.get(), options(nostack, preserves_flags));
        }
    }
    #[cfg(not(target_arch = "x86_64"))]
    core::sync::atomic::fence(Ordering::SeqCst);
}

/// What a call answered.
#[derive(Clone, Copy)]
enum Answer {
    None,
    Pushed,
    Full,
    Closed,
    Displaced(u64),
    Popped(u64),
    Empty,
    Len(usize),
    Yes,
    No,
}

trait Queue {
    fn push(&self, item: u64) -> Answer;
    fn force_push(&self, item: u64) -> Answer;
    fn pop(&self) -> Answer;
    fn len(&self) -> usize;
    fn is_empty(&self) -> bool;
    fn is_full(&self) -> bool;
    fn close(&self) -> bool;
    fn is_closed(&self) -> bool;
}

/// As the crate's `ConcurrentQueue` says of itself.
struct Shared(Box<dyn Queue>);
// SAFETY: items are numbers, and every call of the sources may be made by any thread.
unsafe impl Send for Shared {}
unsafe impl Sync for Shared {}

fn pushed(result: Result<(), PushError<u64>>) -> Answer {
    match result {
        Ok(()) => Answer::Pushed,
        Err(PushError::Full(_)) => Answer::Full,
        Err(PushError::Closed(_)) => Answer::Closed,
    }
}

fn forced(result: Result<Option<u64>, ForcePushError<u64>>) -> Answer {
    match result {
        Ok(None) => Answer::Pushed,
        Ok(Some(item)) => Answer::Displaced(item),
        Err(_) => Answer::Closed,
    }
}

fn popped(result: Result<u64, PopError>) -> Answer {
    match result {
        Ok(item) => Answer::Popped(item),
        Err(PopError::Empty) => Answer::Empty,
        Err(PopError::Closed) => Answer::Closed,
    }
}

macro_rules! calls {
    () => {
        fn push(&self, item: u64) -> Answer {
            pushed(self.push(item))
        }
        fn pop(&self) -> Answer {
            popped(self.pop())
        }
        fn len(&self) -> usize {
            self.len()
        }
        fn is_empty(&self) -> bool {
            self.is_empty()
        }
        fn is_full(&self) -> bool {
            self.is_full()
        }
        fn close(&self) -> bool {
            self.close()
        }
        fn is_closed(&self) -> bool {
            self.is_closed()
        }
    };
}

macro_rules! bounded {
    ($module:ident) => {
        impl Queue for $module::Bounded<u64> {
            calls!();
            fn force_push(&self, item: u64) -> Answer {
                forced(self.force_push(item))
            }
        }
    };
}

bounded!(bounded);

impl Queue for single::Single<u64> {
    calls!();
    fn force_push(&self, item: u64) -> Answer {
        forced(self.force_push(item))
    }
}

impl Queue for unbounded::Unbounded<u64> {
    calls!();
    fn force_push(&self, item: u64) -> Answer {
        pushed(self.push(item))
    }
}

include!("slips.rs");
include!(concat!(env!("OUT_DIR"), "/slips.rs"));

const CALLS: [&str; 8] = ["push", "force_push", "pop", "len", "is_empty", "is_full", "close", "is_closed"];
/// How often each call is drawn; a close comes at three quarters of a worker's calls where the last column says so.
const MIXES: [(&str, [u64; 8], bool); 5] = [
    ("move", [1, 0, 1, 0, 0, 0, 0, 0], false),
    ("force", [2, 1, 3, 0, 0, 0, 0, 0], false),
    ("look", [6, 0, 6, 1, 1, 1, 0, 1], false),
    ("all", [6, 2, 8, 1, 1, 1, 0, 1], false),
    ("close", [6, 2, 8, 1, 1, 1, 0, 1], true),
];

#[derive(Clone, Copy)]
struct Entry {
    code: usize,
    item: u64,
    from: u64,
    to: u64,
    answer: Answer,
}

/// What one worker has called: written by it alone, read up to the counts.
struct Book {
    entries: Box<[UnsafeCell<Entry>]>,
    begun: AtomicUsize,
    done: AtomicUsize,
}

// SAFETY: an entry is written before the count that covers it is stored, and not after.
unsafe impl Sync for Book {}

impl Book {
    fn new(room: usize) -> Book {
        let blank = Entry { code: 0, item: 0, from: 0, to: 0, answer: Answer::None };
        Book {
            entries: (0..room).map(|_| UnsafeCell::new(blank)).collect(),
            begun: AtomicUsize::new(0),
            done: AtomicUsize::new(0),
        }
    }

    /// A call, between two times.
    fn call(&self, queue: &dyn Queue, clock: Instant, code: usize, item: u64) -> Answer {
        let at = self.done.load(Ordering::Relaxed);
        let entry = self.entries[at].get();
        let yes_if = |is: bool| if is { Answer::Yes } else { Answer::No };
        // SAFETY: no count covers it yet, and this worker alone writes.
        unsafe { *entry = Entry { code, item, from: clock.elapsed().as_nanos() as u64, to: 0, answer: Answer::None } };
        self.begun.store(at + 1, Ordering::Release);
        let answer = match code {
            0 => queue.push(item),
            1 => queue.force_push(item),
            2 => queue.pop(),
            3 => Answer::Len(queue.len()),
            4 => yes_if(queue.is_empty()),
            5 => yes_if(queue.is_full()),
            6 => yes_if(queue.close()),
            _ => yes_if(queue.is_closed()),
        };
        let to = clock.elapsed().as_nanos() as u64;
        // SAFETY: begun covers its first fields, which are not written again; done does not cover these.
        unsafe {
            (*entry).to = to;
            (*entry).answer = answer;
        }
        self.done.store(at + 1, Ordering::Release);
        answer
    }
}

fn draw(state: &mut u64) -> u64 {
    *state = state.wrapping_add(0x9E37_79B9_7F4A_7C15);
    let mut z = *state;
    z = (z ^ (z >> 30)).wrapping_mul(0xBF58_476D_1CE4_E5B9);
    z = (z ^ (z >> 27)).wrapping_mul(0x94D0_49BB_1331_11EB);
    z ^ (z >> 31)
}

/// Threads that come no further for so long are given up.
const PATIENCE: Duration = Duration::from_secs(5);

fn main() {
    let words: Vec<String> = env::args().skip(1).collect();
    if words.first().is_some_and(|word| word == "slips") {
        for (name, _, _) in SLIPS {
            println!("{name}");
        }
        return;
    }
    let number = |at: usize| words[at].parse::<u64>().expect("a number");
    let (capacity, workers, calls, seed) = (number(1) as usize, number(2), number(3), number(4));
    let (_, weights, closes) = MIXES.into_iter().find(|mix| mix.0 == words[5]).expect("a mix");
    let queue = Arc::new(Shared(match (words[0].as_str(), words.get(6)) {
        ("bounded", Some(slip)) => slipped(slip.parse().expect("a number"), capacity),
        ("bounded", None) => Box::new(bounded::Bounded::new(capacity)),
        ("single", _) => Box::new(single::Single::new()),
        ("unbounded", _) => Box::new(unbounded::Unbounded::new()),
        _ => panic!("bounded, single or unbounded"),
    }));
    let share = (calls / workers) as usize;
    let most = if words[0] == "unbounded" { calls as usize } else { capacity };
    let books: Arc<Vec<Book>> =
        Arc::new((0..workers).map(|worker| Book::new(share + if worker == 0 { most + 2 } else { 0 })).collect());
    let barrier = Arc::new(Barrier::new(workers as usize));
    let clock = Instant::now();
    for worker in 0..workers {
        let (queue, books, barrier): (Arc<Shared>, _, _) = (queue.clone(), books.clone(), barrier.clone());
        thread::spawn(move || {
            let mut state = seed.wrapping_mul(1_000_003).wrapping_add(worker);
            let total: u64 = weights.iter().sum();
            barrier.wait();
            for at in 0..share {
                let mut left = draw(&mut state) % total;
                let mut code = 0;
                while left >= weights[code] {
                    left -= weights[code];
                    code += 1;
                }
                if closes && at == share * 3 / 4 {
                    code = 6;
                }
                let item = if code < 2 { worker * 100_000_000 + at as u64 + 1 } else { 0 };
                books[worker as usize].call(&*queue.0, clock, code, item);
            }
        });
    }
    let ended = |books: &[Book], share: usize| books.iter().all(|book| book.done.load(Ordering::Acquire) >= share);
    let (mut last, mut since) = (0, Instant::now());
    while !ended(&books, share) {
        thread::sleep(Duration::from_millis(5));
        let now = books.iter().map(|book| book.done.load(Ordering::Acquire)).sum();
        if now > last {
            (last, since) = (now, Instant::now());
        } else if since.elapsed() > PATIENCE {
            break;
        }
    }
    if ended(&books, share) {
        for _ in 0..=most {
            if !matches!(books[0].call(&*queue.0, clock, 2, 0), Answer::Popped(_)) {
                break;
            }
        }
    }
    if let Err(error) = written(&words[0], capacity, &books) {
        eprintln!("real: standard output: {error}");
        process::exit(2);
    }
    // threads that were given up end with it
    process::exit(0);
}

fn written(queue: &str, capacity: usize, books: &[Book]) -> io::Result<()> {
    let mut out = BufWriter::with_capacity(1 << 20, io::stdout().lock());
    if queue == "bounded" {
        writeln!(out, "capacity {capacity}")?;
    }
    writeln!(out, "workers {}", books.len())?;
    for (worker, book) in books.iter().enumerate() {
        let done = book.done.load(Ordering::Acquire);
        for at in 0..book.begun.load(Ordering::Acquire) {
            // SAFETY: a count covers what is read.
            let (code, item, from) = unsafe {
                let entry = book.entries[at].get();
                ((*entry).code, (*entry).item, (*entry).from)
            };
            write!(out, "w{worker} {}", CALLS[code])?;
            if code < 2 {
                write!(out, " {item}")?;
            }
            write!(out, " {from}..")?;
            if at < done {
                // SAFETY: as above.
                let Entry { to, answer, .. } = unsafe { *book.entries[at].get() };
                write!(out, "{to} ")?;
                match answer {
                    Answer::Pushed => write!(out, "pushed")?,
                    Answer::Full => write!(out, "full")?,
                    Answer::Closed => write!(out, "closed")?,
                    Answer::Displaced(item) => write!(out, "displaced {item}")?,
                    Answer::Popped(item) => write!(out, "popped {item}")?,
                    Answer::Empty => write!(out, "empty")?,
                    Answer::Len(count) => write!(out, "len {count}")?,
                    Answer::Yes => write!(out, "yes")?,
                    Answer::No => write!(out, "no")?,
                    Answer::None => write!(out, "?")?,
                }
            }
            writeln!(out)?;
        }
    }
    out.flush()
}
