//! told [--edition N] [--held] [--losses] [--runs]: what replay prints of the schedules on its standard input (separated and followed by lines `%`), by the face that a host links; for the judge to compare.
//! With --held more than 16 workers are refused here, as the machine that holds its records refuses them, and the face is not asked. With --runs each schedule goes to `run`, in pieces, and the line of the last entry stands for all (as replay --quiet tells it).

use fernmoldew::{Refusal, Ring, Stopped, Workers, HEAD_WORDS, SLOT_WORDS};
use host::number;
use host::replay::{each_schedule, replayed, unmade, Told};
use std::fmt::Write as _;
use std::io;

struct Asked {
    edition: u64,
    held: bool,
    losses: bool,
    runs: bool,
}

#[derive(Clone, Debug, PartialEq)]
struct Lent {
    ring: Ring,
    workers: Workers,
    capacity: u64,
    losses: bool,
}

impl Told for Lent {
    fn step(&mut self, first: u64, second: u64) -> Result<(), Refusal> {
        self.ring.step(&mut self.workers, first, second)
    }

    fn run(&mut self, schedule: &[u64]) -> Result<u64, Stopped> {
        self.ring.run(&mut self.workers, schedule)
    }

    fn contents(&self) -> Result<Vec<u64>, Refusal> {
        self.ring.contents(&self.workers)
    }

    fn ends(&self) -> String {
        let head = self.ring.head_words();
        format!("h={} t={} m={}", head[4], head[5], head[6])
    }

    fn worker(&self, worker: u64) -> String {
        let record = usize::try_from(worker).ok().and_then(|w| self.workers.words().chunks_exact(5).nth(w));
        let mut told = record.map_or("-".into(), host::told);
        if self.losses {
            told += &record.map_or(" lost=-".into(), |record| format!(" lost={},{}", record[3], record[4]));
        }
        told
    }

    fn slots(&self) -> String {
        let mut line = String::from("slots");
        for slot in self.ring.slot_words().chunks_exact(2).take(self.capacity as usize) {
            let _ = write!(line, " ({},{})", slot[0], slot[1]);
        }
        line
    }
}

fn told(asked: &Asked, list: &[u64]) -> String {
    let (capacity, count) = (list[0], list[1]);
    let mut workers = Workers::new(usize::try_from(count).unwrap_or(usize::MAX).min(1 << 16));
    let mut ring = Ring::from_words([0; HEAD_WORDS], Box::new([0; SLOT_WORDS]));
    let made = ring.make(&mut workers, capacity, asked.edition);
    let refused = if made.is_ok() && asked.held && count > 16 { 2 } else { number(&made) };
    if refused != 0 {
        return unmade(refused, "h=0 t=0 m=0", "slots");
    }
    replayed(Lent { ring, workers, capacity, losses: asked.losses }, &list[2..], asked.runs)
}

fn main() -> io::Result<()> {
    let mut asked = Asked { edition: 1, held: false, losses: false, runs: false };
    let mut args = std::env::args().skip(1);
    while let Some(arg) = args.next() {
        match arg.as_str() {
            "--edition" => asked.edition = args.next().and_then(|n| n.parse().ok()).expect("a number"),
            "--held" => asked.held = true,
            "--losses" => asked.losses = true,
            "--runs" => asked.runs = true,
            _ => panic!("told: {arg}?"),
        }
    }
    each_schedule(|list| told(&asked, list))
}
