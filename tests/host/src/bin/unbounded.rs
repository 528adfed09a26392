//! unbounded [--runs]: what `replay --queue unbounded` prints of the schedules on its standard input (separated and followed by lines `%`), by the face that a host links; for the judge to compare.
//! After each entry: a refused one has changed no word, the words hold what their codes say, and the same words spoiled in one place are refusal 6 to every call and stay as they are.
//! With --runs each schedule goes to `run`, in pieces, and the line of the last entry stands for all (as replay --quiet tells it).

use fernmoldew::{Refusal, Stopped, Unbounded};
use host::number;
use host::replay::{each_schedule, replayed, unmade, Told};
use host::unbounded::{block, holds};
use plain::Queue as _;
use std::fmt::Write as _;
use std::io;

#[derive(Clone, Debug, PartialEq)]
struct Queue {
    queue: Unbounded,
    count: u64,
}

impl Told for Queue {
    fn refused_whole(entries: &[u64]) -> Option<(u64, u64)> {
        plain::unbounded::Machine::refused_whole(entries)
    }

    fn step(&mut self, first: u64, second: u64) -> Result<(), Refusal> {
        self.queue.step(first, second)
    }

    fn run(&mut self, schedule: &[u64]) -> Result<u64, Stopped> {
        self.queue.run(schedule)
    }

    fn contents(&self) -> Result<Vec<u64>, Refusal> {
        self.queue.contents()
    }

    fn ends(&self) -> String {
        let [head, front, tail, back, _, meter, ..] = *self.queue.head_words();
        format!("h={head} hb={} t={tail} tb={} m={meter}", block(front), block(back))
    }

    fn worker(&self, worker: u64) -> String {
        let record = usize::try_from(worker).ok().filter(|_| worker < self.count).and_then(|w| self.queue.record_words().chunks_exact(5).nth(w));
        record.map_or("-".into(), host::unbounded::told)
    }

    /// A line for each block that is taken.
    fn slots(&self) -> String {
        let mut out = String::new();
        for (k, words) in self.queue.pool_words().chunks_exact(64).enumerate().filter(|(_, words)| words[1] == 0) {
            let _ = write!(out, "{}block {k} next={}", if out.is_empty() { "" } else { "\n" }, block(words[0]));
            for slot in words[2..].chunks_exact(2) {
                let _ = write!(out, " ({},{})", slot[0], slot[1]);
            }
        }
        out
    }

    /// Words that stand for a machine hold what their codes say.
    fn held(&self) {
        let head = self.queue.head_words();
        assert_eq!(head[6..], [0, 3]);
        assert!(!self.queue.broken());
        assert!(self.queue.pool_words().chunks_exact(64).all(|words| words[1] < 2));
        for record in self.queue.record_words().chunks_exact(5) {
            let held = holds(record).unwrap_or_else(|| panic!("{record:?}"));
            assert!(record[1 + held..].iter().all(|&word| word == 0), "{record:?}");
        }
    }

    fn spoiled(&self, place: u64, [first, second]: [u64; 2]) {
        let turn = place + self.queue.meter();
        if turn % 4 != 0 {
            return; // each of these takes five calls on all words
        }
        let turn = turn / 4;
        let (mut head, mut pool, mut records) = (*self.queue.head_words(), Box::new(*self.queue.pool_words()), *self.queue.record_words());
        let at = 5 * (turn / 8 % 16) as usize;
        let held = holds(&records[at..at + 5]).expect("a code");
        match turn % 8 {
            0 => head[7] = [0, 1, 2, u64::MAX][(turn / 8 % 4) as usize],
            1 => head[6] = 1 + turn,
            2 => head[4] = [0, 17, u64::MAX][(turn / 8 % 3) as usize],
            3 => records[at] = [6, 8, 49, u64::MAX][(turn / 8 % 4) as usize],
            4 if held < 4 => records[at + 1 + held] = 1 + turn,
            5 => pool[64 * (turn / 8 % 64) as usize + 1] = 2 + turn,
            // a pointer to a block that there is none of, which the next use finds
            6 => records[at..at + 5].copy_from_slice(&[if head[4] as usize > at / 5 { 40 } else { 26 }, 65, 0, 0, 0]),
            // a busy record past the count, or one that uses no block
            _ => records[75..].copy_from_slice(if head[4] < 16 { &[26, 0, 0, 0, 0] } else { &[40, 64, 0, 0, 0] }),
        }
        let mut queue = Unbounded::from_words(head, pool, records);
        let (was, mut buffer) = (queue.clone(), [7; 3]);
        let six = [
            number(&queue.step(first, second)),
            queue.run(&[first, second]).map_or_else(|Stopped { refusal, place }| refusal.number() + 100 * place, |_| 0),
            number(&queue.contents_into(&mut buffer)),
            6 * u64::from(queue.broken()),
        ];
        assert!(six == [6; 4] && queue == was && buffer == [7; 3], "spoiled by way {}: {six:?}", turn % 8);
    }
}

fn told(runs: bool, list: &[u64]) -> String {
    let count = list[0];
    let mut queue = Unbounded::from_words([9; 8], Box::new([99; 4096]), [99; 80]);
    let before = queue.clone();
    let made = queue.make(count);
    if made.is_err() {
        assert_eq!(queue, before);
        return unmade(number(&made), "h=0 hb=- t=0 tb=- m=0", "");
    }
    replayed(Queue { queue, count }, &list[1..], runs)
}

fn main() -> io::Result<()> {
    let runs = match std::env::args().nth(1).as_deref() {
        None => false,
        Some("--runs") => true,
        Some(arg) => panic!("unbounded: {arg}?"),
    };
    each_schedule(|list| told(runs, list))
}
