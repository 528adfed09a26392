//! slot [--runs]: what `replay --queue single` prints of the schedules on its standard input (separated and followed by lines `%`), by the face that a host links; for the judge to compare.
//! After each entry: a refused one has changed no word, the words hold what their codes say, and the same words spoiled in one place are refusal 6 to every call and stay as they are.
//! With --runs each schedule goes to `run`, in pieces, and the line of the last entry stands for all (as replay --quiet tells it).

use fernmoldew::{OneSlot, Refusal, Stopped};
use host::number;
use host::slot::holds;
use host::replay::{each_schedule, replayed, unmade, Told};
use std::io;

#[derive(Clone, Debug, PartialEq)]
struct Slot {
    queue: OneSlot,
    count: u64,
}

impl Told for Slot {
    fn step(&mut self, first: u64, second: u64) -> Result<(), Refusal> {
        self.queue.step(first, second)
    }

    fn run(&mut self, schedule: &[u64]) -> Result<u64, Stopped> {
        self.queue.run(schedule)
    }

    fn contents(&self) -> Result<Vec<u64>, Refusal> {
        self.queue.contents().map(|item| item.into_iter().collect())
    }

    fn ends(&self) -> String {
        format!("s={} m={}", self.queue.head_words()[0], self.queue.meter())
    }

    fn worker(&self, worker: u64) -> String {
        let record = usize::try_from(worker).ok().filter(|_| worker < self.count).and_then(|w| self.queue.record_words().chunks_exact(3).nth(w));
        record.map_or("-".into(), host::slot::told)
    }

    fn slots(&self) -> String {
        format!("value {}", self.queue.head_words()[1])
    }

    /// Words that stand for a machine hold what their codes say.
    fn held(&self) {
        assert_eq!(self.queue.head_words()[4], 2);
        assert!(!self.queue.broken());
        for record in self.queue.record_words().chunks_exact(3) {
            let (first, second) = holds(record[0]);
            assert!(record[0] <= 26 && (first || record[1] == 0) && (second || record[2] == 0), "{record:?}");
        }
    }

    fn spoiled(&self, place: u64, [first, second]: [u64; 2]) {
        let turn = place + self.queue.meter();
        let (mut head, mut records) = (*self.queue.head_words(), *self.queue.record_words());
        let at = 3 * (turn / 8 % 16) as usize;
        let (one, two) = holds(records[at]);
        match turn % 8 {
            0 => head[4] = [0, 1, 3, u64::MAX][(turn / 8 % 4) as usize],
            1 => head[0] += 8 << (turn / 8 % 60),
            2 => head[2] = [0, 17, u64::MAX][(turn / 8 % 3) as usize],
            3 => records[at] = [27, 38, 99, u64::MAX][(turn / 8 % 4) as usize],
            4 if !one => records[at + 1] = 1 + turn,
            4..=5 if !two => records[at + 2] = 1 + turn,
            // a busy record past the count
            _ => records[3 * 15..].copy_from_slice(if head[2] < 16 { &[19, 0, 0] } else { &[27, 0, 0] }),
        }
        let mut slot = OneSlot::from_words(head, records);
        let (was, mut buffer) = (slot.clone(), [7; 3]);
        let six = [
            number(&slot.step(first, second)),
            slot.run(&[first, second]).map_or_else(|Stopped { refusal, place }| refusal.number() + 100 * place, |_| 0),
            number(&slot.contents_into(&mut buffer)),
            6 * u64::from(slot.broken()),
        ];
        assert!(six == [6; 4] && slot == was && buffer == [7; 3], "spoiled by way {}: {six:?} {slot:?}", turn % 8);
    }
}

fn told(runs: bool, list: &[u64]) -> String {
    let count = list[0];
    let mut queue = OneSlot::from_words([9; 5], [99; 48]);
    let before = queue.clone();
    let made = queue.make(count);
    if made.is_err() {
        assert_eq!(queue, before);
        return unmade(number(&made), "s=0 m=0", "value 0");
    }
    replayed(Slot { queue, count }, &list[1..], runs)
}

fn main() -> io::Result<()> {
    let runs = match std::env::args().nth(1).as_deref() {
        None => false,
        Some("--runs") => true,
        Some(arg) => panic!("slot: {arg}?"),
    };
    each_schedule(|list| told(runs, list))
}
