//! held FILE...: the proved `run` beside the plain one, on words in memory.

use loops::{called, race, Told};
use plain::{Machine, Queue};

extern "C" {
    fn bench_run(capacity: u64, workers: u64, edition: u64, schedule: *const u64, length: usize, told: *mut [u64; 4]) -> u64;
}

fn proved(list: &[u64]) -> Told {
    called(bench_run, list)
}

fn plain(list: &[u64]) -> Told {
    let mut m = Machine::new(list[0], list[1], 1).expect("a machine");
    let (refusal, place) = m.run(&list[2..]);
    (refusal, [place, m.head, m.tail, m.meter])
}

fn main() {
    race(proved, plain);
}
