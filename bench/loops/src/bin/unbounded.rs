//! unbounded FILE...: the proved `run` of the unbounded queue beside the plain one, on words in memory.

use loops::{called_by_workers, race, Told};
use plain::{unbounded::Machine, Queue};

extern "C" {
    fn bench_unbounded(workers: u64, schedule: *const u64, length: usize, told: *mut [u64; 4]) -> u64;
}

fn proved(list: &[u64]) -> Told {
    called_by_workers(bench_unbounded, list)
}

fn plain(list: &[u64]) -> Told {
    let mut m = Machine::new(list[0]).expect("a machine");
    let (refusal, place) = m.run(&list[1..]);
    (refusal, [place, m.head, m.tail, m.meter])
}

fn main() {
    race(proved, plain);
}
