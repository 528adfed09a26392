//! lent FILE...: the same of a ring that is lent its records, up to 64; both test once whether it is broken.

use loops::{called, plain_judged, race, Told};

extern "C" {
    fn bench_lent(capacity: u64, records: u64, edition: u64, schedule: *const u64, length: usize, told: *mut [u64; 4]) -> u64;
}

fn proved(list: &[u64]) -> Told {
    called(bench_lent, list)
}

fn main() {
    race(proved, plain_judged);
}
