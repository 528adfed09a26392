//! host_steps FILE...: the same entry by entry, a call of `step` for each: both test before each whether the ring is broken, over all records.

use loops::{plain_steps, race, words, Told};

fn proved(list: &[u64]) -> Told {
    let mut host = words::Host::new(list[0], list[1]);
    for (place, entry) in list[2..].chunks_exact(2).enumerate() {
        let refusal = host.step(entry[0], entry[1]);
        if refusal != 0 {
            return host.told(refusal, place as u64);
        }
    }
    host.told(0, list.len() as u64 / 2 - 1)
}

fn main() {
    race(proved, plain_steps);
}
