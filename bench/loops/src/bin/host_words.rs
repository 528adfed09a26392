//! host_words FILE...: a host's `step` in plain Rust on the words that the face is lent, beside plain Rust that keeps its own structs.

use loops::{plain_steps, race, Told};
use plain::words;

fn on_words(list: &[u64]) -> Told {
    let mut w = words::Words::new(list[0], list[1]);
    for (place, entry) in list[2..].chunks_exact(2).enumerate() {
        let refusal = words::step(&mut w.head, &mut w.slots, &mut w.records, entry[0], entry[1]);
        if refusal != 0 {
            return (refusal, [place as u64, w.head[4], w.head[5], w.head[6]]);
        }
    }
    (0, [list.len() as u64 / 2 - 1, w.head[4], w.head[5], w.head[6]])
}

fn main() {
    race(on_words, plain_steps);
}
