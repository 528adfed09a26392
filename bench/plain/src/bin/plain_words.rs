//! plain_words FILE..: each schedule entry by entry on the plain machine and on the words that a host lends; ends with status 1 where they part, in a refusal, an end, the
//! meter, a slot or a record.

use plain::{words, Answer, Machine, Place, Queue, Worker};
use std::process::exit;

fn coded(worker: &Worker) -> [u64; 5] {
    use {Answer::*, Place::*};
    let [code, first, second] = match worker.place {
        Idle(Nothing) => [0, 0, 0],
        Idle(Pushed) => [1, 0, 0],
        Idle(Empty) => [2, 0, 0],
        Idle(PopClosed) => [3, 0, 0],
        Idle(Yes) => [4, 0, 0],
        Idle(No) => [5, 0, 0],
        Idle(Full(x)) => [6, x, 0],
        Idle(Closed(x)) => [7, x, 0],
        Idle(Displaced(x)) => [8, x, 0],
        Idle(Popped(x)) => [9, x, 0],
        Idle(Len(x)) => [10, x, 0],
        P1 { force, item } => [11 + force as u64, item, 0],
        Empty2 { h } => [13, h, 0],
        Full2 { t } => [14, t, 0],
        P5 { t } => [15, t, 0],
        O2 { h } => [16, h, 0],
        O3 { h } => [17, h, 0],
        O4 { h } => [18, h, 0],
        O6 { h } => [19, h, 0],
        Len2 { t } => [20, t, 0],
        Len3 { t, h } => [21, t, h],
        P2 { force, t, item } => [22 + force as u64, t, item],
        P3 { force, t, item } => [24 + force as u64, t, item],
        P4 { t, item } => [26, t, item],
        P6 { t, item } => [27, t, item],
        F6 { t, item } => [28, t, item],
        F7 { t, item } => [29, t, item],
        F8 { t, item } => [30, t, item],
        F9 { t, old } => [31, t, old],
        O5 { h, value } => [32, h, value],
        O1 => [33, 0, 0],
        Len1 => [34, 0, 0],
        Empty1 => [35, 0, 0],
        Full1 => [36, 0, 0],
        Close1 => [37, 0, 0],
        IsClosed1 => [38, 0, 0],
    };
    [code, first, second, worker.differed, worker.failed]
}

fn main() {
    for file in std::env::args().skip(1) {
        let list = plain::numbers(&std::fs::read(&file).expect("a file")).expect("a schedule");
        let mut m = Machine::of_at_most(64, list[0], list[1], 1).expect("a machine");
        let mut w = words::Words::new(list[0], list[1]);
        for (place, entry) in list[2..].chunks_exact(2).enumerate() {
            let refusal = if plain::stray(entry[0], entry[1]) { 9 } else { m.step(entry[0], entry[1]) };
            let alike = words::step(&mut w.head, &mut w.slots, &mut w.records, entry[0], entry[1]) == refusal
                && w.head[4..7] == [m.head, m.tail, m.meter]
                && m.slots.iter().flat_map(|s| [s.stamp, s.value]).eq(w.slots[..2 * m.slots.len()].iter().copied())
                && m.workers.iter().flat_map(coded).eq(w.records.iter().copied());
            if !alike {
                eprintln!("plain_words: {file}: entry {place}: not alike");
                exit(1)
            }
        }
    }
}
