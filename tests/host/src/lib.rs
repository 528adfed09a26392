//! A second reading of the words that a host keeps, written from hosts/c/fernmoldew.h and document 01 alone: what a record's words stand for, and which words a plain machine has.

pub mod replay;
pub mod slot;
pub mod unbounded;

use fernmoldew::Refusal;
use plain::{Answer, Machine, Place};

/// The refusal's number, or 0.
pub fn number<T>(answered: &Result<T, Refusal>) -> u64 {
    answered.as_ref().err().map_or(0, |refusal| refusal.number())
}

/// The words of a place of the plain machine.
pub fn place_words(place: Place) -> [u64; 3] {
    use Place::*;
    match place {
        Idle(answer) => match answer {
            Answer::Nothing => [0, 0, 0],
            Answer::Pushed => [1, 0, 0],
            Answer::Empty => [2, 0, 0],
            Answer::PopClosed => [3, 0, 0],
            Answer::Yes => [4, 0, 0],
            Answer::No => [5, 0, 0],
            Answer::Full(x) => [6, x, 0],
            Answer::Closed(x) => [7, x, 0],
            Answer::Displaced(x) => [8, x, 0],
            Answer::Popped(x) => [9, x, 0],
            Answer::Len(n) => [10, n, 0],
        },
        P1 { force, item } => [11 + force as u64, item, 0],
        Empty2 { h } => [13, h, 0],
        Full2 { t } => [14, t, 0],
        P5 { t } => [15, t, 0],
        O2 { h } => [16, h, 0],
        O3 { h } => [17, h, 0],
        O4 { h } => [18, h, 0],
        O6 { h } => [19, h, 0],
        Len2 { t } => [20, t, 0],
        Len3 { t, h } => [21, t, h],
        P2 { force, t, item } => [22 + force as u64, t, item],
        P3 { force, t, item } => [24 + force as u64, t, item],
        P4 { t, item } => [26, t, item],
        P6 { t, item } => [27, t, item],
        F6 { t, item } => [28, t, item],
        F7 { t, item } => [29, t, item],
        F8 { t, item } => [30, t, item],
        F9 { t, old } => [31, t, old],
        O5 { h, value } => [32, h, value],
        O1 => [33, 0, 0],
        Len1 => [34, 0, 0],
        Empty1 => [35, 0, 0],
        Full1 => [36, 0, 0],
        Close1 => [37, 0, 0],
        IsClosed1 => [38, 0, 0],
    }
}

/// How a record's words are told in a line of replay's.
pub fn told(words: &[u64]) -> String {
    let (a, b) = (words[1], words[2]);
    let value = |name: &str| format!("idle:{name}({a})");
    let one = |name: &str| format!("{name}({a})");
    let two = |name: &str| format!("{name}({a},{b})");
    match words[0] {
        0 => "idle:none".into(),
        1 => "idle:pushed".into(),
        2 => "idle:empty".into(),
        3 => "idle:closed".into(),
        4 => "idle:yes".into(),
        5 => "idle:no".into(),
        6 => value("full"),
        7 => value("closed"),
        8 => value("displaced"),
        9 => value("popped"),
        10 => value("len"),
        11 => one("P1:push"),
        12 => one("P1:force"),
        13 => one("empty2"),
        14 => one("full2"),
        15 => one("P5"),
        16 => one("O2"),
        17 => one("O3"),
        18 => one("O4"),
        19 => one("O6"),
        20 => one("len2"),
        21 => two("len3"),
        22 => two("P2:push"),
        23 => two("P2:force"),
        24 => two("P3:push"),
        25 => two("P3:force"),
        26 => two("P4"),
        27 => two("P6"),
        28 => two("F6"),
        29 => two("F7"),
        30 => two("F8"),
        31 => two("F9"),
        32 => two("O5"),
        33 => "O1".into(),
        34 => "len1".into(),
        35 => "empty1".into(),
        36 => "full1".into(),
        37 => "close1".into(),
        38 => "isclosed1".into(),
        code => format!("code {code}"),
    }
}

/// Every word that the plain machine stands for: head, slots, records.
pub fn words_of(m: &Machine, edition: u64) -> (Vec<u64>, Vec<u64>, Vec<u64>) {
    let mark = (m.capacity + 1).next_power_of_two();
    let head = vec![mark, 2 * mark, m.capacity, edition, m.head, m.tail, m.meter, 1];
    let mut slots: Vec<u64> = m.slots.iter().flat_map(|slot| [slot.stamp, slot.value]).collect();
    slots.resize(2048, 0);
    let records = m
        .workers
        .iter()
        .flat_map(|worker| {
            let [code, first, second] = place_words(worker.place);
            [code, first, second, worker.differed, worker.failed]
        })
        .collect();
    (head, slots, records)
}
