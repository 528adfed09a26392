//! A host's `step` in plain Rust on the same words as the face that a host links: eight of the ring, two a slot, five a record (specs/Codes.antt of
//! crates/bounded_codes has the codes), judged and changed where they lie. It tells how much of the face's time is its words and how much is the port.

use crate::{stray, METER};

/// Of edition 1, in a host's memory.
pub struct Words {
    pub head: [u64; 8],
    pub slots: Vec<u64>,
    pub records: Vec<u64>,
}

impl Words {
    pub fn new(capacity: u64, workers: u64) -> Words {
        let mark = (capacity + 1).next_power_of_two();
        let slots = (0..1024).flat_map(|i| [if i < capacity { i } else { 0 }, 0]).collect();
        Words { head: [mark, 2 * mark, capacity, 1, 0, 0, 0, 1], slots, records: vec![0; 5 * workers as usize] }
    }
}

struct Ring {
    mark: u64,
    lap: u64,
    capacity: u64,
    keeps: bool,
}

impl Ring {
    fn index(&self, w: u64) -> u64 {
        w & (self.mark - 1)
    }
    fn next(&self, w: u64) -> u64 {
        let i = self.index(w);
        if i + 1 < self.capacity {
            w.wrapping_add(1)
        } else {
            (w - i).wrapping_add(self.lap)
        }
    }
    fn marked(&self, w: u64) -> bool {
        w & self.mark != 0
    }
    fn inside(&self, w: u64) -> bool {
        self.index(w) < self.capacity
    }
    fn count(&self, t: u64, h: u64) -> u64 {
        let (tix, hix) = (self.index(t), self.index(h));
        if hix < tix {
            tix - hix
        } else if hix > tix {
            self.capacity - hix + tix
        } else if t & !self.mark == h {
            0
        } else {
            self.capacity
        }
    }
}

/// Whether a record stands for a place whose loaded words fit the ring.
fn fits(r: &Ring, meter: u64, w: &[u64; 5]) -> bool {
    let [code, a, b, differed, failed] = *w;
    differed <= meter
        && failed <= meter
        && match code {
            0..=5 | 33..=38 => a == 0 && b == 0,
            6..=14 => b == 0,
            15..=19 => b == 0 && !r.marked(a) && r.inside(a),
            20 => b == 0 && r.inside(a),
            21 => r.inside(a) && r.inside(b),
            22..=32 => !r.marked(a) && r.inside(a),
            _ => false,
        }
}

/// One entry: 0, or the refusal. Nothing is known of the words from one entry to the next.
#[inline(never)]
pub fn step(head: &mut [u64], slots: &mut [u64], records: &mut [u64], first: u64, second: u64) -> u64 {
    let (Ok(head), Ok(slots)) = (<&mut [u64; 8]>::try_from(head), <&mut [u64; 2048]>::try_from(slots)) else {
        return 6;
    };
    if records.len() % 5 != 0 || head[7] != 1 {
        return 6;
    }
    let r = Ring { mark: head[0], lap: head[1], capacity: head[2], keeps: head[3] == 2 };
    if !(1..=1024).contains(&r.capacity) || !(1..=2).contains(&head[3]) || !(1..=64).contains(&(records.len() / 5)) {
        return 6;
    }
    let mark = (r.capacity + 1).next_power_of_two();
    if r.mark != mark || r.lap != 2 * mark {
        return 6;
    }
    if r.marked(head[4]) || !r.inside(head[4]) || !r.inside(head[5]) {
        return 6;
    }
    let meter = head[6];
    if !records.chunks_exact(5).all(|w| fits(&r, meter, w.try_into().unwrap())) {
        return 6;
    }
    if stray(first, second) {
        return 9;
    }
    let w = (first / 16) as usize;
    let call = first % 16;
    let Some(record) = records.chunks_exact_mut(5).nth(w) else {
        return 3;
    };
    let record: &mut [u64; 5] = record.try_into().unwrap();
    let [code, a, b, _, _] = *record;
    if call < 8 {
        if code >= 11 {
            return 4;
        }
        *record = match call {
            0 => [11, second, 0, 0, 0],
            1 => [12, second, 0, 0, 0],
            2 => [33, 0, 0, 0, 0],
            n => [31 + n, 0, 0, 0, 0],
        };
        return 0;
    }
    if code < 11 {
        return 5;
    }
    if meter >= METER {
        return 7;
    }
    let lose = call == 9;
    if lose && !matches!(code, 17 | 24 | 25 | 28) {
        return 8;
    }
    let at = 2 * (r.index(a) as usize & 1023);
    let (h, t) = (head[4], head[5]);
    let yes_no = |yes: bool| if yes { [4, 0, 0] } else { [5, 0, 0] };
    let after_tail = |force: u64, t: u64, item: u64| {
        if r.marked(t) {
            [7, item, 0]
        } else {
            [22 + force, t, item]
        }
    };
    let [code, a, b] = match code {
        11 | 12 => after_tail(code - 11, t, a),
        22 | 23 => {
            let s = slots[at];
            if s == a {
                [code + 2, a, b]
            } else if s.wrapping_add(r.lap) == a.wrapping_add(1) {
                if code == 23 {
                    [28, a, b]
                } else {
                    [27, a, b]
                }
            } else {
                [code - 11, b, 0]
            }
        }
        24 | 25 => {
            if t != a {
                record[3] += 1;
                after_tail(code - 24, t, b)
            } else if lose {
                record[4] += 1;
                [code - 2, a, b]
            } else {
                head[5] = r.next(a);
                [26, a, b]
            }
        }
        26 => {
            slots[at + 1] = b;
            [15, a, 0]
        }
        15 => {
            slots[at] = a.wrapping_add(1);
            [1, 0, 0]
        }
        27 => {
            if h.wrapping_add(r.lap) == a {
                [6, b, 0]
            } else {
                [11, b, 0]
            }
        }
        28 => {
            if h != a.wrapping_sub(r.lap) {
                record[3] += 1;
                [12, b, 0]
            } else if lose {
                record[4] += 1;
                [12, b, 0]
            } else {
                head[4] = r.next(a).wrapping_sub(r.lap);
                [29, a, b]
            }
        }
        29 => {
            head[5] = r.next(a) | if r.keeps { t & r.mark } else { 0 };
            [30, a, b]
        }
        30 => {
            let old = slots[at + 1];
            slots[at + 1] = b;
            [31, a, old]
        }
        31 => {
            slots[at] = a.wrapping_add(1);
            [8, b, 0]
        }
        33 => [16, h, 0],
        16 => {
            let s = slots[at];
            if s == a.wrapping_add(1) {
                [17, a, 0]
            } else if s == a {
                [19, a, 0]
            } else {
                [33, 0, 0]
            }
        }
        17 => {
            if h != a {
                record[3] += 1;
                [16, h, 0]
            } else if lose {
                record[4] += 1;
                [16, a, 0]
            } else {
                head[4] = r.next(a);
                [18, a, 0]
            }
        }
        18 => [32, a, slots[at + 1]],
        32 => {
            slots[at] = a.wrapping_add(r.lap);
            [9, b, 0]
        }
        19 => {
            if t & !r.mark != a {
                [33, 0, 0]
            } else if r.marked(t) {
                [3, 0, 0]
            } else {
                [2, 0, 0]
            }
        }
        34 => [20, t, 0],
        20 => [21, a, h],
        21 => {
            if t == a {
                [10, r.count(a, b), 0]
            } else {
                [34, 0, 0]
            }
        }
        35 => [13, h, 0],
        13 => yes_no(t & !r.mark == a),
        36 => [14, t, 0],
        14 => yes_no(h.wrapping_add(r.lap) == a & !r.mark),
        37 => {
            head[5] = t | r.mark;
            yes_no(!r.marked(t))
        }
        _ => yes_no(r.marked(t)),
    };
    record[..3].copy_from_slice(&[code, a, b]);
    head[6] = meter + 1;
    0
}
