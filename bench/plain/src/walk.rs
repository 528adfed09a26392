//! Every sequence of acts from a ring's machine: each act is done where the machine lies, and undone on the way back.

use crate::Place::{self, *};
use crate::{Machine, METER};

pub const DEPTH: usize = 12;

/// The word whose slot an act may change; any, where there is none.
fn word(place: Place) -> u64 {
    match place {
        P2 { t, .. } | P3 { t, .. } | P4 { t, .. } | P5 { t } | P6 { t, .. } | F6 { t, .. } | F7 { t, .. } | F8 { t, .. } | F9 { t, .. } => t,
        O2 { h } | O3 { h } | O4 { h } | O5 { h, .. } | O6 { h } => h,
        _ => 0,
    }
}

impl Machine {
    /// Refusal 19, 20 or 21.
    pub fn walk_refusal(&self, depth: usize) -> Option<u64> {
        if self.workers.len() > 3 || depth > DEPTH {
            return Some(19);
        }
        if self.workers.iter().any(|w| matches!(w.place, Idle(_))) {
            return Some(20);
        }
        (METER - self.meter < depth as u64).then_some(21)
    }

    /// Each sequence is told, as the bytes of a list have it.
    pub fn walk(&mut self, depth: usize, told: &mut impl FnMut(&[u8])) {
        self.walk_from(depth, &mut [0; DEPTH], 0, told)
    }

    fn walk_from(&mut self, left: usize, path: &mut [u8; DEPTH], n: usize, told: &mut impl FnMut(&[u8])) {
        if left == 0 || self.workers.iter().all(|w| matches!(w.place, Idle(_))) {
            return told(&path[..n]);
        }
        for w in 0..self.workers.len() {
            let before = self.workers[w];
            if matches!(before.place, Idle(_)) {
                continue;
            }
            for lose in [false, true] {
                if lose && !before.place.weak() {
                    continue;
                }
                let (head, tail) = (self.head, self.tail);
                let k = self.index(word(before.place)) as usize;
                let slot = self.slots[k];
                let mut worker = before;
                self.act(&mut worker, lose);
                self.workers[w] = worker;
                self.meter += 1;
                path[n] = 128 + 16 * lose as u8 + w as u8;
                self.walk_from(left - 1, path, n + 1, told);
                self.meter -= 1;
                self.workers[w] = before;
                self.slots[k] = slot;
                (self.head, self.tail) = (head, tail);
            }
        }
    }
}
