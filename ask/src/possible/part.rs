//! A smallest part: answers that are impossible together whatever all other calls answered, of which none can be left out. Where a row shows it, the row is what is to be shown: without any
//! of these no row is. Where none does, the search decides: without any of these the log is possible.

use super::log::Log;
use super::rows::{self, Shown};
use super::{decide, Decided, Question};

/// What is impossible, and why.
pub struct Part {
    /// The calls whose answers they are, in the log's order.
    pub calls: Vec<u32>,
    /// It is known of each that it cannot be left out.
    pub smallest: bool,
    pub row: Option<Shown>,
    /// Where no row fits: how many states the search came to, of the plain queue and act by act.
    pub states: (u64, Option<u64>),
}

/// So much is spent on it: calls gone through and states seen, of all tries together and of one.
const WORK: u64 = 10_000_000;
const STATES: u64 = 200_000;

/// From a log that is impossible: by a row, or by the search.
pub fn of(log: &Log, question: Question, row: Option<Shown>) -> Part {
    let mut kept: Vec<u32> = match &row {
        Some(shown) => shown.by.clone(),
        None => log.known(),
    };
    kept.sort_unstable_by_key(|at| (log.calls[*at as usize].end, *at));
    kept.dedup();
    let mut work = 0;
    let tried = |kept: &[u32], work: &mut u64| -> Option<bool> {
        if *work > WORK {
            return None;
        }
        let mut known = vec![false; log.calls.len()];
        for at in kept {
            known[*at as usize] = true;
        }
        let part = log.knowing(|at| known[at]);
        *work += log.calls.len() as u64;
        if row.is_some() {
            return Some(rows::shown(&part, question.rules(log)).is_some());
        }
        let (decided, states) = decide(&part, Question { states: STATES, ..question });
        *work += states;
        match decided {
            Decided::Impossible(_) => Some(true),
            Decided::Possible(_) => Some(false),
            Decided::Open(_) => None,
        }
    };
    let mut smallest = true;
    let mut piece = kept.len().div_ceil(2).max(1);
    loop {
        let mut at = 0;
        while at < kept.len() {
            let until = (at + piece).min(kept.len());
            let rest: Vec<u32> = kept[..at].iter().chain(&kept[until..]).copied().collect();
            match tried(&rest, &mut work) {
                Some(true) => kept = rest,
                Some(false) => at = until,
                None => {
                    smallest &= piece > 1;
                    at = until;
                }
            }
        }
        if piece == 1 || kept.is_empty() {
            break;
        }
        piece = piece.min(kept.len()).div_ceil(2);
    }
    let mut known = vec![false; log.calls.len()];
    for at in &kept {
        known[*at as usize] = true;
    }
    let part = log.knowing(|at| known[at]);
    let row = rows::shown(&part, question.rules(log));
    let states = match row {
        Some(_) => (0, None),
        None => match decide(&part, question) {
            (Decided::Impossible(why), states) => (states, why.acts),
            (_, states) => (states, None),
        },
    };
    Part { calls: kept, smallest, row, states }
}
