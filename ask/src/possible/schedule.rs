//! The schedule of an order of calls: each alone in its place, on the proved machine, and its answer compared with the log's.

use super::log::Log;
use super::search::{Placed, Stage};
use crate::machine::{Machine, Queue};
use fernmoldew::act_entry;

// Codes of places (hosts/c/fernmoldew.h).
const F6: u64 = 28;
const F7: u64 = 29;
const C2: u64 = 21;
/// No call takes more acts alone (PROMISES: seven, and where another stands half a round or two more).
const MOST_ACTS: usize = 64;

/// The entries, after they were run; what went wrong, which would be a fault of this program.
pub fn of(log: &Log, queue: Queue, order: &[Placed]) -> Result<Vec<[u64; 2]>, String> {
    let mut machine = Machine::new(queue, log.capacity, log.workers).map_err(|refusal| refusal.to_string())?;
    let mut entries = Vec::with_capacity(6 * order.len());
    let mut begun = vec![false; log.calls.len()];
    for Placed { call: at, stage, .. } in order {
        let call = &log.calls[*at as usize];
        let worker = call.worker as usize;
        let mut step = |machine: &mut Machine, entry: [u64; 2]| {
            entries.push(entry);
            machine.step(entry).map_err(|refusal| format!("the call of line {}: {refusal}", call.lines.0))
        };
        let again = begun[*at as usize];
        if !again {
            step(&mut machine, call.call.entry(worker))?;
            begun[*at as usize] = true;
        }
        let stop = match (stage, queue) {
            (Stage::Whole, _) => None,
            (Stage::Word, _) => Some(F6),
            (Stage::Half, Queue::OneSlot) => Some(C2),
            (Stage::Half, _) => Some(F7),
        };
        let mut acts = 0;
        // a word that is held already is too old by now: the exchange loses, and it is loaded again
        if *stage == Stage::Word && again && machine.busy(worker) {
            step(&mut machine, act_entry(worker))?;
        }
        while machine.busy(worker) && Some(machine.place(worker)[0]) != stop {
            step(&mut machine, act_entry(worker))?;
            acts += 1;
            if acts > MOST_ACTS {
                return Err(format!("the call of line {} does not end", call.lines.0));
            }
        }
        let ended = !machine.busy(worker);
        if ended != (*stage == Stage::Whole) || ended && call.answer.is_some() && machine.answer(worker) != call.answer
        {
            return Err(format!("the call of line {} answers {:?}", call.lines.0, machine.answer(worker)));
        }
    }
    for (at, call) in log.calls.iter().enumerate().filter(|(at, _)| !begun[*at]) {
        let entry = call.call.entry(call.worker as usize);
        entries.push(entry);
        machine.step(entry).map_err(|refusal| format!("the call of line {}: {refusal}", log.calls[at].lines.0))?;
    }
    Ok(entries)
}

/// Whether a schedule gives the answers of a log, each worker's in its order: run from a fresh machine.
pub fn gives(log: &Log, queue: Queue, entries: &[[u64; 2]]) -> bool {
    let Ok(mut machine) = Machine::new(queue, log.capacity, log.workers) else { return false };
    let mut calls: Vec<Vec<u32>> = vec![vec![]; log.workers];
    for (at, call) in log.calls.iter().enumerate() {
        calls[call.worker as usize].push(at as u32);
    }
    let mut next = vec![0; log.workers];
    for entry in entries {
        if machine.step(*entry).is_err() {
            return false;
        }
        let (worker, code) = ((entry[0] / 16) as usize, entry[0] % 16);
        if code < 8 {
            let Some(at) = calls[worker].get(next[worker]) else { return false };
            next[worker] += 1;
            if log.calls[*at as usize].call.entry(worker) != *entry {
                return false;
            }
        } else if !machine.busy(worker) {
            let call = &log.calls[calls[worker][next[worker] - 1] as usize];
            if call.answer.is_some() && call.answer != machine.answer(worker) {
                return false;
            }
        }
    }
    (0..log.workers).all(|worker| {
        next[worker] == calls[worker].len()
            && calls[worker].last().is_none_or(|at| !log.calls[*at as usize].returned() || !machine.busy(worker))
    })
}
