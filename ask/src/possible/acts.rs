//! Act by act: every schedule of a log's calls on the proved machine, each state once. It needs no promise but the machine.

use super::log::Log;
use crate::machine::{is_busy, Machine, Place, Queue, FRESH};
use fernmoldew::{act_entry, losing_entry};
use std::collections::HashSet;

pub enum Found {
    Schedule(Vec<[u64; 2]>),
    /// None, and so many states are all.
    None(u64),
    Limit,
}

#[derive(Clone)]
struct State {
    shared: Vec<u64>,
    places: Vec<Place>,
    /// How many calls each worker has begun.
    begun: Vec<u32>,
    /// How many events are past.
    at: u32,
}

impl State {
    fn key(&self) -> Vec<u64> {
        let mut key = self.shared.clone();
        key.push(self.at as u64);
        key.extend(self.begun.iter().map(|begun| *begun as u64));
        key.extend(self.places.iter().flatten());
        key
    }
}

/// Begins come as late as they can be told apart: at their event, or after, while their worker is idle.
pub fn search(log: &Log, queue: Queue, limit: u64) -> Found {
    let Ok(mut machine) = Machine::new(queue, log.capacity, log.workers) else { return Found::None(0) };
    let mut calls: Vec<Vec<u32>> = vec![vec![]; log.workers];
    let mut place_of = vec![0; log.calls.len()];
    for (at, call) in log.calls.iter().enumerate() {
        place_of[at] = calls[call.worker as usize].len() as u32;
        calls[call.worker as usize].push(at as u32);
    }
    let fresh =
        State { shared: machine.shared(), places: vec![FRESH; log.workers], begun: vec![0; log.workers], at: 0 };
    // how each state on the way was come to: the state before it, and the entry
    let mut ways: Vec<(u32, Option<[u64; 2]>)> = vec![];
    let mut seen: HashSet<Vec<u64>> = HashSet::new();
    let mut stack = vec![(fresh, u32::MAX, None)];
    while let Some((mut state, before, entry)) = stack.pop() {
        // events that need nothing: begins, and answers of calls that have ended
        while let Some(event) = log.events.get(state.at as usize) {
            let worker = log.calls[event.call()].worker as usize;
            let begun = state.begun[worker];
            let ended = begun > place_of[event.call()] + 1
                || begun == place_of[event.call()] + 1 && !is_busy(state.places[worker]);
            if event.is_answer() && !ended {
                break;
            }
            state.at += 1;
        }
        if !seen.insert(state.key()) {
            continue;
        }
        if seen.len() as u64 > limit {
            return Found::Limit;
        }
        let here = ways.len() as u32;
        ways.push((before, entry));
        if state.at as usize == log.events.len() {
            return Found::Schedule(way(&ways, here, log, &state, &calls));
        }
        for worker in 0..log.workers {
            let entries: Vec<[u64; 2]> = if is_busy(state.places[worker]) {
                vec![losing_entry(worker), act_entry(worker)]
            } else {
                let next = calls[worker]
                    .get(state.begun[worker] as usize)
                    .filter(|at| log.calls[**at as usize].begin < state.at);
                next.map(|at| log.calls[*at as usize].call.entry(worker)).into_iter().collect()
            };
            for entry in entries {
                machine.put(&state.shared, &state.places);
                if machine.step(entry).is_err() {
                    continue;
                }
                let mut next = state.clone();
                next.shared = machine.shared();
                next.places[worker] = machine.place(worker);
                if entry[0] % 16 < 8 {
                    next.begun[worker] += 1;
                } else if !machine.busy(worker) {
                    let call = &log.calls[calls[worker][state.begun[worker] as usize - 1] as usize];
                    if call.answer.is_some() && call.answer != machine.answer(worker) {
                        continue;
                    }
                }
                stack.push((next, here, Some(entry)));
            }
        }
    }
    Found::None(seen.len() as u64)
}

fn way(ways: &[(u32, Option<[u64; 2]>)], last: u32, log: &Log, state: &State, calls: &[Vec<u32>]) -> Vec<[u64; 2]> {
    let mut entries = vec![];
    let mut at = last;
    while let Some((before, entry)) = ways.get(at as usize) {
        entries.extend(entry);
        at = *before;
    }
    entries.reverse();
    for (worker, calls) in calls.iter().enumerate() {
        if let Some(call) = calls.get(state.begun[worker] as usize).filter(|_| !is_busy(state.places[worker])) {
            entries.push(log.calls[*call as usize].call.entry(worker));
        }
    }
    entries
}
