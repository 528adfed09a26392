//! Scenarios: a schedule in words, the line `then`, and the calls that are made from there, each worker's in their order.

use crate::words::{self, call_of, Fault, Head, Line, FAIL};
use fernmoldew::Call;

const CALL: &str = "expected: push, force_push, pop, len, is_empty, is_full, close or is_closed";

pub struct Scenario {
    pub head: Head,
    /// What is run first: an entry, and how often it comes in a row.
    pub before: Vec<([u64; 2], u64)>,
    /// The calls after `then`, of each worker.
    pub calls: Vec<Vec<Call>>,
}

/// No queue has more workers, so that calls of others need no room.
const MOST_WORKERS: u64 = 64;

pub fn read(text: &str, has_capacity: bool) -> Result<Scenario, Fault> {
    let mut lines = words::lines(text);
    let head = words::head(&mut lines, has_capacity, words::end_of(text))?;
    let mut scenario = Scenario { head, before: vec![], calls: vec![vec![]; head.workers.min(MOST_WORKERS) as usize] };
    let mut is_then = false;
    for mut line in lines.filter(|line| !line.is_done()) {
        if !is_then && line.peek() == Some("then") {
            line.take("then")?;
            is_then = true;
        } else if is_then {
            call(&mut line, &mut scenario.calls)?;
        } else {
            let (worker, code, item, times) = line.take_entry()?;
            scenario.before.push(([16 * worker + code, item], times));
        }
        line.ends()?;
    }
    Ok(scenario)
}

/// A line after `then`. Of a worker that there is not, the line is named at once: there is no entry yet that a machine could refuse.
fn call(line: &mut Line, calls: &mut [Vec<Call>]) -> Result<(), Fault> {
    let before = line.clone();
    let worker = line.take_worker()?;
    let place = line.clone();
    let (code, item, _) = line.take_what(CALL)?;
    let call = call_of(code, item).ok_or_else(|| place.fault(CALL))?;
    debug_assert!(code < FAIL);
    match calls.len().checked_sub(1) {
        Some(last) if worker <= last as u64 => calls[worker as usize].push(call),
        Some(last) => return Err(before.fault(&format!("expected: a worker up to w{last}"))),
        None => {} // the making is refused
    }
    Ok(())
}
