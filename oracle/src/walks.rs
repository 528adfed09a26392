//! Walks from many starts, for comparing.

use crate::drive::{Program, Run};
use crate::exhaustive::{begun, cases, rings};
use crate::queue::Queue;
use crate::schedule::Schedule;
use crate::walk::Walk;

/// Three calls at once on the ring: several that claim at one end, at both, and with closes and lookers between them.
const TRIPLES: [[u64; 3]; 8] = [[0, 0, 2], [0, 2, 2], [1, 1, 2], [0, 1, 6], [1, 6, 6], [1, 6, 7], [2, 0, 3], [1, 4, 5]];

/// A walk from each start, or from those with so many workers.
pub fn drive(run: &mut Run, walk: Walk, workers: Option<u64>) -> Result<(), String> {
    if !run.many() {
        return Err("walks: the module must take --many".into());
    }
    run.program = Program::Walk(walk);
    for schedule in starts(run.queue) {
        if workers.is_none_or(|workers| workers == schedule.workers) {
            run.add(schedule)?;
        }
    }
    run.flush()
}

/// The calls that `exhaustive` has, begun on the queues that it has, and some three calls on rings that hold an item.
fn starts(queue: Queue) -> Vec<Schedule> {
    let mut all = Vec::new();
    for (preload, calls) in cases(queue) {
        all.push(begun(preload, &calls).0);
    }
    for preload in rings(queue) {
        if preload.gone == 0 && preload.held == 1 && !preload.closed {
            all.extend(TRIPLES.map(|calls| begun(preload, &calls).0));
        }
    }
    all
}
