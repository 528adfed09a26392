//! Every answer is a plain queue's at its moment: in random runs, under every schedule of a few calls, through three turns of sixteen bits; and what is told where one
//! is not.

use oracle::call::code::{POP, PUSH};
use oracle::drive::{Program, Run};
use oracle::exhaustive::Extent;
use oracle::queue::{Bits, Queue};
use oracle::schedule::{Schedule, Show};
use oracle::{exhaustive, interleaved, sequential, turns};
use std::path::Path;

fn held_to_the_plain_queue(queue: Queue) -> Run {
    let mut run = Run::new(queue, None, 1000, Path::new(env!("CARGO_TARGET_TMPDIR")).join("plain"));
    run.program = Program::Replay(Show { plain: true, quiet: true, ..Show::default() });
    run
}

#[test]
fn every_answer_is_the_plain_queues() {
    let lent = [1, 2].map(|edition| Queue::Bounded { edition, bits: Bits::SixtyFour, lent: true });
    for queue in Queue::ALL.into_iter().chain(lent) {
        let mut run = held_to_the_plain_queue(queue);
        assert_eq!(interleaved::drive(&mut run, 100_000, 11, true), Ok(()));
        assert_eq!(interleaved::drive(&mut run, 200_000, 12, false), Ok(()));
        assert_eq!(sequential::drive(&mut run, 5_000, 13), Ok(()));
        assert_eq!(exhaustive::drive(&mut run, Extent::Compact), Ok(()));
        if let Queue::Bounded { bits: Bits::Sixteen, .. } = queue {
            assert_eq!(turns::drive(&mut run, 3, 14, 1..=2), Ok(()));
        }
        assert!(run.tally.plain_answers > 20_000);
        // The one answer that the plain queue does not give is the unbounded source's.
        assert_eq!(run.tally.no_of_empty > 0, queue == Queue::Unbounded);
    }
}

/// Beyond the window of request 14: a push asleep at P6 for a turn less one claim answers Full of an empty ring. The fault names the entry and both answers, and
/// the schedule up to it is kept.
#[test]
fn a_fault_is_told_and_kept() {
    let queue = Queue::ring(1, Bits::Sixteen);
    let mut schedule = Schedule::new(queue.making(1), 2);
    let call = |schedule: &mut Schedule, worker: u64, begins: Option<(u64, u64)>, acts: usize| {
        begins.into_iter().for_each(|(code, item)| schedule.push(16 * worker + code, item));
        (0..acts).for_each(|_| schedule.push(16 * worker + 8, 0));
    };
    call(&mut schedule, 0, Some((PUSH, 7)), 5);
    call(&mut schedule, 0, Some((POP, 0)), 3);
    call(&mut schedule, 1, Some((PUSH, 9)), 2);
    call(&mut schedule, 0, None, 2);
    for _ in 0..16_383 {
        call(&mut schedule, 0, Some((PUSH, 7)), 5);
        call(&mut schedule, 0, Some((POP, 0)), 5);
    }
    call(&mut schedule, 1, None, 1);
    let mut run = held_to_the_plain_queue(queue);
    run.program = Program::Replay(Show { plain: true, quiet: true, beyond: true, ..Show::default() });
    let told = run.add(schedule.clone()).expect_err("it is no plain queue's answer");
    assert!(told.contains("entry 196611: worker 1: push answers full(9); the plain queue at=11 pushed"), "{told}");
    let kept = std::fs::read_to_string(run.save.join("plain.in")).unwrap();
    assert_eq!(Schedule::parse(queue, &kept), Ok(schedule));
}
