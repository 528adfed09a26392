//! What short random runs reach, that each retry in them has a cause, and that each shared word has its right name.

use oracle::drive::{Program, Run};
use oracle::exhaustive::{self, Extent};
use oracle::machine::Machine;
use oracle::queue::{Bits, Queue};
use oracle::schedule::Show;
use oracle::stage::{Action, Word};
use oracle::tally::Tally;
use oracle::{interleaved, turns};

fn short_run(queue: Queue) -> Tally {
    let mut run = Run::new(queue, None, 1000, "differences".into());
    // Short schedules meet more refusals; the ends of a block are reached by long ones.
    interleaved::drive(&mut run, 1_000_000, 7, queue != Queue::Unbounded).unwrap();
    run.tally
}

#[test]
fn every_place_answer_and_refusal() {
    for queue in Queue::ALL {
        let tally = short_run(queue);
        for kind in queue.places() {
            assert!(tally.times_at(kind) > 0, "{} was not reached", kind.name());
        }
        for refusal in queue.facts().refusals {
            assert!(tally.times_refused(*refusal) > 0, "refusal {refusal} was not given");
        }
        assert!(tally.complete(&[]), "{tally}");
    }
}

/// Request 9, of random runs and of every schedule of two calls.
#[test]
fn every_retry_has_a_cause() {
    for edition in [1, 2] {
        let mut run = Run::new(Queue::ring(edition, Bits::SixtyFour), None, 1000, "differences".into());
        run.program = Program::Replay(Show { causes: true, ..Show::default() });
        interleaved::drive(&mut run, 500_000, 9, true).unwrap();
        interleaved::drive(&mut run, 1_000_000, 9, false).unwrap();
        exhaustive::drive(&mut run, Extent::Compact).unwrap();
        let backs = &run.tally.backs;
        assert_eq!(backs.times("none"), 0, "{backs}");
        for cause in ["schedule", "own-end", "other-end", "hand"] {
            assert!(backs.times(cause) > 0, "{cause} did not occur");
        }
    }
}

/// Request 9 at sixteen bits, through three turns within request 14's window.
#[test]
fn every_retry_has_a_cause_within_the_window() {
    for edition in [1, 2] {
        let mut run = Run::new(Queue::ring(edition, Bits::Sixteen), None, 1000, "differences".into());
        run.program = Program::Replay(Show { causes: true, ..Show::default() });
        turns::drive(&mut run, 3, 9, 1..=4).unwrap();
        let backs = &run.tally.backs;
        assert_eq!(backs.times("none"), 0, "{backs}");
        for cause in ["schedule", "own-end", "other-end", "hand"] {
            assert!(backs.times(cause) > 0, "{cause} did not occur");
        }
    }
}

/// A call's first actions show that words have their right names.
#[test]
fn words_have_their_names() {
    let mut machine = Machine::make(Queue::RING.making(3), 4).unwrap_or_else(|_| panic!("refused"));
    for (worker, code, first) in [(0, 0, Word::Tail), (1, 2, Word::Head), (2, 4, Word::Head), (3, 5, Word::Tail)] {
        assert_eq!(machine.enter(16 * worker + code, 0), 0);
        assert_eq!(machine.pending(worker), Some(Action::Load(first)));
    }
    // Three pushes visit the slots in order; tail moves and head does not.
    for slot in 0..3 {
        assert_eq!(machine.enter(8, 0), 0);
        assert_eq!(machine.pending(0), Some(Action::Load(Word::Stamp(slot))));
        (0..3).for_each(|_| assert_eq!(machine.enter(8, 0), 0));
        assert_eq!(machine.word(Word::Stamp(slot)), slot as u64);
        assert_eq!(machine.enter(8, 0), 0);
        assert_eq!(machine.word(Word::Stamp(slot)), slot as u64 + 1);
        assert_eq!(machine.word(Word::Head), 0);
        assert_eq!(machine.enter(0, 9), 0);
    }
    assert_eq!(machine.word(Word::Tail), 8);
}
