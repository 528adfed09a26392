//! The driver of the differential runs, tried on two modules: the judge itself, and the judge with a fault in what it prints.
//! Nothing is said here about the port.

use oracle::drive::{Module, Run};
use oracle::exhaustive::Extent;
use oracle::queue::Queue;
use oracle::{exhaustive, interleaved, list, sequential};
use std::fs;
use std::path::{Path, PathBuf};

const JUDGE: &str = env!("CARGO_BIN_EXE_judge");

fn differential(queue: Queue, command: String, many: bool, place: &Path) -> Run {
    Run::new(queue, Some(Module { command, many }), 5000, place.into())
}

fn place(name: &str) -> PathBuf {
    Path::new(env!("CARGO_TARGET_TMPDIR")).join(name)
}

#[test]
fn the_judge_agrees_with_itself() {
    for queue in Queue::ALL {
        let judge = format!("{JUDGE} expect - {}", queue.options());
        let many = || differential(queue, format!("{judge} --many"), true, &place("same"));
        let one = || differential(queue, judge.clone(), false, &place("same"));
        assert_eq!(interleaved::drive(&mut many(), 100_000, 1, false), Ok(()));
        assert_eq!(interleaved::drive(&mut one(), 20_000, 2, false), Ok(()));
        assert_eq!(sequential::drive(&mut many(), 10_000, 3), Ok(()));
        assert_eq!(sequential::drive(&mut one(), 5_000, 4), Ok(()));
        assert_eq!(exhaustive::drive(&mut many(), Extent::Depth(4)), Ok(()));
    }
}

/// The faulty module says Closed for Full: the smallest prefix ends with the first Full.
#[test]
fn a_difference_is_cut_short_and_kept() {
    let script = concat!(env!("CARGO_MANIFEST_DIR"), "/tests/faulty.sh");
    let place = place("faulty");
    let mut run = differential(Queue::RING, format!("sh {script} {JUDGE}"), false, &place);
    let message = sequential::drive(&mut run, 10_000, 5).expect_err("the fault is found");
    assert!(message.contains("judge: ") && message.contains("module: "), "{message}");
    let expected = fs::read_to_string(place.join("difference.expected")).unwrap();
    let printed = fs::read_to_string(place.join("difference.module")).unwrap();
    assert_eq!(expected.matches("idle:full(").count(), 1);
    assert_eq!(printed.matches("idle:full(").count(), 0);
    assert!(expected.lines().rev().nth(2).unwrap().contains("idle:full("));
}

/// The lists in the repository are what their headers say.
#[test]
fn the_lists_are_the_judges() {
    let lists = [
        (Queue::RING, include_str!("../list/list.in"), include_str!("../list/list.out")),
        (Queue::Single, include_str!("../list/single.in"), include_str!("../list/single.out")),
        (Queue::Unbounded, include_str!("../list/unbounded.in"), include_str!("../list/unbounded.out")),
    ];
    for (queue, input, output) in lists {
        assert!(list::list(queue, 8) == (input.into(), output.into()), "the list of {queue:?} differs");
    }
}
