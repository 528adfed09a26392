//! Request 10: what a walk lists, prints and refuses. The numbers are the request's, or counted by hand.

use oracle::drive::{Module, Run};
use oracle::queue::{Bits, Queue};
use oracle::schedule::Schedule;
use oracle::tally::Tally;
use oracle::walk::{self, Walk};
use oracle::walks;

const JUDGE: &str = env!("CARGO_BIN_EXE_judge");
/// The ring holds 7; a force_push and two closes are under way.
const TWO_CLOSES: &str = "1 3  0 7 8 0 8 0 8 0 8 0 8 0  1 8 22 0 38 0";

fn walked(edition: u64, input: &str, walk: Walk) -> Result<String, String> {
    let queue = Queue::ring(edition, Bits::SixtyFour);
    walk::run(&Schedule::parse(queue, input).unwrap(), walk, &mut Tally::new(queue))
}

fn printed(input: &str, depth: u64) -> String {
    walked(1, input, Walk { depth, list: false, buffer: None }).unwrap()
}

fn listed(input: &str, depth: u64) -> String {
    walked(1, input, Walk { depth, list: true, buffer: None }).unwrap()
}

fn refused(input: &str, depth: u64) -> String {
    walked(1, input, Walk { depth, list: false, buffer: None }).unwrap_err()
}

#[test]
fn depth_0_lists_one_empty_sequence() {
    assert_eq!(listed("1 2 0 5 16 6", 0), "\n");
    let lines = ["walked depth=0 sequences=1 bytes=1", "w0=busy sequences=1 shortest", "w1=busy sequences=1 shortest"];
    let all = "ends w0=busy w1=busy sequences=1 shortest";
    assert_eq!(printed("1 2 0 5 16 6", 0), format!("{}\n{all}\n", lines.join("\n")));
}

#[test]
fn all_idle_ends_a_sequence() {
    assert_eq!(listed("1 1 6 0", 12), "8 0\n");
    assert_eq!(listed("1 2 6 0 20 0", 12), "8 0 24 0 24 0\n24 0 8 0 24 0\n24 0 24 0 8 0\n");
    assert_eq!(listed("1 2 6 0 20 0", 2), "8 0 24 0\n24 0 8 0\n24 0 24 0\n");
}

/// A push before its exchange of tail, and one after its load of tail.
#[test]
fn lowest_worker_first_and_8_before_9() {
    let input = "2 2  0 5 8 0 8 0  16 6 24 0";
    assert_eq!(listed(input, 1), "8 0\n9 0\n24 0\n");
    let two = ["8 0 8 0", "8 0 24 0", "9 0 8 0", "9 0 24 0", "24 0 8 0", "24 0 9 0", "24 0 24 0", "24 0 25 0"];
    assert_eq!(listed(input, 2), two.join("\n") + "\n");
}

/// P1 to P5 in 5 acts, and two more for each exchange that the schedule makes fail: 5, 7 and 9; after three of those, the ninth act is an exchange, won or
/// lost.
#[test]
fn endings_of_a_push() {
    let lines = [
        "walked depth=9 sequences=5 bytes=44",
        "w0=idle:pushed sequences=3 shortest 8 0 8 0 8 0 8 0 8 0",
        "w0=busy sequences=2 shortest 8 0 8 0 9 0 8 0 9 0 8 0 9 0 8 0 8 0",
        "ends w0=idle:pushed sequences=3 shortest 8 0 8 0 8 0 8 0 8 0",
        "ends w0=busy sequences=2 shortest 8 0 8 0 9 0 8 0 9 0 8 0 9 0 8 0 8 0",
    ];
    assert_eq!(printed("1 1 0 5", 9), lines.join("\n") + "\n");
}

/// Case F: where a force_push loses a close, a second close says yes too.
#[test]
fn both_closes_say_yes_in_edition_1_alone() {
    let both = "w1=idle:yes w2=idle:yes";
    let [source, kept] =
        [1, 2].map(|edition| walked(edition, TWO_CLOSES, Walk { depth: 12, list: false, buffer: None }).unwrap());
    let line = source.lines().find(|line| line.contains(both)).unwrap();
    let (ends, acts) = line.split_once(" shortest ").unwrap();
    assert!(ends.starts_with("ends w0=idle:displaced(7) w1=idle:yes w2=idle:yes sequences="), "{ends}");
    // P1, P2, F6; worker 1 closes; F7 to F9; worker 2 closes
    assert_eq!(acts, "8 0 8 0 8 0 24 0 8 0 8 0 8 0 40 0");
    assert!(!kept.contains(both));
}

#[test]
fn refusals() {
    for (input, depth, line) in [
        ("0 1", 12, "refused 1: a capacity of 0 or above 1,024"),
        ("1 17", 12, "refused 2: a worker count of 0 or above 16"),
        ("1 1 0 5 8", 12, "refused 11: an odd number of words"),
        ("1 1 0 5 8 0 10 0", 12, "refused 9: entry 2: code above 9, or an item where none may be"),
        ("1 1 16 5", 12, "refused 3: entry 0: no such worker"),
        ("1 1 0 5 0 5", 12, "refused 4: entry 1: a call begun by a busy worker"),
        ("1 1 8 0", 12, "refused 5: entry 0: an act of an idle worker"),
        ("1 1 0 5 9 0", 12, "refused 8: entry 1: code 9 where the next action is no weak exchange"),
        ("1 4 2 0 18 0 34 0 50 0", 12, "refused 19: more than 3 workers, or a depth above 12"),
        ("1 1 2 0", 13, "refused 19: more than 3 workers, or a depth above 12"),
        ("1 2 2 0", 13, "refused 19: more than 3 workers, or a depth above 12"),
        ("1 3 2 0 34 0", 0, "refused 20: worker 1 is idle"),
    ] {
        assert_eq!(refused(input, depth), line);
    }
    let edition = walked(3, "1 1 2 0", Walk { depth: 0, list: true, buffer: None });
    assert_eq!(edition.unwrap_err(), "refused 18: an edition that is not 1 or 2");
}

#[test]
fn the_buffer_holds_the_list_or_is_refused() {
    for list in [false, true] {
        let lent = |buffer| walked(1, "1 2 0 5 16 6", Walk { depth: 2, list, buffer: Some(buffer) });
        assert_eq!(lent(11).unwrap_err(), "refused 22: the list has 4 sequences in 12 bytes, and the buffer 11");
        assert_eq!(lent(12), walked(1, "1 2 0 5 16 6", Walk { depth: 2, list, buffer: None }));
    }
}

/// The driver, with the judge itself as the module: walking as deep, and one act less.
#[test]
fn walks_are_compared() {
    for (edition, list) in [(1, "--list"), (1, ""), (2, "")] {
        let driven = |depth| {
            let command = format!("{JUDGE} walk - --many --edition {edition} --depth {depth} {list}");
            let module = Some(Module { command, many: true });
            let place = concat!(env!("CARGO_TARGET_TMPDIR"), "/walks");
            let mut run = Run::new(Queue::ring(edition, Bits::SixtyFour), module, 5000, place.into());
            walks::drive(&mut run, Walk { depth: 4, list: !list.is_empty(), buffer: None }, None)
        };
        assert_eq!(driven(4), Ok(()));
        assert!(driven(3).unwrap_err().contains("the module differs"));
    }
}
