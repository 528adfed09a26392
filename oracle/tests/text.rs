//! The text that `replay` must print, in the cases that are not entries of an accepted schedule.

use oracle::causes::Causes;
use oracle::queue::Queue;
use oracle::schedule::{run, split, Schedule, Show};
use oracle::tally::Tally;

fn text(queue: Queue, input: &str, quiet: bool) -> String {
    shown(queue, input, Show { quiet, ..Show::default() })
}

fn shown(queue: Queue, input: &str, show: Show) -> String {
    run(&Schedule::parse(queue, input).unwrap(), show, &mut Tally::new(queue))
}

fn printed(input: &str) -> String {
    text(Queue::RING, input, false)
}

fn quiet(input: &str) -> String {
    text(Queue::RING, input, true)
}

fn single(input: &str) -> String {
    text(Queue::Single, input, false)
}

#[test]
fn empty_schedule() {
    assert_eq!(printed("2 1"), "made 0\nslots (0,0) (1,0)\ncontents\n");
    assert_eq!(quiet("2 1"), "made 0\n0 0 h=0 t=0 m=0\nslots (0,0) (1,0)\ncontents\n");
}

#[test]
fn refused_making() {
    let blank = |refusal| format!("made {refusal}\n0 6 h=0 t=0 m=0\nslots\ncontents refused 6\n");
    assert_eq!(printed("0 1 0 5"), blank(1));
    assert_eq!(printed("1 17 0 5 8"), blank(2));
    assert_eq!(printed("1025 0"), blank(1));
    assert_eq!(quiet("0 1"), blank(1));
}

#[test]
fn odd_number_of_words() {
    let expected = "made 0\n0 11 h=0 t=0 m=0\nslots (0,0)\ncontents\n";
    assert_eq!(printed("1 1 0 5 8"), expected);
    assert_eq!(quiet("1 1 0 5 8"), expected);
}

#[test]
fn refused_entry_ends_the_run() {
    let input = "1 1 # a comment\n0 5 8 0\n 176 0 # no such worker: refusal 3\n8 0";
    let begun = "made 0\n0 0 h=0 t=0 m=0 w0=P1:push(5)\n1 0 h=0 t=0 m=1 w0=P2:push(0,5)\n";
    let end = "slots (0,0)\ncontents refused 4\n";
    assert_eq!(printed(input), format!("{begun}2 3 h=0 t=0 m=1 w11=-\n{end}"));
    assert_eq!(quiet(input), format!("made 0\n2 3 h=0 t=0 m=1\n{end}"));
}

/// Document 01: begin 9, 3, 4; act 9, 3, 5, 8.
#[test]
fn order_of_refusals() {
    let refusal = |entries: &str| {
        let outputs = [(Queue::RING, "1 1"), (Queue::Single, "1"), (Queue::Unbounded, "1")].map(|(queue, making)| {
            let output = text(queue, &format!("{making} {entries}"), true);
            output.lines().nth(1).unwrap().split(' ').nth(1).unwrap().to_string()
        });
        assert!(outputs.iter().all(|output| *output == outputs[0]), "{outputs:?}");
        outputs[0].clone()
    };
    assert_eq!(refusal("26 0"), "9", "code 10 of no worker");
    assert_eq!(refusal("18 1"), "9", "an item with a pop of no worker");
    assert_eq!(refusal("24 1"), "9", "an item with an act of no worker");
    assert_eq!(refusal("8 1"), "9", "an item with an act of an idle worker");
    assert_eq!(refusal("2 0 2 7"), "9", "an item with a pop of a busy worker");
    assert_eq!(refusal("16 5"), "3", "begin of no worker");
    assert_eq!(refusal("25 0"), "3", "act of no worker");
    assert_eq!(refusal("18446744073709551608 0"), "3", "act of the last worker a word can name");
    assert_eq!(refusal("2 0 2 0"), "4", "begin of a busy worker");
    assert_eq!(refusal("9 0"), "5", "lost act of an idle worker");
    assert_eq!(refusal("2 0 9 0"), "8", "lost act at a load, or at a strong exchange");
}

/// A lost exchange with the words agreeing, then code 9 with the words differing.
#[test]
fn code_9() {
    let lost = printed("2 1 0 5 8 0 8 0 9 0");
    assert_eq!(lost.lines().last(), Some("contents refused 4"));
    assert_eq!(lost.lines().nth(4), Some("3 0 h=0 t=0 m=3 w0=P2:push(0,5)"));
    let raced = "2 2 0 5 8 0 8 0 16 6 24 0 24 0 24 0 9 0";
    assert_eq!(printed(raced).lines().nth(8), Some("7 0 h=0 t=1 m=6 w0=P2:push(1,5)"));
    assert_eq!(printed(raced), printed(&raced.replace(" 9 0", " 8 0")));
}

/// Request 4: at the end of each entry's line, refused or not, and of no other line.
#[test]
fn stock() {
    let stock = |input, quiet| shown(Queue::RING, input, Show { quiet, stock: true, ..Show::default() });
    let input = "1 1 0 5 8 0 8 0 8 0 9 0";
    let lines = [
        "0 0 h=0 t=0 m=0 w0=P1:push(5) stock=0",
        "1 0 h=0 t=0 m=1 w0=P2:push(0,5) stock=0",
        "2 0 h=0 t=0 m=2 w0=P3:push(0,5) stock=0",
        "3 0 h=0 t=4 m=3 w0=P4(0,5) stock=1",
        "4 8 h=0 t=4 m=3 w0=P4(0,5) stock=1",
    ];
    assert_eq!(stock(input, false), format!("made 0\n{}\nslots (0,0)\ncontents refused 4\n", lines.join("\n")));
    for input in [input, "0 1 0 5", "1 1 0 5 8"] {
        assert_eq!(stock(input, true), quiet(input));
    }
}

/// Request 8: after the worker and before the stock, refused or not, of no other line, and of no worker that there is not.
#[test]
fn losses() {
    let lost = |input, quiet, stock| shown(Queue::RING, input, Show { quiet, losses: true, stock, ..Show::default() });
    let input = "2 2 16 6 24 0 24 0 25 0 176 0";
    let lines = [
        "0 0 h=0 t=0 m=0 w1=P1:push(6) lost=0,0 stock=0",
        "1 0 h=0 t=0 m=1 w1=P2:push(0,6) lost=0,0 stock=0",
        "2 0 h=0 t=0 m=2 w1=P3:push(0,6) lost=0,0 stock=0",
        "3 0 h=0 t=0 m=3 w1=P2:push(0,6) lost=0,1 stock=0",
        "4 3 h=0 t=0 m=3 w11=- lost=- stock=0",
    ];
    let all = format!("made 0\n{}\nslots (0,0) (1,0)\ncontents refused 4\n", lines.join("\n"));
    assert_eq!(lost(input, false, true), all);
    assert_eq!(lost(input, false, false), all.replace(" stock=0", ""));
    for input in [input, "0 1 0 5", "1 1 0 5 8"] {
        assert_eq!(lost(input, true, false), quiet(input));
    }
}

/// The moment of an answer: last on the line of an act that ends a call, and of no other line.
#[test]
fn moments() {
    let named =
        |queue, input, quiet, stock| shown(queue, input, Show { quiet, stock, moments: true, ..Show::default() });
    let input = "1 1 2 0 8 0 8 0 8 0 6 0 8 0 8 0";
    let lines = [
        "0 0 h=0 t=0 m=0 w0=O1 stock=0",
        "1 0 h=0 t=0 m=1 w0=O2(0) stock=0",
        "2 0 h=0 t=0 m=2 w0=O6(0) stock=0",
        "3 0 h=0 t=0 m=3 w0=idle:empty stock=0 at=3",
        "4 0 h=0 t=0 m=3 w0=close1 stock=0",
        "5 0 h=0 t=2 m=4 w0=idle:yes stock=0 at=5",
        "6 5 h=0 t=2 m=4 w0=idle:yes stock=0",
    ];
    let all = format!("made 0\n{}\nslots (0,0)\ncontents\n", lines.join("\n"));
    assert_eq!(named(Queue::RING, input, false, true), all);
    assert_eq!(named(Queue::RING, input, true, false), quiet(input));
    // Two workers: a push comes in between the loads of is_empty, and a pop takes it out again.
    let between = "1 2 20 0 24 0 0 5 8 0 8 0 8 0 8 0 8 0 2 0 8 0 8 0 8 0 24 0";
    assert!(named(Queue::RING, between, false, false).contains("\n12 0 h=4 t=4 m=10 w1=idle:no at=5+\n"));
    assert!(named(Queue::Single, "1 5 0 8 0", false, false).contains("\n1 0 s=0 m=1 w0=idle:no at=1\n"));
}

/// Request 9: where a call goes back, before the losses and the stock, and nowhere else.
#[test]
fn causes() {
    let caused = |input, quiet, more| {
        shown(Queue::RING, input, Show { quiet, causes: true, losses: more, stock: more, ..Show::default() })
    };
    let input = "2 2 16 6 24 0 24 0 25 0 0 5 25 0";
    let lines = [
        "0 0 h=0 t=0 m=0 w1=P1:push(6) lost=0,0 stock=0",
        "1 0 h=0 t=0 m=1 w1=P2:push(0,6) lost=0,0 stock=0",
        "2 0 h=0 t=0 m=2 w1=P3:push(0,6) lost=0,0 stock=0",
        "3 0 h=0 t=0 m=3 w1=P2:push(0,6) because=schedule lost=0,1 stock=0",
        "4 0 h=0 t=0 m=3 w0=P1:push(5) lost=0,0 stock=0",
        "5 8 h=0 t=0 m=3 w1=P2:push(0,6) lost=0,1 stock=0",
    ];
    let all = format!("made 0\n{}\nslots (0,0) (1,0)\ncontents refused 4\n", lines.join("\n"));
    assert_eq!(caused(input, false, true), all);
    assert_eq!(printed(input), caused(input, false, false).replace(" because=schedule", ""));
    for input in [input, "0 1 0 5", "1 1 0 5 8"] {
        assert_eq!(caused(input, true, false), quiet(input));
    }
    assert_eq!(Causes::default().to_string(), "none");
    let every = Causes { schedule: true, own_end: true, other_end: true, hand: true };
    assert_eq!(every.to_string(), "schedule,own-end,other-end,hand");
}

#[test]
fn texts_of_many() {
    assert_eq!(split("1 1\n%\n2 2\n"), ["1 1\n", "2 2\n"]);
    assert_eq!(split("a\n%\nb\n%\n"), ["a\n", "b\n"]);
    assert!(Schedule::parse(Queue::RING, "1").is_err());
    assert!(Schedule::parse(Queue::Single, "").is_err());
    assert!(Schedule::parse(Queue::Unbounded, "").is_err());
    for queue in Queue::ALL {
        assert!(Schedule::parse(queue, "1 1 x").is_err());
        assert!(Schedule::parse(queue, "1 1 -1").is_err());
        let schedule = Schedule::parse(queue, "1 1 0 5 8").unwrap();
        assert_eq!(Schedule::parse(queue, &schedule.text()), Ok(schedule));
    }
}

#[test]
fn one_slot() {
    assert_eq!(single("1"), "made 0\nvalue 0\ncontents\n");
    assert_eq!(text(Queue::Single, "1", true), "made 0\n0 0 s=0 m=0\nvalue 0\ncontents\n");
    let blank = "made 2\n0 6 s=0 m=0\nvalue 0\ncontents refused 6\n";
    assert_eq!(["0", "17", "0 0 5 8"].map(single), [blank; 3]);
    assert_eq!(single("1 0 5 8"), "made 0\n0 11 s=0 m=0\nvalue 0\ncontents\n");
    let pushed = "made 0\n0 0 s=0 m=0 w0=A1(5)\n1 0 s=3 m=1 w0=A2(5)\n2 0 s=3 m=2 w0=A3\n3 0 s=2 m=3 w0=idle:pushed\n";
    assert_eq!(single("1 0 5 8 0 8 0 8 0"), format!("{pushed}value 5\ncontents 5\n"));
    assert_eq!(single("1 0 5 8 0 8 0 8 0 184 0 8 0"), format!("{pushed}4 3 s=2 m=3 w11=-\nvalue 5\ncontents 5\n"));
    assert_eq!(text(Queue::Single, "1 0 5 8 0 8 0 9 0", true), "made 0\n3 8 s=3 m=2\nvalue 5\ncontents refused 4\n");
}

#[test]
fn blocks() {
    let unbounded = |input: &str| text(Queue::Unbounded, input, false);
    assert_eq!(unbounded("1"), "made 0\ncontents\n");
    assert_eq!(text(Queue::Unbounded, "1", true), "made 0\n0 0 h=0 hb=- t=0 tb=- m=0\ncontents\n");
    let blank = "made 2\n0 6 h=0 hb=- t=0 tb=- m=0\ncontents refused 6\n";
    assert_eq!(["0", "17", "0 0 5 8"].map(unbounded), [blank; 3]);
    assert_eq!(unbounded("1 0 5 8"), "made 0\n0 11 h=0 hb=- t=0 tb=- m=0\ncontents\n");
    let unread = "made 0\n0 9 h=0 hb=- t=0 tb=- m=0\ncontents\n";
    assert_eq!(["1 1 5", "1 17 5"].map(unbounded), [unread; 2], "code 1 is 9, before 3");
    assert_eq!(
        unbounded("1 0 5 1 5"),
        "made 0\n1 9 h=0 hb=- t=0 tb=- m=0\ncontents\n",
        "9 is of the whole: nothing is run"
    );
    let pushed = text(Queue::Unbounded, &format!("1 0 5{}", " 8 0".repeat(8)), true);
    let block = format!("block 0 next=- (1,5){}", " (0,0)".repeat(30));
    assert_eq!(pushed, format!("made 0\n9 0 h=0 hb=0 t=2 tb=0 m=8\n{block}\ncontents 5\n"));
}
