//! The unbounded queue: what unbounded.rs does at each place, typed from request 12 and from the source's text. Taking a block and freeing
//! one is an act, at its place and nowhere else.

mod codes;

use codes::*;
use oracle::interleaved;
use oracle::machine::Machine;
use oracle::queue::Making;
use oracle::random::Random;
use oracle::stage::{Action, Word};
use oracle::state::NONE;

const NO_BLOCK: usize = NONE as usize;
const WRITE: u64 = 1;
const READ: u64 = 2;
const DESTROY: u64 = 4;

struct Bench(Machine);

impl Bench {
    fn new(workers: u64) -> Bench {
        Bench(Machine::make(Making::Unbounded, workers).unwrap_or_else(|refusal| panic!("refused {refusal}")))
    }

    fn at(&self, worker: u64) -> String {
        self.0.state(worker).unwrap().to_string()
    }

    fn begin(&mut self, worker: u64, code: u64, item: u64) -> String {
        assert_eq!(self.0.enter(16 * worker + code, item), 0);
        self.at(worker)
    }

    fn act(&mut self, worker: u64) -> String {
        assert_eq!(self.0.enter(16 * worker + 8, 0), 0);
        self.at(worker)
    }

    fn acts(&mut self, worker: u64, count: usize) -> String {
        (0..count).for_each(|_| drop(self.act(worker)));
        self.at(worker)
    }

    fn end(&mut self, worker: u64) -> String {
        while self.0.busy(worker) {
            self.act(worker);
        }
        self.at(worker)
    }

    fn call(&mut self, worker: u64, code: u64, item: u64) -> String {
        self.begin(worker, code, item);
        self.end(worker)
    }

    fn pushes(&mut self, worker: u64, items: std::ops::Range<u64>) {
        items.for_each(|item| assert_eq!(self.call(worker, PUSH, item), "idle:pushed"));
    }

    fn pops(&mut self, worker: u64, items: std::ops::Range<u64>) {
        items.for_each(|item| assert_eq!(self.call(worker, POP, 0), format!("idle:popped({item})")));
    }

    /// Head's index and block, tail's index and block.
    fn ends(&self) -> [u64; 4] {
        [Word::Head, Word::HeadBlock, Word::Tail, Word::TailBlock].map(|word| self.0.word(word))
    }

    fn slot_state(&self, block: usize, slot: usize) -> u64 {
        self.0.word(Word::SlotState(31 * block + slot))
    }

    /// The numbers of the taken blocks.
    fn taken(&self) -> Vec<usize> {
        let mut lines = String::new();
        self.0.source().write_slots(&mut lines);
        lines.lines().map(|line| line.split(' ').nth(1).unwrap().parse().unwrap()).collect()
    }
}

#[test]
fn limits() {
    let refused = |workers| Machine::make(Making::Unbounded, workers).err().unwrap_or(0);
    assert_eq!([0, 17, 1, 16].map(refused), [2, 2, 0, 0]);
}

/// Each place with the action that the source is about to do there, and what it leaves.
#[test]
fn first_push_and_pop() {
    let mut bench = Bench::new(1);
    assert_eq!(bench.begin(0, PUSH, 5), "U1(-,5)");
    let steps: [(Action, &str, [u64; 4], &[usize]); 8] = [
        (Action::Load(Word::Tail), "U2(-,0,5)", [0, NONE, 0, NONE], &[]),
        (Action::Load(Word::TailBlock), "U4(-,0,5)", [0, NONE, 0, NONE], &[]),
        (Action::Take, "U5(-,0,0,5)", [0, NONE, 0, NONE], &[0]),
        (Action::Exchange(Word::TailBlock, NO_BLOCK, 0), "U6(-,0,0,5)", [0, NONE, 0, 0], &[0]),
        (Action::Store(Word::HeadBlock, 0), "U7(-,0,0,5)", [0, 0, 0, 0], &[0]),
        (Action::WeakExchange(Word::Tail, 0, 2), "U12(-,0,0,5)", [0, 0, 2, 0], &[0]),
        (Action::Value(0), "U13(-,0,0)", [0, 0, 2, 0], &[0]),
        (Action::FetchOr(Word::SlotState(0), 1), "idle:pushed", [0, 0, 2, 0], &[0]),
    ];
    for (action, place, ends, taken) in steps {
        assert_eq!(bench.0.pending(0), Some(action));
        assert_eq!(bench.act(0), place);
        assert_eq!((bench.ends(), bench.taken().as_slice()), (ends, taken), "{place}");
    }
    assert_eq!((bench.slot_state(0, 0), bench.0.value(0), bench.0.meter()), (WRITE, 5, 8));
    assert_eq!(bench.begin(0, POP, 0), "V1");
    let steps = [
        (Action::Load(Word::Head), "V2(0)"),
        (Action::Load(Word::HeadBlock), "V3(0,0)"),
        (Action::Load(Word::Tail), "V4(0,0,2)"),
        (Action::WeakExchange(Word::Head, 0, 2), "V10(0,0)"),
        (Action::Load(Word::SlotState(0)), "V11(0,0)"),
        (Action::Value(0), "V12(0,0,5)"),
        (Action::FetchOr(Word::SlotState(0), 2), "idle:popped(5)"),
    ];
    for (action, place) in steps {
        assert_eq!(bench.0.pending(0), Some(action));
        assert_eq!(bench.act(0), place);
    }
    assert_eq!((bench.slot_state(0, 0), bench.ends()), (WRITE | READ, [2, 0, 2, 0]));
    assert_eq!(bench.call(0, POP, 0), "idle:empty");
}

#[test]
fn lookers() {
    let mut bench = Bench::new(1);
    assert_eq!(bench.begin(0, IS_FULL, 0), "full1");
    assert_eq!((bench.0.pending(0), bench.act(0)), (Some(Action::Nothing), "idle:no".into()));
    assert_eq!(
        [bench.begin(0, LEN, 0), bench.act(0), bench.act(0), bench.act(0)],
        ["len1", "len2(0)", "len3(0,0)", "idle:len(0)"]
    );
    bench.pushes(0, 0..40);
    bench.pops(0, 0..3);
    assert_eq!([bench.begin(0, IS_EMPTY, 0), bench.act(0), bench.act(0)], ["empty1", "empty2(7)", "idle:no"]);
    assert_eq!(bench.call(0, LEN, 0), "idle:len(37)");
    assert_eq!([bench.begin(0, IS_CLOSED, 0), bench.act(0)], ["isclosed1", "idle:no"]);
    assert_eq!([bench.begin(0, CLOSE, 0), bench.act(0)], ["close1", "idle:yes"]);
    assert_eq!([CLOSE, IS_CLOSED, LEN].map(|code| bench.call(0, code, 0)), ["idle:no", "idle:yes", "idle:len(37)"]);
    assert_eq!(bench.call(0, PUSH, 9), "idle:closed(9)");
    bench.pops(0, 3..40);
    assert_eq!(bench.call(0, POP, 0), "idle:closed");
    assert_eq!(bench.0.contents(), Ok(vec![]));
}

/// A block that was not installed goes back as its call's last act, whatever the answer, and is the next to be taken.
#[test]
fn set_aside() {
    let mut bench = Bench::new(3);
    for worker in 0..3 {
        bench.begin(worker, PUSH, 5 + worker);
        assert_eq!(bench.acts(worker, 3), format!("U5(-,0,{worker},{})", 5 + worker));
    }
    assert_eq!(bench.taken(), [0, 1, 2]);
    // Worker 1 is first; the others have their own set aside.
    assert_eq!([bench.act(1), bench.act(0), bench.act(2)], ["U6(-,0,1,6)", "U1(0,5)", "U1(2,7)"]);
    assert_eq!([bench.act(0), bench.act(0), bench.act(0)], ["U2(0,0,5)", "U7(0,0,1,5)", "U12(0,0,1,5)"]);
    assert_eq!([bench.act(0), bench.act(0)], ["U13(0,0,1)", "U14(0,pushed)"]);
    assert_eq!((bench.0.pending(0), bench.taken()), (Some(Action::Free(0)), vec![0, 1, 2]));
    assert_eq!((bench.act(0), bench.taken()), ("idle:pushed".into(), vec![1, 2]));
    assert_eq!(bench.call(0, CLOSE, 0), "idle:yes");
    assert_eq!([bench.act(2), bench.act(2)], ["U2(2,3,7)", "U14(2,closed(7))"]);
    assert_eq!((bench.0.pending(2), bench.taken()), (Some(Action::Free(2)), vec![1, 2]));
    assert_eq!((bench.act(2), bench.taken()), ("idle:closed(7)".into(), vec![1]));
    // Worker 1 has won the block but not a slot: nothing is set aside, and nothing goes back.
    assert_eq!([bench.act(1), bench.act(1), bench.act(1)], ["U7(-,0,1,6)", "U8(-,3,6)", "idle:closed(6)"]);
    assert_eq!(bench.0.contents(), Ok(vec![5]));
}

/// 31 pushes take the next block in advance, and the lowest free number; 31 pops free the first.
#[test]
fn a_block_full_and_emptied() {
    let mut bench = Bench::new(1);
    bench.pushes(0, 0..30);
    assert_eq!(
        (bench.begin(0, PUSH, 30), bench.acts(0, 2), bench.taken()),
        ("U1(-,30)".into(), "U3(60,0,30)".into(), vec![0])
    );
    let steps = [
        (Action::Take, "U7(1,60,0,30)"),
        (Action::WeakExchange(Word::Tail, 60, 62), "U9(1,60,0,30)"),
        (Action::Store(Word::TailBlock, 1), "U10(1,60,0,30)"),
        (Action::FetchAdd(Word::Tail, 2), "U11(1,60,0,30)"),
        (Action::Store(Word::Next(0), 1), "U12(-,60,0,30)"),
        (Action::Value(30), "U13(-,60,0)"),
        (Action::FetchOr(Word::SlotState(30), 1), "idle:pushed"),
    ];
    for (action, place) in steps {
        assert_eq!(bench.0.pending(0), Some(action));
        assert_eq!(bench.act(0), place);
    }
    assert_eq!((bench.ends(), bench.taken(), bench.0.word(Word::Next(0))), ([0, 0, 64, 1], vec![0, 1], 1));
    // Head and tail are in different blocks, so that head is marked from the first pop on, and tail is looked at no more.
    bench.pops(0, 0..30);
    assert_eq!(bench.ends(), [61, 0, 64, 1]);
    assert_eq!((bench.begin(0, POP, 0), bench.acts(0, 2)), ("V1".into(), "V4(61,0,63)".into()));
    let steps = [
        (Action::WeakExchange(Word::Head, 61, 63), "V6(61,0,63)"),
        (Action::Load(Word::Next(0)), "V7(61,0,63,1)"),
        (Action::Load(Word::Next(1)), "V8(61,0,1,64)"),
        (Action::Store(Word::HeadBlock, 1), "V9(61,0,64)"),
        (Action::Store(Word::Head, 64), "V10(61,0)"),
        (Action::Load(Word::SlotState(30)), "V11(61,0)"),
        (Action::Value(30), "V13(0,0,30)"),
    ];
    for (action, place) in steps {
        assert_eq!(bench.0.pending(0), Some(action));
        assert_eq!(bench.act(0), place);
    }
    for slot in 0..30 {
        assert_eq!(bench.at(0), format!("V13(0,{slot},30)"));
        assert_eq!(bench.0.pending(0), Some(Action::Load(Word::SlotState(slot))));
        bench.act(0);
    }
    assert_eq!((bench.at(0), bench.0.pending(0)), ("V15(0,30)".into(), Some(Action::Free(0))));
    assert_eq!(bench.taken(), [0, 1]);
    assert_eq!((bench.act(0), bench.taken(), bench.ends()), ("idle:popped(30)".into(), vec![1], [64, 1, 64, 1]));
    // Block 0 is taken anew, as `Block::new` makes it.
    bench.pushes(0, 31..62);
    assert_eq!((bench.taken(), bench.0.word(Word::Next(0)), bench.0.word(Word::Next(1))), (vec![0, 1], NONE, 0));
    assert!((0..31).all(|slot| bench.slot_state(0, slot) == 0 && bench.0.value(slot) == 0));
    assert_eq!(bench.0.contents(), Ok((31..62).collect()));
}

/// With a block more behind, the index stored by V9 is marked.
#[test]
fn next_of_next() {
    let mut bench = Bench::new(1);
    bench.pushes(0, 0..62);
    bench.pops(0, 0..30);
    bench.begin(0, POP, 0);
    assert_eq!(bench.acts(0, 5), "V8(61,0,1,65)");
    bench.end(0);
    assert_eq!(bench.ends(), [65, 1, 128, 2]);
}

/// Closing where tail stands at a block's end: U10 adds to the marked word.
#[test]
fn closed_at_the_end_of_a_block() {
    let mut bench = Bench::new(2);
    bench.pushes(0, 0..30);
    bench.begin(0, PUSH, 30);
    assert_eq!(bench.acts(0, 5), "U10(1,60,0,30)");
    assert_eq!((bench.call(1, CLOSE, 0), bench.ends()[2]), ("idle:yes".into(), 63));
    assert_eq!(bench.call(1, LEN, 0), "idle:len(31)");
    assert_eq!(bench.call(1, PUSH, 9), "idle:closed(9)");
    assert_eq!((bench.act(0), bench.ends()[2]), ("U11(1,60,0,30)".into(), 65));
    assert_eq!(bench.end(0), "idle:pushed");
    bench.pops(1, 0..31);
    assert_eq!(bench.call(1, POP, 0), "idle:closed");
}

/// A reader that is late is left to destroy the rest of the block.
#[test]
fn destroyed_by_a_late_reader() {
    let mut bench = Bench::new(2);
    bench.pushes(0, 0..31);
    bench.begin(1, POP, 0);
    assert_eq!(bench.acts(1, 6), "V12(0,0,0)");
    bench.pops(0, 1..30);
    bench.begin(0, POP, 0);
    while bench.at(0) != "V13(0,0,30)" {
        bench.act(0);
    }
    assert_eq!(bench.act(0), "V14(0,0,30)");
    assert_eq!(bench.0.pending(0), Some(Action::FetchOr(Word::SlotState(0), 4)));
    assert_eq!((bench.act(0), bench.slot_state(0, 0)), ("idle:popped(30)".into(), WRITE | DESTROY));
    assert_eq!((bench.act(1), bench.slot_state(0, 0)), ("V13(0,1,0)".into(), WRITE | READ | DESTROY));
    assert_eq!(bench.acts(1, 29), "V15(0,0)");
    assert_eq!((bench.act(1), bench.taken()), ("idle:popped(0)".into(), vec![1]));
}

/// All blocks taken: 23, after 8, with nothing changed; and the same act goes on once a block is free, with that block.
#[test]
fn no_block_free() {
    let mut bench = Bench::new(3);
    bench.pushes(0, 0..63 * 31 + 30);
    assert_eq!(bench.taken(), (0..64).collect::<Vec<_>>());
    let before = bench.0.meter();
    bench.begin(0, PUSH, 7);
    assert_eq!(bench.acts(0, 2), "U3(4092,63,7)");
    let shown = |bench: &Bench| {
        let mut text = bench.at(0);
        bench.0.source().write_words(&mut text);
        bench.0.source().write_slots(&mut text);
        (text, bench.0.meter())
    };
    let there = shown(&bench);
    assert_eq!([bench.0.enter(9, 0), bench.0.enter(8, 0), bench.0.enter(8, 0), bench.0.enter(8, 1)], [8, 23, 23, 9]);
    assert_eq!((shown(&bench), bench.0.meter()), (there, before + 2));
    // A call that takes none goes on.
    bench.pops(1, 0..30);
    bench.begin(1, POP, 0);
    while !bench.at(1).starts_with("V15") {
        bench.act(1);
        assert_eq!(bench.0.enter(8, 0), 23);
    }
    assert_eq!(bench.act(1), "idle:popped(30)");
    assert_eq!(bench.act(0), "U7(0,4092,63,7)");
    // Now none is free again, for worker 2.
    bench.begin(2, PUSH, 8);
    assert_eq!((bench.acts(2, 2), bench.0.enter(2 * 16 + 8, 0)), ("U3(4092,63,8)".into(), 23));
    assert_eq!(bench.end(0), "idle:pushed");
    assert_eq!(bench.0.enter(2 * 16 + 8, 0), 23);
    bench.pops(1, 31..62);
    assert_eq!(bench.act(2), "U7(1,4092,63,8)");
    assert_eq!((bench.act(2), bench.act(2)), ("U8(1,4096,8)".into(), "U7(1,4096,0,8)".into()));
    assert_eq!(bench.end(2), "idle:pushed");
    let items = (62..63 * 31 + 30).chain([7, 8]);
    assert_eq!(bench.0.contents(), Ok(items.collect()));
}

/// The answer that U14 shows is the one that comes.
#[test]
fn the_answer_to_come() {
    let mut random = Random::new(5);
    let mut seen = [0, 0];
    while seen.contains(&0) {
        let schedule = interleaved::schedule(&mut random, Making::Unbounded, 8, 28, 1500);
        let mut bench = Bench::new(8);
        for (first, second) in schedule.entries() {
            let before = bench.0.state(first / 16).map(|state| state.to_string());
            if bench.0.enter(first, second) != 0 {
                break;
            }
            let Some(answer) = before.as_deref().and_then(|place| place.strip_prefix("U14(")?.strip_suffix(')')) else {
                continue;
            };
            let answer = answer.split_once(',').unwrap().1;
            assert_eq!(bench.at(first / 16), format!("idle:{answer}"));
            seen[usize::from(answer == "pushed")] += 1;
        }
    }
}
