//! The one-slot queue: what single.rs does at each place, typed from request 1 and from the source's text, and the two oddities
//! that are kept.

mod codes;

use codes::*;
use oracle::machine::Machine;
use oracle::queue::Making;
use oracle::stage::{Action, Word};

const LOCKED: u64 = 1;
const PUSHED: u64 = 2;
const CLOSED: u64 = 4;

struct Bench(Machine);

impl Bench {
    fn new(workers: u64) -> Bench {
        Bench(Machine::make(Making::Single, workers).unwrap_or_else(|refusal| panic!("refused {refusal}")))
    }

    fn begin(&mut self, worker: u64, code: u64, item: u64) -> String {
        assert_eq!(self.0.enter(16 * worker + code, item), 0);
        self.at(worker)
    }

    fn at(&self, worker: u64) -> String {
        self.0.state(worker).unwrap().to_string()
    }

    fn act(&mut self, worker: u64) -> String {
        assert_eq!(self.0.enter(16 * worker + 8, 0), 0);
        self.at(worker)
    }

    /// Acts to the answer; the places on the way and the state word after each act.
    fn end(&mut self, worker: u64) -> Vec<(String, u64)> {
        let mut seen = Vec::new();
        while self.0.busy(worker) {
            seen.push((self.act(worker), self.state()));
        }
        seen
    }

    /// A whole call: its first place, and what `end` tells.
    fn call(&mut self, worker: u64, code: u64, item: u64) -> (String, Vec<(String, u64)>) {
        (self.begin(worker, code, item), self.end(worker))
    }

    fn answer(&mut self, worker: u64, code: u64, item: u64) -> String {
        self.call(worker, code, item).1.pop().unwrap().0
    }

    fn state(&self) -> u64 {
        self.0.word(Word::State)
    }

    fn holding(item: u64) -> Bench {
        let mut bench = Bench::new(3);
        assert_eq!(bench.answer(0, PUSH, item), "idle:pushed");
        bench
    }
}

fn went(places: &[(&str, u64)]) -> Vec<(String, u64)> {
    places.iter().map(|(place, state)| (place.to_string(), *state)).collect()
}

#[test]
fn limits() {
    assert_eq!([0, 17, 1, 16].map(|workers| Machine::make(Making::Single, workers).err().unwrap_or(0)), [2, 2, 0, 0]);
}

#[test]
fn push_pop_full_displaced_closed() {
    let mut bench = Bench::new(1);
    let pushed = |item| {
        let (first, second) = (format!("A1({item})"), format!("A2({item})"));
        (first, went(&[(&second, LOCKED | PUSHED), ("A3", LOCKED | PUSHED), ("idle:pushed", PUSHED)]))
    };
    assert_eq!(bench.call(0, PUSH, 5), pushed(5));
    let popped = went(&[("C2", LOCKED), ("C3(5)", LOCKED), ("idle:popped(5)", 0)]);
    assert_eq!(bench.call(0, POP, 0), ("C1(2)".into(), popped));
    assert_eq!(bench.call(0, PUSH, 6), pushed(6));
    assert_eq!(bench.call(0, PUSH, 7), ("A1(7)".into(), went(&[("idle:full(7)", PUSHED)])));
    let places =
        [("B1(2,8)", PUSHED), ("B4(8)", LOCKED | PUSHED), ("B5(6)", LOCKED | PUSHED), ("idle:displaced(6)", PUSHED)];
    assert_eq!(bench.call(0, FORCE_PUSH, 8), ("B1(0,8)".into(), went(&places)));
    assert_eq!(bench.0.value(0), 8);
    assert_eq!(bench.call(0, CLOSE, 0), ("close1".into(), went(&[("idle:yes", PUSHED | CLOSED)])));
    assert_eq!(bench.answer(0, CLOSE, 0), "idle:no");
    assert_eq!(bench.answer(0, PUSH, 9), "idle:closed(9)");
    assert_eq!(bench.answer(0, FORCE_PUSH, 9), "idle:closed(9)");
    // After the lost exchange e is the word found, so that the mark of closing stays while the slot is emptied.
    let places =
        [("C1(6)", PUSHED | CLOSED), ("C2", LOCKED | CLOSED), ("C3(8)", LOCKED | CLOSED), ("idle:popped(8)", CLOSED)];
    assert_eq!(bench.call(0, POP, 0), ("C1(2)".into(), went(&places)));
    assert_eq!(bench.answer(0, POP, 0), "idle:closed");
    assert_eq!(bench.0.contents(), Ok(vec![]));
}

#[test]
fn force_push_into_an_empty_slot() {
    let mut bench = Bench::new(1);
    let places = [("B2(5)", LOCKED | PUSHED), ("B3", LOCKED | PUSHED), ("idle:pushed", PUSHED)];
    assert_eq!(bench.call(0, FORCE_PUSH, 5), ("B1(0,5)".into(), went(&places)));
    assert_eq!(bench.0.contents(), Ok(vec![5]));
}

#[test]
fn lookers() {
    let mut bench = Bench::new(1);
    let looks = |bench: &mut Bench| [LEN, IS_EMPTY, IS_FULL, IS_CLOSED].map(|code| bench.call(0, code, 0));
    let seen = |answers: [&str; 4], state| {
        let places = ["len1", "empty1", "full1", "isclosed1"].map(String::from);
        std::array::from_fn(|i| (places[i].clone(), went(&[(answers[i], state)])))
    };
    assert_eq!(looks(&mut bench), seen(["idle:len(0)", "idle:yes", "idle:no", "idle:no"], 0));
    bench.answer(0, PUSH, 5);
    assert_eq!(looks(&mut bench), seen(["idle:len(1)", "idle:no", "idle:yes", "idle:no"], PUSHED));
    bench.answer(0, CLOSE, 0);
    assert_eq!(looks(&mut bench), seen(["idle:len(1)", "idle:no", "idle:yes", "idle:yes"], PUSHED | CLOSED));
}

/// The state word has PUSHED from A1 on, although the value is written by A2.
#[test]
fn len_and_pop_while_a_push_is_in_hand() {
    let mut bench = Bench::new(2);
    bench.begin(0, PUSH, 5);
    assert_eq!(bench.act(0), "A2(5)");
    assert_eq!(bench.answer(1, LEN, 0), "idle:len(1)");
    bench.begin(1, POP, 0);
    // LOCKED is cleared in the e that is tried next: it is lost again and again until the push lets go.
    assert_eq!([bench.act(1), bench.act(1)], ["C1(2)", "C1(2)"]);
    assert_eq!(bench.0.value(0), 0);
    assert_eq!([bench.act(0), bench.act(1), bench.act(0)], ["A3", "C1(2)", "idle:pushed"]);
    assert_eq!(bench.0.value(0), 5);
    assert_eq!(bench.act(1), "C2");
}

/// The oddities: with a pop in hand push answers Full and pop Empty, or Closed once closed.
#[test]
fn full_and_empty_while_a_pop_is_in_hand() {
    for acts in [1, 2] {
        let mut bench = Bench::holding(5);
        bench.begin(0, POP, 0);
        (0..acts).for_each(|_| drop(bench.act(0)));
        assert_eq!(bench.at(0), ["C2", "C3(5)"][acts - 1]);
        assert_eq!(bench.answer(1, PUSH, 6), "idle:full(6)");
        assert_eq!(bench.answer(1, POP, 0), "idle:empty");
        assert_eq!(bench.answer(1, LEN, 0), "idle:len(0)");
        assert_eq!(bench.answer(1, CLOSE, 0), "idle:yes");
        assert_eq!(bench.answer(1, POP, 0), "idle:closed");
        assert_eq!(bench.answer(1, PUSH, 6), "idle:closed(6)");
        bench.end(0);
        assert_eq!((bench.at(0), bench.state()), ("idle:popped(5)".into(), CLOSED));
    }
}

/// A force_push waits for whoever has the slot in hand, and a close ends its waiting.
#[test]
fn force_push_waits() {
    let mut bench = Bench::holding(5);
    bench.begin(0, POP, 0);
    bench.act(0);
    bench.begin(1, FORCE_PUSH, 6);
    bench.begin(2, FORCE_PUSH, 7);
    assert_eq!([bench.act(1), bench.act(1), bench.act(2)], ["B1(0,6)", "B1(0,6)", "B1(0,7)"]);
    bench.end(0);
    assert_eq!(bench.act(1), "B2(6)");
    assert_eq!([bench.act(2), bench.act(2)], ["B1(2,7)", "B1(2,7)"]);
    assert_eq!([bench.act(1), bench.act(1)], ["B3", "idle:pushed"]);
    assert_eq!(bench.answer(0, CLOSE, 0), "idle:yes");
    assert_eq!(bench.act(2), "idle:closed(7)");
    assert_eq!(bench.0.contents(), Ok(vec![6]));
}

/// Code 9 is refused everywhere; closing during a push keeps the mark when it unlocks.
#[test]
fn code_9_and_close_in_hand() {
    let mut bench = Bench::new(2);
    for code in 0..8 {
        bench.begin(0, code, 0);
        while bench.0.busy(0) {
            assert_eq!(bench.0.enter(9, 0), 8);
            bench.act(0);
            if code == PUSH && bench.at(0) == "A3" {
                assert_eq!(bench.answer(1, CLOSE, 0), "idle:yes");
                assert_eq!(bench.state(), LOCKED | PUSHED | CLOSED);
            }
        }
    }
    assert_eq!(bench.state(), CLOSED);
}

/// What each place is about to do to the state word.
#[test]
fn actions() {
    let mut bench = Bench::new(3);
    let all_but_locked = !(LOCKED as usize);
    bench.begin(0, PUSH, 5);
    assert_eq!(bench.0.pending(0), Some(Action::Exchange(Word::State, 0, 3)));
    bench.begin(1, FORCE_PUSH, 6);
    assert_eq!(bench.0.pending(1), Some(Action::Exchange(Word::State, 0, 3)));
    bench.begin(2, POP, 0);
    assert_eq!(bench.0.pending(2), Some(Action::Exchange(Word::State, 2, 1)));
    bench.act(0);
    assert_eq!(bench.0.pending(0), Some(Action::Value(0)));
    bench.act(0);
    assert_eq!(bench.0.pending(0), Some(Action::FetchAnd(Word::State, all_but_locked)));
    bench.act(0);
    bench.act(1);
    assert_eq!(bench.0.pending(1), Some(Action::Exchange(Word::State, 2, 3)));
    bench.begin(0, CLOSE, 0);
    assert_eq!(bench.0.pending(0), Some(Action::FetchOr(Word::State, 4)));
    bench.act(0);
    bench.act(2);
    assert_eq!(bench.0.pending(2), Some(Action::Exchange(Word::State, 6, 5)));
    bench.begin(0, IS_CLOSED, 0);
    assert_eq!(bench.0.pending(0), Some(Action::Load(Word::State)));
}
