//! Document 01's eight runs on paper, and what requests 4, 6, 8 and 9 have of them. All numbers are the documents'.

mod codes;

use codes::*;
use oracle::machine::{Losses, Machine};
use oracle::queue::{Bits, Queue};
use oracle::stage::{Action, Word};
use oracle::state::Kind;

struct Bench(Machine);

fn made_in(edition: u64, capacity: u64, workers: u64) -> Result<Machine, u64> {
    Machine::make(Queue::ring(edition, Bits::SixtyFour).making(capacity), workers)
}

fn made(capacity: u64, workers: u64) -> Result<Machine, u64> {
    made_in(1, capacity, workers)
}

impl Bench {
    fn new(capacity: u64, workers: u64) -> Bench {
        Bench::of(made(capacity, workers))
    }

    fn of(made: Result<Machine, u64>) -> Bench {
        Bench(made.unwrap_or_else(|refusal| panic!("refused {refusal}")))
    }

    fn head(&self) -> u64 {
        self.0.word(Word::Head)
    }

    fn tail(&self) -> u64 {
        self.0.word(Word::Tail)
    }

    fn stamp(&self, slot: usize) -> u64 {
        self.0.word(Word::Stamp(slot))
    }

    fn begin(&mut self, worker: u64, code: u64, item: u64) {
        assert_eq!(self.0.enter(16 * worker + code, item), 0);
    }

    /// One act; the state after it.
    fn act(&mut self, worker: u64) -> String {
        assert_eq!(self.0.enter(16 * worker + ACT, 0), 0);
        self.0.state(worker).unwrap().to_string()
    }

    /// One act whose weak exchange fails; the state after it.
    fn fail(&mut self, worker: u64) -> String {
        assert_eq!(self.0.enter(16 * worker + FAIL, 0), 0);
        self.0.state(worker).unwrap().to_string()
    }

    fn lost(&self, worker: u64) -> (u64, u64) {
        let Losses { differed, failed } = self.0.losses(worker).unwrap();
        (differed, failed)
    }

    /// Why the last act went back.
    fn because(&self) -> Option<String> {
        self.0.because().map(|causes| causes.to_string())
    }

    /// One act that goes back: the state after it, and why.
    fn back(&mut self, worker: u64) -> (String, String) {
        (self.act(worker), self.because().expect("goes back"))
    }

    /// One act whose weak exchange fails; the state after it, and why it went back.
    fn fail_back(&mut self, worker: u64) -> (String, String) {
        (self.fail(worker), self.because().expect("goes back"))
    }

    /// Acts to the answer, and how many.
    fn end(&mut self, worker: u64) -> (String, u64) {
        let before = self.0.meter();
        while self.0.busy(worker) {
            self.act(worker);
        }
        (self.0.state(worker).unwrap().to_string(), self.0.meter() - before)
    }

    fn call(&mut self, worker: u64, code: u64, item: u64) -> String {
        self.begin(worker, code, item);
        self.end(worker).0
    }

    fn ends(&self) -> (u64, u64) {
        (self.head(), self.tail())
    }

    fn stamps<const SLOTS: usize>(&self) -> [u64; SLOTS] {
        std::array::from_fn(|slot| self.stamp(slot))
    }

    fn contents(self) -> Vec<u64> {
        self.0.contents().unwrap_or_else(|refusal| panic!("refused {refusal}"))
    }

    fn acts<const ACTS: usize>(&mut self, worker: u64) -> [String; ACTS] {
        std::array::from_fn(|_| self.act(worker))
    }

    /// The stock after each of the worker's next acts.
    fn stocks<const ACTS: usize>(&mut self, worker: u64) -> [u64; ACTS] {
        std::array::from_fn(|_| {
            self.act(worker);
            self.0.stock()
        })
    }
}

fn run_b() -> Bench {
    let mut bench = Bench::new(2, 1);
    assert_eq!(bench.0.enter(0, 5), 0);
    (0..5).for_each(|_| assert_eq!(bench.0.enter(8, 0), 0));
    bench
}

fn run_c() -> Bench {
    let mut bench = run_b();
    assert_eq!(bench.call(0, PUSH, 6), "idle:pushed");
    assert_eq!((bench.tail(), bench.stamp(1)), (8, 2));
    assert_eq!(bench.call(0, POP, 0), "idle:popped(5)");
    assert_eq!((bench.head(), bench.stamp(0)), (1, 8));
    assert_eq!(bench.call(0, PUSH, 7), "idle:pushed");
    assert_eq!((bench.tail(), bench.stamp(0)), (9, 9));
    bench.begin(0, PUSH, 8);
    assert_eq!(bench.end(0), ("idle:full(8)".into(), 3));
    bench
}

fn run_d() -> Bench {
    let mut bench = run_c();
    bench.begin(0, FORCE_PUSH, 8);
    assert_eq!(bench.end(0), ("idle:displaced(6)".into(), 6));
    assert_eq!((bench.ends(), bench.stamp(1)), ((8, 16), 10));
    bench
}

/// Capacity 1, holding 7, and worker 0 at F6 of force_push 8.
fn before_f6(edition: u64) -> Bench {
    let mut bench = Bench::of(made_in(edition, 1, 2));
    assert_eq!(bench.call(0, PUSH, 7), "idle:pushed");
    assert_eq!((bench.tail(), bench.stamps()), (4, [1]));
    bench.begin(0, FORCE_PUSH, 8);
    bench.act(0);
    assert_eq!(bench.act(0), "F6(4,8)");
    bench
}

/// Mark is what `close` sets; lap is what the first pop's stamp store adds to head 0.
#[test]
fn a_constants() {
    for (capacity, mark, lap) in
        [(1, 2, 4), (2, 4, 8), (3, 4, 8), (4, 8, 16), (255, 256, 512), (256, 512, 1024), (1024, 2048, 4096)]
    {
        let mut bench = Bench::new(capacity, 2);
        bench.call(0, PUSH, 5);
        bench.begin(0, POP, 0);
        (0..4).for_each(|_| drop(bench.act(0)));
        assert_eq!(bench.0.pending(0), Some(Action::Store(Word::Stamp(0), lap)));
        bench.begin(1, CLOSE, 0);
        assert_eq!(bench.0.pending(1), Some(Action::FetchOr(Word::Tail, mark)));
    }
}

#[test]
fn b_push() {
    let bench = run_b();
    assert_eq!(bench.ends(), (0, 1));
    assert_eq!([0, 1].map(|slot| (bench.stamp(slot), bench.0.value(slot))), [(1, 5), (1, 0)]);
    assert_eq!(bench.0.meter(), 5);
    assert_eq!(bench.0.state(0).unwrap().to_string(), "idle:pushed");
    // by request 8
    assert_eq!(bench.lost(0), (0, 0));
    assert_eq!(bench.contents(), [5]);
}

#[test]
fn c_full() {
    run_c();
}

#[test]
fn d_displaced() {
    assert_eq!(run_d().contents(), [7, 8]);
}

#[test]
fn e_closed() {
    let mut bench = run_d();
    assert_eq!(bench.call(0, CLOSE, 0), "idle:yes");
    assert_eq!(bench.tail(), 20);
    assert_eq!(bench.call(0, PUSH, 9), "idle:closed(9)");
    assert_eq!(bench.call(0, POP, 0), "idle:popped(7)");
    assert_eq!(bench.call(0, POP, 0), "idle:popped(8)");
    assert_eq!(bench.call(0, POP, 0), "idle:closed");
    assert_eq!((bench.head(), bench.stamps()), (16, [16, 17]));
}

#[test]
fn f_close_lost() {
    let mut bench = before_f6(1);
    assert_eq!(bench.call(1, CLOSE, 0), "idle:yes");
    assert_eq!(bench.tail(), 6);
    assert_eq!(bench.end(0).0, "idle:displaced(7)");
    assert_eq!((bench.ends(), bench.stamps()), ((4, 8), [5]));
    assert_eq!(bench.call(1, IS_CLOSED, 0), "idle:no");
    assert_eq!(bench.0.tally.closes_met, 1);
}

#[test]
fn f_in_edition_2() {
    let mut bench = before_f6(2);
    assert_eq!(bench.call(1, CLOSE, 0), "idle:yes");
    assert_eq!(bench.tail(), 6);
    assert_eq!(bench.end(0).0, "idle:displaced(7)");
    assert_eq!((bench.ends(), bench.stamps()), ((4, 10), [5]));
    assert_eq!(bench.call(1, IS_CLOSED, 0), "idle:yes");
    assert_eq!(bench.0.tally.closes_met, 1);
    assert_eq!(bench.contents(), [8]);
}

#[test]
fn g_before_f7() {
    let mut bench = before_f6(1);
    assert_eq!(bench.act(0), "F7(4,8)");
    assert_eq!(bench.ends(), (4, 4));
    assert_eq!(bench.call(1, LEN, 0), "idle:len(0)");
    assert_eq!(bench.call(1, IS_EMPTY, 0), "idle:yes");
    // by request 4
    assert_eq!(bench.0.stock(), 1);
    bench.begin(1, POP, 0);
    assert_eq!(bench.0.state(1).unwrap().kind, Kind::O1);
    assert_eq!(bench.act(1), "O2(4)");
    assert_eq!(bench.act(1), "O1");
}

/// Request 4: a tail claim is the act at P3 that wins, and F7; a value is read at O4 and F8.
#[test]
fn stock_until_the_read() {
    let mut bench = Bench::new(1, 2);
    bench.begin(0, PUSH, 7);
    assert_eq!(bench.stocks(0), [0, 0, 1, 1, 1], "P1 to P5");
    bench.begin(0, FORCE_PUSH, 8);
    assert_eq!(bench.stocks(0), [1, 1, 1, 2, 1, 1], "P1, P2, F6 to F9");
    bench.begin(1, POP, 0);
    assert_eq!(bench.stocks(1), [1, 1, 1, 0, 0], "O1 to O5");
    assert_eq!(bench.contents(), []);
}

/// Request 8: both kinds at P3, at F6 and at O3, and code 9 where the words differ; kept by other acts, by a won exchange and after
/// the answer; from 0 at the next begin; the other worker's are its own.
#[test]
fn losses_by_kind() {
    let mut bench = Bench::new(1, 2);
    (0..2).for_each(|worker| bench.begin(worker, PUSH, 7));
    (0..2).for_each(|worker| assert_eq!([bench.act(worker), bench.act(worker)], ["P2:push(0,7)", "P3:push(0,7)"]));
    assert_eq!(bench.fail(0), "P2:push(0,7)");
    assert_eq!([bench.lost(0), bench.lost(1)], [(0, 1), (0, 0)]);
    bench.act(0);
    assert_eq!(bench.fail(0), "P2:push(0,7)");
    assert_eq!(bench.lost(0), (0, 2));
    assert_eq!(bench.end(0), ("idle:pushed".into(), 4));
    assert_eq!(bench.lost(0), (0, 2));
    assert_eq!(bench.fail(1), "P2:push(4,7)");
    assert_eq!(bench.lost(1), (1, 0), "both apply: by the words");
    assert_eq!(bench.end(1).0, "idle:full(7)");
    assert_eq!(bench.lost(1), (1, 0));

    (0..2).for_each(|worker| bench.begin(worker, FORCE_PUSH, 8));
    assert_eq!([bench.lost(0), bench.lost(1)], [(0, 0), (0, 0)]);
    (0..2).for_each(|worker| assert_eq!([bench.act(worker), bench.act(worker)], ["P2:force(4,8)", "F6(4,8)"]));
    assert_eq!(bench.fail(0), "P1:force(8)");
    assert_eq!(bench.lost(0), (0, 1));
    assert_eq!(bench.end(0), ("idle:displaced(7)".into(), 6));
    assert_eq!(bench.lost(0), (0, 1));
    assert_eq!(bench.act(1), "P1:force(8)");
    assert_eq!(bench.lost(1), (1, 0));
    assert_eq!(bench.end(1).0, "idle:displaced(8)");

    (0..2).for_each(|worker| bench.begin(worker, POP, 0));
    (0..2).for_each(|worker| assert_eq!([bench.act(worker), bench.act(worker)], ["O2(8)", "O3(8)"]));
    assert_eq!(bench.fail(0), "O2(8)");
    assert_eq!(bench.end(0), ("idle:popped(8)".into(), 4));
    assert_eq!(bench.act(1), "O2(12)");
    assert_eq!([bench.lost(0), bench.lost(1)], [(0, 1), (1, 0)]);
    assert_eq!(bench.end(1).0, "idle:empty");
    assert_eq!(bench.lost(1), (1, 0));
}

fn pair(state: &str, causes: &str) -> (String, String) {
    (state.into(), causes.into())
}

/// Request 9, the first cause: of a worker alone, at P3, F6 and O3.
#[test]
fn back_by_the_schedule() {
    let mut bench = Bench::new(1, 1);
    bench.begin(0, PUSH, 7);
    assert_eq!(bench.acts(0), ["P2:push(0,7)", "P3:push(0,7)"]);
    assert_eq!(bench.because(), None);
    assert_eq!(bench.fail_back(0), pair("P2:push(0,7)", "schedule"));
    assert_eq!(bench.act(0), "P3:push(0,7)");
    assert_eq!(bench.because(), None);
    assert_eq!(bench.end(0).0, "idle:pushed");
    bench.begin(0, FORCE_PUSH, 8);
    assert_eq!(bench.acts(0), ["P2:force(4,8)", "F6(4,8)"]);
    assert_eq!(bench.fail_back(0), pair("P1:force(8)", "schedule"));
    assert_eq!(bench.end(0).0, "idle:displaced(7)");
    bench.begin(0, POP, 0);
    assert_eq!(bench.acts(0), ["O2(4)", "O3(4)"]);
    assert_eq!(bench.fail_back(0), pair("O2(4)", "schedule"));
}

/// The second: since the word was loaded or found, not since the begin; where both losses apply it is not the schedule's.
#[test]
fn back_by_its_own_end() {
    let mut bench = Bench::new(2, 3);
    for (code, item, stands, found) in [(PUSH, 7, "P3:push(0,7)", "P2:push(1,7)"), (POP, 0, "O3(0)", "O2(1)")] {
        for worker in 0..3 {
            bench.begin(worker, code, item);
            assert_eq!(bench.acts::<2>(worker)[1], stands);
        }
        bench.act(1);
        assert_eq!(bench.because(), None);
        assert_eq!(bench.back(0), pair(found, "own-end"));
        assert_eq!(bench.fail_back(2), pair(found, "own-end"));
        // Worker 1 has slot 0 in hand at this load of a stamp; the end moved before the word was found.
        bench.act(0);
        assert_eq!(bench.fail_back(0), pair(found, "schedule,hand"));
        for worker in [1, 0, 2] {
            bench.end(worker);
        }
    }
}

/// The same of len, by a claim and by a close that answers yes; no other cause counts.
#[test]
fn back_in_len() {
    let mut bench = Bench::new(1, 2);
    bench.begin(1, PUSH, 7);
    assert_eq!(bench.acts(1), ["P2:push(0,7)", "P3:push(0,7)"]);
    bench.begin(0, LEN, 0);
    assert_eq!(bench.act(0), "len2(0)");
    assert_eq!(bench.act(1), "P4(0,7)");
    assert_eq!(bench.act(0), "len3(0,0)");
    assert_eq!(bench.back(0), pair("len1", "own-end"));
    assert_eq!(bench.act(0), "len2(4)");
    assert_eq!(bench.end(1).0, "idle:pushed");
    assert_eq!(bench.call(1, CLOSE, 0), "idle:yes");
    assert_eq!(bench.act(0), "len3(4,0)");
    assert_eq!(bench.back(0), pair("len1", "own-end"));
    assert_eq!(bench.act(0), "len2(6)");
    assert_eq!(bench.call(1, CLOSE, 0), "idle:no");
    assert_eq!(bench.acts(0), ["len3(6,0)", "idle:len(1)"]);
    assert_eq!(bench.because(), None);
}

/// The third: since the last load of a stamp. A slot that came into a hand later is not the fourth.
#[test]
fn back_by_the_other_end() {
    let mut bench = Bench::new(1, 2);
    bench.begin(0, POP, 0);
    assert_eq!(bench.acts(0), ["O2(0)", "O6(0)"]);
    bench.begin(1, PUSH, 7);
    assert_eq!(bench.acts(1), ["P2:push(0,7)", "P3:push(0,7)", "P4(0,7)"]);
    assert_eq!(bench.back(0), pair("O1", "other-end"));
    bench.end(1);
    assert_eq!(bench.end(0).0, "idle:popped(7)");

    assert_eq!(bench.call(1, PUSH, 7), "idle:pushed");
    for (code, stands, back) in [(PUSH, "P6(8,8)", "P1:push(8)"), (FORCE_PUSH, "F6(12,8)", "P1:force(8)")] {
        bench.begin(0, code, 8);
        bench.act(0);
        assert_eq!(bench.act(0), stands);
        bench.begin(1, POP, 0);
        bench.acts::<3>(1);
        assert_eq!(bench.back(0), pair(back, "other-end"));
        // The fourth: a hand at the load, although it has let go since.
        bench.act(0);
        assert_eq!(bench.act(0), stands);
        bench.end(1);
        assert_eq!(bench.back(0), pair(back, "hand"));
        assert_eq!(bench.end(0).0, "idle:pushed");
    }
}

/// The fourth in a pop, as in run G. A close in between is no mark of head.
#[test]
fn back_by_a_hand() {
    let mut bench = Bench::new(1, 3);
    assert_eq!(bench.call(0, PUSH, 7), "idle:pushed");
    bench.begin(0, FORCE_PUSH, 8);
    assert_eq!(bench.acts(0), ["P2:force(4,8)", "F6(4,8)", "F7(4,8)"]);
    bench.begin(1, POP, 0);
    assert_eq!(bench.act(1), "O2(4)");
    assert_eq!(bench.call(2, CLOSE, 0), "idle:yes");
    assert_eq!(bench.back(1), pair("O1", "hand"));
}

/// Two at once: a tail that is a lap old, lost at F6.
#[test]
fn back_by_both_ends() {
    let mut bench = Bench::new(1, 2);
    assert_eq!(bench.call(0, PUSH, 7), "idle:pushed");
    bench.begin(0, FORCE_PUSH, 9);
    assert_eq!(bench.acts(0), ["P2:force(4,9)", "F6(4,9)"]);
    assert_eq!(bench.call(1, POP, 0), "idle:popped(7)");
    assert_eq!(bench.call(1, PUSH, 8), "idle:pushed");
    assert_eq!(bench.fail_back(0), pair("P1:force(9)", "own-end,other-end"));
}

/// Request 14: after a turn, capacity x 65,536 / lap claims, the words are what they were; at 64 bits they go on.
#[test]
fn a_turn_of_sixteen_bits() {
    for (capacity, turn) in [(1, 16_384), (2, 16_384), (3, 24_576), (256, 16_384), (1024, 16_384)] {
        for edition in [1, 2] {
            for (bits, after) in [(Bits::Sixteen, 0), (Bits::SixtyFour, 65_536)] {
                let mut bench = Bench::of(Machine::make(Queue::ring(edition, bits).making(capacity), 1));
                for item in 0..turn {
                    assert_eq!(bench.call(0, FORCE_PUSH, item), "idle:pushed");
                    assert_eq!(bench.call(0, POP, 0), format!("idle:popped({item})"));
                }
                assert_eq!((bench.ends(), bench.stamp(0)), ((after, after), after));
            }
        }
    }
}

/// At the last lap of sixteen bits: next(t), t - lap and h + lap begin anew.
#[test]
fn last_lap_of_sixteen_bits() {
    let mut bench = Bench::of(Machine::make(Queue::ring(1, Bits::Sixteen).making(1), 1));
    assert_eq!(bench.call(0, PUSH, 1), "idle:pushed");
    (2..=16_383).for_each(|item| drop(bench.call(0, FORCE_PUSH, item)));
    assert_eq!((bench.ends(), bench.stamp(0)), ((65_528, 65_532), 65_529));
    assert_eq!(bench.call(0, FORCE_PUSH, 16_384), "idle:displaced(16383)");
    assert_eq!((bench.ends(), bench.stamp(0)), ((65_532, 0), 65_533));
    assert_eq!(bench.call(0, IS_FULL, 0), "idle:yes");
    assert_eq!(bench.call(0, PUSH, 5), "idle:full(5)");
    assert_eq!(bench.call(0, FORCE_PUSH, 5), "idle:displaced(16384)");
    assert_eq!((bench.ends(), bench.stamp(0)), ((0, 4), 1));
    assert_eq!(bench.call(0, CLOSE, 0), "idle:yes");
    assert_eq!(bench.ends(), (0, 6));
    assert_eq!(bench.contents(), [5]);
}

#[test]
fn h_limits() {
    let refused = |capacity, workers| made(capacity, workers).err().unwrap_or(0);
    let in_edition = |edition, capacity, workers| made_in(edition, capacity, workers).err().unwrap_or(0);
    assert_eq!([0, 1, 2, 3, u64::MAX].map(|edition| in_edition(edition, 1, 1)), [18, 0, 0, 18, 18]);
    assert_eq!([in_edition(3, 0, 17), in_edition(3, 1, 17)], [1, 2]);
    assert_eq!([0, 1025, 1, 1024].map(|capacity| refused(capacity, 1)), [1, 1, 0, 0]);
    assert_eq!([0, 17, 1, 16].map(|workers| refused(1, workers)), [2, 2, 0, 0]);
}
