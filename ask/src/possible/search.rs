//! Whether a plain queue gives a log's answers: calls as steps, in an order that keeps the log's. A force_push that displaces takes its steps apart where a log can tell: the tail it goes by
//! (open, full, this one in front), the front out, its item in. A pop of the one-slot queue can keep its room.
//!
//! Answers are gone through in the log's order. Where one comes whose call has not taken its step yet, every call under way is tried in its place. A call that only looks takes its step as
//! soon as its answer is true. What was refuted is not tried again: a refutation is kept under the part of the queue that it read.

use super::log::{Log, NEVER};
use crate::machine::Queue;
use fernmoldew::{Answer, Call};
use std::collections::HashMap;

/// How far a call goes where it stands in an order.
#[derive(Clone, Copy, Debug, PartialEq, Eq)]
pub enum Stage {
    /// To its end.
    Whole,
    /// A force_push to its exchange of head, which is not done.
    Word,
    /// A force_push to its store of tail; a pop of the one-slot queue to its read. Neither is done.
    Half,
}

/// A call in an order, and how far it goes there.
#[derive(Clone, Copy, Debug, PartialEq, Eq)]
pub struct Placed {
    pub call: u32,
    pub stage: Stage,
    /// It stands before this place of the order; of those with one place, the later.
    at: u32,
}

#[derive(Clone, Debug)]
pub enum Found {
    /// Calls in an order that gives the answers.
    Order(Vec<Placed>),
    None,
    /// So many states were seen, and this call's answer was come to.
    Limit(u32),
}

#[derive(Clone, Copy, PartialEq, Eq)]
enum Step {
    No,
    Look,
    Place,
    Take,
    Displace,
    Close,
    /// The rest of a call that stands half.
    Rest,
}

/// A call, with what is known of the item that it hands in.
#[derive(Clone, Copy)]
struct Op {
    worker: u8,
    /// Its code in schedules.
    code: u8,
    answer: Told,
    /// Of two that could go in now the one that is earlier in all ways goes first.
    ordered: bool,
    item: u64,
    value: u64,
    begin: u32,
    end: u32,
    /// Begin and end of the call that hands its item out, if that is one and known.
    out_begin: u32,
    out_end: u32,
    /// Its item's place, from 1, in the order of ways out (or in the order that is tried); 0: it has none.
    rank: u32,
    /// Its item's place in the order that looks likely.
    guess: i64,
    /// The worker's next call.
    next: u32,
}

#[derive(Clone, Copy, PartialEq, Eq)]
enum Told {
    Unknown,
    Pushed,
    Full,
    Closed,
    Displaced,
    Popped,
    Empty,
    PopClosed,
    Len,
    Yes,
    No,
}

const NONE: u32 = u32::MAX;

#[derive(Clone, Copy)]
struct Frame {
    /// Workers whose step is still to be tried, and those whose half step is.
    steps: u64,
    halves: u64,
    hash: u128,
    words: u64,
    missed: u64,
    at: u32,
    head: u32,
    tail: u32,
    order: u32,
    lowest: u32,
    latest: u32,
    half: u32,
    /// Up to which place of the queue was read.
    read: u32,
    closed: bool,
    /// The answer that is come to can be that of a call that met no room, or nothing, before.
    missing: bool,
}

pub struct Search<'a> {
    log: &'a Log,
    asked: Queue,
    capacity: u32,
    ops: Vec<Op>,
    /// Calls whose items have an order of ways out, in that order.
    by_rank: Vec<u32>,
    /// One order of items is tried alone.
    fixed: bool,
    /// Steps are taken apart.
    apart: bool,
    /// There are pushes, force_pushes or pops of which the answer is not known.
    unknown: bool,
    /// Two calls of one worker can be under way by the times.
    chained: bool,
    powers: Vec<u128>,
    // the state
    at: u32,
    current: Vec<u32>,
    queue: Vec<u32>,
    sums: Vec<u128>,
    head: u32,
    closed: bool,
    half: u32,
    /// Workers whose force_push has the word of a tail at which it was open and full, neither end having moved since.
    words: u64,
    /// Workers whose call, of unknown answer, could have answered without a step.
    missed: u64,
    missed_at: HashMap<u32, u32>,
    placed: Vec<bool>,
    lowest: u32,
    latest: u32,
    hash: u128,
    order: Vec<Placed>,
    pub states: u64,
    furthest: u32,
    /// What is tried next is drawn now and then, once a search has come no further for long.
    draw: u64,
}

/// A search that comes no further for so many states goes back some events and tries in another order, drawn here and there. How far back is drawn too, in doublings of the least: what is
/// wrong may be the last few calls, or the order of two items that went in a queue's length before. From try to try further back comes to be drawn, and a try lasts longer.
const PATIENCE: u64 = 1_000;
const BACK: u32 = 16;
const DOUBLINGS: std::ops::Range<u64> = 6..12;
const TRIES_EACH: u64 = 16;
/// So much longer with each try, and for each event that is gone back.
const LONGER: u64 = 100;
const AN_EVENT: u64 = 4;

fn spread(number: u64) -> u128 {
    let mut mixed = number;
    let mut next = || {
        mixed = mixed.wrapping_add(0x9E37_79B9_7F4A_7C15);
        let mut z = mixed;
        z = (z ^ (z >> 30)).wrapping_mul(0xBF58_476D_1CE4_E5B9);
        z = (z ^ (z >> 27)).wrapping_mul(0x94D0_49BB_1331_11EB);
        z ^ (z >> 31)
    };
    (next() as u128) << 64 | next() as u128
}

fn mixed(key: u128) -> u128 {
    let m = key.wrapping_mul(0xD6E8_FEB8_6659_FD93_9E37_79B9_7F4A_7C15);
    m ^ m >> 64
}

fn told(answer: Option<Answer>) -> (Told, u64) {
    match answer {
        None | Some(Answer::Nothing) => (Told::Unknown, 0),
        Some(Answer::Pushed) => (Told::Pushed, 0),
        Some(Answer::Full(_)) => (Told::Full, 0),
        Some(Answer::Closed(_)) => (Told::Closed, 0),
        Some(Answer::Displaced(item)) => (Told::Displaced, item),
        Some(Answer::Popped(item)) => (Told::Popped, item),
        Some(Answer::Empty) => (Told::Empty, 0),
        Some(Answer::PopClosed) => (Told::PopClosed, 0),
        Some(Answer::Len(count)) => (Told::Len, count),
        Some(Answer::Yes) => (Told::Yes, 0),
        Some(Answer::No) => (Told::No, 0),
    }
}

/// Whether the log can tell the steps of a call apart: elsewhere a force_push is one step (`OneStep`).
pub fn apart(log: &Log, asked: Queue) -> bool {
    let any = |is: &dyn Fn(&super::log::Seen) -> bool| log.calls.iter().any(is);
    match asked {
        Queue::OneSlot => {
            any(&|call| matches!(call.call, Call::Push(_)) && matches!(call.answer, Some(Answer::Full(_)) | None))
                && any(&|call| call.call == Call::Pop)
        }
        _ => {
            any(&|call| {
                matches!(call.call, Call::ForcePush(_)) && matches!(call.answer, Some(Answer::Displaced(_)) | None)
            }) && (any(&|call| matches!(call.call, Call::Len | Call::IsEmpty | Call::IsFull) && call.answer.is_some())
                || asked == Queue::SOURCE && any(&|call| call.call == Call::Close))
        }
    }
}

impl<'a> Search<'a> {
    pub fn new(log: &'a Log, asked: Queue) -> Search<'a> {
        let mut ops: Vec<Op> = Vec::with_capacity(log.calls.len());
        let mut current = vec![NONE; log.workers];
        let mut last = vec![NONE; log.workers];
        let mut chained = false;
        for (at, seen) in log.calls.iter().enumerate() {
            let [code, item] = seen.call.entry(0);
            let (answer, value) = told(seen.answer);
            let worker = seen.worker as usize;
            if last[worker] == NONE {
                current[worker] = at as u32;
            } else {
                let before: &mut Op = &mut ops[last[worker] as usize];
                before.next = at as u32;
                chained |= before.end > seen.begin;
            }
            last[worker] = at as u32;
            ops.push(Op {
                worker: seen.worker,
                code: code as u8,
                answer,
                ordered: false,
                item,
                value,
                begin: seen.begin,
                end: seen.end,
                out_begin: 0,
                out_end: NEVER,
                rank: 0,
                guess: i64::MAX / 4,
                next: NONE,
            });
        }
        let mut powers = vec![1u128];
        for at in 0..ops.len().min(log.capacity as usize) {
            powers.push(powers[at].wrapping_mul(0x2360_ED05_1FC6_5DA4_4385_DF64_9FCC_F645));
        }
        let unknown = ops.iter().any(|op| op.code < 3 && op.answer == Told::Unknown);
        Search {
            log,
            asked,
            capacity: u32::try_from(log.capacity).unwrap_or(u32::MAX),
            placed: vec![false; ops.len()],
            ops,
            by_rank: vec![],
            fixed: false,
            apart: apart(log, asked),
            unknown,
            chained,
            powers,
            at: 0,
            current,
            queue: vec![],
            sums: vec![0],
            head: 0,
            closed: false,
            half: NONE,
            words: 0,
            missed: 0,
            missed_at: HashMap::new(),
            lowest: 0,
            latest: 0,
            hash: 0,
            order: vec![],
            states: 0,
            furthest: 0,
            draw: 0,
        }
    }

    // Before the search

    /// Ways out, and the order of items that looks likely.
    fn prepare(&mut self) {
        let mut times: HashMap<u64, u32> = HashMap::with_capacity(self.ops.len());
        let mut unknown = NEVER;
        for op in &self.ops {
            if op.code < 2 && !matches!(op.answer, Told::Full | Told::Closed) {
                *times.entry(op.item).or_default() += 1;
            }
            if op.answer == Told::Unknown && (op.code == 1 || op.code == 2) {
                unknown = unknown.min(op.begin);
            }
        }
        let mut outs: HashMap<u64, u32> = HashMap::with_capacity(self.ops.len());
        for (at, op) in self.ops.iter().enumerate() {
            if matches!(op.answer, Told::Popped | Told::Displaced) {
                outs.insert(op.value, at as u32);
            }
        }
        let mut sure: Vec<u32> = vec![];
        for at in 0..self.ops.len() {
            let op = self.ops[at];
            if op.code >= 2 || matches!(op.answer, Told::Full | Told::Closed) || times[&op.item] > 1 {
                continue;
            }
            self.ops[at].ordered = op.answer == Told::Pushed && unknown == NEVER && !self.chained;
            match outs.get(&op.item) {
                Some(out) => {
                    let out = self.ops[*out as usize];
                    self.ops[at].out_begin = out.begin;
                    self.ops[at].out_end = out.end;
                    self.ops[at].ordered &= out.code == 2;
                    sure.push(at as u32);
                }
                None => {
                    self.ops[at].out_begin = unknown;
                    if op.answer != Told::Unknown {
                        sure.push(at as u32);
                    }
                }
            }
        }
        sure.sort_by_key(|at| self.ops[*at as usize].out_end);
        for (rank, at) in sure.iter().enumerate() {
            self.ops[*at as usize].rank = rank as u32 + 1;
        }
        self.guess(&times, &outs, &sure);
        self.by_rank = sure;
    }

    /// Items that are handed in more than once are matched with their ways out by the middle of their times: a guess, which orders what is tried and decides nothing. What leaves by a
    /// force_push stands exactly the capacity before that one's item.
    fn guess(&mut self, times: &HashMap<u64, u32>, outs: &HashMap<u64, u32>, sure: &[u32]) {
        let mut guesses: Vec<(u32, u32)> = sure.iter().map(|at| (self.ops[*at as usize].out_end, *at)).collect();
        let middle = |op: &Op| op.begin as u64 + op.end as u64;
        let repeats = |item: &u64| times.get(item).is_some_and(|times| *times > 1);
        let mut left: HashMap<u64, Vec<u32>> = HashMap::new();
        for (at, op) in self.ops.iter().enumerate() {
            if matches!(op.answer, Told::Popped | Told::Displaced) && repeats(&op.value) {
                left.entry(op.value).or_default().push(at as u32);
            }
        }
        for list in left.values_mut() {
            list.sort_by_key(|at| std::cmp::Reverse(middle(&self.ops[*at as usize])));
        }
        let mut ins: Vec<u32> = (0..self.ops.len() as u32)
            .filter(|at| {
                self.ops[*at as usize].code < 2
                    && matches!(self.ops[*at as usize].answer, Told::Pushed | Told::Displaced)
                    && repeats(&self.ops[*at as usize].item)
            })
            .collect();
        ins.sort_by_key(|at| middle(&self.ops[*at as usize]));
        let repeated = !ins.is_empty();
        for at in ins {
            let end = left
                .get_mut(&self.ops[at as usize].item)
                .and_then(|list| list.pop())
                .map_or(NEVER, |out| self.ops[out as usize].end);
            guesses.push((end, at));
        }
        if repeated {
            guesses.sort();
            for (rank, (_, at)) in guesses.iter().enumerate() {
                self.ops[*at as usize].guess = rank as i64;
            }
            return;
        }
        let mut done = vec![false; self.ops.len()];
        for at in sure {
            let mut chain = vec![*at];
            loop {
                let last = *chain.last().expect("one at least") as usize;
                if done[last] {
                    break;
                }
                let by = outs
                    .get(&self.ops[last].item)
                    .copied()
                    .filter(|by| self.ops[*by as usize].code == 1 && self.ops[*by as usize].rank > 0);
                match by {
                    Some(by) if chain.len() < 4096 && by as usize != last => chain.push(by),
                    _ => {
                        self.ops[last].guess = self.ops[last].rank as i64;
                        done[last] = true;
                        break;
                    }
                }
            }
            while let [.., before, after] = chain[..] {
                self.ops[before as usize].guess = self.ops[after as usize].guess - self.capacity as i64;
                done[before as usize] = true;
                chain.pop();
            }
        }
    }

    /// One order of the items that keeps both orders of the log, ranked; false: there is none.
    fn fix_order(&mut self) -> bool {
        use std::cmp::Reverse;
        use std::collections::BinaryHeap;
        let middle = |op: &Op| op.begin as u64 + if op.end == NEVER { op.begin as u64 + 1000 } else { op.end as u64 };
        let ops = &mut self.ops;
        let mut outs: HashMap<u64, Vec<u32>> = HashMap::with_capacity(ops.len());
        let mut ins: Vec<u32> = vec![];
        for (at, op) in ops.iter().enumerate() {
            if matches!(op.answer, Told::Popped | Told::Displaced) {
                outs.entry(op.value).or_default().push(at as u32);
            }
            if op.code < 2 && !matches!(op.answer, Told::Full | Told::Closed) {
                ins.push(at as u32);
            }
        }
        for list in outs.values_mut() {
            list.sort_by_key(|at| Reverse(middle(&ops[*at as usize])));
        }
        ins.sort_by_key(|at| middle(&ops[*at as usize]));
        let mut items: Vec<u32> = vec![];
        for at in &ins {
            let op = ops[*at as usize];
            let out = outs.get_mut(&op.item).and_then(|list| list.pop());
            let (begin, end) = out.map_or((NEVER, NEVER), |out| (ops[out as usize].begin, ops[out as usize].end));
            ops[*at as usize].out_begin = begin;
            ops[*at as usize].out_end = end;
            if out.is_some() || op.answer != Told::Unknown {
                items.push(*at);
            }
        }
        drop((outs, ins));
        let count = items.len();
        let mut likely = vec![0u64; ops.len()];
        for (rank, at) in items.iter().enumerate() {
            likely[*at as usize] += rank as u64;
        }
        let mut by_out = items.clone();
        by_out.sort_by_key(|at| ops[*at as usize].out_begin as u64 + ops[*at as usize].out_end as u64);
        for (rank, at) in by_out.iter().enumerate() {
            likely[*at as usize] += rank as u64;
        }
        let (mut by_begin, mut by_end, mut by_out) = (items.clone(), items, by_out);
        by_begin.sort_by_key(|at| ops[*at as usize].begin);
        by_end.sort_by_key(|at| ops[*at as usize].end);
        by_out.sort_by_key(|at| ops[*at as usize].out_end);
        let (mut begun, mut ended, mut left) = (0, 0, 0);
        let mut done = vec![false; ops.len()];
        let (mut wait, mut ready) = (BinaryHeap::new(), BinaryHeap::new());
        let mut order: Vec<u32> = Vec::with_capacity(count);
        while order.len() < count {
            while done[by_end[ended] as usize] {
                ended += 1;
            }
            while done[by_out[left] as usize] {
                left += 1;
            }
            let (first_end, first_out) = (ops[by_end[ended] as usize].end, ops[by_out[left] as usize].out_end);
            while begun < count && ops[by_begin[begun] as usize].begin <= first_end {
                wait.push(Reverse((ops[by_begin[begun] as usize].out_begin, by_begin[begun])));
                begun += 1;
            }
            while let Some(Reverse((out_begin, at))) = wait.peek().copied() {
                if out_begin > first_out {
                    break;
                }
                wait.pop();
                ready.push(Reverse((likely[at as usize], at)));
            }
            let Some(Reverse((_, at))) = ready.pop() else { return false };
            done[at as usize] = true;
            order.push(at);
            ops[at as usize].rank = order.len() as u32;
        }
        self.by_rank = order;
        self.fixed = true;
        true
    }

    // The plain queue

    fn waiting(&self) -> u32 {
        self.queue.len() as u32 - self.head
    }

    fn front(&self) -> u64 {
        self.ops[self.queue[self.head as usize] as usize].item
    }

    /// Whether an item can come in now, by the order of ways out: no item that must leave earlier is not in yet, none that must leave later is in.
    fn may_come(&self, op: &Op) -> bool {
        if self.fixed {
            return op.rank == 0 || self.lowest + 1 == op.rank;
        }
        if op.out_end < self.latest {
            return false;
        }
        let mut at = self.lowest as usize;
        while at < self.by_rank.len()
            && (self.placed[self.by_rank[at] as usize] || self.ops[self.by_rank[at] as usize].rank == op.rank)
        {
            at += 1;
        }
        at == self.by_rank.len() || self.ops[self.by_rank[at] as usize].out_end >= op.out_begin
    }

    /// What a call does if it takes its step now.
    fn step_of(&self, at: u32) -> Step {
        let op = &self.ops[at as usize];
        if self.half == at {
            return Step::Rest;
        }
        let waiting = self.waiting();
        let one_slot = self.asked == Queue::OneSlot;
        // a worker stands between its two steps: nobody else moves tail, or in the one-slot queue has the room
        let held = self.half != NONE;
        let full = waiting == self.capacity || one_slot && held;
        let room = waiting < self.capacity && !held;
        let look = |is: bool| if is { Step::Look } else { Step::No };
        let place = || if !self.closed && room && self.may_come(op) { Step::Place } else { Step::No };
        let displace = || if self.has_word(op) && self.may_come(op) { Step::Displace } else { Step::No };
        match (op.code, op.answer) {
            (0 | 1, Told::Pushed) | (0, Told::Unknown) => place(),
            (0, Told::Full) => look(!self.closed && full),
            (0 | 1, Told::Closed) => look(self.closed),
            (1, Told::Displaced) => displace(),
            (1, Told::Unknown) => match place() {
                Step::No => displace(),
                step => step,
            },
            (2, Told::Popped) => {
                if waiting > 0 && self.front() == op.value {
                    Step::Take
                } else {
                    Step::No
                }
            }
            (2, Told::Unknown) => {
                if waiting > 0 {
                    Step::Take
                } else {
                    Step::No
                }
            }
            (2, Told::Empty) => look(waiting == 0 && !self.closed && (one_slot || !held)),
            (2, Told::PopClosed) => look(waiting == 0 && self.closed && (one_slot || !held)),
            (3, Told::Len) => look(op.value == waiting as u64),
            (4, Told::Yes) => look(waiting == 0),
            (4, Told::No) => look(waiting != 0),
            (5, Told::Yes) => look(waiting == self.capacity),
            (5, Told::No) => look(waiting != self.capacity),
            (6, Told::Yes) | (6, Told::Unknown) => {
                if self.closed {
                    Step::No
                } else {
                    Step::Close
                }
            }
            (6, Told::No) | (7, Told::Yes) => look(self.closed),
            (7, Told::No) => look(!self.closed),
            (3..=5 | 7, Told::Unknown) => Step::Look,
            _ => Step::No,
        }
    }

    /// Whether a force_push can displace now: it is full and open, with the right one in front; or it was when it took its word, and neither end has moved.
    fn has_word(&self, op: &Op) -> bool {
        let now = !self.closed
            && self.waiting() == self.capacity
            && self.half == NONE
            && (op.answer == Told::Unknown || self.front() == op.value);
        now || self.words >> op.worker & 1 == 1
    }

    /// Whether a call whose answer is not known could answer now and do nothing: Full, Closed, Empty, no.
    fn could_miss(&self, op: &Op) -> bool {
        let one_slot = self.asked == Queue::OneSlot;
        let held = self.half != NONE;
        op.answer == Told::Unknown
            && match op.code {
                0 => self.closed || self.waiting() == self.capacity || one_slot && held,
                1 | 6 => self.closed,
                2 => self.waiting() == 0 && (one_slot || !held),
                _ => false,
            }
    }

    // Steps

    fn began(&self, call: u32) -> bool {
        call != NONE && self.ops[call as usize].begin < self.at
    }

    fn ended(&mut self, call: u32, at: u32) {
        let op = &self.ops[call as usize];
        self.current[op.worker as usize] = op.next;
        self.words &= !(1 << op.worker);
        self.missed &= !(1 << op.worker);
        self.hash ^= spread(call as u64 ^ 0x3333_0000_0000_0000);
        self.order.push(Placed { call, stage: Stage::Whole, at });
    }

    fn push_order(&mut self, call: u32, stage: Stage) {
        self.order.push(Placed { call, stage, at: self.order.len() as u32 });
    }

    /// A worker's call looks, and its next one, as long as they can.
    fn look(&mut self, worker: usize) {
        loop {
            let call = self.current[worker];
            if !self.began(call) || self.half == call {
                return;
            }
            let op = self.ops[call as usize];
            if self.step_of(call) == Step::Look {
                self.ended(call, self.order.len() as u32);
                continue;
            }
            if self.missed >> worker & 1 == 0 && self.could_miss(&op) {
                self.missed |= 1 << worker;
                self.missed_at.insert(call, self.order.len() as u32);
            }
            if self.apart
                && op.code == 1
                && self.asked != Queue::OneSlot
                && matches!(op.answer, Told::Displaced | Told::Unknown)
                && self.half == NONE
                && self.has_word(&op)
            {
                self.words |= 1 << worker;
            }
            return;
        }
    }

    fn looks(&mut self) {
        for worker in 0..self.current.len() {
            self.look(worker);
        }
    }

    fn come_in(&mut self, call: u32) {
        let op = self.ops[call as usize];
        let last = *self.sums.last().expect("one more than the queue");
        self.queue.push(call);
        self.sums.push(last.wrapping_mul(self.powers[1]).wrapping_add(spread(op.item)));
        self.placed[call as usize] = true;
        self.latest = self.latest.max(op.out_begin);
        while (self.lowest as usize) < self.by_rank.len() && self.placed[self.by_rank[self.lowest as usize] as usize] {
            self.lowest += 1;
        }
    }

    /// The call of a worker takes its step, or of two the first alone.
    fn take(&mut self, worker: usize, halved: bool) {
        let call = self.current[worker];
        match self.step_of(call) {
            Step::Place => {
                self.words = 0;
                self.come_in(call);
            }
            Step::Take => {
                self.words = 0;
                self.head += 1;
                if halved {
                    self.half = call;
                    self.push_order(call, Stage::Half);
                    return self.looks();
                }
            }
            Step::Displace if self.asked == Queue::OneSlot => {
                self.head += 1;
                self.come_in(call);
            }
            Step::Displace => {
                self.words = 0;
                self.head += 1;
                self.half = call;
                let before = self.order.len();
                self.push_order(call, Stage::Half);
                self.looks();
                if halved {
                    return;
                }
                if self.order.len() == before + 1 && self.none_missed_since(before) {
                    self.order.pop();
                }
                self.half = NONE;
                self.come_in(call);
                self.closed &= self.asked != Queue::SOURCE;
            }
            Step::Rest => {
                self.half = NONE;
                if self.ops[call as usize].code == 1 {
                    self.words = 0;
                    self.come_in(call);
                    self.closed &= self.asked != Queue::SOURCE;
                }
            }
            Step::Close => {
                // who has its word keeps it
                for other in 0..self.current.len() {
                    if self.words >> other & 1 == 1 {
                        self.push_order(self.current[other], Stage::Word);
                    }
                }
                self.closed = true;
            }
            Step::Look | Step::No => unreachable!("what is tried can be done"),
        }
        self.ended(call, self.order.len() as u32);
        self.looks();
    }

    /// Whether no call was found since then that could have answered while the other stands half.
    fn none_missed_since(&self, place: usize) -> bool {
        !(0..self.current.len()).any(|worker| {
            self.missed >> worker & 1 == 1
                && self.missed_at.get(&self.current[worker]).is_some_and(|at| *at as usize > place)
        })
    }

    /// Goes on to the next answer whose call has not taken its step; its call.
    fn advance(&mut self) -> Option<u32> {
        while let Some(event) = self.log.events.get(self.at as usize) {
            let call = event.call() as u32;
            let worker = self.ops[call as usize].worker as usize;
            if event.is_answer() && self.current[worker] == call {
                self.furthest = self.furthest.max(self.at);
                return Some(call);
            }
            self.at += 1;
            if !event.is_answer() {
                self.look(worker);
            }
        }
        None
    }

    fn go_back(&mut self, frame: &Frame) {
        self.at = frame.at;
        while self.order.len() > frame.order as usize {
            let Placed { call, stage, .. } = self.order.pop().expect("more than the frame's");
            if stage == Stage::Whole {
                self.current[self.ops[call as usize].worker as usize] = call;
            }
        }
        for at in frame.tail as usize..self.queue.len() {
            self.placed[self.queue[at] as usize] = false;
        }
        self.queue.truncate(frame.tail as usize);
        self.sums.truncate(frame.tail as usize + 1);
        self.head = frame.head;
        self.closed = frame.closed;
        self.half = frame.half;
        self.words = frame.words;
        self.missed = frame.missed;
        self.lowest = frame.lowest;
        self.latest = frame.latest;
        self.hash = frame.hash;
    }

    /// All of the state but for the items that wait.
    fn base(&self) -> u128 {
        let words = if self.closed { self.words } else { 0 };
        let flags = spread(self.missed ^ 0x1111_0000_0000_0000).rotate_left(17)
            ^ spread(words ^ 0x2222_0000_0000_0000).rotate_left(29)
            ^ spread((self.half as u64) << 1 | self.closed as u64).rotate_left(43);
        mixed(
            self.hash
                ^ flags
                ^ spread(self.at as u64 ^ 0x5555_0000_0000_0000).rotate_left(61)
                ^ spread(self.waiting() as u64 ^ 0x7777_0000_0000_0000).rotate_left(37),
        )
    }

    /// The state as far as so many items that wait.
    fn key(&self, base: u128, items: u32) -> u128 {
        let part = self.sums[(self.head + items) as usize]
            .wrapping_sub(self.sums[self.head as usize].wrapping_mul(self.powers[items as usize]));
        mixed(base ^ part ^ (items as u128) << 100)
    }

    /// Whether more must wait, or fewer, before a call can answer: 1, -1, or 0 where that is not it.
    fn wants(&self, forced: u32) -> i32 {
        let op = &self.ops[forced as usize];
        let waiting = self.waiting();
        match op.answer {
            Told::Len => (op.value > waiting as u64) as i32 - (op.value < waiting as u64) as i32,
            Told::Full | Told::Displaced if waiting < self.capacity => 1,
            Told::Yes if op.code == 5 => 1,
            Told::No if op.code == 5 => -1,
            Told::Yes if op.code == 4 => -1,
            Told::No if op.code == 4 => 1,
            Told::Empty | Told::PopClosed | Told::Pushed | Told::Displaced => -1,
            Told::Popped if waiting > 0 => -1,
            Told::Popped => 1,
            _ => 0,
        }
    }

    /// The order in which what can be done is tried: the call that must answer, then what brings it nearer; of what goes in the likely order first, of the others who must answer first.
    fn score(&self, call: u32, forced: u32, forced_can: bool, wants: i32, halved: bool) -> (u32, i64) {
        let op = &self.ops[call as usize];
        let goes_in = op.code < 2;
        let forced_goes_in = self.ops[forced as usize].code < 2;
        let class = if halved {
            5
        } else if self.half == call || call == forced && !goes_in {
            0
        } else if goes_in && (forced_goes_in && forced_can || call == forced) {
            1
        } else if wants > 0 && !goes_in || wants < 0 && goes_in && op.answer != Told::Displaced {
            4
        } else if !goes_in {
            2
        } else {
            3
        };
        (class, if goes_in { op.guess } else { op.end as i64 })
    }

    fn drawn(&mut self) -> u64 {
        self.draw ^= self.draw << 13;
        self.draw ^= self.draw >> 7;
        self.draw ^= self.draw << 17;
        self.draw
    }

    /// What need not be tried. Of two that could go in now, the one that is earlier in all ways goes first. Where nobody looks at the count, what must answer and can goes before what does
    /// the other: going in and going out can change places.
    fn prune(&self, steps: u64, forced: u32) -> u64 {
        if self.chained {
            return steps;
        }
        let mut left = steps;
        let calls = |mask: u64| (0..64usize).filter(move |worker| mask >> worker & 1 == 1);
        for worker in calls(steps) {
            let late = &self.ops[self.current[worker] as usize];
            if late.ordered
                && calls(steps & !(1 << worker)).any(|other| {
                    let soon = &self.ops[self.current[other] as usize];
                    soon.ordered
                        && soon.end < late.end
                        && soon.out_end <= late.out_end
                        && soon.out_begin <= late.out_begin
                })
            {
                left &= !(1 << worker);
            }
        }
        let must = &self.ops[forced as usize];
        let moves = |op: &Op| op.answer == Told::Pushed || op.answer == Told::Popped;
        if steps >> must.worker & 1 == 1 && moves(must) && !self.closed {
            let quiet = (0..self.current.len())
                .all(|worker| !self.began(self.current[worker]) || moves(&self.ops[self.current[worker] as usize]));
            if quiet {
                for worker in calls(left) {
                    if self.ops[self.current[worker] as usize].answer != must.answer {
                        left &= !(1 << worker);
                    }
                }
            }
        }
        left
    }

    /// First by one order of the items, which is quick and no more than tried; then by all.
    pub fn run(mut self, limit: u64) -> (Found, u64) {
        let unknown_taker = self.ops.iter().any(|op| op.answer == Told::Unknown && (op.code == 1 || op.code == 2));
        if !unknown_taker && self.ops.len() > 64 {
            if self.fix_order() {
                let most = (2 * self.ops.len() as u64).min(limit);
                if let Found::Order(order) = self.search(most) {
                    return (Found::Order(order), self.states);
                }
            }
            self = Search::new(self.log, self.asked);
        }
        self.prepare();
        let found = self.search(limit);
        (found, self.states)
    }

    fn search(&mut self, limit: u64) -> Found {
        let mut refuted = Keys::new();
        let mut stack: Vec<Frame> = vec![];
        let Some(mut forced) = self.advance() else { return Found::Order(self.in_order()) };
        let (mut come_to, mut since, mut patience, mut back, mut tries) = (0, 0, PATIENCE, BACK, 0);
        loop {
            if self.furthest > come_to {
                (come_to, since, patience, back, tries) = (self.furthest, self.states, PATIENCE, BACK, 0);
                self.draw = 0;
            } else if self.states - since > patience {
                // nothing is taken as refuted by it
                let until = come_to.saturating_sub(back);
                let keep = stack.partition_point(|frame| frame.at < until);
                if let Some(frame) = stack.get(keep).copied() {
                    self.go_back(&frame);
                    stack.truncate(keep);
                    forced = self.log.events[frame.at as usize].call() as u32;
                }
                if self.draw == 0 {
                    self.draw = self.states | 1;
                }
                tries += 1;
                let doublings = (DOUBLINGS.start + tries / TRIES_EACH).min(DOUBLINGS.end);
                back = BACK << (self.drawn() >> 33) % doublings;
                (since, patience) = (self.states, PATIENCE + AN_EVENT * u64::from(back) + LONGER * tries);
            }
            let base = self.base();
            let waiting = self.waiting();
            let mut frame = Frame {
                steps: 0,
                halves: 0,
                hash: self.hash,
                words: self.words,
                missed: self.missed,
                at: self.at,
                head: self.head,
                tail: self.queue.len() as u32,
                order: self.order.len() as u32,
                lowest: self.lowest,
                latest: self.latest,
                half: self.half,
                read: 0,
                closed: self.closed,
                missing: false,
            };
            match refuted.depths(base, waiting).find(|items| *items <= waiting && refuted.has(self.key(base, *items))) {
                Some(items) => frame.read = self.head + items,
                None => {
                    self.states += 1;
                    if self.states > limit {
                        return Found::Limit(self.log.events[self.furthest as usize].call() as u32);
                    }
                    self.choices(&mut frame, forced);
                }
            }
            if self.unknown {
                frame.read = frame.tail;
            }
            stack.push(frame);
            loop {
                let Some(frame) = stack.last_mut() else { return Found::None };
                if frame.steps == 0 && frame.halves == 0 && !frame.missing {
                    let frame = stack.pop().expect("the last one");
                    self.go_back(&frame);
                    let waiting = self.waiting();
                    let base = self.base();
                    let items = frame.read.min(frame.tail).saturating_sub(frame.head).min(waiting);
                    let items = refuted.depth(items, waiting);
                    refuted.insert(base, self.key(base, items), items);
                    let Some(before) = stack.last_mut() else { return Found::None };
                    before.read = before.read.max(frame.read);
                    let before = *before;
                    self.go_back(&before);
                    continue;
                }
                forced = self.log.events[frame.at as usize].call() as u32;
                if frame.missing {
                    frame.missing = false;
                    let at = self.missed_at[&forced];
                    self.ended(forced, at);
                } else {
                    let forced_can = frame.steps >> self.ops[forced as usize].worker & 1 == 1;
                    let wants = if forced_can { 0 } else { self.wants(forced) };
                    let (mut best, mut least) = ((0, false), (u32::MAX, i64::MAX));
                    for (mask, halved) in [(frame.steps, false), (frame.halves, true)] {
                        let mut mask = mask;
                        while mask != 0 {
                            let worker = mask.trailing_zeros() as usize;
                            mask &= mask - 1;
                            let mut score = self.score(self.current[worker], forced, forced_can, wants, halved);
                            if self.draw != 0 {
                                // one of 16 is tried out of its class, two of 16 some places sooner or later in it
                                let drawn = self.drawn() >> 20;
                                match drawn % 16 {
                                    0 => score.0 = (drawn >> 8) as u32 % 6,
                                    1 | 2 => score.1 += (drawn >> 8) as i64 % 16 - 8,
                                    _ => {}
                                }
                            }
                            if score < least {
                                (best, least) = ((worker, halved), score);
                            }
                        }
                    }
                    let (worker, halved) = best;
                    if halved {
                        frame.halves &= !(1 << worker);
                    } else {
                        frame.steps &= !(1 << worker);
                    }
                    self.take(worker, halved);
                }
                match self.advance() {
                    None => return Found::Order(self.in_order()),
                    Some(next) => forced = next,
                }
                break;
            }
        }
    }

    fn choices(&self, frame: &mut Frame, forced: u32) {
        for worker in 0..self.current.len() {
            let call = self.current[worker];
            if !self.began(call) {
                continue;
            }
            let op = &self.ops[call as usize];
            if self.waiting() > 0 && matches!(op.answer, Told::Popped | Told::Displaced) {
                frame.read = frame.read.max(self.head + 1);
            }
            match self.step_of(call) {
                Step::No | Step::Look => {}
                step => {
                    frame.steps |= 1 << worker;
                    let two = match self.asked {
                        Queue::OneSlot => step == Step::Take,
                        _ => step == Step::Displace,
                    };
                    if self.apart && two {
                        frame.halves |= 1 << worker;
                    }
                }
            }
        }
        frame.steps = self.prune(frame.steps, forced);
        frame.missing = self.missed >> self.ops[forced as usize].worker & 1 == 1;
    }

    /// The order that was found, each call in its place.
    fn in_order(&self) -> Vec<Placed> {
        let mut order: Vec<(usize, Placed)> = self.order.iter().copied().enumerate().collect();
        order.sort_by_key(|(place, placed)| (placed.at, placed.at as usize == *place));
        order.into_iter().map(|(_, placed)| placed).collect()
    }
}

/// What was refuted: keys, and for each base to which depths.
struct Keys {
    table: Vec<u128>,
    count: usize,
    depths: Vec<u64>,
}

const BUCKETS: usize = 1 << 16;
/// A depth of so much or more is the whole queue.
const WHOLE: u32 = 63;

impl Keys {
    fn new() -> Keys {
        Keys { table: vec![0; 1 << 12], count: 0, depths: vec![0; BUCKETS] }
    }

    fn bucket(base: u128) -> usize {
        (base >> 77) as usize % BUCKETS
    }

    /// A depth as it is kept.
    fn depth(&self, items: u32, waiting: u32) -> u32 {
        if items >= WHOLE {
            waiting
        } else {
            items
        }
    }

    fn depths(&self, base: u128, waiting: u32) -> impl Iterator<Item = u32> {
        let mask = self.depths[Keys::bucket(base)];
        (0..=WHOLE)
            .filter(move |depth| mask >> depth & 1 == 1)
            .map(move |depth| if depth == WHOLE { waiting } else { depth })
    }

    fn place(&self, key: u128) -> (usize, bool) {
        let mask = self.table.len() - 1;
        let mut at = key as usize & mask;
        loop {
            if self.table[at] == key {
                return (at, true);
            }
            if self.table[at] == 0 {
                return (at, false);
            }
            at = (at + 1) & mask;
        }
    }

    fn has(&self, key: u128) -> bool {
        self.place(key.max(1)).1
    }

    fn insert(&mut self, base: u128, key: u128, items: u32) {
        self.depths[Keys::bucket(base)] |= 1 << items.min(WHOLE);
        let (at, there) = self.place(key.max(1));
        if there {
            return;
        }
        self.table[at] = key.max(1);
        self.count += 1;
        if self.count * 4 > self.table.len() * 3 {
            let old = std::mem::take(&mut self.table);
            self.table = vec![0; old.len() * 2];
            for key in old.into_iter().filter(|key| *key != 0) {
                let (at, _) = self.place(key);
                self.table[at] = key;
            }
        }
    }
}
