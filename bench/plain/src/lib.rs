//! The job of `replay` as a plain Rust program: document 01's machine and tables, written for speed and nothing else; the two other queues and the walk in
//! modules of their own. It is what the proved port is measured against by bench/run, and compared with by tests/bench.

pub mod single;
pub mod unbounded;
pub mod walk;
pub mod words;

use std::fmt::{self, Display, Formatter};
use std::io::{self, Write};

pub const METER: u64 = 4_294_967_295;

#[derive(Clone, Copy, PartialEq)]
pub enum Answer {
    Nothing,
    Pushed,
    Full(u64),
    Closed(u64),
    Displaced(u64),
    Popped(u64),
    Empty,
    PopClosed,
    Len(u64),
    Yes,
    No,
}

impl Display for Answer {
    fn fmt(&self, f: &mut Formatter) -> fmt::Result {
        match self {
            Nothing => f.write_str("none"),
            Pushed => f.write_str("pushed"),
            Full(x) => write!(f, "full({x})"),
            Closed(x) => write!(f, "closed({x})"),
            Displaced(x) => write!(f, "displaced({x})"),
            Popped(x) => write!(f, "popped({x})"),
            Empty => f.write_str("empty"),
            PopClosed => f.write_str("closed"),
            Len(n) => write!(f, "len({n})"),
            Yes => f.write_str("yes"),
            No => f.write_str("no"),
        }
    }
}

impl Answer {
    fn as_idle(&self, f: &mut Formatter) -> fmt::Result {
        f.write_str("idle:")?;
        self.fmt(f)
    }
}

/// What a queue keeps of a worker; it is told as the place at which the worker stands.
pub trait Record: Copy + Display {
    fn idle(&self) -> bool;

    /// Whether its next action is a weak exchange.
    fn weak(&self) -> bool;

    /// At the first place of a call.
    fn begun(code: u64, item: u64) -> Self;
}

/// What the programs of bench/ ask of a queue's machine. The blank one, which nothing was made of, is the default.
pub trait Queue: Default {
    type Worker: Record;

    fn workers(&self) -> &[Self::Worker];

    fn workers_mut(&mut self) -> &mut [Self::Worker];

    fn meter(&mut self) -> &mut u64;

    /// One act of a worker that is busy; `lose`: its weak exchange fails. False, and nothing done, where it wants a block and none is free.
    fn acted(&mut self, worker: &mut Self::Worker, lose: bool) -> bool;

    /// The place of an entry, its refusal, the machine's words and its meter, without the line's end.
    fn report(&self, place: u64, refusal: u64, out: &mut impl Write) -> io::Result<()>;

    /// The lines of its slots.
    fn tell_slots(&self, out: &mut impl Write) -> io::Result<()>;

    /// What `Drop` would meet.
    fn items(&self) -> Vec<u64>;

    fn idle(&self, worker: u64) -> bool {
        self.workers()[worker as usize].idle()
    }

    fn weak(&self, worker: u64) -> bool {
        self.workers()[worker as usize].weak()
    }

    fn unreadable(first: u64, second: u64) -> bool {
        stray(first, second)
    }

    /// What a schedule is refused for before anything is run, and where: 11, or 9 for the first entry that cannot be read.
    fn refused_whole(schedule: &[u64]) -> Option<(u64, u64)> {
        if schedule.len() % 2 == 1 {
            return Some((11, 0));
        }
        schedule.chunks_exact(2).position(|e| Self::unreadable(e[0], e[1])).map(|at| (9, at as u64))
    }

    /// One entry, read already: 0, or the refusal.
    #[inline(always)]
    fn step(&mut self, first: u64, item: u64) -> u64 {
        let w = (first / 16) as usize;
        let code = first % 16;
        let Some(&worker) = self.workers().get(w) else { return 3 };
        if code < 8 {
            if !worker.idle() {
                return 4;
            }
            self.workers_mut()[w] = Self::Worker::begun(code, item);
            return 0;
        }
        if worker.idle() {
            return 5;
        }
        if *self.meter() >= METER {
            return 7;
        }
        let lose = code == 9;
        if lose && !worker.weak() {
            return 8;
        }
        let mut worker = worker;
        if !self.acted(&mut worker, lose) {
            return 23;
        }
        *self.meter() += 1;
        self.workers_mut()[w] = worker;
        0
    }

    /// A schedule to its end or to its first refusal: the refusal, and how many entries were run.
    fn run(&mut self, schedule: &[u64]) -> (u64, u64) {
        if let Some(refused) = Self::refused_whole(schedule) {
            return refused;
        }
        for (i, entry) in schedule.chunks_exact(2).enumerate() {
            let refusal = self.step(entry[0], entry[1]);
            if refusal != 0 {
                return (refusal, i as u64);
            }
        }
        (0, schedule.len() as u64 / 2)
    }

    /// An entry's report, and where its worker stands.
    fn line(&self, place: u64, refusal: u64, worker: u64, out: &mut impl Write) -> io::Result<()> {
        self.report(place, refusal, out)?;
        match self.workers().get(worker as usize) {
            Some(record) => writeln!(out, " w{worker}={record}"),
            None => writeln!(out, " w{worker}=-"),
        }
    }

    /// The items in the order in which they would be popped, or refusal 6 or 4.
    fn contents(&self) -> Result<Vec<u64>, u64> {
        if self.workers().is_empty() {
            return Err(6);
        }
        if !self.workers().iter().all(Record::idle) {
            return Err(4);
        }
        Ok(self.items())
    }

    /// What stands at the end.
    fn tell(&self, out: &mut impl Write) -> io::Result<()> {
        self.tell_slots(out)?;
        match self.contents() {
            Ok(items) => {
                out.write_all(b"contents")?;
                for item in items {
                    write!(out, " {item}")?;
                }
                out.write_all(b"\n")
            }
            Err(refusal) => writeln!(out, "contents refused {refusal}"),
        }
    }
}

#[derive(Clone, Copy, PartialEq)]
pub enum Place {
    Idle(Answer),
    P1 { force: bool, item: u64 },
    P2 { force: bool, t: u64, item: u64 },
    P3 { force: bool, t: u64, item: u64 },
    P4 { t: u64, item: u64 },
    P5 { t: u64 },
    P6 { t: u64, item: u64 },
    F6 { t: u64, item: u64 },
    F7 { t: u64, item: u64 },
    F8 { t: u64, item: u64 },
    F9 { t: u64, old: u64 },
    O1,
    O2 { h: u64 },
    O3 { h: u64 },
    O4 { h: u64 },
    O5 { h: u64, value: u64 },
    O6 { h: u64 },
    Len1,
    Len2 { t: u64 },
    Len3 { t: u64, h: u64 },
    Empty1,
    Empty2 { h: u64 },
    Full1,
    Full2 { t: u64 },
    Close1,
    IsClosed1,
}

use Answer::*;
use Place::*;

impl Place {
    /// Its next action is a weak exchange.
    fn weak(self) -> bool {
        matches!(self, P3 { .. } | F6 { .. } | O3 { .. })
    }
}

impl Display for Place {
    fn fmt(&self, f: &mut Formatter) -> fmt::Result {
        let kind = |force| if force { "force" } else { "push" };
        match *self {
            Idle(a) => a.as_idle(f),
            P1 { force, item } => write!(f, "P1:{}({item})", kind(force)),
            P2 { force, t, item } => write!(f, "P2:{}({t},{item})", kind(force)),
            P3 { force, t, item } => write!(f, "P3:{}({t},{item})", kind(force)),
            P4 { t, item } => write!(f, "P4({t},{item})"),
            P5 { t } => write!(f, "P5({t})"),
            P6 { t, item } => write!(f, "P6({t},{item})"),
            F6 { t, item } => write!(f, "F6({t},{item})"),
            F7 { t, item } => write!(f, "F7({t},{item})"),
            F8 { t, item } => write!(f, "F8({t},{item})"),
            F9 { t, old } => write!(f, "F9({t},{old})"),
            O1 => f.write_str("O1"),
            O2 { h } => write!(f, "O2({h})"),
            O3 { h } => write!(f, "O3({h})"),
            O4 { h } => write!(f, "O4({h})"),
            O5 { h, value } => write!(f, "O5({h},{value})"),
            O6 { h } => write!(f, "O6({h})"),
            Len1 => f.write_str("len1"),
            Len2 { t } => write!(f, "len2({t})"),
            Len3 { t, h } => write!(f, "len3({t},{h})"),
            Empty1 => f.write_str("empty1"),
            Empty2 { h } => write!(f, "empty2({h})"),
            Full1 => f.write_str("full1"),
            Full2 { t } => write!(f, "full2({t})"),
            Close1 => f.write_str("close1"),
            IsClosed1 => f.write_str("isclosed1"),
        }
    }
}

#[derive(Clone, Copy)]
pub struct Slot {
    pub stamp: u64,
    pub value: u64,
}

#[derive(Clone, Copy)]
pub struct Worker {
    pub place: Place,
    /// Exchanges of the present call lost because the words differed, and by the schedule.
    pub differed: u64,
    pub failed: u64,
}

#[derive(Default)]
pub struct Machine {
    pub capacity: u64,
    mark: u64,
    lap: u64,
    keeps_mark: bool,
    pub head: u64,
    pub tail: u64,
    pub slots: Vec<Slot>,
    pub workers: Vec<Worker>,
    pub meter: u64,
}

impl Machine {
    /// A fresh machine, or refusal 1, 2 or 18.
    pub fn new(capacity: u64, workers: u64, edition: u64) -> Result<Machine, u64> {
        Machine::of_at_most(16, capacity, workers, edition)
    }

    /// The same of up to so many workers.
    pub fn of_at_most(most: u64, capacity: u64, workers: u64, edition: u64) -> Result<Machine, u64> {
        if !(1..=1024).contains(&capacity) {
            return Err(1);
        }
        if !(1..=most).contains(&workers) {
            return Err(2);
        }
        if !(1..=2).contains(&edition) {
            return Err(18);
        }
        let mark = (capacity + 1).next_power_of_two();
        Ok(Machine {
            capacity,
            mark,
            lap: 2 * mark,
            keeps_mark: edition == 2,
            head: 0,
            tail: 0,
            slots: (0..capacity).map(|stamp| Slot { stamp, value: 0 }).collect(),
            workers: vec![Worker { place: Idle(Nothing), differed: 0, failed: 0 }; workers as usize],
            meter: 0,
        })
    }

    fn index(&self, w: u64) -> u64 {
        w & (self.mark - 1)
    }

    fn next(&self, w: u64) -> u64 {
        let i = self.index(w);
        if i + 1 < self.capacity { w.wrapping_add(1) } else { (w - i).wrapping_add(self.lap) }
    }

    fn marked(&self, w: u64) -> bool {
        w & self.mark != 0
    }

    fn unmarked(&self, w: u64) -> u64 {
        w & !self.mark
    }

    fn slot(&mut self, w: u64) -> &mut Slot {
        let i = self.index(w) as usize;
        &mut self.slots[i]
    }

    fn count(&self, t: u64, h: u64) -> u64 {
        let (tix, hix) = (self.index(t), self.index(h));
        if hix < tix {
            tix - hix
        } else if hix > tix {
            self.capacity - hix + tix
        } else if self.unmarked(t) == h {
            0
        } else {
            self.capacity
        }
    }

    fn after_tail(&self, force: bool, t: u64, item: u64) -> Place {
        if self.marked(t) { Idle(Closed(item)) } else { P2 { force, t, item } }
    }

    /// One act of the worker that stands at `place`; `lose`: its weak exchange fails.
    #[inline(always)]
    fn act(&mut self, worker: &mut Worker, lose: bool) {
        worker.place = match worker.place {
            Idle(a) => Idle(a),
            P1 { force, item } => self.after_tail(force, self.tail, item),
            P2 { force, t, item } => {
                let s = self.slot(t).stamp;
                if s == t {
                    P3 { force, t, item }
                } else if s.wrapping_add(self.lap) == t.wrapping_add(1) {
                    if force { F6 { t, item } } else { P6 { t, item } }
                } else {
                    P1 { force, item }
                }
            }
            P3 { force, t, item } => {
                if self.tail != t {
                    worker.differed += 1;
                    self.after_tail(force, self.tail, item)
                } else if lose {
                    worker.failed += 1;
                    P2 { force, t, item }
                } else {
                    self.tail = self.next(t);
                    P4 { t, item }
                }
            }
            P4 { t, item } => {
                self.slot(t).value = item;
                P5 { t }
            }
            P5 { t } => {
                self.slot(t).stamp = t.wrapping_add(1);
                Idle(Pushed)
            }
            P6 { t, item } => {
                if self.head.wrapping_add(self.lap) == t { Idle(Full(item)) } else { P1 { force: false, item } }
            }
            F6 { t, item } => {
                if self.head != t.wrapping_sub(self.lap) {
                    worker.differed += 1;
                    P1 { force: true, item }
                } else if lose {
                    worker.failed += 1;
                    P1 { force: true, item }
                } else {
                    self.head = self.next(t).wrapping_sub(self.lap);
                    F7 { t, item }
                }
            }
            F7 { t, item } => {
                let kept = if self.keeps_mark { self.tail & self.mark } else { 0 };
                self.tail = self.next(t) | kept;
                F8 { t, item }
            }
            F8 { t, item } => {
                let slot = self.slot(t);
                let old = slot.value;
                slot.value = item;
                F9 { t, old }
            }
            F9 { t, old } => {
                self.slot(t).stamp = t.wrapping_add(1);
                Idle(Displaced(old))
            }
            O1 => O2 { h: self.head },
            O2 { h } => {
                let s = self.slot(h).stamp;
                if s == h.wrapping_add(1) {
                    O3 { h }
                } else if s == h {
                    O6 { h }
                } else {
                    O1
                }
            }
            O3 { h } => {
                if self.head != h {
                    worker.differed += 1;
                    O2 { h: self.head }
                } else if lose {
                    worker.failed += 1;
                    O2 { h }
                } else {
                    self.head = self.next(h);
                    O4 { h }
                }
            }
            O4 { h } => O5 { h, value: self.slot(h).value },
            O5 { h, value } => {
                self.slot(h).stamp = h.wrapping_add(self.lap);
                Idle(Popped(value))
            }
            O6 { h } => {
                if self.unmarked(self.tail) != h {
                    O1
                } else if self.marked(self.tail) {
                    Idle(PopClosed)
                } else {
                    Idle(Empty)
                }
            }
            Len1 => Len2 { t: self.tail },
            Len2 { t } => Len3 { t, h: self.head },
            Len3 { t, h } => if self.tail == t { Idle(Len(self.count(t, h))) } else { Len1 },
            Empty1 => Empty2 { h: self.head },
            Empty2 { h } => Idle(yes_no(self.unmarked(self.tail) == h)),
            Full1 => Full2 { t: self.tail },
            Full2 { t } => Idle(yes_no(self.head.wrapping_add(self.lap) == self.unmarked(t))),
            Close1 => {
                let clear = !self.marked(self.tail);
                self.tail |= self.mark;
                Idle(yes_no(clear))
            }
            IsClosed1 => Idle(yes_no(self.marked(self.tail))),
        };
    }

    fn inside(&self, w: u64) -> bool {
        self.index(w) < self.capacity
    }

    /// What refusal 6 tests, of the constants, the ends and every record.
    pub fn broken(&self) -> bool {
        let mark = (self.capacity + 1).next_power_of_two();
        if !(1..=1024).contains(&self.capacity) || self.mark != mark || self.lap != 2 * mark {
            return true;
        }
        if self.marked(self.head) || !self.inside(self.head) || !self.inside(self.tail) {
            return true;
        }
        self.workers.iter().any(|w| {
            w.differed > self.meter
                || w.failed > self.meter
                || !match w.place {
                    P2 { t: e, .. } | P3 { t: e, .. } | P4 { t: e, .. } | P5 { t: e } | P6 { t: e, .. } | F6 { t: e, .. } | F7 { t: e, .. } | F8 { t: e, .. } | F9 { t: e, .. } | O2 { h: e } | O3 { h: e } | O4 { h: e } | O5 { h: e, .. } | O6 { h: e } => {
                        !self.marked(e) && self.inside(e)
                    }
                    Len2 { t } => self.inside(t),
                    Len3 { t, h } => self.inside(t) && self.inside(h),
                    _ => true,
                }
        })
    }
}

impl Record for Worker {
    fn idle(&self) -> bool {
        matches!(self.place, Idle(_))
    }

    fn weak(&self) -> bool {
        self.place.weak()
    }

    fn begun(code: u64, item: u64) -> Worker {
        Worker { place: begin(code, item), differed: 0, failed: 0 }
    }
}

impl Display for Worker {
    fn fmt(&self, f: &mut Formatter) -> fmt::Result {
        self.place.fmt(f)
    }
}

impl Queue for Machine {
    type Worker = Worker;

    fn workers(&self) -> &[Worker] {
        &self.workers
    }

    fn workers_mut(&mut self) -> &mut [Worker] {
        &mut self.workers
    }

    fn meter(&mut self) -> &mut u64 {
        &mut self.meter
    }

    #[inline(always)]
    fn acted(&mut self, worker: &mut Worker, lose: bool) -> bool {
        self.act(worker, lose);
        true
    }

    fn report(&self, place: u64, refusal: u64, out: &mut impl Write) -> io::Result<()> {
        write!(out, "{place} {refusal} h={} t={} m={}", self.head, self.tail, self.meter)
    }

    fn tell_slots(&self, out: &mut impl Write) -> io::Result<()> {
        out.write_all(b"slots")?;
        for Slot { stamp, value } in &self.slots {
            write!(out, " ({stamp},{value})")?;
        }
        out.write_all(b"\n")
    }

    fn items(&self) -> Vec<u64> {
        let from = self.index(self.head);
        (0..self.count(self.tail, self.head)).map(|k| self.slots[((from + k) % self.capacity) as usize].value).collect()
    }
}

/// An entry that no queue can read.
pub fn stray(first: u64, second: u64) -> bool {
    first % 16 > 9 || (first % 16 > 1 && second != 0)
}

fn yes_no(yes: bool) -> Answer {
    if yes { Yes } else { No }
}

fn begin(code: u64, item: u64) -> Place {
    match code {
        0 => P1 { force: false, item },
        1 => P1 { force: true, item },
        2 => O1,
        3 => Len1,
        4 => Empty1,
        5 => Full1,
        6 => Close1,
        _ => IsClosed1,
    }
}

/// The numbers of a text: white space between them, # to the end of a line.
pub fn numbers(text: &[u8]) -> Option<Vec<u64>> {
    let mut list = Vec::with_capacity(text.len() / 3);
    let mut i = 0;
    while i < text.len() {
        match text[i] {
            b' ' | b'\n' | b'\t' | b'\r' => i += 1,
            b'#' => i += text[i..].iter().position(|&c| c == b'\n').unwrap_or(text.len() - i),
            b'0'..=b'9' => {
                let mut n: u64 = 0;
                while i < text.len() && text[i].is_ascii_digit() {
                    n = n.checked_mul(10)?.checked_add((text[i] - b'0') as u64)?;
                    i += 1;
                }
                list.push(n);
            }
            _ => return None,
        }
    }
    Some(list)
}
