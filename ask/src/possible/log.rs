//! A log: calls and answers, read. Line by line in the order in which they were seen, or a call a line with two times.

use crate::machine::Queue;
use crate::words::{self, Fault, Head, Line};
use fernmoldew::{Answer, Call};

/// No such event: nobody saw the call return.
pub const NEVER: u32 = u32::MAX;

/// A call that was seen.
#[derive(Clone, Copy, Debug)]
pub struct Seen {
    pub worker: u8,
    pub call: Call,
    /// None: it is not known.
    pub answer: Option<Answer>,
    /// The places of begin and answer among the events; `NEVER` where nobody saw it return.
    pub begin: u32,
    pub end: u32,
    /// Lines of begin and answer, from 1; one line twice where the call is one line. 0 where nobody saw it return.
    pub lines: (u32, u32),
}

impl Seen {
    pub fn returned(&self) -> bool {
        self.end != NEVER
    }
    /// The item that it hands in.
    pub fn item(&self) -> Option<u64> {
        match self.call {
            Call::Push(item) | Call::ForcePush(item) => Some(item),
            _ => None,
        }
    }
    /// The item that it hands out.
    pub fn out(&self) -> Option<u64> {
        match self.answer {
            Some(Answer::Popped(item) | Answer::Displaced(item)) => Some(item),
            _ => None,
        }
    }
    pub fn refused(&self) -> bool {
        matches!(self.answer, Some(Answer::Full(_) | Answer::Closed(_)))
    }
    /// A pop or force_push of which it is not known what it took out.
    pub fn may_take(&self) -> bool {
        self.answer.is_none() && matches!(self.call, Call::Pop | Call::ForcePush(_))
    }
}

/// An event: a call's begin, or its answer.
#[derive(Clone, Copy, Debug, PartialEq, Eq)]
pub struct Event(u32);

const ANSWERED: u32 = 1 << 31;

impl Event {
    pub fn begin(call: usize) -> Event {
        Event(call as u32)
    }
    pub fn answer(call: usize) -> Event {
        Event(call as u32 | ANSWERED)
    }
    pub fn call(self) -> usize {
        (self.0 & !ANSWERED) as usize
    }
    pub fn is_answer(self) -> bool {
        self.0 & ANSWERED != 0
    }
}

#[derive(Clone, Debug)]
pub struct Log {
    pub capacity: u64,
    pub workers: usize,
    /// In the order of their begins; of one worker in its order.
    pub calls: Vec<Seen>,
    pub events: std::rc::Rc<Vec<Event>>,
    /// From and to, where the log has times.
    pub times: Option<std::rc::Rc<Vec<(u64, u64)>>>,
}

impl Log {
    /// The same log in which only these answers are known.
    pub fn knowing(&self, kept: impl Fn(usize) -> bool) -> Log {
        let mut other = self.clone();
        for (at, call) in other.calls.iter_mut().enumerate() {
            if !kept(at) {
                call.answer = None;
            }
        }
        other
    }

    pub fn known(&self) -> Vec<u32> {
        (0..self.calls.len() as u32).filter(|at| self.calls[*at as usize].answer.is_some()).collect()
    }

    /// When a call was begun, in words.
    pub fn from(&self, call: usize) -> String {
        match &self.times {
            Some(times) => format!("time {}", times[call].0),
            None => format!("line {}", self.calls[call].lines.0),
        }
    }

    /// And when it was answered.
    pub fn to(&self, call: usize) -> String {
        match &self.times {
            Some(times) => format!("time {}", times[call].1),
            None => format!("line {}", self.calls[call].lines.1),
        }
    }
}

const MOST_CAPACITY: u64 = 1024;
const WHAT: &str = "expected: push, force_push, pop, len, is_empty, is_full, close or is_closed, or an answer: pushed, full, closed, displaced, popped, empty, len N, yes, no or ?";
const CALL: &str = "expected: push, force_push, pop, len, is_empty, is_full, close or is_closed";
const TIMES: &str = "expected: two times, FROM..TO, or FROM..";
const ITEM: &str = "expected: an item, which is a number";

/// The answer that stands next on a line, of a call; None is `?`.
fn answer(line: &mut Line, call: Call) -> Result<Option<Answer>, Fault> {
    let (expected, can): (&str, &[&str]) = match call {
        Call::Push(_) => ("expected: what a push answers: pushed, full, closed or ?", &["pushed", "full", "closed"]),
        Call::ForcePush(_) => {
            ("expected: what a force_push answers: pushed, displaced, closed or ?", &["pushed", "displaced", "closed"])
        }
        Call::Pop => ("expected: what a pop answers: popped, empty, closed or ?", &["popped", "empty", "closed"]),
        Call::Len => ("expected: what a len answers: len and a number, or ?", &["len"]),
        Call::IsEmpty => ("expected: what an is_empty answers: yes, no or ?", &["yes", "no"]),
        Call::IsFull => ("expected: what an is_full answers: yes, no or ?", &["yes", "no"]),
        Call::Close => ("expected: what a close answers: yes, no or ?", &["yes", "no"]),
        Call::IsClosed => ("expected: what an is_closed answers: yes, no or ?", &["yes", "no"]),
    };
    if !line.peek().is_some_and(|word| word == "?" || can.contains(&word)) {
        return Err(line.fault(expected));
    }
    let word = line.take(expected)?;
    let answer = match (word, call) {
        ("?", _) => None,
        ("pushed", _) => Some(Answer::Pushed),
        ("full", Call::Push(item)) => Some(Answer::Full(item)),
        ("closed", Call::Push(item) | Call::ForcePush(item)) => Some(Answer::Closed(item)),
        ("closed", _) => Some(Answer::PopClosed),
        ("displaced", _) => Some(Answer::Displaced(line.take_number(ITEM)?)),
        ("popped", _) => Some(Answer::Popped(line.take_number(ITEM)?)),
        ("empty", _) => Some(Answer::Empty),
        ("len", _) => Some(Answer::Len(line.take_number("expected: a count, which is a number")?)),
        ("yes", _) => Some(Answer::Yes),
        _ => Some(Answer::No),
    };
    line.ends()?;
    Ok(answer)
}

/// FROM..TO or FROM.. as it stands next on a line.
fn times(line: &mut Line) -> Result<(u64, Option<u64>), Fault> {
    let fault = line.fault(TIMES);
    let word = line.take(TIMES)?;
    let (from, to) = word.split_once("..").ok_or_else(|| fault.clone())?;
    let number = |text: &str| -> Result<u64, Fault> {
        if text.is_empty() || !text.bytes().all(|byte| byte.is_ascii_digit()) {
            return Err(fault.clone());
        }
        text.parse().map_err(|_| Fault { what: "a number that does not fit 64 bits".into(), ..fault.clone() })
    };
    let from = number(from)?;
    if to.is_empty() {
        return Ok((from, None));
    }
    let to = number(to)?;
    if to < from {
        return Err(Fault { what: format!("expected: a second time that is not before {from}"), ..fault });
    }
    Ok((from, Some(to)))
}

/// A log in words.
pub fn read(text: &str, queue: Queue) -> Result<Log, Fault> {
    let mut lines = words::lines(text);
    let Head { capacity, workers } = words::head(&mut lines, queue.has_capacity(), words::end_of(text))?;
    let capacity = capacity.unwrap_or(1);
    let fault_of_head = |name: &str, most: u64| {
        let mut line = words::lines(text).find(|line| line.peek() == Some(name)).expect("the head was read");
        line.take("").expect("its name");
        Err(line.fault(&format!("expected: a number from 1 to {most}")))
    };
    if capacity == 0 || capacity > MOST_CAPACITY {
        return fault_of_head("capacity", MOST_CAPACITY);
    }
    let most = queue.most_workers();
    if workers == 0 || workers > most {
        return fault_of_head("workers", most);
    }
    let mut reader = Reader {
        workers: workers as usize,
        calls: vec![],
        events: vec![],
        under_way: vec![None; workers as usize],
        stamps: vec![],
        timed: None,
    };
    for mut line in lines.filter(|line| !line.is_done()) {
        reader.line(&mut line)?;
    }
    let Reader { mut calls, mut events, stamps, timed, workers, .. } = reader;
    let mut times = None;
    if timed == Some(true) {
        (calls, events, times) = in_order(calls, stamps, workers)?;
    }
    Ok(Log { capacity, workers, calls, events: events.into(), times: times.map(Into::into) })
}

struct Reader {
    workers: usize,
    calls: Vec<Seen>,
    events: Vec<Event>,
    under_way: Vec<Option<u32>>,
    stamps: Vec<(u64, Option<u64>)>,
    /// Which form it has; the first line of a call says.
    timed: Option<bool>,
}

impl Reader {
    fn line(&mut self, line: &mut Line) -> Result<(), Fault> {
        let unknown = line.fault(&format!("expected: a worker up to w{}", self.workers - 1));
        let worker = line.take_worker()?;
        if worker >= self.workers as u64 {
            return Err(unknown);
        }
        let at = line.fault("");
        let name = line.peek();
        let code = name.and_then(|name| words::NAMES[..8].iter().position(|call| *call == name));
        let Some(code) = code else {
            return match self.timed {
                Some(true) => Err(line.fault(CALL)),
                _ => self.answer(line, worker as usize),
            };
        };
        let mut ahead = line.clone();
        ahead.take(WHAT)?;
        if code == 3 && self.timed != Some(true) && ahead.peek().is_some_and(|word| !word.contains("..")) {
            return self.answer(line, worker as usize);
        }
        line.take(WHAT)?;
        let item = if code < 2 { line.take_number(ITEM)? } else { 0 };
        let call = words::call_of(code as u64, item).expect("a call's code");
        let timed = *self.timed.get_or_insert(!line.is_done());
        let number = line.number as u32;
        let begin = self.calls.len();
        let mut seen = Seen { worker: worker as u8, call, answer: None, begin: 0, end: NEVER, lines: (number, 0) };
        if timed {
            let (from, to) = times(line)?;
            match to {
                Some(_) => {
                    seen.answer = answer(line, call)?;
                    seen.lines.1 = number;
                }
                None => line.ends()?,
            }
            self.stamps.push((from, to));
        } else {
            line.ends()?;
            if let Some(under_way) = self.under_way[worker as usize] {
                let what = format!(
                    "expected: what the call of line {} answered, before worker {worker} calls again",
                    self.calls[under_way as usize].lines.0
                );
                return Err(Fault { what, ..at });
            }
            self.under_way[worker as usize] = Some(begin as u32);
            seen.begin = self.events.len() as u32;
            self.events.push(Event::begin(begin));
        }
        self.calls.push(seen);
        Ok(())
    }

    fn answer(&mut self, line: &mut Line, worker: usize) -> Result<(), Fault> {
        const ANSWERS: [&str; 10] =
            ["pushed", "full", "closed", "displaced", "popped", "empty", "len", "yes", "no", "?"];
        if !line.peek().is_some_and(|word| ANSWERS.contains(&word)) {
            return Err(line.fault(WHAT));
        }
        let Some(call) = self.under_way[worker] else {
            return Err(line.fault(&format!("expected: a call; worker {worker} has none under way")));
        };
        let seen = &mut self.calls[call as usize];
        seen.answer = answer(line, seen.call)?;
        seen.end = self.events.len() as u32;
        seen.lines.1 = line.number as u32;
        self.under_way[worker] = None;
        self.events.push(Event::answer(call as usize));
        self.timed = Some(false);
        Ok(())
    }
}

type Timed = (Vec<Seen>, Vec<Event>, Option<Vec<(u64, u64)>>);

/// Calls with times, in their order: begins before answers at one time, since equal times overlap. A worker's own calls stay one after the other whatever their events' places.
fn in_order(calls: Vec<Seen>, stamps: Vec<(u64, Option<u64>)>, workers: usize) -> Result<Timed, Fault> {
    let mut order: Vec<u32> = (0..calls.len() as u32).collect();
    order.sort_by_key(|at| (stamps[*at as usize].0, *at));
    let mut last: Vec<Option<u32>> = vec![None; workers];
    for at in &order {
        let worker = calls[*at as usize].worker as usize;
        if let Some(before) = last[worker] {
            let (_, ended) = stamps[before as usize];
            if ended.is_none_or(|ended| ended > stamps[*at as usize].0) {
                let what = format!(
                    "expected: a call after that of line {}, which worker {worker} has under way",
                    calls[before as usize].lines.0
                );
                return Err(Fault { line: calls[*at as usize].lines.0 as usize, column: 1, what });
            }
        }
        last[worker] = Some(*at);
    }
    let mut sorted: Vec<Seen> = order.iter().map(|at| calls[*at as usize]).collect();
    let stamps: Vec<(u64, Option<u64>)> = order.iter().map(|at| stamps[*at as usize]).collect();
    drop((calls, order));
    let mut ends: Vec<u32> = (0..sorted.len() as u32).filter(|at| stamps[*at as usize].1.is_some()).collect();
    ends.sort_by_key(|at| (stamps[*at as usize].1, *at));
    let mut events = Vec::with_capacity(sorted.len() + ends.len());
    let mut ends = ends.into_iter().peekable();
    for at in 0..=sorted.len() {
        while let Some(end) =
            ends.next_if(|end| at == sorted.len() || stamps[*end as usize].1.expect("it ended") < stamps[at].0)
        {
            sorted[end as usize].end = events.len() as u32;
            events.push(Event::answer(end as usize));
        }
        if at < sorted.len() {
            sorted[at].begin = events.len() as u32;
            events.push(Event::begin(at));
        }
    }
    Ok((sorted, events, Some(stamps.into_iter().map(|(from, to)| (from, to.unwrap_or(u64::MAX))).collect())))
}
