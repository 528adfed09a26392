//! Texts in words: lines of words with their columns, what is expected where something else stands, schedules read and printed. The words are those of schedules (docs/REFERENCE.md,
//! "Schedules in words"), as replay reads them.

use fernmoldew::{Answer, Call};
use std::fmt;

/// The names of calls and acts, in the order of their codes.
pub const NAMES: [&str; 10] =
    ["push", "force_push", "pop", "len", "is_empty", "is_full", "close", "is_closed", "act", "fail"];
pub const ACT: u64 = 8;
pub const FAIL: u64 = 9;

/// What cannot be read: where, and what should stand there.
#[derive(Clone, Debug, PartialEq, Eq)]
pub struct Fault {
    pub line: usize,
    pub column: usize,
    pub what: String,
}

impl fmt::Display for Fault {
    fn fmt(&self, f: &mut fmt::Formatter<'_>) -> fmt::Result {
        write!(f, "line {}, column {}: {}", self.line, self.column, self.what)
    }
}

const WORKER: &str = "expected: a worker (w0, w1, ..)";
const NAME: &str = "expected: push, force_push, pop, len, is_empty, is_full, close, is_closed, act or fail";
const ITEM: &str = "expected: an item, which is a number";
const TIMES: &str = "expected: a number of acts, from 1";
/// 16 x worker + code has 64 bits.
const MOST_WORKER: u64 = (1 << 60) - 1;

/// The words of one line, each with its column; a comment is none of them.
#[derive(Clone, Debug)]
pub struct Line<'a> {
    pub number: usize,
    words: Vec<(usize, &'a str)>,
    next: usize,
    end: usize,
}

fn is_blank(byte: u8) -> bool {
    matches!(byte, b' ' | b'\t' | b'\n' | b'\x0b' | b'\x0c' | b'\r')
}

/// Every line of a text, empty ones too, by its number from 1. Bytes that are no UTF-8 stand in words that mean nothing.
pub fn lines(text: &str) -> impl Iterator<Item = Line<'_>> {
    text.split('\n').enumerate().map(|(at, text)| Line::new(at + 1, text))
}

impl<'a> Line<'a> {
    pub fn new(number: usize, text: &'a str) -> Line<'a> {
        let text = text.split('#').next().unwrap_or("");
        let mut words = vec![];
        let bytes = text.as_bytes();
        let mut at = 0;
        while at < bytes.len() {
            let start = at;
            while at < bytes.len() && is_blank(bytes[at]) == is_blank(bytes[start]) {
                at += 1;
            }
            if !is_blank(bytes[start]) {
                words.push((start + 1, &text[start..at]));
            }
        }
        Line { number, words, next: 0, end: text.len() + 1 }
    }

    /// Whether no word is left.
    pub fn is_done(&self) -> bool {
        self.next == self.words.len()
    }

    /// The next word, which stays.
    pub fn peek(&self) -> Option<&'a str> {
        self.words.get(self.next).map(|word| word.1)
    }

    /// The column of the next word, or where the line ends.
    pub fn column(&self) -> usize {
        self.words.get(self.next).map_or(self.end, |word| word.0)
    }

    /// A fault at the next word.
    pub fn fault(&self, what: &str) -> Fault {
        Fault { line: self.number, column: self.column(), what: what.into() }
    }

    pub fn take(&mut self, expected: &str) -> Result<&'a str, Fault> {
        let word = self.peek().ok_or_else(|| self.fault(expected))?;
        self.next += 1;
        Ok(word)
    }

    pub fn take_number(&mut self, expected: &str) -> Result<u64, Fault> {
        let word = self
            .peek()
            .filter(|word| word.bytes().all(|byte| byte.is_ascii_digit()))
            .ok_or_else(|| self.fault(expected))?;
        let number = word.parse().map_err(|_| self.fault("a number that does not fit 64 bits"))?;
        self.next += 1;
        Ok(number)
    }

    pub fn take_worker(&mut self) -> Result<u64, Fault> {
        let digits = self
            .peek()
            .and_then(|word| word.strip_prefix('w'))
            .filter(|digits| !digits.is_empty() && digits.bytes().all(|byte| byte.is_ascii_digit()));
        let digits = digits.ok_or_else(|| self.fault(WORKER))?;
        match digits.parse() {
            Ok(number) if number <= MOST_WORKER => {
                self.next += 1;
                Ok(number)
            }
            _ => Err(self.fault(&format!("expected: a worker up to w{MOST_WORKER}"))),
        }
    }

    pub fn ends(&self) -> Result<(), Fault> {
        if self.is_done() {
            return Ok(());
        }
        Err(self.fault("expected: the end of the line"))
    }

    /// A call's or an act's name and what belongs to it: the code, the item, how often.
    pub fn take_what(&mut self, expected: &str) -> Result<(u64, u64, u64), Fault> {
        let code = self
            .peek()
            .and_then(|word| NAMES.iter().position(|name| *name == word))
            .ok_or_else(|| self.fault(expected))? as u64;
        self.next += 1;
        match code {
            0 | 1 => Ok((code, self.take_number(ITEM)?, 1)),
            ACT | FAIL if !self.is_done() => {
                let before = self.clone();
                match self.take_number(TIMES)? {
                    0 => Err(before.fault(TIMES)),
                    times => Ok((code, 0, times)),
                }
            }
            _ => Ok((code, 0, 1)),
        }
    }

    /// A worker, and what it is to do.
    pub fn take_entry(&mut self) -> Result<(u64, u64, u64, u64), Fault> {
        let worker = self.take_worker()?;
        let (code, item, times) = self.take_what(NAME)?;
        Ok((worker, code, item, times))
    }
}

/// `capacity N` (of a queue that has one) and `workers N`, which stand first.
#[derive(Clone, Copy, Debug, PartialEq, Eq)]
pub struct Head {
    pub capacity: Option<u64>,
    pub workers: u64,
}

/// The head, from a text's lines: those that are read are gone. `end` is what a text that is over is told at.
pub fn head<'a>(
    lines: &mut impl Iterator<Item = Line<'a>>,
    has_capacity: bool,
    end: (usize, usize),
) -> Result<Head, Fault> {
    let mut one = |name: &str| -> Result<u64, Fault> {
        let expected = format!("expected: {name} and a number");
        let Some(mut line) = lines.find(|line| !line.is_done()) else {
            return Err(Fault { line: end.0, column: end.1, what: expected });
        };
        if line.peek() != Some(name) {
            return Err(line.fault(&expected));
        }
        line.take(&expected)?;
        let number = line.take_number("expected: a number")?;
        line.ends()?;
        Ok(number)
    };
    let capacity = if has_capacity { Some(one("capacity")?) } else { None };
    Ok(Head { capacity, workers: one("workers")? })
}

/// Where a text ends: its line and column.
pub fn end_of(text: &str) -> (usize, usize) {
    let last = text.rsplit('\n').next().unwrap_or("");
    (text.matches('\n').count() + 1, last.len() + 1)
}

/// The call of a code and an item; none of an act's.
pub fn call_of(code: u64, item: u64) -> Option<Call> {
    Some(match code {
        0 => Call::Push(item),
        1 => Call::ForcePush(item),
        2 => Call::Pop,
        3 => Call::Len,
        4 => Call::IsEmpty,
        5 => Call::IsFull,
        6 => Call::Close,
        7 => Call::IsClosed,
        _ => return None,
    })
}

pub fn call_in_words(call: Call) -> String {
    let [code, item] = call.entry(0);
    match call {
        Call::Push(_) | Call::ForcePush(_) => format!("{} {item}", NAMES[code as usize]),
        _ => NAMES[code as usize].into(),
    }
}

/// An answer as logs and endings have it; an item that is handed back is not said.
pub fn answer_in_words(answer: Answer) -> String {
    match answer {
        Answer::Nothing => "none".into(),
        Answer::Pushed => "pushed".into(),
        Answer::Empty => "empty".into(),
        Answer::PopClosed | Answer::Closed(_) => "closed".into(),
        Answer::Yes => "yes".into(),
        Answer::No => "no".into(),
        Answer::Full(_) => "full".into(),
        Answer::Displaced(item) => format!("displaced {item}"),
        Answer::Popped(item) => format!("popped {item}"),
        Answer::Len(count) => format!("len {count}"),
    }
}

/// A schedule in words: acts in a row of one worker are one line, as `replay --words-of` prints them.
pub fn schedule_in_words(head: Head, entries: &[[u64; 2]]) -> String {
    let mut out = String::new();
    if let Some(capacity) = head.capacity {
        out.push_str(&format!("capacity {capacity}\n"));
    }
    out.push_str(&format!("workers {}\n", head.workers));
    out + &entries_in_words(entries)
}

/// Its entries alone.
pub fn entries_in_words(entries: &[[u64; 2]]) -> String {
    let mut out = String::new();
    let mut at = 0;
    while at < entries.len() {
        let [first, item] = entries[at];
        let (worker, code) = (first / 16, first % 16);
        let mut times = 1;
        if code >= ACT {
            times = entries[at..].iter().take_while(|entry| **entry == entries[at]).count();
        }
        out.push_str(&format!("w{worker} {}", NAMES[code as usize]));
        match code {
            0 | 1 => out.push_str(&format!(" {item}")),
            _ if times > 1 => out.push_str(&format!(" {times}")),
            _ => {}
        }
        out.push('\n');
        at += times;
    }
    out
}
