//! possible: whether a log of calls and answers can have happened.
//!
//! First the rows of what a log never shows; then the plain queue; then, where a plain queue is not all that the machine does and the log is small, act by act.

pub mod acts;
mod help;
pub mod log;
pub mod part;
pub mod rows;
pub mod schedule;
pub mod search;

use crate::json;
use crate::machine::Queue;
use crate::manners::{self, misused, Argument, Arguments, Told};
use crate::words::{self, Head};
use log::Log;
use part::Part;
use rows::{Rules, Shown};
use search::Found;
use std::ffi::OsString;
use std::fmt::Write;

/// What is asked of a log.
#[derive(Clone, Copy, Debug)]
pub struct Question {
    pub queue: Queue,
    /// The most states of a search.
    pub states: u64,
}

impl Question {
    fn rules(self, log: &Log) -> Rules {
        Rules { capacity: i64::try_from(log.capacity).unwrap_or(i64::MAX), close_holds: self.queue.keeps_close() }
    }
}

pub enum Decided {
    /// A schedule that gives the answers, and was run.
    Possible(Vec<[u64; 2]>),
    Impossible(Why),
    /// The states were not enough; the call whose answer was come to.
    Open(u32),
}

pub struct Why {
    pub row: Option<Shown>,
    /// How many states there are act by act, where that was asked.
    pub acts: Option<u64>,
}

/// So many states act by act confirm what the search says, where steps are taken apart.
const ACTS: u64 = 300_000;
/// And only of logs so long.
const FEW: usize = 12;

/// A log decided, and how many states that took.
pub fn decide(log: &Log, question: Question) -> (Decided, u64) {
    if let Some(row) = rows::shown(log, question.rules(log)) {
        return (Decided::Impossible(Why { row: Some(row), acts: None }), 0);
    }
    let (found, states) = search::Search::new(log, question.queue).run(question.states);
    let decided = match found {
        Found::Order(order) => match schedule::of(log, question.queue, &order) {
            Ok(entries) => Decided::Possible(entries),
            // never seen: the machine itself decides
            Err(_) => {
                by_acts(log, question.queue, question.states).unwrap_or(Decided::Open(log.calls.len() as u32 - 1))
            }
        },
        Found::None if search::apart(log, question.queue) && log.calls.len() <= FEW => {
            by_acts(log, question.queue, ACTS.min(question.states))
                .unwrap_or(Decided::Impossible(Why { row: None, acts: None }))
        }
        Found::None => Decided::Impossible(Why { row: None, acts: None }),
        Found::Limit(call) => Decided::Open(call),
    };
    (decided, states)
}

/// None: there are more states.
fn by_acts(log: &Log, queue: Queue, states: u64) -> Option<Decided> {
    match acts::search(log, queue, states) {
        acts::Found::Schedule(entries) => Some(Decided::Possible(entries)),
        acts::Found::None(states) => Some(Decided::Impossible(Why { row: None, acts: Some(states) })),
        acts::Found::Limit => None,
    }
}

const STATES: u64 = 8_000_000;
/// More answers of a part are not printed but with --json.
const LINES: usize = 40;

/// The program: its status.
pub fn program(arguments: Vec<OsString>) -> Result<u8, Told> {
    if manners::is_told("possible", help::HELP, &arguments)? {
        return Ok(0);
    }
    let mut arguments = Arguments::new(arguments);
    let (mut file, mut queue, mut edition, mut states, mut as_json) = (None, Queue::SOURCE, None, STATES, false);
    while let Some(word) = arguments.take()? {
        let option = match word {
            Argument::Name(name) if file.is_some() => return Err(Arguments::too_many(&name)),
            Argument::Name(name) => {
                file = Some(name);
                continue;
            }
            Argument::Option(option) => option,
        };
        match option.as_str() {
            "--json" => as_json = true,
            "--states" => states = arguments.number(&option, "a number from 1", 1)?,
            "--edition" => {
                let (number, other) = arguments.value(&option, "1 or 2")?;
                edition = Some(match number.to_str() {
                    Some("1") => Queue::SOURCE,
                    Some("2") => Queue::CLOSE_HOLDS,
                    _ => return Err(other),
                });
            }
            "--queue" => {
                let (name, other) = arguments.value(&option, Queue::NAMES)?;
                let name = name.to_str().unwrap_or("");
                if name == "unbounded" {
                    return Err(manners::told("--queue unbounded: not yet; its words cannot be linked"));
                }
                queue = Queue::named(name).ok_or(other)?;
            }
            "--bits" => {
                let (bits, other) = arguments.value(&option, "64")?;
                match bits.to_str() {
                    Some("64") => {}
                    Some("16") => return Err(manners::told("--bits 16: not yet; its words cannot be linked")),
                    _ => return Err(other),
                }
            }
            "-" if file.is_none() => file = Some("-".into()),
            _ => return Err(arguments.unknown(&option)),
        }
    }
    match edition {
        Some(_) if !queue.has_editions() => {
            return Err(misused(format!("--edition does not go with --queue {}", queue.name())))
        }
        Some(edition) => queue = edition,
        None => {}
    }
    let file = file.filter(|file| file != "-");
    let text = manners::input(file.as_deref())?;
    let log = log::read(&text, queue)
        .map_err(|fault| manners::told(format!("{}: {fault}", manners::name_of(file.as_deref()))))?;
    drop(text);
    let question = Question { queue, states };
    let (decided, states) = decide(&log, question);
    let (status, said) = match decided {
        Decided::Possible(entries) => {
            if !schedule::gives(&log, queue, &entries) {
                return Err(manners::told("its own schedule does not give these answers: a fault of this program"));
            }
            let words = schedule_in_words(&log, queue, &entries);
            (
                0,
                if as_json {
                    format!("{{\"possible\": true, \"states\": {states}, \"schedule\": {}}}\n", json::text(&words))
                } else {
                    words
                },
            )
        }
        Decided::Impossible(why) => {
            let part = part::of(&log, question, why.row);
            (1, if as_json { part_as_json(&log, &part) } else { part_in_words(&log, &part) })
        }
        Decided::Open(call) => {
            let line = log.calls[call as usize].lines.1.max(log.calls[call as usize].lines.0);
            let states = states.min(question.states);
            (
                manners::NOT_COMPLETE,
                if as_json {
                    format!("{{\"possible\": null, \"states\": {states}, \"line\": {line}}}\n")
                } else {
                    format!(
                        "not decided: {states} states seen, and the answer of line {line} come to, of {} calls\n",
                        log.calls.len()
                    )
                },
            )
        }
    };
    manners::output(&said)?;
    Ok(status)
}

/// What replay runs.
fn schedule_in_words(log: &Log, queue: Queue, entries: &[[u64; 2]]) -> String {
    let head = Head { capacity: queue.has_capacity().then_some(log.capacity), workers: log.workers as u64 };
    format!(
        "# possible: ./replay{} runs this to the answers of the log\n{}",
        queue.replay_options(log.workers as u64),
        words::schedule_in_words(head, entries)
    )
}

/// Lines, or the line and its times.
fn seen_at(log: &Log, call: u32) -> String {
    let lines = log.calls[call as usize].lines;
    match &log.times {
        Some(times) => format!("line {}, {}..{}", lines.0, times[call as usize].0, times[call as usize].1),
        None => format!("lines {}..{}", lines.0, lines.1),
    }
}

fn answer_in_words(log: &Log, call: u32) -> String {
    log.calls[call as usize].answer.map_or("?".into(), words::answer_in_words)
}

fn states_in_words((plain, acts): (u64, Option<u64>)) -> String {
    match acts {
        None => format!("no row says it: the search is complete, by {plain} states of the plain queue"),
        Some(acts) => format!("no row says it: the search is complete, by {acts} states act by act"),
    }
}

fn part_in_words(log: &Log, part: &Part) -> String {
    let mut said = String::from("impossible: no schedule gives these answers\n");
    said.push_str(if part.smallest {
        "by these answers alone:\n"
    } else {
        "by these answers alone (perhaps by fewer):\n"
    });
    let culprit = part.row.as_ref().map(|row| row.at);
    // of many the last ones are said, and the one at fault is among them
    let hidden = part.calls.len().saturating_sub(LINES);
    let shown: Vec<u32> = part
        .calls
        .iter()
        .copied()
        .enumerate()
        .filter(|(at, call)| *at >= hidden || Some(*call) == culprit)
        .map(|(_, call)| call)
        .collect();
    if shown.len() < part.calls.len() {
        let _ = writeln!(said, "    .. {} more, which --json lists", part.calls.len() - shown.len());
    }
    let cells: Vec<[String; 4]> = shown
        .iter()
        .map(|call| {
            [
                format!("w{}", log.calls[*call as usize].worker),
                words::call_in_words(log.calls[*call as usize].call),
                seen_at(log, *call),
                answer_in_words(log, *call),
            ]
        })
        .collect();
    let widths: Vec<usize> =
        (0..4).map(|column| cells.iter().map(|cells| cells[column].len()).max().unwrap_or(0)).collect();
    for (call, [worker, name, lines, answer]) in shown.iter().zip(&cells) {
        let line = format!(
            "    {worker:w0$}  {name:w1$}   {lines:w2$}   {answer:w3$}",
            w0 = widths[0],
            w1 = widths[1],
            w2 = widths[2],
            w3 = widths[3]
        );
        match &part.row {
            Some(row) if row.at == *call => {
                let _ = writeln!(said, "{line}    <- {}", row.why);
            }
            _ => {
                let _ = writeln!(said, "{}", line.trim_end());
            }
        }
    }
    match &part.row {
        Some(row) => {
            let _ = writeln!(said, "PROMISES: What a log never shows, {}", row.row);
        }
        None => {
            let _ = writeln!(said, "{}", states_in_words(part.states));
        }
    }
    said
}

fn part_as_json(log: &Log, part: &Part) -> String {
    let answers = part.calls.iter().map(|at| {
        let call = &log.calls[*at as usize];
        format!(
            "{{\"worker\": {}, \"call\": {}, \"lines\": [{}, {}], \"answer\": {}, \"at_fault\": {}}}",
            call.worker,
            json::text(&words::call_in_words(call.call)),
            call.lines.0,
            call.lines.1,
            json::text(&answer_in_words(log, *at)),
            part.row.as_ref().is_some_and(|row| row.at == *at)
        )
    });
    let answers = json::list(answers);
    let (row, why) = match &part.row {
        Some(row) => (row.row.to_string(), row.why.clone()),
        None => ("null".into(), states_in_words(part.states)),
    };
    format!(
        "{{\"possible\": false, \"answers\": {answers}, \"smallest\": {}, \"row\": {row}, \"why\": {}}}\n",
        part.smallest,
        json::text(&why)
    )
}
