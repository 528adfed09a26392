//! explore: everything that can happen in a scenario.

use ask::machine::{Machine, Queue};
use ask::manners::{self, misused, told, Argument, Arguments, Told};
use ask::scenario::{self, Scenario};
use ask::search::{self, Found, Outcome, Wanted};
use ask::words::{answer_in_words, call_in_words, call_of, schedule_in_words, ACT};
use ask::world::World;
use ask::{interrupts, json};
use fernmoldew::{Call, Refusal};
use std::ffi::OsString;
use std::io::{IsTerminal, Write};
use std::process::ExitCode;
use std::time::{Duration, Instant};

const HELP: &str = "\
explore [--queue NAME] [--edition N] [--reduced] [--states N] [--json] [--ending N] [SCENARIO]

Tries everything that can happen in a scenario: every order of acts and begun calls, with every weak
exchange failing or not, each state once. Then it tells every way in which the calls can end. A
scenario is a schedule in words (replay --help) with a line 'then': what stands before it is run;
what stands after it are calls, each worker's in their order, with no order between workers. A call
begins at any time after its worker's last one has ended; calls under way go on. Without 'then' all
is run first. It is read from SCENARIO, or from standard input.

  N states, complete: nothing is left to try
                     how many states there are; a state is the words and places, what was answered
                     so far and how many calls each worker has begun
  not complete: N states seen, M still to try
                     and the endings found so far
  ending K of E: A acts, C changes of worker
                     what each call answered; the fewest acts that lead there, and with so few acts
                     the fewest changes of worker between one entry and the next, from 'then' on
  waits ITEMS, or ITEMS
                     what can be in the queue then, front first

Status: 0 complete, 1 refused or no such ending, 2 the input or the arguments cannot be read, or not
all can be written, 3 not complete.

  --queue NAME  bounded (if not given) or single
  --edition N   of the ring: 1 the source's (if not given), 2 the one whose force_push keeps a close
  --bits N      of the ring: 64 (if not given); the library has no ring of 16 bits
  --reduced     leaves out orders that lead to the same endings: a call begins at once, and an act
                on the value of a slot in hand is done at once. Endings, what waits and the fewest
                acts are the same; states are fewer, changes of worker may be more
  --states N    stops at so many states: 40000000 if not given, which fits 2 GB
  --json        one object: states, complete, endings; each with answers, acts, changes, waits,
                schedule
  --ending N    prints the schedule of the N-th ending, from 1, in words, for replay
  --version     prints the version
  -h, --help    prints this

A value may stand behind an = too, as in --states=1000. What follows a word -- is a name.
";

/// At some 50 bytes each, as words of 128 bits have them, they fit 2 GB (GiB).
const MOST_STATES: u64 = 40_000_000;

struct Options {
    queue: Queue,
    edition: u64,
    reduced: bool,
    states: u64,
    json: bool,
    ending: Option<u64>,
    file: Option<OsString>,
}

fn options(words: Vec<OsString>) -> Result<Options, Told> {
    let mut words = Arguments::new(words);
    let mut options = Options {
        queue: Queue::SOURCE,
        edition: 1,
        reduced: false,
        states: MOST_STATES,
        json: false,
        ending: None,
        file: None,
    };
    let mut rings_own: Option<String> = None;
    while let Some(word) = words.take()? {
        let option = match word {
            Argument::Name(name) if options.file.is_some() => return Err(Arguments::too_many(&name)),
            Argument::Name(name) => {
                options.file = Some(name);
                continue;
            }
            Argument::Option(option) => option,
        };
        match option.as_str() {
            "--queue" => {
                let (name, other) = words.value(&option, Queue::NAMES)?;
                let name = name.to_str().unwrap_or("");
                if name == "unbounded" {
                    return Err(told("--queue unbounded: the library that it is made over has no unbounded queue"));
                }
                options.queue = Queue::named(name).ok_or(other)?;
            }
            "--edition" => {
                options.edition = words.number(&option, "a number", 0)?;
                rings_own.get_or_insert(option);
            }
            "--bits" => {
                let (name, other) = words.value(&option, "64")?;
                match name.to_str() {
                    Some("64") => {}
                    Some("16") => {
                        return Err(told("--bits 16: the library that it is made over has no ring of sixteen bits"))
                    }
                    _ => return Err(other),
                }
                rings_own.get_or_insert(option);
            }
            "--reduced" => options.reduced = true,
            "--states" => options.states = words.number(&option, "a number from 1", 1)?,
            "--json" => options.json = true,
            "--ending" => options.ending = Some(words.number(&option, "a number from 1", 1)?),
            _ => return Err(words.unknown(&option)),
        }
    }
    if options.json && options.ending.is_some() {
        return Err(misused("--ending does not go with --json"));
    }
    match rings_own {
        Some(option) if !options.queue.has_editions() => {
            return Err(misused(format!("{option} does not go with --queue {}", options.queue.name())))
        }
        Some(_) => {
            options.queue = match options.edition {
                1 => Queue::SOURCE,
                2 => Queue::CLOSE_HOLDS,
                _ => return Err(refused(Refusal::Edition, None)),
            }
        }
        None => {}
    }
    Ok(options)
}

/// As walk tells a refusal.
fn refused(refusal: Refusal, entry: Option<u64>) -> Told {
    let words = refusal.to_string();
    let (number, words) = (refusal.number(), words.split_once(": ").map_or("", |parts| parts.1));
    let place = entry.map_or(String::new(), |entry| format!("entry {entry}: "));
    Told { status: manners::REFUSED, line: format!("refused {number}: {place}{words}") }
}

/// The machine after what stands before `then`.
fn made(queue: Queue, scenario: &Scenario) -> Result<(Machine, Vec<[u64; 2]>), Told> {
    let capacity = scenario.head.capacity.unwrap_or(1);
    let workers = usize::try_from(scenario.head.workers).unwrap_or(usize::MAX).min(1 << 16);
    let mut machine = Machine::new(queue, capacity, workers).map_err(|refusal| refused(refusal, None))?;
    let mut entries = vec![];
    for (entry, times) in &scenario.before {
        for _ in 0..*times {
            machine.step(*entry).map_err(|refusal| refused(refusal, Some(entries.len() as u64)))?;
            entries.push(*entry);
        }
    }
    Ok((machine, entries))
}

/// Each worker's calls whose answers an ending has: one under way first, by its last begin, then those after `then`.
fn asked(machine: &Machine, entries: &[[u64; 2]], calls: &[Vec<Call>]) -> Vec<Vec<Call>> {
    calls
        .iter()
        .enumerate()
        .map(|(worker, calls)| {
            let begun = entries
                .iter()
                .rev()
                .find(|entry| entry[0] / 16 == worker as u64 && entry[0] % 16 < ACT)
                .and_then(|entry| call_of(entry[0] % 16, entry[1]));
            begun.filter(|_| machine.busy(worker)).into_iter().chain(calls.iter().copied()).collect()
        })
        .collect()
}

struct Report<'a> {
    options: &'a Options,
    scenario: &'a Scenario,
    asked: &'a [Vec<Call>],
    before: &'a [[u64; 2]],
    outcome: &'a Outcome,
}

fn counted(number: u64, what: &str) -> String {
    format!("{number} {what}{}", if number == 1 { "" } else { "s" })
}

impl Report<'_> {
    fn first_line(&self) -> String {
        let Outcome { states, left, is_complete, .. } = self.outcome;
        let search = if self.options.reduced { " of the reduced search" } else { "" };
        if *is_complete {
            format!("{}{search}, complete: nothing is left to try", counted(*states as u64, "state"))
        } else {
            format!("not complete: {}{search} seen, {left} still to try", counted(*states as u64, "state"))
        }
    }

    /// `ending 1 of 3: 13 acts, 2 changes of worker`
    fn title(&self, at: usize) -> String {
        let Found { acts, changes, .. } = &self.outcome.endings[at];
        let so_far = if self.outcome.is_complete { "" } else { " so far" };
        // a reduced search, or one that was broken off, has not tried every schedule of so few acts
        let at_most = if self.options.reduced || !self.outcome.is_complete { "at most " } else { "" };
        format!(
            "ending {} of {}{so_far}: {}, {at_most}{} of worker",
            at + 1,
            self.outcome.endings.len(),
            counted(*acts as u64, "act"),
            counted(*changes, "change")
        )
    }

    /// What each call answered, and what waits, a line each.
    fn lines(&self, at: usize) -> Vec<String> {
        let found = &self.outcome.endings[at];
        let calls: Vec<(usize, String, String)> = self
            .asked
            .iter()
            .zip(&found.answers)
            .enumerate()
            .flat_map(|(worker, (calls, answers))| {
                calls
                    .iter()
                    .zip(answers)
                    .map(move |(call, answer)| (worker, call_in_words(*call), answer_in_words(*answer)))
            })
            .collect();
        let width = calls.iter().map(|call| call.1.len()).max().unwrap_or(0);
        let digits = calls.last().map_or(1, |call| call.0.to_string().len());
        let mut lines: Vec<String> = calls
            .iter()
            .map(|(worker, call, answer)| format!("w{worker:<digits$}  {call:<width$}   {answer}"))
            .collect();
        let waits: Vec<String> = found
            .waits
            .iter()
            .map(|items| {
                if items.is_empty() {
                    "nothing".into()
                } else {
                    items.iter().map(u64::to_string).collect::<Vec<_>>().join(" ")
                }
            })
            .collect();
        lines.push(format!("waits {}", waits.join(", or ")));
        lines
    }

    fn text(&self) -> String {
        let mut text = self.first_line() + "\n";
        for at in 0..self.outcome.endings.len() {
            text += &format!("{}\n", self.title(at));
            for line in self.lines(at) {
                text += &format!("    {line}\n");
            }
        }
        text
    }

    fn schedule(&self, at: usize) -> Vec<[u64; 2]> {
        let schedule = self.outcome.endings[at].schedule.as_ref().expect("it was asked for");
        self.before.iter().chain(schedule).copied().collect()
    }

    fn ending(&self, at: usize) -> String {
        let mut text = format!("# {}\n", self.title(at));
        for line in self.lines(at) {
            text += &format!("#   {line}\n");
        }
        let options = self.options.queue.replay_options(self.scenario.head.workers);
        if !options.is_empty() {
            text += &format!("# for replay{options}\n");
        }
        if self.before.is_empty() {
            return text + &schedule_in_words(self.scenario.head, &self.schedule(at));
        }
        // apart, so that acts of the two are not gathered into one line
        text += &schedule_in_words(self.scenario.head, self.before);
        text += "# and from here\n";
        text + &ask::words::entries_in_words(self.outcome.endings[at].schedule.as_ref().expect("it was asked for"))
    }

    fn json(&self) -> String {
        let endings = self.outcome.endings.iter().enumerate().map(|(at, found)| {
            let answers = json::list(found.answers.iter().map(|answers| json::list(answers.iter().map(|answer| json::text(&answer_in_words(*answer))))));
            let waits = json::list(found.waits.iter().map(|items| json::list(items.iter().map(u64::to_string))));
            let schedule = json::text(&schedule_in_words(self.scenario.head, &self.schedule(at)));
            format!("{{\"answers\": {answers}, \"acts\": {}, \"changes\": {}, \"waits\": {waits}, \"schedule\": {schedule}}}", found.acts, found.changes)
        });
        let Outcome { states, left, is_complete, .. } = self.outcome;
        let more = format!(
            "{}{}",
            if self.options.reduced { "\"reduced\": true, " } else { "" },
            if *is_complete { String::new() } else { format!("\"left\": {left}, ") }
        );
        format!("{{\"states\": {states}, \"complete\": {is_complete}, {more}\"endings\": {}}}\n", json::list(endings))
    }
}

/// Progress on a terminal, and whether to go on.
struct Watch {
    shows: bool,
    shown: bool,
    next: Instant,
    asked: u32,
}

const EVERY: Duration = Duration::from_millis(500);

impl Watch {
    fn new() -> Watch {
        Watch { shows: std::io::stderr().is_terminal(), shown: false, next: Instant::now() + EVERY, asked: 0 }
    }

    fn goes_on(&mut self, states: usize, tried: usize) -> bool {
        if interrupts::caught() {
            return false;
        }
        self.asked = self.asked.wrapping_add(1);
        if self.shows && self.asked % 64 == 0 && Instant::now() >= self.next {
            self.next = Instant::now() + EVERY;
            self.shown = true;
            let _ = write!(std::io::stderr(), "\r\x1b[Kexplore: {states} states, {} still to try", states - tried);
        }
        true
    }

    fn done(&self) {
        if self.shown {
            let _ = write!(std::io::stderr(), "\r\x1b[K");
        }
    }
}

fn explore(words: Vec<OsString>) -> Result<u8, Told> {
    if manners::is_told("explore", HELP, &words)? {
        return Ok(0);
    }
    let options = options(words)?;
    let text = manners::input(options.file.as_deref())?;
    let name = manners::name_of(options.file.as_deref());
    let scenario =
        scenario::read(&text, options.queue.has_capacity()).map_err(|fault| told(format!("{name}: {fault}")))?;
    let (machine, before) = made(options.queue, &scenario)?;
    let asked = asked(&machine, &before, &scenario.calls);
    let mut world = World::new(options.queue, scenario.head.capacity.unwrap_or(1), &machine, &scenario.calls)
        .map_err(|refusal| refused(refusal, None))?;
    let wanted = match options.ending {
        _ if options.json => Wanted::All,
        Some(number) => Wanted::One(usize::try_from(number).unwrap_or(usize::MAX)),
        None => Wanted::Nothing,
    };
    interrupts::catch();
    let mut watch = Watch::new();
    let outcome = search::search(
        &mut world,
        options.reduced,
        usize::try_from(options.states).unwrap_or(usize::MAX),
        wanted,
        &mut |states, tried| watch.goes_on(states, tried),
    );
    watch.done();
    let report = Report { options: &options, scenario: &scenario, asked: &asked, before: &before, outcome: &outcome };
    for at in 0..outcome.endings.len() {
        hold(&report, at)?;
    }
    let status = if outcome.is_complete { 0 } else { manners::NOT_COMPLETE };
    match options.ending {
        Some(number) => {
            let count = outcome.endings.len();
            if number > count as u64 {
                let which = match count {
                    0 => ": none was found".into(),
                    1 => ", only 1".into(),
                    _ => format!(", only 1 to {count}"),
                };
                return Err(Told {
                    status: if outcome.is_complete { manners::REFUSED } else { status },
                    line: format!("there is no ending {number}{which}"),
                });
            }
            manners::output(&report.ending(number as usize - 1))?;
            if !outcome.is_complete {
                return Err(Told { status, line: report.first_line() });
            }
        }
        None if options.json => manners::output(&report.json())?,
        None => manners::output(&report.text())?,
    }
    Ok(status)
}

/// A schedule that was found is run by the whole machine, all workers' records lent, before it is handed out: it must answer what is said of it, in so many acts and changes.
fn hold(report: &Report, at: usize) -> Result<(), Told> {
    let found = &report.outcome.endings[at];
    let Some(schedule) = &found.schedule else { return Ok(()) };
    let (mut machine, _) = made(report.options.queue, report.scenario)?;
    let mut answers = vec![vec![]; report.asked.len()];
    let mut acts = 0;
    for entry in schedule {
        let worker = (entry[0] / 16) as usize;
        let was_busy = machine.busy(worker);
        machine.step(*entry).map_err(|refusal| told(format!("a schedule that it found is refused: {refusal}")))?;
        if was_busy {
            acts += 1;
            answers[worker].extend(machine.answer(worker));
        }
    }
    let changes = schedule.windows(2).filter(|pair| pair[0][0] / 16 != pair[1][0] / 16).count() as u64;
    let waits = machine.contents().ok();
    if answers != found.answers
        || acts != found.acts
        || changes != found.changes
        || !waits.is_some_and(|waits| found.waits.contains(&waits))
    {
        return Err(told("a schedule that it found ends otherwise than it was found to end"));
    }
    Ok(())
}

fn main() -> ExitCode {
    manners::run("explore", explore)
}
