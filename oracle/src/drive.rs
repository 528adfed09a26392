//! Runs schedules through the module under test and compares its output with the judge's.

use crate::queue::Queue;
use crate::schedule::{self, Schedule, Show};
use crate::tally::Tally;
use crate::walk::{self, Walk};
use std::fs;
use std::io::{Read, Write};
use std::path::PathBuf;
use std::process::{Command, Stdio};
use std::thread;

/// The command that runs the module: words separated by white space. It reads a schedule on its standard input and prints what
/// the program prints; if it takes many, schedules are separated by a line `%` and each output is followed by one.
pub struct Module {
    pub command: String,
    pub many: bool,
}

impl Module {
    /// What the module prints for each schedule. A module that ends too soon leaves empty outputs.
    fn outputs(&self, schedules: &[Schedule]) -> Result<Vec<String>, String> {
        if !self.many {
            return schedules.iter().map(|schedule| self.print(schedule.text())).collect();
        }
        let mut outputs = schedule::split(&self.print(schedule::join(schedules))?);
        outputs.resize(schedules.len().max(outputs.len()), String::new());
        Ok(outputs)
    }

    fn output(&self, schedule: &Schedule) -> Result<String, String> {
        Ok(self.outputs(std::slice::from_ref(schedule))?.concat())
    }

    /// Feeds the module from a thread of its own: it may print before it has read all.
    fn print(&self, input: String) -> Result<String, String> {
        let mut words = self.command.split_whitespace();
        let mut child = Command::new(words.next().ok_or("the module's command is empty")?)
            .args(words)
            .stdin(Stdio::piped())
            .stdout(Stdio::piped())
            .spawn()
            .map_err(|error| format!("{}: {error}", self.command))?;
        let mut stdin = child.stdin.take().expect("piped");
        let mut stdout = child.stdout.take().expect("piped");
        let mut bytes = Vec::new();
        thread::scope(|scope| {
            // A module that stops reading is judged by what it printed.
            scope.spawn(move || drop(stdin.write_all(input.as_bytes())));
            stdout.read_to_end(&mut bytes)
        })
        .map_err(|error| error.to_string())?;
        let status = child.wait().map_err(|error| error.to_string())?;
        let mut text = String::from_utf8_lossy(&bytes).into_owned();
        if status.code().is_none() {
            text += &format!("module ended by {status}\n");
        }
        Ok(text)
    }
}

/// The program that the module stands for.
#[derive(Clone, Copy)]
pub enum Program {
    Replay(Show),
    Walk(Walk),
}

impl Program {
    /// What it must print, or the line with which it refuses.
    pub fn prints(self, schedule: &Schedule, tally: &mut Tally) -> Result<String, String> {
        match self {
            Program::Replay(show) => Ok(schedule::run(schedule, show, tally)),
            Program::Walk(walk) => walk::run(schedule, walk, tally),
        }
    }

    /// What it must print as one of many.
    pub fn prints_in_place(self, schedule: &Schedule, tally: &mut Tally) -> String {
        self.prints(schedule, tally).unwrap_or_else(|refused| refused + "\n")
    }

    pub fn shows_causes(self) -> bool {
        matches!(self, Program::Replay(Show { causes: true, .. }))
    }

    /// Whether it matters where the plain queue stood.
    pub fn tells_plain(self) -> bool {
        matches!(self, Program::Replay(Show { plain, moments, .. }) if plain || moments)
    }
}

/// A differential run: schedules are judged as they come and compared in batches. Without a module they are only counted.
pub struct Run {
    pub queue: Queue,
    pub module: Option<Module>,
    /// Entries in a batch.
    pub batch: usize,
    /// Where a difference is kept.
    pub save: PathBuf,
    pub program: Program,
    pub tally: Tally,
    waiting: Vec<Schedule>,
    expected: Vec<String>,
    entries: usize,
}

impl Run {
    pub fn new(queue: Queue, module: Option<Module>, batch: usize, save: PathBuf) -> Run {
        let tally = Tally::new(queue);
        Run {
            queue,
            module,
            batch,
            save,
            program: Program::Replay(Show::default()),
            tally,
            waiting: Vec::new(),
            expected: Vec::new(),
            entries: 0,
        }
    }

    /// Whether several schedules go to one process, so that short ones cost little.
    pub fn many(&self) -> bool {
        self.module.as_ref().is_none_or(|module| module.many)
    }

    pub fn add(&mut self, schedule: Schedule) -> Result<(), String> {
        let expected = self.program.prints_in_place(&schedule, &mut self.tally);
        if let Some(fault) = self.tally.fault.take() {
            self.keep("plain.in", &schedule.prefix(fault.entry as usize + 1).text())?;
            let (number, place) = (self.tally.schedules, self.save.display());
            return Err(format!("schedule {number}, {fault}; see plain.in in {place}"));
        }
        if self.module.is_none() {
            return Ok(());
        }
        self.entries += schedule.words.len() / 2;
        self.waiting.push(schedule);
        self.expected.push(expected);
        if self.entries >= self.batch {
            self.flush()?;
        }
        Ok(())
    }

    /// Compares what waits. To be called at the end.
    pub fn flush(&mut self) -> Result<(), String> {
        let waiting = std::mem::take(&mut self.waiting);
        let expected = std::mem::take(&mut self.expected);
        self.entries = 0;
        let Some(module) = self.module.as_ref().filter(|_| !waiting.is_empty()) else {
            return Ok(());
        };
        let printed = module.outputs(&waiting)?;
        if printed == expected {
            return Ok(());
        }
        match expected.iter().zip(&printed).position(|(expected, printed)| expected != printed) {
            Some(at) => Err(self.difference(module, &waiting[at], &waiting)?),
            None => Err(format!("the module printed {} outputs for {} schedules", printed.len(), waiting.len())),
        }
    }

    /// Keeps the smallest prefix that shows the difference, and says where.
    fn difference(&self, module: &Module, schedule: &Schedule, batch: &[Schedule]) -> Result<String, String> {
        let Some(smallest) = smallest(module, schedule, self.program)? else {
            self.keep("batch.in", &schedule::join(batch))?;
            return Ok("the module differs, but only after the schedules before it: batch.in is the whole batch".into());
        };
        let expected = expected(&smallest, self.program);
        let printed = module.output(&smallest)?;
        self.keep("difference.in", &smallest.text())?;
        self.keep("difference.expected", &expected)?;
        self.keep("difference.module", &printed)?;
        let entries = smallest.words.len().div_ceil(2);
        let lines = first_difference(&expected, &printed).unwrap_or_default();
        let place = self.save.display();
        Ok(format!("the module differs after {entries} entries; see difference.in in {place}\n{lines}"))
    }

    fn keep(&self, name: &str, text: &str) -> Result<(), String> {
        fs::create_dir_all(&self.save)
            .and_then(|()| fs::write(self.save.join(name), text))
            .map_err(|error| format!("{}: {error}", self.save.display()))
    }
}

fn expected(schedule: &Schedule, program: Program) -> String {
    program.prints_in_place(schedule, &mut Tally::new(schedule.making.queue()))
}

/// The smallest prefix after which the module differs, by halving: it differs, and one entry less does not. None if the module
/// does not differ on the schedule alone.
fn smallest(module: &Module, schedule: &Schedule, program: Program) -> Result<Option<Schedule>, String> {
    let differs =
        |schedule: &Schedule| -> Result<bool, String> { Ok(module.output(schedule)? != expected(schedule, program)) };
    if !differs(schedule)? {
        return Ok(None);
    }
    // An odd word at the end is part of what is tried.
    if schedule.words.len() % 2 == 1 {
        return Ok(Some(schedule.clone()));
    }
    if differs(&schedule.prefix(0))? {
        return Ok(Some(schedule.prefix(0)));
    }
    let (mut same, mut different) = (0, schedule.words.len() / 2);
    while different - same > 1 {
        let middle = same + (different - same) / 2;
        if differs(&schedule.prefix(middle))? {
            different = middle;
        } else {
            same = middle;
        }
    }
    Ok(Some(schedule.prefix(different)))
}

/// The first line in which two outputs differ.
pub fn first_difference(expected: &str, printed: &str) -> Option<String> {
    let (mut expected, mut printed) = (expected.lines(), printed.lines());
    for number in 1.. {
        match (expected.next(), printed.next()) {
            (None, None) => return None,
            (a, b) if a == b => {}
            (a, b) => {
                let show = |line: Option<&str>| line.unwrap_or("(nothing)").to_string();
                return Some(format!("line {number}\n  judge:  {}\n  module: {}", show(a), show(b)));
            }
        }
    }
    unreachable!("texts end")
}
