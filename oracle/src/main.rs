//! The judge's commands. README.md says what they are for.

use oracle::drive::{first_difference, Module, Program, Run};
use oracle::exhaustive::Extent;
use oracle::queue::{Bits, Queue};
use oracle::schedule::{run, split, Schedule, Show, SEPARATOR};
use oracle::tally::Tally;
use oracle::walk::{self, Walk};
use oracle::{exhaustive, interleaved, list, sequential, turns, walks};
use std::io::Read;
use std::path::Path;
use std::process::ExitCode;
use std::time::Instant;
use std::{env, fs};

const USAGE: &str =
    "Each command takes --queue bounded|single|unbounded, bounded unless told, and for bounded --edition N, 1 unless told, --bits 16|64, 64 unless told, and --lent, and, but for list, walk and walks, --causes, --losses and --stock; and, for each queue and but for those, --moments and --plain.
judge expect FILE|- [--quiet] [--many]
judge sequential --calls N --seed S [--quiet] [--module CMD [--many]] [--batch ENTRIES] [--save DIR]
judge interleaved --acts N --seed S [--closing] [--quiet] [--module CMD [--many]] [--batch ENTRIES] [--save DIR]
judge turns --turns N --seed S --bits 16 [--capacity N] [--quiet] [--module CMD [--many]] [--batch ENTRIES] [--save DIR]
judge exhaustive [--compact | --depth ACTS] [--quiet] [--module CMD [--many]] [--batch ENTRIES] [--save DIR]
judge walk FILE|- [--depth N] [--list] [--buffer BYTES] [--many]
judge walks [--depth N] [--list] [--workers 2|3] [--module CMD --many] [--batch ENTRIES] [--save DIR]
judge list --seed S [--to DIR]
judge check-against FILE.out FILE.in";

fn main() -> ExitCode {
    let arguments: Vec<String> = env::args().skip(1).collect();
    match command(&arguments) {
        Ok(()) => ExitCode::SUCCESS,
        Err(message) => {
            eprintln!("{message}");
            ExitCode::FAILURE
        }
    }
}

fn command(arguments: &[String]) -> Result<(), String> {
    let (name, rest) = arguments.split_first().ok_or(USAGE)?;
    let options = Options::parse(rest)?;
    match name.as_str() {
        "expect" => expect(&options, Program::Replay(options.show()?)),
        "sequential" => {
            driven(&options, |run| sequential::drive(run, options.number("calls")?, options.number("seed")?))
        }
        "interleaved" => driven(&options, |run| {
            let closing = options.flag("closing");
            interleaved::drive(run, options.number("acts")?, options.number("seed")?, closing)
        }),
        "turns" => driven(&options, |run| {
            let capacities = options.number_or("capacity", 1)?..=options.number_or("capacity", 4)?;
            turns::drive(run, options.number("turns")?, options.number("seed")?, capacities)
        }),
        "exhaustive" => driven(&options, |run| exhaustive::drive(run, extent(&options)?)),
        "walk" => expect(&options, Program::Walk(walk_asked(&options)?)),
        "walks" => {
            driven(&options, |run| walks::drive(run, walk_asked(&options)?, options.optional_number("workers")?))
        }
        "list" => write_list(&options),
        "check-against" => check_against(&options),
        _ => Err(USAGE.into()),
    }
}

/// Plain arguments, options with a value, and flags.
#[derive(Default)]
struct Options {
    plain: Vec<String>,
    values: Vec<(String, String)>,
    flags: Vec<String>,
}

impl Options {
    fn parse(arguments: &[String]) -> Result<Options, String> {
        let mut options = Options::default();
        let mut arguments = arguments.iter().cloned();
        while let Some(argument) = arguments.next() {
            match argument.strip_prefix("--") {
                None => options.plain.push(argument),
                Some(
                    flag @ ("quiet" | "many" | "compact" | "closing" | "causes" | "losses" | "stock" | "moments"
                    | "plain" | "list" | "lent"),
                ) => {
                    options.flags.push(flag.into());
                }
                Some(
                    name @ ("calls" | "acts" | "seed" | "module" | "batch" | "save" | "to" | "depth" | "queue"
                    | "edition" | "bits" | "turns" | "capacity" | "buffer" | "workers"),
                ) => {
                    let value = arguments.next().ok_or(format!("--{name} needs a value"))?;
                    options.values.push((name.into(), value));
                }
                Some(_) => return Err(format!("unknown option {argument}\n{USAGE}")),
            }
        }
        Ok(options)
    }

    fn flag(&self, name: &str) -> bool {
        self.flags.iter().any(|flag| flag == name)
    }

    fn value(&self, name: &str) -> Option<&str> {
        self.values.iter().find(|(option, _)| option == name).map(|(_, value)| value.as_str())
    }

    fn number(&self, name: &str) -> Result<u64, String> {
        let value = self.value(name).ok_or(format!("--{name} is missing\n{USAGE}"))?;
        value.parse().map_err(|_| format!("--{name}: not a number: {value}"))
    }

    fn queue(&self) -> Result<Queue, String> {
        let name = self.value("queue").unwrap_or("bounded");
        match Queue::named(name).ok_or(format!("--queue: no such queue: {name}\n{USAGE}"))? {
            Queue::Bounded { edition, .. } => Ok(Queue::Bounded {
                edition: self.number_or("edition", edition)?,
                bits: self.bits()?,
                lent: self.flag("lent"),
            }),
            other if self.flag("lent") => Err(format!("--lent: {other:?} lends none\n{USAGE}")),
            other => match ["edition", "bits"].into_iter().find(|name| self.value(name).is_some()) {
                Some(name) => Err(format!("--{name}: {other:?} has none\n{USAGE}")),
                None => Ok(other),
            },
        }
    }

    fn bits(&self) -> Result<Bits, String> {
        match self.value("bits") {
            None | Some("64") => Ok(Bits::SixtyFour),
            Some("16") => Ok(Bits::Sixteen),
            Some(other) => Err(format!("--bits: no such width: {other}\n{USAGE}")),
        }
    }

    fn show(&self) -> Result<Show, String> {
        let asked = ["causes", "losses", "stock"].into_iter().find(|name| self.flag(name));
        match (self.queue()?, asked) {
            (Queue::Bounded { .. }, _) | (_, None) => Ok(Show {
                quiet: self.flag("quiet"),
                causes: self.flag("causes"),
                losses: self.flag("losses"),
                stock: self.flag("stock"),
                moments: self.flag("moments"),
                plain: self.flag("plain"),
                beyond: false,
            }),
            (_, Some(name)) => Err(format!("--{name} is of the ring alone\n{USAGE}")),
        }
    }

    fn optional_number(&self, name: &str) -> Result<Option<u64>, String> {
        self.value(name).map(|_| self.number(name)).transpose()
    }

    fn number_or(&self, name: &str, default: u64) -> Result<u64, String> {
        Ok(self.optional_number(name)?.unwrap_or(default))
    }
}

fn read(path: &str) -> Result<String, String> {
    let mut text = String::new();
    let done = match path {
        "-" => std::io::stdin().read_to_string(&mut text).map(drop),
        _ => fs::read_to_string(path).map(|read| text = read),
    };
    done.map(|()| text).map_err(|error| format!("{path}: {error}"))
}

/// Prints what a program must print.
fn expect(options: &Options, program: Program) -> Result<(), String> {
    let [path] = options.plain.as_slice() else {
        return Err(USAGE.into());
    };
    let text = read(path)?;
    let queue = options.queue()?;
    let mut tally = Tally::new(queue);
    if !options.flag("many") {
        print!("{}", program.prints(&Schedule::parse(queue, &text)?, &mut tally)?);
        return unplain(&tally);
    }
    for schedule in Schedule::parse_many(queue, &text)? {
        println!("{}{SEPARATOR}", program.prints_in_place(&schedule, &mut tally));
        unplain(&tally).map_err(|fault| format!("schedule {}, {fault}", tally.schedules))?;
    }
    Ok(())
}

fn unplain(tally: &Tally) -> Result<(), String> {
    tally.fault.as_ref().map_or(Ok(()), |fault| Err(fault.to_string()))
}

fn walk_asked(options: &Options) -> Result<Walk, String> {
    let depth = options.number_or("depth", walk::DEPTH_MOST)?;
    Ok(Walk { depth, list: options.flag("list"), buffer: options.optional_number("buffer")? })
}

/// A differential run with its counts and its time.
fn driven(options: &Options, drive: impl FnOnce(&mut Run) -> Result<(), String>) -> Result<(), String> {
    let module = options.value("module").map(|command| Module { command: command.into(), many: options.flag("many") });
    let compared =
        if module.is_some() { "compared, no difference" } else { "judged, nothing compared: no module given" };
    let batch = options.number_or("batch", 50_000)? as usize;
    let save = options.value("save").unwrap_or("differences").into();
    let mut run = Run::new(options.queue()?, module, batch.max(10), save);
    run.program = Program::Replay(options.show()?);
    let start = Instant::now();
    let result = drive(&mut run);
    let seconds = start.elapsed().as_secs_f64();
    print!("{}", run.tally);
    if run.program.shows_causes() {
        print!("{}", run.tally.backs);
    }
    if options.flag("plain") {
        println!("answers of the plain queue {}", run.tally.plain_answers);
    }
    if options.flag("plain") && run.queue == Queue::Unbounded {
        println!("answers no of an empty queue at a block's end {}", run.tally.no_of_empty);
    }
    println!("{:.1} s, {:.0} acts a second", seconds, run.tally.acts as f64 / seconds);
    result
        .map_err(|message| options.value("seed").map_or(message.clone(), |seed| format!("seed {seed}: {message}")))?;
    println!("{compared}");
    Ok(())
}

fn extent(options: &Options) -> Result<Extent, String> {
    if options.flag("compact") {
        return Ok(Extent::Compact);
    }
    Ok(Extent::Depth(options.number_or("depth", 12)? as usize))
}

fn write_list(options: &Options) -> Result<(), String> {
    let queue = options.queue()?;
    let (input, output) = list::list(queue, options.number("seed")?);
    let place = Path::new(options.value("to").unwrap_or("."));
    let write = |end: &str, text: String| {
        let name = format!("{}.{end}", queue.facts().list);
        fs::write(place.join(&name), text).map_err(|error| format!("{name}: {error}"))
    };
    write("in", input)?;
    write("out", output)
}

/// Compares outputs that were recorded elsewhere with the judge's.
fn check_against(options: &Options) -> Result<(), String> {
    let [outputs, inputs] = options.plain.as_slice() else {
        return Err(USAGE.into());
    };
    let queue = options.queue()?;
    let schedules = Schedule::parse_many(queue, &read(inputs)?)?;
    let outputs = split(&read(outputs)?);
    if outputs.len() != schedules.len() {
        return Err(format!("{} outputs for {} schedules", outputs.len(), schedules.len()));
    }
    let show = Show { quiet: false, ..options.show()? };
    let mut tally = Tally::new(queue);
    let mut different = 0;
    for (number, (schedule, output)) in schedules.iter().zip(&outputs).enumerate() {
        if let Some(lines) = first_difference(&run(schedule, show, &mut tally), output) {
            println!("schedule {number}, {lines}");
            different += 1;
        }
    }
    println!("{} schedules, {} acts, {different} different", tally.schedules, tally.acts);
    if different == 0 {
        Ok(())
    } else {
        Err("the outputs differ".into())
    }
}
