//! Manners: arguments, input, output and status. What goes wrong is one line on standard error that begins with the program's name.

use std::ffi::{OsStr, OsString};
use std::fmt::Display;
use std::fs::File;
use std::io::{self, ErrorKind, Read, Write};
use std::os::unix::ffi::OsStrExt;
use std::process::ExitCode;

/// Refused: an answer, and told without the program's name.
pub const REFUSED: u8 = 1;
/// Cannot be read, or not all can be written.
pub const UNREADABLE: u8 = 2;
/// Not complete; not decided.
pub const NOT_COMPLETE: u8 = 3;

/// How a program ends before its time: its status, and the line, which is empty where nothing is to be said.
#[derive(Debug)]
pub struct Told {
    pub status: u8,
    pub line: String,
}

/// Input or arguments that cannot be read.
pub fn told(line: impl Into<String>) -> Told {
    Told { status: UNREADABLE, line: line.into() }
}

/// What is wrong with the arguments.
pub fn misused(what: impl Display) -> Told {
    told(format!("{what} (see --help)"))
}

/// A word as a line may have it: what a terminal would obey, or would end the line, is written as `\\n` or `\\x1b`.
pub fn shown(word: &OsStr) -> String {
    let mut text = String::new();
    for part in word.as_bytes().utf8_chunks() {
        for letter in part.valid().chars() {
            match letter {
                '\n' => text.push_str("\\n"),
                letter if letter.is_control() => text.push_str(&format!("\\x{:02x}", u32::from(letter))),
                letter => text.push(letter),
            }
        }
        for byte in part.invalid() {
            text.push_str(&format!("\\x{byte:02x}"));
        }
    }
    text
}

/// What the system says of an error, without Rust's number.
pub fn said(error: &io::Error) -> String {
    let text = error.to_string();
    match text.find(" (os error ") {
        Some(at) => text[..at].into(),
        None => text,
    }
}

/// Runs a program and ends with its status.
pub fn run(name: &str, program: impl FnOnce(Vec<OsString>) -> Result<u8, Told>) -> ExitCode {
    match program(std::env::args_os().skip(1).collect()) {
        Ok(status) => ExitCode::from(status),
        Err(told) => {
            if !told.line.is_empty() {
                let begin = if told.line.starts_with("refused ") || told.line.starts_with("not complete") {
                    String::new()
                } else {
                    format!("{name}: ")
                };
                // standard error itself may be closed
                let _ = writeln!(io::stderr(), "{begin}{}", told.line);
            }
            ExitCode::from(told.status)
        }
    }
}

/// One argument: an option, whose value may be taken next, or a name.
pub enum Argument {
    Option(String),
    Name(OsString),
}

/// Arguments, taken from the left. A value stands behind its option, or behind a = in the same word; behind a word -- all are names.
pub struct Arguments {
    words: std::vec::IntoIter<OsString>,
    are_names: bool,
    /// The option that was taken last with a = and a value, which nobody has asked for yet.
    behind: Option<(String, OsString)>,
}

impl Arguments {
    pub fn new(words: Vec<OsString>) -> Arguments {
        Arguments { words: words.into_iter(), are_names: false, behind: None }
    }

    pub fn take(&mut self) -> Result<Option<Argument>, Told> {
        if let Some((option, value)) = self.behind.take() {
            return Err(misused(format!("{option} takes no value: {option}={}", shown(&value))));
        }
        let Some(word) = self.words.next() else {
            return Ok(None);
        };
        if self.are_names || !(word.is_empty() || word.as_bytes().starts_with(b"-")) {
            return Ok(Some(Argument::Name(word)));
        }
        if word == "--" {
            self.are_names = true;
            return self.take();
        }
        let bytes = word.as_bytes();
        let Some(at) = bytes.iter().position(|byte| *byte == b'=') else {
            return Ok(Some(Argument::Option(shown(&word))));
        };
        let option = shown(OsStr::from_bytes(&bytes[..at]));
        self.behind = Some((option.clone(), OsStr::from_bytes(&bytes[at + 1..]).to_owned()));
        Ok(Some(Argument::Option(option)))
    }

    /// There is no such option: the whole word is told.
    pub fn unknown(&mut self, option: &str) -> Told {
        match self.behind.take() {
            Some((_, value)) => misused(format!("{option}={} is no option", shown(&value))),
            None if option.is_empty() => misused("an empty word is no option"),
            None => misused(format!("{option} is no option")),
        }
    }

    /// The value of an option, and how it is told that it is another than is wanted.
    pub fn value(&mut self, option: &str, wanted: &str) -> Result<(OsString, Told), Told> {
        let value = self.behind.take().map(|(_, value)| value).or_else(|| self.words.next());
        let value = value.ok_or_else(|| misused(format!("{option} wants {wanted}")))?;
        let told = misused(format!("{option} wants {wanted}, not {}", shown(&value)));
        Ok((value, told))
    }

    /// A number, in decimal digits.
    pub fn number(&mut self, option: &str, wanted: &str, least: u64) -> Result<u64, Told> {
        let (word, told) = self.value(option, wanted)?;
        word.to_str()
            .filter(|text| !text.is_empty() && text.bytes().all(|byte| byte.is_ascii_digit()))
            .and_then(|text| text.parse().ok())
            .filter(|number| *number >= least)
            .ok_or(told)
    }

    /// A second name.
    pub fn too_many(name: &OsStr) -> Told {
        misused(format!("{} is one name too many", shown(name)))
    }
}

/// Whether help or the version was asked for before a word --, and printed.
pub fn is_told(name: &str, help: &str, words: &[OsString]) -> Result<bool, Told> {
    let asked = |option: &str| words.iter().take_while(|word| *word != "--").any(|word| word == option);
    if asked("--help") || asked("-h") {
        output(help)?;
        return Ok(true);
    }
    if asked("--version") {
        output(&format!("{name} {} of Fernmoldew, the port of concurrent-queue 2.5.0\n", env!("CARGO_PKG_VERSION")))?;
        return Ok(true);
    }
    Ok(false)
}

/// What the input is called in a line that tells of it.
pub fn name_of(file: Option<&OsStr>) -> String {
    file.map_or("standard input".into(), shown)
}

/// All of a file, or of standard input. Bytes that are no UTF-8 stay as many as they are, as a letter that no word has.
pub fn input(file: Option<&OsStr>) -> Result<String, Told> {
    let mut bytes = vec![];
    match file {
        Some(file) => File::open(file).and_then(|mut file| file.read_to_end(&mut bytes)),
        None => io::stdin().lock().read_to_end(&mut bytes),
    }
    .map_err(|error| told(format!("{}: {}", name_of(file), said(&error))))?;
    for byte in &mut bytes {
        if !byte.is_ascii() {
            *byte = b'?';
        }
    }
    Ok(String::from_utf8(bytes).expect("all are ASCII"))
}

/// Writes to standard output, all of it. A pipe that nobody reads any more ends the program in silence, with status 2.
pub fn output(text: &str) -> Result<(), Told> {
    let mut out = io::stdout().lock();
    out.write_all(text.as_bytes()).and_then(|()| out.flush()).map_err(|error| match error.kind() {
        ErrorKind::BrokenPipe => told(""),
        _ => told(format!("standard output: {}", said(&error))),
    })
}
