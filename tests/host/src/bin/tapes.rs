//! tapes: the cases of crates/tapes_shows_cases/src/main.rt on standard input, each a line, answered in its words by the functions for tapes that a host links; for tests/tapes to compare. Around each case
//! that the Rust crate can put, those it cannot: a variant that there is none of, and other than three words about a tape. They must be refused and write nothing.
//! tapes FILE.txt FILE.tape ..: each tape has its text's numbers, and these are written as that very file.
//! Ends with status 1 at the first difference.

use fernmoldew::{About, Spoiled, Tape, Variant};
use std::fmt::Display;
use std::io::{self, BufWriter, Write};
use std::{env, fs, process};

#[repr(C)]
#[derive(Debug, PartialEq)]
struct Reply {
    refusal: u64,
    number: u64,
}

extern "C" {
    fn fern_tape_write(variant: u64, capacity: u64, workers: u64, schedule: *const u64, length: usize, tape: *mut u8, room: usize) -> Reply;
    fn fern_tape_read(tape: *const u8, length: usize, about: *mut u64, n: usize, schedule: *mut u64, room: usize) -> Reply;
}

fn differ(what: &str) -> ! {
    eprintln!("tapes: {what}");
    process::exit(1)
}

fn refused_write(variant: u64, about: About, words: &[u64], room: usize) {
    let mut buffer = vec![238; room];
    // SAFETY: as the crate's own call; any variant is allowed.
    let reply = unsafe { fern_tape_write(variant, about.capacity, about.workers, words.as_ptr(), words.len(), buffer.as_mut_ptr(), room) };
    if reply != (Reply { refusal: 13, number: 0 }) || buffer.iter().any(|&b| b != 238) {
        differ(&format!("variant {variant}: {reply:?} {buffer:?}"));
    }
}

fn refused_read(tape: &[u8], count: usize, room: usize) {
    let (mut about, mut buffer) = (vec![9; count], vec![7; room]);
    // SAFETY: as the crate's own call; any count of words about it is allowed.
    let reply = unsafe { fern_tape_read(tape.as_ptr(), tape.len(), about.as_mut_ptr(), count, buffer.as_mut_ptr(), room) };
    if reply != (Reply { refusal: 6, number: 0 }) || about.iter().any(|&w| w != 9) || buffer.iter().any(|&w| w != 7) {
        differ(&format!("{count} words about a tape: {reply:?} {about:?} {buffer:?}"));
    }
}

/// A refused read leaves the three words about the tape, too.
fn about_kept(tape: &[u8], room: usize) {
    let (mut about, mut buffer) = ([9; 3], vec![7; room]);
    // SAFETY: as the crate's own call.
    let reply = unsafe { fern_tape_read(tape.as_ptr(), tape.len(), about.as_mut_ptr(), 3, buffer.as_mut_ptr(), room) };
    if reply.refusal == 0 || about != [9; 3] {
        differ(&format!("a refused tape: {reply:?} {about:?}"));
    }
}

fn line(answer: String, buffer: &[impl Display]) -> String {
    buffer.iter().fold(answer + ":", |line, n| format!("{line} {n}"))
}

fn refused(Spoiled { refusal, number }: Spoiled) -> String {
    format!("refused {} at {number}", refusal.number())
}

fn answer(case: &[u64]) -> String {
    let (kind, room, count) = (case[0], case[1] as usize, case[2] as usize);
    if kind == 0 {
        let tape: Vec<u8> = case[3..3 + count].iter().map(|&b| b as u8).collect();
        for words in [0, 1, 2, 4] {
            refused_read(&tape, words, room);
        }
        let mut buffer = vec![7; room];
        let read = Tape::read_into(&tape, &mut buffer).map(|(About { variant, capacity, workers }, words)| {
            format!("read variant {} capacity {capacity} workers {workers} words {words}", 1 + (variant == Variant::LittleEndian) as u8)
        });
        if read.is_err() {
            about_kept(&tape, room);
        }
        return line(read.unwrap_or_else(refused), &buffer);
    }
    let about = About { variant: if kind == 1 { Variant::BigEndian } else { Variant::LittleEndian }, capacity: case[3], workers: case[4] };
    let words = &case[5..5 + count];
    for variant in [0, 2, 128, 130, 257, 385, u64::MAX] {
        refused_write(variant, about, words, room);
    }
    let mut buffer = vec![238; room];
    let written = Tape::write_into(about, words, &mut buffer).map(|bytes| format!("wrote {bytes}"));
    line(written.unwrap_or_else(refused), &buffer)
}

fn compare(text: &str, tape: &str) -> io::Result<()> {
    let numbers = plain::numbers(&fs::read(text)?).unwrap_or_else(|| differ(text));
    let bytes = fs::read(tape)?;
    let heard = Tape::from_bytes(&bytes).unwrap_or_else(|spoiled| differ(&format!("{tape}: {spoiled}")));
    if [&[heard.about.capacity, heard.about.workers], &heard.schedule[..]].concat() != numbers || heard.to_bytes().as_deref() != Ok(&bytes) {
        differ(&format!("{tape} is not {text}"));
    }
    Ok(())
}

fn main() -> io::Result<()> {
    let files: Vec<String> = env::args().skip(1).collect();
    if !files.is_empty() {
        for pair in files.chunks_exact(2) {
            compare(&pair[0], &pair[1])?;
        }
        println!("tapes: {} files read and written alike", files.len() / 2);
        return Ok(());
    }
    let mut out = BufWriter::new(io::stdout().lock());
    for case in io::stdin().lines() {
        let case = plain::numbers(case?.as_bytes()).unwrap_or_else(|| differ("a case that is no numbers"));
        writeln!(out, "{}", answer(&case))?;
    }
    out.flush()
}
