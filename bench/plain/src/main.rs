//! plain [--quiet] [--tape] [--edition N] [--queue single|unbounded] FILE: what `replay` prints of a schedule, by the plain machines. A tape is of the ring.

use plain::{numbers, single, unbounded, Machine, Queue};
use std::io::{self, BufWriter, Write};
use std::process::exit;

struct Asked {
    quiet: bool,
    tape: bool,
    edition: u64,
    queue: String,
    file: String,
}

fn asked() -> Option<Asked> {
    let mut asked = Asked { quiet: false, tape: false, edition: 1, queue: String::from("ring"), file: String::new() };
    let mut args = std::env::args().skip(1);
    while let Some(arg) = args.next() {
        match arg.as_str() {
            "--quiet" => asked.quiet = true,
            "--tape" => asked.tape = true,
            "--edition" => asked.edition = args.next()?.parse().ok()?,
            "--queue" => asked.queue = args.next()?,
            _ => asked.file = arg,
        }
    }
    (!asked.file.is_empty()).then_some(asked)
}

/// The numbers of a tape of either variant.
fn tape(bytes: &[u8]) -> Option<Vec<u64>> {
    let little = bytes.first()? & 128 != 0;
    let number = |field: &[u8]| {
        let add = |n: u64, b: &u8| n << 8 | *b as u64;
        if little { field.iter().rev().fold(0, add) } else { field.iter().fold(0, add) }
    };
    let mut list = Vec::with_capacity(bytes.len() / 2);
    let mut at = 0;
    loop {
        let tag = *bytes.get(at)?;
        let length = number(bytes.get(at + 1..at + 3)?) as usize;
        let field = bytes.get(at + 3..at + 3 + length)?;
        at += 3 + length;
        match (if little { tag.checked_sub(128)? } else { tag }, length) {
            (1, 4) => list.extend([number(&field[..2]), number(&field[2..])]),
            (2, 9) => list.extend([16 * (field[0] % 16) as u64 + (field[0] / 16) as u64, number(&field[1..])]),
            (3, 1) => list.extend([16 * (field[0] % 16) as u64 + (field[0] / 16) as u64, 0]),
            (4, 0) => return (at == bytes.len()).then_some(list),
            _ => return None,
        }
    }
}

fn replay<Q: Queue>(asked: &Asked, made: Result<Q, u64>, entries: &[u64], out: &mut impl Write) -> io::Result<u64> {
    let made_refusal = made.as_ref().err().copied().unwrap_or(0);
    writeln!(out, "made {made_refusal}")?;
    let mut m = made.unwrap_or_default();
    let whole = if made_refusal != 0 {
        // the machine is blank, and that is broken
        Some((6, 0))
    } else {
        Q::refused_whole(entries)
    };
    let mut refusal = 0;
    if asked.quiet || whole.is_some() {
        let (r, place) = whole.unwrap_or_else(|| m.run(entries));
        refusal = r;
        m.report(place, refusal, out)?;
        out.write_all(b"\n")?;
    } else {
        for (place, entry) in entries.chunks_exact(2).enumerate() {
            refusal = m.step(entry[0], entry[1]);
            m.line(place as u64, refusal, entry[0] / 16, out)?;
            if refusal != 0 {
                break;
            }
        }
    }
    m.tell(out)?;
    Ok(refusal)
}

fn replay_any(asked: &Asked, list: &[u64], out: &mut impl Write) -> io::Result<u64> {
    match asked.queue.as_str() {
        "single" => replay(asked, single::Machine::new(list[0]), &list[1..], out),
        "unbounded" => replay(asked, unbounded::Machine::new(list[0]), &list[1..], out),
        _ => replay(asked, Machine::new(list[0], list[1], asked.edition), &list[2..], out),
    }
}

fn main() {
    let Some(asked) = asked() else {
        eprintln!("usage: plain [--quiet] [--tape] [--edition N] [--queue single|unbounded] FILE");
        exit(2)
    };
    let bytes = match std::fs::read(&asked.file) {
        Ok(bytes) => bytes,
        Err(e) => {
            eprintln!("plain: {}: {e}", asked.file);
            exit(2)
        }
    };
    let list = if asked.tape { tape(&bytes) } else { numbers(&bytes) };
    let least = if asked.queue == "ring" { 2 } else { 1 };
    let Some(list) = list.filter(|l| l.len() >= least) else {
        eprintln!("plain: {}: not a schedule", asked.file);
        exit(2)
    };
    let mut out = BufWriter::with_capacity(1 << 16, io::stdout().lock());
    match replay_any(&asked, &list, &mut out).and_then(|r| out.flush().map(|()| r)) {
        Ok(0) => {}
        Ok(_) => exit(1),
        Err(_) => exit(2),
    }
}
