//! plain_walk [--list] [--depth D] FILE: every sequence of acts from where a schedule ends, as `walk` lists or counts them. Without --list it says how many
//! there are, or refuses a list that is longer than the buffer of `walk`; in which ways they end it does not say.

use plain::{numbers, Machine, Queue};
use std::io::{self, BufWriter, Write};
use std::process::exit;

const BUFFER: usize = 4_194_304;

fn fail(what: &str) -> ! {
    eprintln!("plain_walk: {what}");
    exit(2)
}

/// A line a sequence, as entries.
fn lines(list: &[u8], out: &mut impl Write) -> io::Result<()> {
    let mut rest = list;
    while let Some((&n, more)) = rest.split_first() {
        let (acts, after) = more.split_at(n as usize);
        for (i, act) in acts.iter().enumerate() {
            let space = if i == 0 { "" } else { " " };
            write!(out, "{space}{} 0", 16 * (act % 16) as u64 + (act / 16) as u64)?;
        }
        out.write_all(b"\n")?;
        rest = after;
    }
    out.flush()
}

fn main() {
    let (mut list, mut depth, mut file) = (false, 12, String::new());
    let mut args = std::env::args().skip(1);
    while let Some(arg) = args.next() {
        match arg.as_str() {
            "--list" => list = true,
            "--depth" => depth = args.next().and_then(|d| d.parse().ok()).unwrap_or_else(|| fail("a depth is wanted")),
            _ => file = arg,
        }
    }
    let text = std::fs::read(&file).unwrap_or_else(|e| fail(&format!("{file}: {e}")));
    let Some(words) = numbers(&text).filter(|l| l.len() >= 2) else { fail("not a schedule") };
    let Ok(mut m) = Machine::new(words[0], words[1], 1) else { fail("no machine") };
    if m.run(&words[2..]).0 != 0 {
        fail("refused")
    }
    if let Some(refusal) = m.walk_refusal(depth) {
        eprintln!("refused {refusal}");
        exit(1)
    }
    let (mut sequences, mut bytes) = (0u64, 0);
    m.walk(depth, &mut |acts| {
        sequences += 1;
        bytes += 1 + acts.len();
    });
    if bytes > BUFFER {
        eprintln!("refused 22: the list has {sequences} sequences in {bytes} bytes, and the buffer {BUFFER}");
        exit(1)
    }
    if !list {
        return println!("walked depth={depth} sequences={sequences} bytes={bytes}");
    }
    let mut listed = Vec::with_capacity(bytes);
    m.walk(depth, &mut |acts| {
        listed.push(acts.len() as u8);
        listed.extend_from_slice(acts);
    });
    if lines(&listed, &mut BufWriter::with_capacity(1 << 16, io::stdout().lock())).is_err() {
        exit(2)
    }
}
