//! schedule [--tape] MODE CAPACITY WORKERS ACTS [WAITING]: a schedule with so many act entries, on standard output, as text or as a tape of the first variant.
//! single or unbounded in place of CAPACITY: a schedule of that queue, as text.
//! WAITING: worker 0 pushes so many items first (its acts are not counted), and where a push or a pop is drawn it is the one that keeps so many waiting.
//! MODE calls: one call after another, each to its end. MODE mixed: workers act in random turns, and one weak exchange in eight fails.

use plain::{single, unbounded, Machine, Queue};
use std::io::{self, BufWriter, Write};
use std::process::exit;

/// xorshift64*: the same schedule wherever it is made
struct Random(u64);

impl Random {
    fn below(&mut self, n: u64) -> u64 {
        self.0 ^= self.0 >> 12;
        self.0 ^= self.0 << 25;
        self.0 ^= self.0 >> 27;
        (self.0.wrapping_mul(0x2545_F491_4F6C_DD1D) >> 33) % n
    }
}

/// mostly pushes and pops, now and then a force_push or a look
fn call(random: &mut Random) -> u64 {
    match random.below(32) {
        0..=13 => 0,
        14..=27 => 2,
        28 | 29 => 1,
        30 => 3,
        _ => 4 + random.below(2),
    }
}

struct Writing<W: Write> {
    out: W,
    tape: bool,
}

impl<W: Write> Writing<W> {
    fn made(&mut self, capacity: Option<u64>, workers: u64) -> io::Result<()> {
        let Some(capacity) = capacity else { return writeln!(self.out, "{workers}") };
        if self.tape {
            self.out.write_all(&[1, 0, 4, (capacity >> 8) as u8, capacity as u8, 0, workers as u8])
        } else {
            writeln!(self.out, "{capacity} {workers}")
        }
    }

    fn entry(&mut self, w: u64, code: u64, item: u64) -> io::Result<()> {
        let both = (16 * code + w) as u8;
        match (self.tape, code) {
            (false, _) => writeln!(self.out, "{} {item}", 16 * w + code),
            (true, 0 | 1) => {
                self.out.write_all(&[2, 0, 9, both])?;
                self.out.write_all(&item.to_be_bytes())
            }
            (true, _) => self.out.write_all(&[3, 0, 1, both]),
        }
    }

    fn end(&mut self) -> io::Result<()> {
        if self.tape { self.out.write_all(&[4, 0, 0])? }
        self.out.flush()
    }
}

fn write<Q: Queue>(mixed: bool, made: Result<Q, u64>, capacity: Option<u64>, workers: u64, acts: u64, waiting: Option<u64>, to: &mut Writing<impl Write>) -> io::Result<()> {
    let mut m = made.unwrap_or_else(|refusal| {
        eprintln!("schedule: no such machine: refusal {refusal}");
        exit(1)
    });
    to.made(capacity, workers)?;
    let mut random = Random(0x9E37_79B9_7F4A_7C15 ^ capacity.unwrap_or(0) ^ workers << 32);
    let (mut w, mut done, mut stock) = (0, 0, 0);
    while stock < waiting.unwrap_or(0) {
        let (code, item) = if m.idle(0) { (0, 1 + stock) } else { (8, 0) };
        to.entry(0, code, item)?;
        m.step(code, item);
        if m.idle(0) {
            stock += 1;
        }
    }
    while done < acts {
        let (code, item) = if m.idle(w) {
            let code = call(&mut random);
            // of the unbounded queue, which has no force_push, a pop, so that it does not grow
            let code = if Q::unreadable(code, 0) { 2 } else { code };
            let code = match waiting {
                Some(least) if code < 3 => if stock <= least { stock += 1; 0 } else { stock -= 1; 2 },
                _ => code,
            };
            (code, if code < 2 { 1 + random.below(9_999) } else { 0 })
        } else {
            done += 1;
            (if mixed && m.weak(w) && random.below(8) == 0 { 9 } else { 8 }, 0)
        };
        to.entry(w, code, item)?;
        m.step(16 * w + code, item);
        if mixed || m.idle(w) {
            w = random.below(workers);
        }
    }
    to.end()
}

fn main() {
    let mut args: Vec<String> = std::env::args().skip(1).collect();
    let tape = args.first().is_some_and(|a| a == "--tape");
    if tape {
        args.remove(0);
    }
    let words: Vec<&str> = args.iter().map(String::as_str).collect();
    let (mode, queue, workers, acts, waiting) = match words[..] {
        [mode @ ("calls" | "mixed"), queue, workers, acts] => (mode, queue, workers.parse(), acts.parse(), Ok(None)),
        [mode @ ("calls" | "mixed"), queue, workers, acts, waiting] => (mode, queue, workers.parse(), acts.parse(), waiting.parse().map(Some)),
        _ => usage(),
    };
    let (Ok(workers), Ok(acts), Ok(waiting)) = (workers, acts, waiting) else { usage() };
    let mut to = Writing { out: BufWriter::with_capacity(1 << 16, io::stdout().lock()), tape };
    let mixed = mode == "mixed";
    let written = match (queue, queue.parse()) {
        ("single", _) if !tape => write(mixed, single::Machine::new(workers), None, workers, acts, waiting, &mut to),
        ("unbounded", _) if !tape => write(mixed, unbounded::Machine::new(workers), None, workers, acts, waiting, &mut to),
        (_, Ok(capacity)) => write(mixed, Machine::of_at_most(64, capacity, workers, 1), Some(capacity), workers, acts, waiting, &mut to),
        _ => usage(),
    };
    if written.is_err() {
        exit(1)
    }
}

fn usage() -> ! {
    eprintln!("usage: schedule [--tape] calls|mixed CAPACITY|single|unbounded WORKERS ACTS [WAITING]");
    exit(2)
}
