//! words STEPS SEED: random steps and runs on the face that a host links and on the plain machine, every word compared after each call; between them words that are broken or malformed,
//! for which every call must be refusal 6 and change no word. Ends with status 1 at the first difference.

use fernmoldew::{Edition, Refusal, Ring, Stopped, Workers};
use host::{number, words_of};
use plain::{Machine, Queue};
use std::process::exit;

struct Random(u64);

impl Random {
    fn below(&mut self, n: u64) -> u64 {
        self.0 = self.0.wrapping_mul(6364136223846793005).wrapping_add(1442695040888963407);
        (self.0 >> 33) % n
    }

    fn pick(&mut self, list: &[u64]) -> u64 {
        list[self.below(list.len() as u64) as usize]
    }
}

fn differ(what: &str) -> ! {
    eprintln!("words: {what}");
    exit(1)
}

/// An entry that is mostly accepted.
fn entry(random: &mut Random, m: &Machine) -> [u64; 2] {
    let count = m.workers.len() as u64;
    match random.below(40) {
        0 => [16 * (count + random.below(3)) + random.below(10), 0],
        1 => [16 * random.below(count) + 10 + random.below(6), 0],
        2 => [16 * random.below(count) + 2 + random.below(8), 1 + random.below(9)],
        3 => [16 * random.below(count) + random.below(10), 0],
        4 => [random.below(u64::MAX >> 31) << 31, 0],
        _ => {
            let w = random.below(count);
            if matches!(m.workers[w as usize].place, plain::Place::Idle(_)) {
                let code = random.pick(&[0, 0, 0, 1, 2, 2, 2, 3, 4, 5, 6, 7]);
                [16 * w + code, if code < 2 { random.below(1 << 31) } else { 0 }]
            } else {
                [16 * w + if random.below(8) == 0 { 9 } else { 8 }, 0]
            }
        }
    }
}

fn step(m: &mut Machine, [first, second]: [u64; 2]) -> u64 {
    if Machine::unreadable(first, second) { 9 } else { m.step(first, second) }
}

/// The words of both, compared.
fn compare(ring: &Ring, workers: &Workers, m: &Machine, edition: u64, what: &str) {
    let (head, slots, records) = words_of(m, edition);
    if ring.head_words()[..] != head || ring.slot_words()[..] != slots || workers.words() != records {
        differ(&format!("{what}: other words\n{:?}\n{head:?}\n{:?}\n{records:?}", ring.head_words(), workers.words()));
    }
}

/// Ring and workers with words that are not to be taken: everything is refusal 6, and nothing changes.
fn spoiled(random: &mut Random, ring: &Ring, workers: &Workers, m: &Machine) {
    let mut head = *ring.head_words();
    let slots = Box::new(*ring.slot_words());
    let mut records = workers.words().to_vec();
    let at = 5 * random.below(m.workers.len() as u64) as usize;
    let how = random.below(10);
    match how {
        0 => head[7] = random.pick(&[0, 2, u64::MAX]),
        1 => head[0] ^= 1 << random.below(64),
        2 => head[1] ^= 1 << random.below(64),
        3 => head[2] = random.pick(&[0, 1025, u64::MAX]),
        4 => head[3] = random.pick(&[0, 3, u64::MAX]),
        5 => records[at] = random.pick(&[39, 40, 99, 1 << 32, u64::MAX]),
        // a word that is not held
        6 if records[at] < 6 || records[at] > 32 => records[at + 1] = 1 + random.below(1 << 31),
        6 | 7 if records[at] < 21 || records[at] > 32 => records[at + 2] = 1 + random.below(1 << 31),
        8 => records[at + 3] = head[6] + 1 + random.below(5),
        9 => records[at + 4] = u64::MAX,
        // one word too few or too many
        _ => {
            if random.below(2) == 0 {
                records.pop();
            } else {
                records.extend([0; 4]);
            }
        }
    }
    let (mut ring, mut workers) = (Ring::from_words(head, slots), Workers::from_words(records));
    let (ring_was, workers_were) = (ring.clone(), workers.clone());
    let [first, second] = entry(random, m);
    let mut buffer = vec![random.below(9); 1024];
    let buffer_was = buffer.clone();
    let told = [
        number(&ring.step(&mut workers, first, second)),
        ring.run(&mut workers, &[first, second]).map_or_else(|Stopped { refusal, place }| refusal.number() + 100 * place, |_| 0),
        number(&ring.capacity(&workers)),
        number(&ring.contents_into(&workers, &mut buffer)),
        6 * u64::from(ring.broken(&workers)),
    ];
    if told != [6; 5] || ring != ring_was || workers != workers_were || buffer != buffer_was {
        differ(&format!("spoiled by way {how}: {told:?}, {:?} {:?}", ring.head_words(), workers.words()));
    }
}

fn main() {
    let mut args = std::env::args().skip(1).map(|n| n.parse::<u64>().expect("usage: words STEPS SEED"));
    let (Some(steps), Some(seed)) = (args.next(), args.next()) else {
        eprintln!("usage: words STEPS SEED");
        exit(2)
    };
    let mut random = Random(seed);
    let (mut done, mut calls, mut spoils) = (0, 0, 0);
    while done < steps {
        let capacity = random.pick(&[1, 1, 2, 3, 4, 7, 64, 256, 1023, 1024]);
        let count = random.pick(&[1, 2, 2, 3, 5, 16, 17, 64]);
        let edition = 1 + random.below(2);
        let mut workers = Workers::new(count as usize);
        let kind = if edition == 1 { Edition::Source } else { Edition::CloseHolds };
        let mut ring = Ring::new(capacity, kind, &mut workers).unwrap_or_else(|refusal| differ(&refusal.to_string()));
        let mut m = Machine::of_at_most(64, capacity, count, edition).unwrap_or_else(|refusal| differ(&format!("plain {refusal}")));
        compare(&ring, &workers, &m, edition, "made");
        // refused makings change no word
        for (capacity, edition) in [(0, 1), (1025, 2), (u64::MAX, 1), (1, 0), (1, 3), (1, u64::MAX)] {
            let refusal = number(&ring.make(&mut workers, capacity, edition));
            if refusal != if (1..=1024).contains(&capacity) { 18 } else { 1 } {
                differ(&format!("making {capacity} {edition}: {refusal}"));
            }
        }
        compare(&ring, &workers, &m, edition, "refused makings");
        let until = done + 2000 + random.below(4000);
        while done < until {
            if random.below(4) == 0 {
                // a schedule, made for the machine as it will then be
                let mut schedule = Vec::new();
                let mut ahead = Machine::of_at_most(64, capacity, count, edition).unwrap_or_else(|_| differ("plain"));
                (ahead.head, ahead.tail, ahead.meter) = (m.head, m.tail, m.meter);
                ahead.slots.clone_from(&m.slots);
                ahead.workers.clone_from(&m.workers);
                for _ in 0..random.below(40) {
                    let e = entry(&mut random, &ahead);
                    step(&mut ahead, e);
                    schedule.extend(e);
                }
                if random.below(30) == 0 {
                    schedule.push(random.below(9));
                }
                let ours = ring.run(&mut workers, &schedule).map_or_else(|Stopped { refusal, place }| (refusal.number(), place), |n| (0, n));
                let theirs = m.run(&schedule);
                if ours != theirs {
                    differ(&format!("run {schedule:?}: {ours:?} {theirs:?}"));
                }
                done += schedule.len() as u64 / 2;
            } else {
                let e = entry(&mut random, &m);
                let (ours, theirs) = (number(&ring.step(&mut workers, e[0], e[1])), step(&mut m, e));
                if ours != theirs {
                    differ(&format!("step {e:?}: {ours} {theirs}"));
                }
                done += 1;
            }
            calls += 1;
            compare(&ring, &workers, &m, edition, "after a call");
            if random.below(16) == 0 {
                if ring.contents(&workers).map_err(Refusal::number) != m.contents() || ring.capacity(&workers) != Ok(capacity) || ring.broken(&workers) {
                    differ("contents, capacity or broken");
                }
                spoiled(&mut random, &ring, &workers, &m);
                spoils += 1;
            }
        }
    }
    println!("words: {done} entries in {calls} calls, every word alike; {spoils} times spoiled words, each refused 6 and unchanged");
}
