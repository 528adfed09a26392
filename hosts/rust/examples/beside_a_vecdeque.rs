//! A host that has a queue of its own, here a plain `VecDeque`, records what that does, steps the proved one beside it and compares every answer and what waits.

use fernmoldew::{Answer, Call, Edition, Ring, Workers};
use std::collections::VecDeque;
use std::error::Error;

/// What the bench's own queue does.
struct Bench {
    waiting: VecDeque<u64>,
    capacity: usize,
    closed: bool,
}

impl Bench {
    fn call(&mut self, call: Call) -> Answer {
        let yes = |b| if b { Answer::Yes } else { Answer::No };
        match call {
            Call::Push(item) if self.closed => Answer::Closed(item),
            Call::ForcePush(item) if self.closed => Answer::Closed(item),
            Call::Push(item) if self.waiting.len() == self.capacity => Answer::Full(item),
            Call::Push(item) => {
                self.waiting.push_back(item);
                Answer::Pushed
            }
            Call::ForcePush(item) => {
                let old = if self.waiting.len() == self.capacity { self.waiting.pop_front() } else { None };
                self.waiting.push_back(item);
                old.map_or(Answer::Pushed, Answer::Displaced)
            }
            Call::Pop => match self.waiting.pop_front() {
                Some(item) => Answer::Popped(item),
                None if self.closed => Answer::PopClosed,
                None => Answer::Empty,
            },
            Call::Len => Answer::Len(self.waiting.len() as u64),
            Call::IsEmpty => yes(self.waiting.is_empty()),
            Call::IsFull => yes(self.waiting.len() == self.capacity),
            Call::Close => yes(!std::mem::replace(&mut self.closed, true)),
            Call::IsClosed => yes(self.closed),
        }
    }
}

fn main() -> Result<(), Box<dyn Error>> {
    let mut state: u64 = 34;
    let mut random = |below: u64| {
        state = state.wrapping_mul(6364136223846793005).wrapping_add(1442695040888963407);
        (state >> 33) % below
    };
    let mut calls = 0;
    for capacity in [1, 2, 3, 64, 1024] {
        let mut workers = Workers::new(4);
        let mut ring = Ring::new(capacity, Edition::Source, &mut workers)?;
        let mut bench = Bench { waiting: VecDeque::new(), capacity: capacity as usize, closed: false };
        for turn in 0..20_000 {
            let call = match random(16) {
                0..=5 => Call::Push(turn),
                6 => Call::ForcePush(turn),
                7..=11 => Call::Pop,
                12 => Call::Len,
                13 => Call::IsEmpty,
                14 => Call::IsFull,
                _ if turn > 19_000 => Call::Close,
                _ => Call::IsClosed,
            };
            let worker = random(4) as usize;
            let (ours, theirs) = (ring.call(&mut workers, worker, call)?, bench.call(call));
            if ours != Some(theirs) {
                return Err(format!("capacity {capacity}, call {turn}, {call:?}: the proved queue answers {ours:?}, the bench's {theirs:?}").into());
            }
            calls += 1;
        }
        if bench.waiting != ring.contents(&workers)? {
            return Err(format!("capacity {capacity}: other items wait").into());
        }
    }
    println!("{calls} calls on both: every answer alike, and what waits");
    Ok(())
}
