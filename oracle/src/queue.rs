//! The crate's queues, and what the runs must know of each.

use crate::blocks::{self, Blocks};
use crate::facts::Refusal;
use crate::one_slot::{self, OneSlot};
use crate::random::Random;
use crate::ring::{self, Ring};
use crate::source::Source;
use crate::state::Kind;

pub use crate::facts::{Bits, Facts, Queue};

impl Queue {
    /// The source's ring, without requests 6 and 14.
    pub const RING: Queue = Queue::ring(1, Bits::SixtyFour);
    pub const ALL: [Queue; 6] = [
        Queue::RING,
        Queue::ring(2, Bits::SixtyFour),
        Queue::ring(1, Bits::Sixteen),
        Queue::ring(2, Bits::Sixteen),
        Queue::Single,
        Queue::Unbounded,
    ];

    pub const fn ring(edition: u64, bits: Bits) -> Queue {
        Queue::Bounded { edition, bits, lent: false }
    }

    pub fn named(name: &str) -> Option<Queue> {
        Queue::ALL.into_iter().find(|queue| queue.facts().name == name)
    }

    pub fn facts(self) -> &'static Facts {
        match self {
            Queue::Bounded { .. } => &ring::FACTS,
            Queue::Single => &one_slot::FACTS,
            Queue::Unbounded => &blocks::FACTS,
        }
    }

    /// The options of `replay`, and of the judge, for this queue.
    pub fn options(self) -> String {
        let name = format!("--queue {}", self.facts().name);
        match self {
            Queue::RING => String::new(),
            Queue::Bounded { edition, bits, lent } => {
                let bits = if bits == Bits::Sixteen { " --bits 16" } else { "" };
                let lent = if lent { " --lent" } else { "" };
                format!("{name} --edition {edition}{bits}{lent}")
            }
            _ => name,
        }
    }

    /// A making of this queue; the capacity is a ring's.
    pub fn making(self, capacity: u64) -> Making {
        match self {
            Queue::Bounded { edition, bits, lent } => Making::Bounded { capacity, edition, bits, lent },
            Queue::Single => Making::Single,
            Queue::Unbounded => Making::Unbounded,
        }
    }

    pub fn workers_most(self) -> u64 {
        match self {
            Queue::Bounded { lent: true, .. } => 64,
            _ => 16,
        }
    }

    /// How many workers there are in a random run: with records that are lent, more than a machine holds.
    pub fn workers(self, random: &mut Random) -> u64 {
        match self {
            Queue::Bounded { lent: true, .. } => 17 + random.below(48) as u64,
            _ => 1 + random.below(16) as u64,
        }
    }

    pub fn places(self) -> impl Iterator<Item = Kind> {
        self.facts().places.iter().copied().flatten().copied()
    }
}

/// What a machine is made of, beside its workers.
#[derive(Clone, Copy, Debug, PartialEq, Eq)]
pub enum Making {
    Bounded { capacity: u64, edition: u64, bits: Bits, lent: bool },
    Single,
    Unbounded,
}

const SLOTS_MOST: u64 = 1024;

pub const CAPACITIES: [u64; 13] = [1, 2, 3, 4, 5, 7, 8, 255, 256, 257, 512, 1023, 1024];

impl Making {
    pub fn queue(self) -> Queue {
        match self {
            Making::Bounded { edition, bits, lent, .. } => Queue::Bounded { edition, bits, lent },
            Making::Single => Queue::Single,
            Making::Unbounded => Queue::Unbounded,
        }
    }

    /// The source's queue, or refusal 1, 2 or 18, in this order; the number of workers is the machine's.
    pub fn source(self, workers: u64) -> Result<Box<dyn Source>, Refusal> {
        if matches!(self, Making::Bounded { capacity, .. } if !(1..=SLOTS_MOST).contains(&capacity)) {
            return Err(1);
        }
        if !(1..=self.queue().workers_most()).contains(&workers) {
            return Err(2);
        }
        match self {
            Making::Bounded { capacity, edition, bits, .. } => {
                Ok(Box::new(Ring::new(capacity as usize, edition, bits).ok_or(18_u64)?))
            }
            Making::Single => Ok(Box::new(OneSlot::new())),
            Making::Unbounded => Ok(Box::new(Blocks::new())),
        }
    }

    /// A making that is not refused.
    pub fn random(queue: Queue, random: &mut Random) -> Making {
        Making::among(queue, random, &CAPACITIES)
    }

    /// One that a few calls fill.
    pub fn small(queue: Queue, random: &mut Random) -> Making {
        Making::among(queue, random, &CAPACITIES[..4])
    }

    /// A ring has one of these capacities.
    pub fn among(queue: Queue, random: &mut Random, capacities: &[u64]) -> Making {
        match queue {
            Queue::Bounded { .. } => queue.making(random.pick(capacities)),
            Queue::Single | Queue::Unbounded => queue.making(0),
        }
    }

    /// How many items it takes to fill the queue; two blocks of the unbounded one.
    pub fn room(self) -> usize {
        match self {
            Making::Bounded { capacity, .. } => capacity as usize,
            Making::Single => 1,
            Making::Unbounded => 62,
        }
    }
}
