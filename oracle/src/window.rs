//! The window of sixteen-bit words (docs/RULES.md, section 12): whether a run keeps it, written from that section.

use crate::facts::Bits;
use crate::queue::Making;
use crate::state::Kind;

/// The claims made at either end.
#[derive(Clone, Copy, Default)]
struct Claims {
    tail: u64,
    head: u64,
}

pub struct Window {
    /// Fewer claims than so many may be made at either end while a word is held; none where words do not come round.
    length: Option<u64>,
    claims: Claims,
    /// Of each worker that holds a word of an end: the claims when it was given it.
    given: Vec<Option<Claims>>,
    left: bool,
    leaves: bool,
}

impl Window {
    pub fn new(making: Making, workers: usize) -> Window {
        Window { length: length(making), claims: Claims::default(), given: vec![None; workers], left: false, leaves: false }
    }

    /// From now on it is not counted, and so never left.
    pub fn uncounted(&mut self) {
        self.length = None;
    }

    /// The last entry left it.
    pub fn leaves(&self) -> bool {
        self.leaves
    }

    /// An entry has left it.
    pub fn is_left(&self) -> bool {
        self.left
    }

    /// To be called before each entry.
    pub fn next(&mut self) {
        self.leaves = false;
    }

    /// Takes in an act that led its worker from one place to the other, or to an answer.
    pub fn act(&mut self, worker: usize, from: Kind, to: Kind) {
        let Some(length) = self.length else { return };
        match (from, to) {
            (Kind::P3Push | Kind::P3Force, Kind::P4) | (Kind::F7, Kind::F8) => self.claims.tail += 1,
            (Kind::O3, Kind::O4) | (Kind::F6, Kind::F7) => self.claims.head += 1,
            _ => {}
        }
        // the first place of a call holds no word; the second has the one that the act gave, by a load or a lost exchange
        match to {
            Kind::P1Push | Kind::P1Force | Kind::O1 | Kind::Len1 => self.given[worker] = None,
            Kind::P2Push | Kind::P2Force | Kind::O2 | Kind::Len2 | Kind::Empty2 | Kind::Full2 => self.given[worker] = Some(self.claims),
            _ if Kind::ANSWERS.contains(&to) => self.given[worker] = None,
            _ => {}
        }
        let Claims { tail, head } = self.claims;
        let out = self.given.iter().flatten().any(|then| tail - then.tail >= length || head - then.head >= length);
        self.leaves = out && !self.left;
        self.left |= out;
    }
}

/// "a turn less two capacities"; a turn is capacity × (65,536 / lap) claims, and a lap twice the least power of two above the capacity.
fn length(making: Making) -> Option<u64> {
    let Making::Bounded { capacity, bits: Bits::Sixteen, .. } = making else { return None };
    let lap = 2 * (capacity + 1).next_power_of_two();
    Some(capacity * (65_536 / lap) - 2 * capacity)
}
