//! The one-slot queue: src/single.rs one action at a time, written for speed and nothing else.

use crate::Answer::{self, *};
use crate::{Queue, Record};
use std::fmt::{self, Display, Formatter};
use std::io::{self, Write};

const LOCKED: u64 = 1;
const PUSHED: u64 = 2;
const CLOSED: u64 = 4;

#[derive(Clone, Copy)]
pub enum Place {
    Idle(Answer),
    A1 { item: u64 },
    A2 { item: u64 },
    A3,
    B1 { expected: u64, item: u64 },
    B2 { item: u64 },
    B3,
    B4 { item: u64 },
    B5 { old: u64 },
    C1 { expected: u64 },
    C2,
    C3 { value: u64 },
    Len1,
    Empty1,
    Full1,
    Close1,
    IsClosed1,
}

use Place::*;

#[derive(Default)]
pub struct Machine {
    pub state: u64,
    pub value: u64,
    workers: Vec<Place>,
    pub meter: u64,
}

impl Machine {
    /// A fresh machine, or refusal 2.
    pub fn new(workers: u64) -> Result<Machine, u64> {
        if !(1..=16).contains(&workers) {
            return Err(2);
        }
        Ok(Machine { workers: vec![Idle(Nothing); workers as usize], ..Machine::default() })
    }

    #[inline(always)]
    fn act(&mut self, place: Place) -> Place {
        let found = self.state;
        match place {
            Idle(a) => Idle(a),
            A1 { item } => {
                if found == 0 {
                    self.state = LOCKED | PUSHED;
                    A2 { item }
                } else {
                    Idle(if found & CLOSED != 0 { Closed(item) } else { Full(item) })
                }
            }
            A2 { item } => {
                self.value = item;
                A3
            }
            A3 | B3 => {
                self.state &= !LOCKED;
                Idle(Pushed)
            }
            B1 { expected, item } => {
                let same = found == expected;
                if same {
                    self.state = LOCKED | PUSHED;
                }
                if found & CLOSED != 0 {
                    Idle(Closed(item))
                } else if !same {
                    B1 { expected: found & !LOCKED, item }
                } else if found & PUSHED != 0 {
                    B4 { item }
                } else {
                    B2 { item }
                }
            }
            B2 { item } => {
                self.value = item;
                B3
            }
            B4 { item } => B5 { old: std::mem::replace(&mut self.value, item) },
            B5 { old } => {
                self.state &= !LOCKED;
                Idle(Displaced(old))
            }
            C1 { expected } => {
                if found == expected {
                    self.state = (found | LOCKED) & !PUSHED;
                    C2
                } else if found & PUSHED != 0 {
                    C1 { expected: found & !LOCKED }
                } else {
                    Idle(if found & CLOSED != 0 { PopClosed } else { Empty })
                }
            }
            C2 => C3 { value: self.value },
            C3 { value } => {
                self.state &= !LOCKED;
                Idle(Popped(value))
            }
            Len1 => Idle(Len((found & PUSHED) / PUSHED)),
            Empty1 => Idle(crate::yes_no(found & PUSHED == 0)),
            Full1 => Idle(crate::yes_no(found & PUSHED != 0)),
            Close1 => {
                self.state |= CLOSED;
                Idle(crate::yes_no(found & CLOSED == 0))
            }
            IsClosed1 => Idle(crate::yes_no(found & CLOSED != 0)),
        }
    }
}

impl Record for Place {
    fn idle(&self) -> bool {
        matches!(self, Idle(_))
    }

    /// No exchange of this queue is weak.
    fn weak(&self) -> bool {
        false
    }

    fn begun(code: u64, item: u64) -> Place {
        match code {
            0 => A1 { item },
            1 => B1 { expected: 0, item },
            2 => C1 { expected: PUSHED },
            3 => Len1,
            4 => Empty1,
            5 => Full1,
            6 => Close1,
            _ => IsClosed1,
        }
    }
}

impl Queue for Machine {
    type Worker = Place;

    fn workers(&self) -> &[Place] {
        &self.workers
    }

    fn workers_mut(&mut self) -> &mut [Place] {
        &mut self.workers
    }

    fn meter(&mut self) -> &mut u64 {
        &mut self.meter
    }

    #[inline(always)]
    fn acted(&mut self, place: &mut Place, _: bool) -> bool {
        *place = self.act(*place);
        true
    }

    fn report(&self, place: u64, refusal: u64, out: &mut impl Write) -> io::Result<()> {
        write!(out, "{place} {refusal} s={} m={}", self.state, self.meter)
    }

    fn tell_slots(&self, out: &mut impl Write) -> io::Result<()> {
        writeln!(out, "value {}", self.value)
    }

    fn items(&self) -> Vec<u64> {
        if self.state & PUSHED != 0 { vec![self.value] } else { Vec::new() }
    }
}

impl Display for Place {
    fn fmt(&self, f: &mut Formatter) -> fmt::Result {
        match *self {
            Idle(a) => a.as_idle(f),
            A1 { item } => write!(f, "A1({item})"),
            A2 { item } => write!(f, "A2({item})"),
            A3 => f.write_str("A3"),
            B1 { expected, item } => write!(f, "B1({expected},{item})"),
            B2 { item } => write!(f, "B2({item})"),
            B3 => f.write_str("B3"),
            B4 { item } => write!(f, "B4({item})"),
            B5 { old } => write!(f, "B5({old})"),
            C1 { expected } => write!(f, "C1({expected})"),
            C2 => f.write_str("C2"),
            C3 { value } => write!(f, "C3({value})"),
            Len1 => f.write_str("len1"),
            Empty1 => f.write_str("empty1"),
            Full1 => f.write_str("full1"),
            Close1 => f.write_str("close1"),
            IsClosed1 => f.write_str("isclosed1"),
        }
    }
}
