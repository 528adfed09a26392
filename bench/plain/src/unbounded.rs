//! The unbounded queue over a pool of 64 blocks: src/unbounded.rs one action at a time, written for speed and nothing else.

use crate::Answer::{self, *};
use crate::{Queue, Record};
use std::fmt::{self, Display, Formatter};
use std::io::{self, Write};

const LAP: u64 = 32;
const SLOTS: u64 = 31;
const WRITE: u64 = 1;
const READ: u64 = 2;
const DESTROY: u64 = 4;

/// A block of the pool by its number, or none.
#[derive(Clone, Copy, PartialEq)]
pub struct Pointer(u8);

const NONE: Pointer = Pointer(64);

impl Display for Pointer {
    fn fmt(&self, f: &mut Formatter) -> fmt::Result {
        if *self == NONE { f.write_str("-") } else { write!(f, "{}", self.0) }
    }
}

type P = Pointer;

#[derive(Clone, Copy)]
pub enum Place {
    Idle(Answer),
    U1 { n: P, item: u64 },
    U2 { n: P, t: u64, item: u64 },
    U3 { t: u64, b: P, item: u64 },
    U4 { n: P, t: u64, item: u64 },
    U5 { n: P, t: u64, new: P, item: u64 },
    U6 { n: P, t: u64, new: P, item: u64 },
    U7 { n: P, t: u64, b: P, item: u64 },
    U8 { n: P, t: u64, item: u64 },
    U9 { n: P, t: u64, b: P, item: u64 },
    U10 { n: P, t: u64, b: P, item: u64 },
    U11 { n: P, t: u64, b: P, item: u64 },
    U12 { n: P, t: u64, b: P, item: u64 },
    U13 { n: P, t: u64, b: P },
    U14 { n: P, answer: Answer },
    U15 { n: P, new: P, item: u64 },
    V1,
    V2 { h: u64 },
    V3 { h: u64, b: P },
    V4 { h: u64, b: P, new: u64 },
    V5 { h: u64 },
    V6 { h: u64, b: P, new: u64 },
    V7 { h: u64, b: P, new: u64, next: P },
    V8 { h: u64, b: P, next: P, index: u64 },
    V9 { h: u64, b: P, index: u64 },
    V10 { h: u64, b: P },
    V11 { h: u64, b: P },
    V12 { h: u64, b: P, value: u64 },
    V13 { b: P, i: u64, value: u64 },
    V14 { b: P, i: u64, value: u64 },
    V15 { b: P, value: u64 },
    Len1,
    Len2 { t: u64 },
    Len3 { t: u64, h: u64 },
    Empty1,
    Empty2 { h: u64 },
    Full1,
    Close1,
    IsClosed1,
}

use Place::*;

#[derive(Clone, Copy, Default)]
struct Slot {
    state: u64,
    value: u64,
}

pub struct Machine {
    pub head: u64,
    front: Pointer,
    pub tail: u64,
    back: Pointer,
    /// A bit for each free block.
    free: u64,
    next: [Pointer; 64],
    slots: Vec<[Slot; SLOTS as usize]>,
    workers: Vec<Place>,
    pub meter: u64,
}

fn offset(w: u64) -> u64 {
    w / 2 % LAP
}

fn marked(w: u64) -> bool {
    w % 2 == 1
}

fn last_slot(w: u64) -> bool {
    offset(w) + 1 == SLOTS
}

fn first_or(n: P, t: u64, b: P, item: u64) -> Place {
    if b == NONE { U4 { n, t, item } } else { U7 { n, t, b, item } }
}

fn answered(n: P, answer: Answer) -> Place {
    if n == NONE { Idle(answer) } else { U14 { n, answer } }
}

fn push_from(n: P, t: u64, b: P, item: u64) -> Place {
    if marked(t) {
        answered(n, Closed(item))
    } else if offset(t) == SLOTS {
        U1 { n, item }
    } else if last_slot(t) && n == NONE {
        U3 { t, b, item }
    } else {
        first_or(n, t, b, item)
    }
}

fn take_or(h: u64, b: P, new: u64) -> Place {
    if b == NONE { V1 } else { V4 { h, b, new } }
}

fn pop_from(h: u64, b: P) -> Place {
    if offset(h) == SLOTS {
        V1
    } else if marked(h) {
        take_or(h, b, h.wrapping_add(2))
    } else {
        V3 { h, b }
    }
}

fn destroy_after(b: P, i: u64, value: u64) -> Place {
    if i + 2 < SLOTS { V13 { b, i: i + 1, value } } else { V15 { b, value } }
}

fn destroy_if(set: bool, b: P, i: u64, value: u64) -> Place {
    if set { destroy_after(b, i, value) } else { Idle(Popped(value)) }
}

/// "Fix up indices if they fall onto block ends."
fn settled(w: u64) -> u64 {
    let w = w & !1;
    if offset(w) == SLOTS { w.wrapping_add(2) } else { w }
}

fn count(t: u64, h: u64) -> u64 {
    let (t, h) = (settled(t), settled(h));
    let start = h / 2 / LAP * LAP * 2;
    let (t, h) = (t.wrapping_sub(start) / 2, h.wrapping_sub(start) / 2);
    t.wrapping_sub(h).wrapping_sub(t / LAP)
}

impl Machine {
    fn of(workers: u64) -> Machine {
        Machine {
            head: 0,
            front: NONE,
            tail: 0,
            back: NONE,
            free: u64::MAX,
            next: [NONE; 64],
            slots: vec![[Slot::default(); SLOTS as usize]; 64],
            workers: vec![Idle(Nothing); workers as usize],
            meter: 0,
        }
    }

    /// A fresh machine, or refusal 2.
    pub fn new(workers: u64) -> Result<Machine, u64> {
        if (1..=16).contains(&workers) { Ok(Machine::of(workers)) } else { Err(2) }
    }

    fn take(&mut self) -> Option<Pointer> {
        if self.free == 0 {
            return None;
        }
        let k = self.free.trailing_zeros() as u8;
        self.free &= self.free - 1;
        self.next[k as usize] = NONE;
        self.slots[k as usize] = [Slot::default(); SLOTS as usize];
        Some(Pointer(k))
    }

    fn release(&mut self, b: Pointer) {
        self.free |= 1 << b.0;
    }

    fn slot(&mut self, b: Pointer, i: u64) -> &mut Slot {
        &mut self.slots[b.0 as usize][i as usize]
    }

    fn at(&mut self, b: Pointer, w: u64) -> &mut Slot {
        self.slot(b, offset(w))
    }

    /// One act, or none where a block is wanted and none is free.
    #[inline(always)]
    fn act(&mut self, place: Place, lose: bool) -> Option<Place> {
        Some(match place {
            Idle(a) => Idle(a),
            U1 { n, item } => U2 { n, t: self.tail, item },
            U2 { n, t, item } | U8 { n, t, item } => push_from(n, t, self.back, item),
            U3 { t, b, item } => first_or(self.take()?, t, b, item),
            U4 { n, t, item } => U5 { n, t, new: self.take()?, item },
            U5 { n, t, new, item } => {
                if self.back == NONE {
                    self.back = new;
                    U6 { n, t, new, item }
                } else if n == NONE {
                    U1 { n: new, item }
                } else {
                    U15 { n, new, item }
                }
            }
            U6 { n, t, new, item } => {
                self.front = new;
                U7 { n, t, b: new, item }
            }
            U7 { n, t, b, item } => {
                if self.tail != t || lose {
                    U8 { n, t: self.tail, item }
                } else {
                    self.tail = t.wrapping_add(2);
                    if last_slot(t) { U9 { n, t, b, item } } else { U12 { n, t, b, item } }
                }
            }
            U9 { n, t, b, item } => {
                self.back = n;
                U10 { n, t, b, item }
            }
            U10 { n, t, b, item } => {
                self.tail = self.tail.wrapping_add(2);
                U11 { n, t, b, item }
            }
            U11 { n, t, b, item } => {
                self.next[b.0 as usize] = n;
                U12 { n: NONE, t, b, item }
            }
            U12 { n, t, b, item } => {
                self.at(b, t).value = item;
                U13 { n, t, b }
            }
            U13 { n, t, b } => {
                self.at(b, t).state |= WRITE;
                answered(n, Pushed)
            }
            U14 { n, answer } => {
                self.release(n);
                Idle(answer)
            }
            U15 { n, new, item } => {
                self.release(n);
                U1 { n: new, item }
            }
            V1 => V2 { h: self.head },
            V2 { h } | V5 { h } => pop_from(h, self.front),
            V3 { h, b } => {
                let t = self.tail;
                if h / 2 == t / 2 {
                    Idle(if marked(t) { PopClosed } else { Empty })
                } else {
                    let new = h.wrapping_add(2);
                    take_or(h, b, if h / 2 / LAP == t / 2 / LAP { new } else { new | 1 })
                }
            }
            V4 { h, b, new } => {
                if self.head != h || lose {
                    V5 { h: self.head }
                } else {
                    self.head = new;
                    if last_slot(h) { V6 { h, b, new } } else { V10 { h, b } }
                }
            }
            V6 { h, b, new } => match self.next[b.0 as usize] {
                NONE => V6 { h, b, new },
                next => V7 { h, b, new, next },
            },
            V7 { h, b, new, next } => {
                let index = (new & !1).wrapping_add(2);
                V8 { h, b, next, index: if self.next[next.0 as usize] == NONE { index } else { index | 1 } }
            }
            V8 { h, b, next, index } => {
                self.front = next;
                V9 { h, b, index }
            }
            V9 { h, b, index } => {
                self.head = index;
                V10 { h, b }
            }
            V10 { h, b } => if self.at(b, h).state & WRITE != 0 { V11 { h, b } } else { V10 { h, b } },
            V11 { h, b } => {
                let value = self.at(b, h).value;
                if last_slot(h) { V13 { b, i: 0, value } } else { V12 { h, b, value } }
            }
            V12 { h, b, value } => {
                let slot = self.at(b, h);
                let found = slot.state;
                slot.state |= READ;
                destroy_if(found & DESTROY != 0, b, offset(h), value)
            }
            V13 { b, i, value } => if self.slot(b, i).state & READ != 0 { destroy_after(b, i, value) } else { V14 { b, i, value } },
            V14 { b, i, value } => {
                let slot = self.slot(b, i);
                let found = slot.state;
                slot.state |= DESTROY;
                destroy_if(found & READ != 0, b, i, value)
            }
            V15 { b, value } => {
                self.release(b);
                Idle(Popped(value))
            }
            Len1 => Len2 { t: self.tail },
            Len2 { t } => Len3 { t, h: self.head },
            Len3 { t, h } => if self.tail == t { Idle(Len(count(t, h))) } else { Len1 },
            Empty1 => Empty2 { h: self.head },
            Empty2 { h } => Idle(crate::yes_no(h / 2 == self.tail / 2)),
            Full1 => Idle(No),
            Close1 => {
                let clear = !marked(self.tail);
                self.tail |= 1;
                Idle(crate::yes_no(clear))
            }
            IsClosed1 => Idle(crate::yes_no(marked(self.tail))),
        })
    }
}

impl Default for Machine {
    fn default() -> Machine {
        Machine::of(0)
    }
}

impl Record for Place {
    fn idle(&self) -> bool {
        matches!(self, Idle(_))
    }

    fn weak(&self) -> bool {
        matches!(self, U7 { .. } | V4 { .. })
    }

    fn begun(code: u64, item: u64) -> Place {
        match code {
            0 | 1 => U1 { n: NONE, item },
            2 => V1,
            3 => Len1,
            4 => Empty1,
            5 => Full1,
            6 => Close1,
            _ => IsClosed1,
        }
    }
}

impl Queue for Machine {
    type Worker = Place;

    fn workers(&self) -> &[Place] {
        &self.workers
    }

    fn workers_mut(&mut self) -> &mut [Place] {
        &mut self.workers
    }

    fn meter(&mut self) -> &mut u64 {
        &mut self.meter
    }

    /// There is no force_push.
    fn unreadable(first: u64, second: u64) -> bool {
        first % 16 == 1 || crate::stray(first, second)
    }

    #[inline(always)]
    fn acted(&mut self, place: &mut Place, lose: bool) -> bool {
        let Some(after) = self.act(*place, lose) else { return false };
        *place = after;
        true
    }

    fn report(&self, place: u64, refusal: u64, out: &mut impl Write) -> io::Result<()> {
        write!(out, "{place} {refusal} h={} hb={} t={} tb={} m={}", self.head, self.front, self.tail, self.back, self.meter)
    }

    fn tell_slots(&self, out: &mut impl Write) -> io::Result<()> {
        for k in (0..64).filter(|k| self.free >> k & 1 == 0) {
            write!(out, "block {k} next={}", self.next[k])?;
            for Slot { state, value } in self.slots[k] {
                write!(out, " ({state},{value})")?;
            }
            out.write_all(b"\n")?;
        }
        Ok(())
    }

    fn items(&self) -> Vec<u64> {
        let (mut h, t, mut b) = (self.head & !1, self.tail & !1, self.front);
        let mut items = Vec::new();
        while h != t {
            if offset(h) == SLOTS {
                b = self.next[b.0 as usize];
            } else {
                items.push(self.slots[b.0 as usize][offset(h) as usize].value);
            }
            h = h.wrapping_add(2);
        }
        items
    }}

impl Display for Place {
    fn fmt(&self, f: &mut Formatter) -> fmt::Result {
        match *self {
            Idle(a) => a.as_idle(f),
            U1 { n, item } => write!(f, "U1({n},{item})"),
            U2 { n, t, item } => write!(f, "U2({n},{t},{item})"),
            U3 { t, b, item } => write!(f, "U3({t},{b},{item})"),
            U4 { n, t, item } => write!(f, "U4({n},{t},{item})"),
            U5 { n, t, new, item } => write!(f, "U5({n},{t},{new},{item})"),
            U6 { n, t, new, item } => write!(f, "U6({n},{t},{new},{item})"),
            U7 { n, t, b, item } => write!(f, "U7({n},{t},{b},{item})"),
            U8 { n, t, item } => write!(f, "U8({n},{t},{item})"),
            U9 { n, t, b, item } => write!(f, "U9({n},{t},{b},{item})"),
            U10 { n, t, b, item } => write!(f, "U10({n},{t},{b},{item})"),
            U11 { n, t, b, item } => write!(f, "U11({n},{t},{b},{item})"),
            U12 { n, t, b, item } => write!(f, "U12({n},{t},{b},{item})"),
            U13 { n, t, b } => write!(f, "U13({n},{t},{b})"),
            U14 { n, answer } => write!(f, "U14({n},{answer})"),
            U15 { n, new, item } => write!(f, "U15({n},{new},{item})"),
            V1 => f.write_str("V1"),
            V2 { h } => write!(f, "V2({h})"),
            V3 { h, b } => write!(f, "V3({h},{b})"),
            V4 { h, b, new } => write!(f, "V4({h},{b},{new})"),
            V5 { h } => write!(f, "V5({h})"),
            V6 { h, b, new } => write!(f, "V6({h},{b},{new})"),
            V7 { h, b, new, next } => write!(f, "V7({h},{b},{new},{next})"),
            V8 { h, b, next, index } => write!(f, "V8({h},{b},{next},{index})"),
            V9 { h, b, index } => write!(f, "V9({h},{b},{index})"),
            V10 { h, b } => write!(f, "V10({h},{b})"),
            V11 { h, b } => write!(f, "V11({h},{b})"),
            V12 { h, b, value } => write!(f, "V12({h},{b},{value})"),
            V13 { b, i, value } => write!(f, "V13({b},{i},{value})"),
            V14 { b, i, value } => write!(f, "V14({b},{i},{value})"),
            V15 { b, value } => write!(f, "V15({b},{value})"),
            Len1 => f.write_str("len1"),
            Len2 { t } => write!(f, "len2({t})"),
            Len3 { t, h } => write!(f, "len3({t},{h})"),
            Empty1 => f.write_str("empty1"),
            Empty2 { h } => write!(f, "empty2({h})"),
            Full1 => f.write_str("full1"),
            Close1 => f.write_str("close1"),
            IsClosed1 => f.write_str("isclosed1"),
        }
    }
}
