//! The entries of schedules: the calls and acts that their codes name.

use crate::facts::Queue;

/// The codes that begin a call.
pub mod code {
    pub const PUSH: u64 = 0;
    pub const FORCE_PUSH: u64 = 1;
    pub const POP: u64 = 2;
    pub const LEN: u64 = 3;
    pub const IS_EMPTY: u64 = 4;
    pub const IS_FULL: u64 = 5;
    pub const CLOSE: u64 = 6;
    pub const IS_CLOSED: u64 = 7;
}

/// The calls in the order of their codes.
#[derive(Clone, Copy, Debug, PartialEq, Eq)]
pub enum Call {
    Push(u64),
    ForcePush(u64),
    Pop,
    Len,
    IsEmpty,
    IsFull,
    Close,
    IsClosed,
}

impl Call {
    pub const NAMES: [&'static str; 8] =
        ["push", "force_push", "pop", "len", "is_empty", "is_full", "close", "is_closed"];

    pub fn code(self) -> usize {
        match self {
            Call::Push(_) => 0,
            Call::ForcePush(_) => 1,
            Call::Pop => 2,
            Call::Len => 3,
            Call::IsEmpty => 4,
            Call::IsFull => 5,
            Call::Close => 6,
            Call::IsClosed => 7,
        }
    }

    /// The item must be 0 unless the code is 0 or 1.
    pub fn decode(code: u64, item: u64) -> Option<Call> {
        Some(match (code, item) {
            (0, _) => Call::Push(item),
            (1, _) => Call::ForcePush(item),
            (2, 0) => Call::Pop,
            (3, 0) => Call::Len,
            (4, 0) => Call::IsEmpty,
            (5, 0) => Call::IsFull,
            (6, 0) => Call::Close,
            (7, 0) => Call::IsClosed,
            _ => return None,
        })
    }
}

/// An entry of a schedule, read.
pub enum Entry {
    Begin(Call),
    Act { lose: bool },
}

impl Entry {
    /// None is refusal 9. The unbounded queue has no force_push.
    pub fn decode(queue: Queue, code: u64, item: u64) -> Option<Entry> {
        match (code, item) {
            (1, _) if queue == Queue::Unbounded => None,
            (8, 0) => Some(Entry::Act { lose: false }),
            (9, 0) => Some(Entry::Act { lose: true }),
            _ => Call::decode(code, item).map(Entry::Begin),
        }
    }
}
