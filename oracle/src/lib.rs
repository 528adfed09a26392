//! The judge of the port: the unmodified sources of concurrent-queue 2.5.0, run one action at a time.
//!
//! `bounded.rs`, `single.rs` and `unbounded.rs` are byte-for-byte copies. Everything they import is given a stand-in of the same shape
//! here, in `sync` and in `pool`: the atomics, cells and boxes stop before each action, so that a schedule decides who goes next (`stage`,
//! `coroutine`). Each source is included by a module of its own, `ring`, `one_slot` and `blocks`, which names its words and places
//! (`source`). `machine` adds what the port adds (workers, meter, refusals) and `schedule` the text that the port's `replay` prints.

// The port's words have 64 bits; the source's have the size of a pointer.
#[cfg(not(target_pointer_width = "64"))]
compile_error!("the judge needs a 64-bit target");

extern crate alloc;
// The source imports `CachePadded` from this crate; ours stands below.
extern crate self as crossbeam_utils;

mod blocks;
mod coroutine;
mod one_slot;
mod pool;
mod ring;
mod source;
mod sync;

pub mod call;
pub mod causes;
pub mod drive;
pub mod exhaustive;
pub mod facts;
pub mod interleaved;
pub mod list;
pub mod machine;
pub mod plain;
pub mod queue;
pub mod random;
pub mod schedule;
pub mod sequential;
pub mod stage;
pub mod state;
pub mod tally;
pub mod turns;
pub mod walk;
pub mod walks;
pub mod window;

/// Stands for `crossbeam_utils::CachePadded`. Padding is about speed alone.
pub struct CachePadded<T>(T);

include!("alike.rs");

/// Why a push failed, as in the crate's lib.rs.
pub enum PushError<T> {
    Full(T),
    Closed(T),
}

/// Why a force_push failed, as in the crate's lib.rs.
pub struct ForcePushError<T>(pub T);

/// Why a pop failed, as in the crate's lib.rs.
pub enum PopError {
    Empty,
    Closed,
}

/// No act: every action is taken as sequentially consistent already.
fn full_fence() {}

/// No act: which worker goes next is the schedule's business.
fn busy_wait() {}
