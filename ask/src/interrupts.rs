//! Ctrl-C: noted the first time, so that what is known so far can be told; the second ends the program.

use std::sync::atomic::{AtomicBool, Ordering};

static CAUGHT: AtomicBool = AtomicBool::new(false);

const INTERRUPT: i32 = 2;
const DEFAULT: usize = 0;

extern "C" {
    fn signal(number: i32, handler: usize) -> usize;
}

extern "C" fn note(_: i32) {
    CAUGHT.store(true, Ordering::Relaxed);
    // SAFETY: of what is called here signal alone may be called in a handler, and is.
    unsafe { signal(INTERRUPT, DEFAULT) };
}

/// From now on an interrupt is noted.
pub fn catch() {
    // SAFETY: the C library's own; the handler does nothing that a handler may not.
    unsafe { signal(INTERRUPT, note as extern "C" fn(i32) as usize) };
}

pub fn caught() -> bool {
    CAUGHT.load(Ordering::Relaxed)
}
