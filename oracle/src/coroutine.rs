//! Coroutines: a stack of its own for each worker, and a switch that keeps the registers a callee must keep.
//!
//! A thread for each worker would do as well, but a handover between threads costs microseconds and a switch nanoseconds.

#[cfg(not(any(target_arch = "aarch64", target_arch = "x86_64")))]
compile_error!("the switch between coroutines is written for aarch64 and x86_64 alone");

use std::arch::naked_asm;
use std::cell::Cell;
use std::mem::MaybeUninit;
use std::ptr;

/// Enough for a call of the source and for the report of a panic in it.
const STACK_BYTES: usize = 64 * 1024;

/// What a coroutine runs. A panic cannot leave an `extern "C"` function, so it ends the process.
pub type Body = extern "C" fn() -> !;

pub struct Coroutine {
    /// Never read as such: the running body owns it.
    _stack: Box<[MaybeUninit<u128>]>,
    /// Where the body stands; its registers are saved there.
    resting: Cell<*mut usize>,
}

thread_local! {
    static RUNNING: Cell<*const Coroutine> = const { Cell::new(ptr::null()) };
    static HOST: Cell<*mut usize> = const { Cell::new(ptr::null_mut()) };
}

impl Coroutine {
    pub fn new(body: Body) -> Self {
        let mut stack = Box::new_uninit_slice(STACK_BYTES / size_of::<u128>());
        let top: *mut usize = stack.as_mut_ptr_range().end.cast();
        // SAFETY: the frame lies inside the stack, at its upper end.
        let resting = unsafe {
            let frame = top.sub(FRAME_WORDS);
            frame.write_bytes(0, FRAME_WORDS);
            frame.add(BODY_WORD).write(body as usize);
            frame
        };
        Coroutine { _stack: stack, resting: Cell::new(resting) }
    }

    /// Lets the body run until it pauses.
    pub fn resume(&self) {
        assert!(!inside(), "a coroutine resumes no other");
        RUNNING.set(self);
        // SAFETY: `resting` was set by `new` or by the last pause of this very body.
        HOST.with(|host| unsafe { switch(host.as_ptr(), self.resting.get()) });
        RUNNING.set(ptr::null());
    }
}

/// Whether the caller runs in a coroutine.
pub fn inside() -> bool {
    !RUNNING.get().is_null()
}

/// Goes back to whoever resumed; returns at the next `resume`.
pub fn pause() {
    assert!(inside(), "only a coroutine pauses");
    // SAFETY: `RUNNING` is borrowed by `resume`, which waits for this switch; `HOST` was set by its switch.
    unsafe { switch((*RUNNING.get()).resting.as_ptr(), HOST.get()) }
}

/// A first frame has zeros for all registers and the body's address where `switch` returns to.
#[cfg(target_arch = "aarch64")]
const FRAME_WORDS: usize = 20;
#[cfg(target_arch = "aarch64")]
const BODY_WORD: usize = 11;

/// Saves the caller's registers on its stack, notes in `from` where, and goes on where `to` says.
#[cfg(target_arch = "aarch64")]
#[unsafe(naked)]
unsafe extern "C" fn switch(from: *mut *mut usize, to: *mut usize) {
    naked_asm!(
        "sub sp, sp, #160",
        "stp x19, x20, [sp, #0]",
        "stp x21, x22, [sp, #16]",
        "stp x23, x24, [sp, #32]",
        "stp x25, x26, [sp, #48]",
        "stp x27, x28, [sp, #64]",
        "stp x29, x30, [sp, #80]",
        "stp d8, d9, [sp, #96]",
        "stp d10, d11, [sp, #112]",
        "stp d12, d13, [sp, #128]",
        "stp d14, d15, [sp, #144]",
        "mov x9, sp",
        "str x9, [x0]",
        "mov sp, x1",
        "ldp x19, x20, [sp, #0]",
        "ldp x21, x22, [sp, #16]",
        "ldp x23, x24, [sp, #32]",
        "ldp x25, x26, [sp, #48]",
        "ldp x27, x28, [sp, #64]",
        "ldp x29, x30, [sp, #80]",
        "ldp d8, d9, [sp, #96]",
        "ldp d10, d11, [sp, #112]",
        "ldp d12, d13, [sp, #128]",
        "ldp d14, d15, [sp, #144]",
        "add sp, sp, #160",
        "ret",
    )
}

/// Six registers, the body's address, and a zero in place of the body's own return address: so that the body starts with the
/// stack aligned as after a call.
#[cfg(target_arch = "x86_64")]
const FRAME_WORDS: usize = 8;
#[cfg(target_arch = "x86_64")]
const BODY_WORD: usize = 6;

/// Saves the caller's registers on its stack, notes in `from` where, and goes on where `to` says.
#[cfg(target_arch = "x86_64")]
#[unsafe(naked)]
unsafe extern "sysv64" fn switch(from: *mut *mut usize, to: *mut usize) {
    naked_asm!(
        "push rbp",
        "push rbx",
        "push r12",
        "push r13",
        "push r14",
        "push r15",
        "mov [rdi], rsp",
        "mov rsp, rsi",
        "pop r15",
        "pop r14",
        "pop r13",
        "pop r12",
        "pop rbx",
        "pop rbp",
        "ret",
    )
}
