//! The pool of blocks, in place of the heap that unbounded.rs takes its blocks from. `Box` stands for the `Box` that the source
//! imports: making one takes a block, its end frees the block, and each of the two is an action.

use crate::stage::{self, Action};
use crate::state::NO_BLOCK;
use std::alloc::{alloc, dealloc, handle_alloc_error, Layout};
use std::cell::{Cell, RefCell};
use std::mem;
use std::rc::Rc;

/// Blocks in a pool.
pub const BLOCKS: usize = 64;

/// What the pool is told to do with a block's words.
pub trait Block {
    /// The block is taken under this number: its words get their names.
    fn taken(&self, number: usize);

    /// The block is freed: its words have no names until it is taken again.
    fn freed(&self);
}

#[derive(Default)]
pub struct Pool {
    /// Where each block stands that was ever taken. A number keeps its place.
    places: RefCell<Vec<(*mut u8, Layout)>>,
    /// A bit for each block that is taken.
    taken: Cell<u64>,
}

thread_local! {
    /// The pool of the queue that runs.
    static POOL: RefCell<Rc<Pool>> = RefCell::default();
}

/// To be called before a queue runs, with its pool.
pub fn enter(pool: &Rc<Pool>) {
    POOL.set(Rc::clone(pool));
}

/// The number of the block at an address, taken or not.
pub fn number_of(address: *mut u8) -> usize {
    if address.is_null() {
        return NO_BLOCK;
    }
    POOL.with_borrow(|pool| pool.places.borrow().iter().position(|(place, _)| *place == address))
        .expect("a pointer to no block of the pool")
}

impl Pool {
    pub fn is_taken(&self, number: usize) -> bool {
        self.taken.get() >> number & 1 == 1
    }

    pub fn none_free(&self) -> bool {
        self.taken.get() == u64::MAX
    }

    pub fn all_free(&self) -> bool {
        self.taken.get() == 0
    }

    /// Where a taken block stands.
    pub fn place(&self, number: usize) -> *mut u8 {
        assert!(self.is_taken(number), "block {number} is free");
        self.places.borrow()[number].0
    }

    /// The lowest free number, and its place.
    fn take(&self, layout: Layout) -> (usize, *mut u8) {
        assert!(!self.none_free(), "the judge lets nobody take where none is free");
        let number = self.taken.get().trailing_ones() as usize;
        self.taken.set(self.taken.get() | 1 << number);
        let mut places = self.places.borrow_mut();
        // Numbers are taken for the first time in their order.
        if number == places.len() {
            // SAFETY: a block is not of size 0.
            let place = unsafe { alloc(layout) };
            if place.is_null() {
                handle_alloc_error(layout);
            }
            places.push((place, layout));
        }
        assert_eq!(places[number].1, layout, "blocks of one kind only");
        (number, places[number].0)
    }

    fn free(&self, number: usize) {
        assert!(self.is_taken(number), "a free block was freed");
        self.taken.set(self.taken.get() & !(1 << number));
    }
}

impl Drop for Pool {
    /// What stands in a block needs no end of its own: numbers, names and pointers into this pool.
    fn drop(&mut self) {
        for (place, layout) in self.places.take() {
            // SAFETY: allocated by `take` with this layout.
            unsafe { dealloc(place, layout) };
        }
    }
}

/// Stands for `alloc::boxed::Box` in unbounded.rs, with what is used of it there.
pub struct Box<T: Block>(*mut T);

impl<T: Block> Box<T> {
    #[track_caller]
    pub fn new(value: T) -> Self {
        stage::before(|| Action::Take);
        let (number, place) = POOL.with_borrow(|pool| pool.take(Layout::new::<T>()));
        let place: *mut T = place.cast();
        // SAFETY: the place has room for a block and nobody else has it.
        unsafe {
            place.write(value);
            (*place).taken(number);
        }
        stage::after(number, false);
        Box(place)
    }

    pub fn into_raw(block: Self) -> *mut T {
        let place = block.0;
        mem::forget(block);
        place
    }

    /// # Safety
    /// The place is that of a taken block, and no other `Box` has it.
    pub unsafe fn from_raw(place: *mut T) -> Self {
        Box(place)
    }
}

impl<T: Block> Drop for Box<T> {
    /// A scope's end has no line to be told by `track_caller`, so the action's line is one of this file.
    fn drop(&mut self) {
        let number = number_of(self.0.cast());
        stage::before(|| Action::Free(number));
        // SAFETY: the block is taken, as whoever made this `Box` has promised; the pool checks it.
        unsafe { (*self.0).freed() };
        POOL.with_borrow(|pool| pool.free(number));
    }
}
