//! The unbounded queue: unbounded.rs over a pool of blocks. Numbers of lines are that file's.

use crate::call::Call;
use crate::facts::Facts;
use crate::pool::{self, Pool, BLOCKS};
use crate::source::{agree, Item, Seen, SeenBlocks, Source};
use crate::stage::{self, Action, Met, Pending, Word};
use crate::state::{Kind, ShownBlock, State, NONE, NO_BLOCK};
use std::cell::Cell;
use std::fmt::Write;
use std::mem::ManuallyDrop;
use std::rc::Rc;
use unbounded::{look_into, Unbounded, BLOCK_SLOTS};

#[allow(dead_code, clippy::declare_interior_mutable_const)]
mod unbounded {
    // The source's `alloc::boxed::Box` is the pool's.
    mod alloc {
        pub mod boxed {
            pub use crate::pool::Box;
        }
    }

    include!("unbounded.rs");

    use crate::pool;
    use crate::stage::Word;

    pub const BLOCK_SLOTS: usize = BLOCK_CAP;

    /// The judge's window on the private words.
    impl<T> Unbounded<T> {
        pub fn name_words(&self) {
            self.head.index.name.set(Word::Head);
            self.head.block.name.set(Word::HeadBlock);
            self.tail.index.name.set(Word::Tail);
            self.tail.block.name.set(Word::TailBlock);
        }

        pub fn peek(&self, word: Word) -> u64 {
            match word {
                Word::Head => self.head.index.peek(),
                Word::HeadBlock => self.head.block.peek(),
                Word::Tail => self.tail.index.peek(),
                Word::TailBlock => self.tail.block.peek(),
                _ => panic!("{word:?} is a word of a block"),
            }
        }
    }

    impl<T> pool::Block for Block<T> {
        fn taken(&self, number: usize) {
            self.next.name.set(Word::Next(number));
            for (i, slot) in self.slots.iter().enumerate() {
                slot.state.name.set(Word::SlotState(BLOCK_CAP * number + i));
                slot.value.name.set(BLOCK_CAP * number + i);
            }
        }

        fn freed(&self) {
            self.next.name.clear();
            for slot in &self.slots {
                slot.state.name.clear();
                slot.value.name.clear();
            }
        }
    }

    /// Next, and state and value of each slot.
    ///
    /// # Safety
    /// A taken block of a queue of `T` stands there.
    pub unsafe fn look_into<T>(place: *mut u8) -> (u64, [(u64, u64); BLOCK_CAP]) {
        let block: &Block<T> = &*place.cast();
        (block.next.peek(), std::array::from_fn(|i| (block.slots[i].state.peek(), block.slots[i].value.peek())))
    }
}

pub const FACTS: Facts = Facts {
    name: "unbounded",
    list: "unbounded",
    begins_with: "workers",
    places: &[
        Kind::UNBOUNDED,
        &[Kind::Len1, Kind::Len2, Kind::Len3, Kind::Empty1, Kind::Empty2, Kind::Full1, Kind::Close1, Kind::IsClosed1],
    ],
    weak: &[Kind::U7, Kind::V4],
    strong: &[Kind::U5],
    // Two of push, three of pop, one of len and of is_full, two each of the other three.
    answers: 13,
    refusals: &[2, 3, 4, 5, 6, 8, 9, 11, 23],
    blank_words: "h=0 hb=- t=0 tb=-",
    blank_slots: "",
};

pub struct Blocks {
    queue: ManuallyDrop<Unbounded<Item>>,
    pool: Rc<Pool>,
    /// A call is still under way, so that `Drop` must not walk.
    abandoned: Cell<bool>,
}

impl Blocks {
    pub fn new() -> Blocks {
        let queue = ManuallyDrop::new(Unbounded::new());
        queue.name_words();
        Blocks { queue, pool: Rc::default(), abandoned: Cell::new(false) }
    }

    /// Next, and state and value of each slot, of a taken block.
    fn block(&self, number: usize) -> (u64, [(u64, u64); BLOCK_SLOTS]) {
        self.enter();
        // SAFETY: the pool has blocks of this queue only, and gives the place of a taken one.
        unsafe { look_into::<Item>(self.pool.place(number)) }
    }
}

impl Drop for Blocks {
    fn drop(&mut self) {
        if !self.abandoned.get() {
            self.enter();
            // SAFETY: nobody uses the queue again.
            unsafe { ManuallyDrop::drop(&mut self.queue) };
            assert!(self.pool.all_free(), "a block was lost");
        }
    }
}

/// The slot of an index word in a block, where the pending action names the slot it uses: both must agree.
fn at(block: u64, index: u64, slot: usize) -> u64 {
    agree(BLOCK_SLOTS as u64 * block + index / 2 % 32, slot);
    block
}

impl Source for Blocks {
    fn enter(&self) {
        pool::enter(&self.pool);
    }

    fn abandon(&self) {
        self.abandoned.set(true);
    }

    fn none_free(&self) -> bool {
        self.pool.none_free()
    }

    fn answer(&self, call: Call) -> State {
        match call {
            Call::Push(item) => self.queue.push(Item(item)).into(),
            Call::ForcePush(_) => panic!("the unbounded queue has no force_push"),
            Call::Pop => self.queue.pop().into(),
            Call::Len => self.queue.len().into(),
            Call::IsEmpty => self.queue.is_empty().into(),
            Call::IsFull => {
                // The source loads nothing here; request 12 makes it one act all the same.
                stage::before(|| Action::Nothing);
                self.queue.is_full().into()
            }
            Call::Close => self.queue.close().into(),
            Call::IsClosed => self.queue.is_closed().into(),
        }
    }

    fn note(&self, seen: &mut Seen, done: Pending, met: Met) {
        seen.note(done, met);
        let found = met.found as u64;
        let blocks = &mut seen.blocks;
        match (done.line, done.action) {
            (195, Action::Take) => blocks.aside = found,
            (206, Action::Exchange(_, _, new)) if !met.won => {
                blocks.lost = new as u64;
                // One that was set aside before is freed first.
                if blocks.aside == NONE {
                    blocks.aside = blocks.lost;
                }
            }
            (_, Action::Free(_)) => blocks.aside = blocks.lost,
            (209, Action::Store(Word::HeadBlock, new)) => blocks.of_tail = new as u64,
            (234, Action::Store(Word::Next(_), _)) => blocks.aside = NONE,
            (104, Action::Load(Word::Next(_))) => blocks.next = found,
            (312, Action::Load(Word::Next(_))) => blocks.after_next = found,
            _ => {}
        }
    }

    fn place(&self, call: Call, pending: Pending, seen: &Seen) -> State {
        use Action::{Exchange, FetchAdd, FetchOr, Free, Load, Nothing, Store, Take, Value, WeakExchange};
        use Word::{Head, HeadBlock, Next, SlotState, Tail, TailBlock};
        let (t, h) = (|| seen.t(), || seen.h());
        let SeenBlocks { of_tail: tb, of_head: hb, aside: n, lost, next, after_next } = seen.blocks;
        // `next_index`, which the source computes before the store of V8 and uses in that of V9.
        let index = || (seen.won_new & !1).wrapping_add(2) | u64::from(after_next != NONE);
        let i = |slot: usize| (slot % BLOCK_SLOTS) as u64;
        match (call, pending.line, pending.action) {
            (Call::Push(item), 171 | 187 | 213, Load(Tail)) => Kind::U1.with(&[n, item]),
            (Call::Push(item), 172 | 188 | 214, Load(TailBlock)) => Kind::U2.with(&[n, t(), item]),
            (Call::Push(item), 195, Take) => Kind::U3.with(&[t(), tb, item]),
            (Call::Push(item), 201, Take) => Kind::U4.with(&[n, t(), item]),
            (Call::Push(item), 206, Exchange(TailBlock, NO_BLOCK, new)) => Kind::U5.with(&[n, t(), new as u64, item]),
            (Call::Push(item), 209, Store(HeadBlock, new)) => Kind::U6.with(&[n, t(), new as u64, item]),
            (Call::Push(item), 222, WeakExchange(Tail, tail, _)) => Kind::U7.with(&[n, agree(t(), tail), tb, item]),
            (Call::Push(item), 247, Load(TailBlock)) => Kind::U8.with(&[n, t(), item]),
            (Call::Push(item), 232, Store(TailBlock, new)) => Kind::U9.with(&[agree(n, new), t(), tb, item]),
            (Call::Push(item), 233, FetchAdd(Tail, 2)) => Kind::U10.with(&[n, t(), tb, item]),
            (Call::Push(item), 234, Store(Next(block), new)) => {
                Kind::U11.with(&[agree(n, new), t(), agree(tb, block), item])
            }
            (Call::Push(item), 239, Value(slot)) => Kind::U12.with(&[n, t(), at(tb, t(), slot), item]),
            (Call::Push(_), 242, FetchOr(SlotState(slot), 1)) => Kind::U13.with(&[n, t(), at(tb, t(), slot)]),
            (Call::Push(item), _, Free(block)) if seen.last_line() == 206 => {
                Kind::U15.with(&[agree(n, block), lost, item])
            }
            (Call::Push(_), _, Free(block)) if seen.won == Some(Tail) => Kind::U14Pushed.with(&[agree(n, block)]),
            (Call::Push(item), _, Free(block)) => Kind::U14Closed.with(&[agree(n, block), item]),

            (Call::Pop, 255 | 265 | 295, Load(Head)) => Kind::V1.alone(),
            (Call::Pop, 256 | 266 | 296, Load(HeadBlock)) => Kind::V2.with(&[h()]),
            (Call::Pop, 274, Load(Tail)) => Kind::V3.with(&[h(), hb]),
            (Call::Pop, 301, WeakExchange(Head, head, new)) => Kind::V4.with(&[agree(h(), head), hb, new as u64]),
            (Call::Pop, 337, Load(HeadBlock)) => Kind::V5.with(&[h()]),
            (Call::Pop, 104, Load(Next(block))) => Kind::V6.with(&[h(), agree(hb, block), seen.won_new]),
            (Call::Pop, 312, Load(Next(block))) => Kind::V7.with(&[h(), hb, seen.won_new, agree(next, block)]),
            (Call::Pop, 316, Store(HeadBlock, new)) => Kind::V8.with(&[h(), hb, agree(next, new), index()]),
            (Call::Pop, 317, Store(Head, new)) => Kind::V9.with(&[h(), hb, agree(index(), new)]),
            (Call::Pop, 75, Load(SlotState(slot))) => Kind::V10.with(&[h(), at(hb, h(), slot)]),
            (Call::Pop, 323, Value(slot)) => Kind::V11.with(&[h(), at(hb, h(), slot)]),
            (Call::Pop, 329, FetchOr(SlotState(slot), 2)) => Kind::V12.with(&[h(), at(hb, h(), slot), seen.value]),
            (Call::Pop, 120, Load(SlotState(slot))) => {
                Kind::V13.with(&[agree(hb, slot / BLOCK_SLOTS), i(slot), seen.value])
            }
            (Call::Pop, 121, FetchOr(SlotState(slot), 4)) => {
                Kind::V14.with(&[agree(hb, slot / BLOCK_SLOTS), i(slot), seen.value])
            }
            (Call::Pop, _, Free(block)) => Kind::V15.with(&[agree(hb, block), seen.value]),

            (Call::Len, 347, Load(Tail)) => Kind::Len1.alone(),
            (Call::Len, 348, Load(Head)) => Kind::Len2.with(&[t()]),
            (Call::Len, 351, Load(Tail)) => Kind::Len3.with(&[t(), h()]),
            (Call::IsEmpty, 381, Load(Head)) => Kind::Empty1.alone(),
            (Call::IsEmpty, 382, Load(Tail)) => Kind::Empty2.with(&[h()]),
            (Call::IsFull, _, Nothing) => Kind::Full1.alone(),
            (Call::Close, 395, FetchOr(Tail, 1)) => Kind::Close1.alone(),
            (Call::IsClosed, 401, Load(Tail)) => Kind::IsClosed1.alone(),
            _ => panic!("no place stands for {pending:?} in {call:?}"),
        }
    }

    fn word(&self, word: Word) -> u64 {
        match word {
            Word::Next(block) => self.block(block).0,
            Word::SlotState(slot) => self.block(slot / BLOCK_SLOTS).1[slot % BLOCK_SLOTS].0,
            _ => {
                self.enter();
                self.queue.peek(word)
            }
        }
    }

    fn value(&self, slot: usize) -> u64 {
        self.block(slot / BLOCK_SLOTS).1[slot % BLOCK_SLOTS].1
    }

    fn write_words(&self, out: &mut String) {
        let (h, hb) = (self.word(Word::Head), ShownBlock(self.word(Word::HeadBlock)));
        let (t, tb) = (self.word(Word::Tail), ShownBlock(self.word(Word::TailBlock)));
        let _ = write!(out, "h={h} hb={hb} t={t} tb={tb}");
    }

    fn write_slots(&self, out: &mut String) {
        for number in (0..BLOCKS).filter(|number| self.pool.is_taken(*number)) {
            let (next, slots) = self.block(number);
            let _ = write!(out, "block {number} next={}", ShownBlock(next));
            for (state, value) in slots {
                let _ = write!(out, " ({state},{value})");
            }
            out.push('\n');
        }
    }
}
