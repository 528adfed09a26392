use core::fmt;

use crate::Answer;

/// Where a worker stands in its call: the action that it takes next. The names are those of document 01 and, of the one-slot and the unbounded queue, of docs/RULES.md.
#[derive(Clone, Copy, Debug, PartialEq, Eq, Hash)]
#[non_exhaustive]
pub enum Place {
    /// push, force_push: load tail.
    P1,
    /// Load the stamp of the slot at tail.
    P2,
    /// Try to claim the slot: a weak exchange of tail.
    P3,
    /// Write the item into the slot in hand.
    P4,
    /// Store the slot's stamp, by which a pop sees the item.
    P5,
    /// push, where the slot has an item of the last lap: load head.
    P6,
    /// force_push there: try to take the oldest item, a weak exchange of head.
    F6,
    /// Store tail.
    F7,
    /// Read the old value and write the item.
    F8,
    /// Store the slot's stamp.
    F9,
    /// pop: load head.
    O1,
    /// Load the stamp of the slot at head.
    O2,
    /// Try to claim the slot: a weak exchange of head.
    O3,
    /// Read the value of the slot in hand.
    O4,
    /// Store the slot's stamp, by which a push sees that it is free.
    O5,
    /// Where no item is there: load tail.
    O6,
    /// len: load tail (of the unbounded queue its index); of the one-slot queue, the state.
    Len1,
    /// len: load head.
    Len2,
    /// len: load tail once more.
    Len3,
    /// is_empty: load head; of the one-slot queue, the state.
    Empty1,
    /// is_empty: load tail.
    Empty2,
    /// is_full: load tail; of the one-slot queue, the state.
    Full1,
    /// is_full: load head.
    Full2,
    /// close: set the mark.
    Close1,
    /// is_closed: load tail; of the one-slot queue, the state.
    IsClosed1,
    /// One-slot queue, push: exchange the state, to have the slot.
    A1,
    /// push: write the item.
    A2,
    /// push: unlock.
    A3,
    /// One-slot queue, force_push: exchange the state, to have the slot.
    B1,
    /// force_push, where nothing was there: write the item.
    B2,
    /// Then unlock.
    B3,
    /// force_push, where an item was there: put the new one in its place.
    B4,
    /// Then unlock.
    B5,
    /// One-slot queue, pop: exchange the state, to have the slot.
    C1,
    /// pop: read the value.
    C2,
    /// pop: unlock.
    C3,
    /// Unbounded queue, push: load tail's index.
    U1,
    /// push: load tail's block.
    U2,
    /// push: take a block and set it aside.
    U3,
    /// push, where there is no block yet: take one.
    U4,
    /// Then exchange tail's block, none to that one.
    U5,
    /// Then store it in head's block.
    U6,
    /// push: try to claim the slot, a weak exchange of tail's index.
    U7,
    /// push, where that was lost: load tail's block.
    U8,
    /// push at a block's last slot: store the next block in tail's.
    U9,
    /// Then add 2 to tail's index.
    U10,
    /// Then store it as the block's next.
    U11,
    /// push: write the item.
    U12,
    /// push: set WRITE, by which a pop sees the item.
    U13,
    /// push: free the block that it had set aside.
    U14,
    /// The same, where another goes in its place.
    U15,
    /// Unbounded queue, pop: load head's index.
    V1,
    /// pop: load head's block.
    V2,
    /// pop, where head may be at tail: load tail's index.
    V3,
    /// pop: try to claim the slot, a weak exchange of head's index.
    V4,
    /// pop, where that was lost: load head's block.
    V5,
    /// pop of a block's last slot: load the block's next.
    V6,
    /// Then load the next of that.
    V7,
    /// Then store the next block in head's.
    V8,
    /// Then store head's index.
    V9,
    /// pop: load the slot's state.
    V10,
    /// pop: read the value.
    V11,
    /// pop: set READ.
    V12,
    /// pop, where the block is to be freed: load the state of a slot of it.
    V13,
    /// Then set DESTROY in it.
    V14,
    /// pop: free the block.
    V15,
}

use Place::*;

/// By a record's code, from 11 on.
const OF_RING: [Place; 28] = [P1, P1, Empty2, Full2, P5, O2, O3, O4, O6, Len2, Len3, P2, P2, P3, P3, P4, P6, F6, F7, F8, F9, O5, O1, Len1, Empty1, Full1, Close1, IsClosed1];
const OF_ONE_SLOT: [Place; 16] = [A1, A2, B2, B4, B5, C1, C3, B1, A3, B3, C2, Len1, Empty1, Full1, Close1, IsClosed1];
const OF_UNBOUNDED: [Place; 38] = [
    U1, U2, U3, U4, U5, U6, U7, U8, U9, U10, U11, U12, U13, U14, U15, V1, V2, V3, V4, V5, V6, V7, V8, V9, V10, V11, V12, V13, V14, V15, Len1, Len2, Len3, Empty1, Empty2, Full1, Close1, IsClosed1,
];

fn of(places: &[Place], code: u64) -> Option<Place> {
    places.get(usize::try_from(code).ok()?.checked_sub(11)?).copied()
}

impl Place {
    /// Of a record's code in a ring; none of an idle worker's, and of what is no code.
    pub fn of_ring(code: u64) -> Option<Place> {
        of(&OF_RING, code)
    }

    /// Of a record's code in a one-slot queue.
    pub fn of_one_slot(code: u64) -> Option<Place> {
        of(&OF_ONE_SLOT, code)
    }

    /// Of a record's code in an unbounded queue.
    pub fn of_unbounded(code: u64) -> Option<Place> {
        of(&OF_UNBOUNDED, code)
    }

    /// Whether the action is a weak exchange, which may be made to fail.
    pub fn is_weak(self) -> bool {
        matches!(self, P3 | F6 | O3 | U7 | V4)
    }
}

/// Its name: `P3`, `Len2`.
impl fmt::Display for Place {
    fn fmt(&self, f: &mut fmt::Formatter<'_>) -> fmt::Result {
        fmt::Debug::fmt(self, f)
    }
}

/// What a worker last answered, or where it stands.
pub(crate) fn stands(f: &mut fmt::Formatter<'_>, answer: Option<Answer>, place: Option<Place>) -> fmt::Result {
    match (answer, place) {
        (Some(answer), _) => write!(f, "{answer}"),
        (None, Some(place)) => write!(f, "at {place}"),
        (None, None) => f.write_str("broken"),
    }
}
