//! What an answer means: a plain queue counted along a run, and of each answer the moment at which that queue gives it.
//!
//! A plain queue knows no word, stamp or place: items in order, open or closed, a capacity. It changes where a call of the source puts in, takes
//! out or closes, and nowhere else; each call's answer is the plain queue's at one moment inside the call. Which acts change it, and which moment
//! is an answer's, is written here from the table in docs/DIFFERENTIAL.md. The plain queue is not kept for every moment: of each call under way
//! what its answer would need of the one moment that it is named at so far.

use crate::call::Call;
use crate::queue::Making;
use crate::stage::{Action, Met, Word};
use crate::state::{Kind, State};
use std::collections::VecDeque;
use std::fmt;

struct Plain {
    items: VecDeque<u64>,
    closed: bool,
    /// None: there is always room.
    capacity: Option<usize>,
    /// Pops of the one-slot queue between their won exchange and their unlock: the room that the item had is still taken.
    held: usize,
    /// Items put in and taken out so far.
    put: u64,
    taken: u64,
}

/// A plain queue at one moment, as far as its answers go.
#[derive(Clone, Copy)]
struct Sight {
    front: Option<u64>,
    waiting: usize,
    closed: bool,
    full: bool,
    held: bool,
    put: u64,
    taken: u64,
}

impl Plain {
    fn new(making: Making) -> Plain {
        let capacity = match making {
            Making::Bounded { capacity, .. } => Some(capacity as usize),
            Making::Single => Some(1),
            Making::Unbounded => None,
        };
        Plain { items: VecDeque::new(), closed: false, capacity, held: 0, put: 0, taken: 0 }
    }

    fn sight(&self) -> Sight {
        Sight {
            front: self.items.front().copied(),
            waiting: self.items.len(),
            closed: self.closed,
            full: self.capacity.is_some_and(|capacity| self.items.len() >= capacity),
            held: self.held > 0,
            put: self.put,
            taken: self.taken,
        }
    }

    fn put_in(&mut self, item: u64) {
        self.items.push_back(item);
        self.put += 1;
    }

    fn take_out(&mut self) -> Option<u64> {
        self.taken += 1;
        self.items.pop_front()
    }
}

impl Sight {
    fn answer(self, call: Call) -> State {
        match (call, self.front) {
            (Call::Push(item) | Call::ForcePush(item), _) if self.closed => Kind::ClosedPush.with(&[item]),
            (Call::Push(item), _) if self.full || self.held => Kind::Full.with(&[item]),
            (Call::ForcePush(_), Some(front)) if self.full => Kind::Displaced.with(&[front]),
            (Call::Push(_) | Call::ForcePush(_), _) => Kind::Pushed.alone(),
            (Call::Pop, Some(front)) => Kind::Popped.with(&[front]),
            (Call::Pop, None) if self.closed => Kind::ClosedPop.alone(),
            (Call::Pop, None) => Kind::Empty.alone(),
            (Call::Len, _) => self.waiting.into(),
            (Call::IsEmpty, _) => (self.waiting == 0).into(),
            (Call::IsFull, _) => self.full.into(),
            (Call::Close, _) => (!self.closed).into(),
            (Call::IsClosed, _) => self.closed.into(),
        }
    }

    /// Nothing was put in or taken out since.
    fn same_items(self, since: Sight) -> bool {
        (self.put, self.taken) == (since.put, since.taken)
    }
}

/// Just before an entry, or directly after it, and the plain queue then.
#[derive(Clone, Copy)]
struct Moment {
    entry: u64,
    after: bool,
    sight: Sight,
}

impl fmt::Display for Moment {
    fn fmt(&self, f: &mut fmt::Formatter<'_>) -> fmt::Result {
        write!(f, "{}{}", self.entry, if self.after { "+" } else { "" })
    }
}

/// The moment that a call's answer is named at.
#[derive(Clone, Copy)]
enum Named {
    /// It has none so far.
    Not,
    At(Moment),
    /// Directly after the next claim of this end, if there is one.
    AfterNext(Word),
}

/// A call under way.
#[derive(Clone, Copy)]
struct Under {
    call: Call,
    named: Named,
    /// How many items it put in and took out, and the one it took out last.
    puts: u64,
    takes: u64,
    took: Option<u64>,
    /// A pop of the one-slot queue that has not let go yet.
    holds: bool,
    /// A pop of the unbounded queue between its claim of a block's last slot and its store of head's index.
    at_block_end: bool,
    /// `is_empty` of the unbounded queue found head's index at a block's end.
    found_block_end: bool,
}

/// An answer that is not the plain queue's, or a change that the plain queue does not allow.
#[derive(Clone, Debug, PartialEq, Eq)]
pub struct Fault {
    pub entry: u64,
    pub what: String,
}

impl fmt::Display for Fault {
    fn fmt(&self, f: &mut fmt::Formatter<'_>) -> fmt::Result {
        write!(f, "entry {}: {}", self.entry, self.what)
    }
}

/// The plain queue along a run, and what is known of each worker's call.
pub struct Account {
    making: Making,
    plain: Plain,
    /// Entries so far; while one is done, its place.
    entry: u64,
    calls: Vec<Option<Under>>,
    /// Answers that are the plain queue's.
    answers: u64,
    /// Of the unbounded queue: answers no of `is_empty` that have no moment, nothing waiting, since head's index stood at a block's end.
    no_of_empty: u64,
    /// The last entry's answer is named here, if it ended a call.
    at: Option<String>,
    /// The window of sixteen-bit words was left: nothing is said of the plain queue any more.
    beyond: bool,
    fault: Option<Fault>,
}

/// What an action does to the plain queue.
#[derive(Clone, Copy, PartialEq, Eq)]
enum Effect {
    None,
    PutIn,
    TakeOut,
    /// A force_push that found the ring full: the front goes out at F6, its item comes in at F7.
    MakeRoom,
    PutInThere,
    /// The one-slot queue's force_push that displaces: both in one step.
    Replace,
    /// The one-slot queue's pop gives the room back.
    LetGo,
    Close,
}

impl Account {
    pub fn new(making: Making, workers: usize) -> Account {
        Account {
            making,
            plain: Plain::new(making),
            entry: 0,
            calls: vec![None; workers],
            answers: 0,
            no_of_empty: 0,
            at: None,
            beyond: false,
            fault: None,
        }
    }

    /// Where the last entry's answer is named, if it ended a call.
    pub fn moment(&self) -> Option<&str> {
        self.at.as_deref()
    }

    pub fn fault(&self) -> Option<&Fault> {
        self.fault.as_ref()
    }

    /// Answers that are the plain queue's, and those of `is_empty` that are not, as the unbounded source has it.
    pub fn answers(&self) -> (u64, u64) {
        (self.answers, self.no_of_empty)
    }

    /// To be called before each entry.
    pub fn next(&mut self) {
        self.at = None;
    }

    /// To be called after each entry that was accepted.
    pub fn done(&mut self) {
        self.entry += 1;
    }

    pub fn begin(&mut self, worker: usize, call: Call) {
        self.calls[worker] = Some(Under {
            call,
            named: Named::Not,
            puts: 0,
            takes: 0,
            took: None,
            holds: false,
            at_block_end: false,
            found_block_end: false,
        });
    }

    /// Takes in an action that is done, and the answer if it ended the call.
    pub fn act(&mut self, worker: usize, action: Action, met: Met, answer: Option<State>) {
        let Some(mut under) = self.calls[worker] else { return };
        let now = Moment { entry: self.entry, after: false, sight: self.plain.sight() };
        look(&mut under, action, met, now);
        self.look_at_block_end(&mut under, action, met);
        let effect = effect(under, action, met);
        if let Some(why) = forbidden(effect, under, now.sight) {
            self.wrong(format!("worker {worker}: {why}"));
        }
        self.change(&mut under, effect);
        self.calls[worker] = Some(under);
        self.hear(effect);
        if let Some(answer) = answer {
            self.answered(worker, under, now, answer);
            self.calls[worker] = None;
        }
    }

    /// Takes in an act after which the window was left, whether it ended its call or not.
    pub fn beyond(&mut self, ends: bool) {
        self.beyond = true;
        self.at = ends.then(|| "-".into());
    }

    /// Of the unbounded queue: which pops have claimed a block's last slot and not stored head's index yet, and that head's index stands at a block's end, for
    /// an `is_empty` that loads it, exactly while there is one.
    fn look_at_block_end(&mut self, under: &mut Under, action: Action, met: Met) {
        if self.making != Making::Unbounded {
            return;
        }
        let offset = |index: usize| index / 2 % BLOCK_POSITIONS;
        match (under.call, action) {
            (Call::Pop, Action::WeakExchange(Word::Head, claimed, _)) if met.won => {
                under.at_block_end = offset(claimed) == BLOCK_POSITIONS - 2;
            }
            (Call::Pop, Action::Store(Word::Head, _)) => under.at_block_end = false,
            (Call::IsEmpty, Action::Load(Word::Head)) => {
                under.found_block_end = offset(met.found) == BLOCK_POSITIONS - 1;
                if under.found_block_end != self.calls.iter().flatten().any(|call| call.at_block_end) {
                    self.wrong(format!("head's index {} and the pops at a block's end do not agree", met.found));
                }
            }
            _ => {}
        }
    }

    fn change(&mut self, under: &mut Under, effect: Effect) {
        if matches!(effect, Effect::TakeOut | Effect::MakeRoom | Effect::Replace) {
            under.took = self.plain.take_out();
            under.takes += 1;
        }
        if let (Effect::PutIn | Effect::PutInThere | Effect::Replace, Call::Push(item) | Call::ForcePush(item)) =
            (effect, under.call)
        {
            self.plain.put_in(item);
            under.puts += 1;
        }
        match (effect, self.making) {
            (Effect::TakeOut, Making::Single) => {
                under.holds = true;
                self.plain.held += 1;
            }
            (Effect::LetGo, _) => {
                under.holds = false;
                self.plain.held -= 1;
            }
            (Effect::PutInThere, Making::Bounded { edition: 1, .. }) => self.plain.closed = false,
            (Effect::Close, _) => self.plain.closed = true,
            _ => {}
        }
    }

    /// What a claim makes of the moments that wait for one.
    fn hear(&mut self, effect: Effect) {
        let claimed = match effect {
            Effect::PutIn | Effect::PutInThere => Word::Tail,
            Effect::TakeOut | Effect::MakeRoom => Word::Head,
            _ => return,
        };
        let here = Moment { entry: self.entry, after: true, sight: self.plain.sight() };
        for call in self.calls.iter_mut().flatten() {
            if matches!(call.named, Named::AfterNext(end) if end == claimed) {
                call.named = Named::At(here);
            }
        }
    }

    fn answered(&mut self, worker: usize, under: Under, now: Moment, answer: State) {
        let named = match (under.call, answer.kind) {
            (Call::IsEmpty | Call::IsFull, Kind::Yes) => Named::At(now),
            _ => under.named,
        };
        let told = |answer: State| answer.to_string().replace("idle:", "");
        let call = Call::NAMES[under.call.code()];
        match named {
            Named::At(moment) => {
                let plainly = moment.sight.answer(under.call);
                if plainly == answer {
                    self.answers += 1;
                } else {
                    let (answer, plainly) = (told(answer), told(plainly));
                    self.wrong(format!(
                        "worker {worker}: {call} answers {answer}; the plain queue at={moment} {plainly}"
                    ));
                }
                self.at = Some(moment.to_string());
            }
            Named::Not | Named::AfterNext(_) => {
                if under.call == Call::IsEmpty && answer.kind == Kind::No && under.found_block_end {
                    self.no_of_empty += 1;
                } else {
                    let (answer, plainly) = (told(answer), told(now.sight.answer(under.call)));
                    self.wrong(format!(
                        "worker {worker}: {call} answers {answer}, which has no moment; the plain queue now {plainly}"
                    ));
                }
                self.at = Some("none".into());
            }
        }
        if !meant(under, answer) {
            let Under { puts, takes, .. } = under;
            self.wrong(format!(
                "worker {worker}: {call} answers {}, having put in {puts} and taken out {takes}",
                told(answer)
            ));
        }
    }

    /// What `Drop` meets must be what waits.
    pub fn left(&mut self, items: &[u64]) {
        if !self.beyond && self.plain.items != items {
            self.wrong(format!("the contents are {items:?}; in the plain queue wait {:?}", self.plain.items));
        }
    }

    fn wrong(&mut self, what: String) {
        self.fault.get_or_insert(Fault { entry: self.entry, what });
    }

    /// All that the next answers would be told by, but for the places of entries.
    pub fn shown(&self) -> String {
        let mut out = format!("{:?} {} {}", self.plain.items, self.plain.closed, self.plain.held);
        for under in self.calls.iter().flatten() {
            out += &match under.named {
                Named::Not => " -".into(),
                Named::AfterNext(end) => format!(" after {end:?}"),
                Named::At(Moment { sight, .. }) => {
                    let (put, taken) = (self.plain.put - sight.put, self.plain.taken - sight.taken);
                    let Sight { front, waiting, closed, held, .. } = sight;
                    format!(" {front:?} {waiting} {closed} {held} {put} {taken}")
                }
            };
            out += &format!(" {} {} {}", under.puts, under.takes, under.found_block_end);
        }
        out
    }
}

/// Positions that a block of the unbounded queue covers; the last is no slot.
const BLOCK_POSITIONS: usize = 32;
/// The bit of the one-slot queue's word that says that an item waits.
const PUSHED: usize = 2;

/// What an act of its own makes of a call's moment.
fn look(under: &mut Under, action: Action, met: Met, now: Moment) {
    use Action::{Exchange, FetchOr, Load, Nothing, WeakExchange};
    use Word::{Head, State, Tail};
    under.named = match (under.call, action) {
        // The act that gave t, or the won claim.
        (Call::Push(_) | Call::ForcePush(_), Load(Tail) | WeakExchange(Tail, ..)) => Named::At(now),
        (Call::Pop, WeakExchange(Head, ..)) if met.won => Named::At(now),
        (Call::Pop, Load(Tail)) => Named::At(now),
        (Call::Len, Load(Head)) => Named::At(now),
        // A no; a yes is named at its last act.
        (Call::IsEmpty, Load(Head)) if now.sight.waiting > 0 => Named::At(now),
        (Call::IsEmpty, Load(Head)) => Named::AfterNext(Tail),
        (Call::IsFull, Load(Tail)) if !now.sight.full => Named::At(now),
        (Call::IsFull, Load(Tail)) => Named::AfterNext(Head),
        (Call::IsFull, Nothing) => Named::At(now),
        (Call::Close, FetchOr(..)) | (Call::IsClosed, Load(_)) => Named::At(now),
        // The one-slot queue: its one word.
        (_, Exchange(State, ..) | Load(State)) => Named::At(now),
        _ => under.named,
    };
}

/// Which action changes the plain queue, and how.
fn effect(under: Under, action: Action, met: Met) -> Effect {
    use Action::{Exchange, FetchAdd, FetchAnd, FetchOr, Store, WeakExchange};
    use Word::{Head, State, Tail};
    match (under.call, action) {
        (Call::Push(_) | Call::ForcePush(_), WeakExchange(Tail, ..)) if met.won => Effect::PutIn,
        (Call::Pop, WeakExchange(Head, ..)) if met.won => Effect::TakeOut,
        (Call::ForcePush(_), WeakExchange(Head, ..)) if met.won => Effect::MakeRoom,
        // F7; the unbounded queue, which adds to tail as well, has no force_push.
        (Call::ForcePush(_), Store(Tail, _) | FetchAdd(Tail, _)) => Effect::PutInThere,
        (Call::ForcePush(_), Exchange(State, expected, _)) if met.won && expected & PUSHED != 0 => Effect::Replace,
        (Call::Push(_) | Call::ForcePush(_), Exchange(State, ..)) if met.won => Effect::PutIn,
        (Call::Pop, Exchange(State, ..)) if met.won => Effect::TakeOut,
        (Call::Pop, FetchAnd(State, _)) if under.holds => Effect::LetGo,
        (Call::Close, FetchOr(..)) => Effect::Close,
        _ => Effect::None,
    }
}

/// What is wrong with an effect on the plain queue as it is just before.
fn forbidden(effect: Effect, under: Under, plain: Sight) -> Option<&'static str> {
    let same_since_given = || matches!(under.named, Named::At(moment) if plain.same_items(moment.sight));
    let nothing_in_since_given = || matches!(under.named, Named::At(moment) if plain.put == moment.sight.put);
    let (allowed, else_why) = match effect {
        Effect::PutIn => {
            (!plain.closed && !plain.full && !plain.held, "an item comes into a plain queue that is closed or full")
        }
        Effect::TakeOut => (plain.waiting > 0, "an item goes out of a plain queue in which none waits"),
        Effect::MakeRoom => {
            (plain.full && same_since_given(), "F6 is won, and the plain queue is not full or not as when t was given")
        }
        Effect::PutInThere => (
            !plain.full && nothing_in_since_given(),
            "F7, and the plain queue is full or another item came in since F6",
        ),
        Effect::Replace => (
            !plain.closed && plain.full && !plain.held,
            "an item is displaced in a plain queue that is closed or not full",
        ),
        Effect::None | Effect::LetGo | Effect::Close => (true, ""),
    };
    (!allowed).then_some(else_why)
}

/// What each answer says that its call put in and took out.
fn meant(under: Under, answer: State) -> bool {
    let (puts, taken) = match answer.kind {
        Kind::Pushed => (1, None),
        Kind::Displaced => (1, under.took.map(|item| Kind::Displaced.with(&[item]))),
        Kind::Popped => (0, under.took.map(|item| Kind::Popped.with(&[item]))),
        _ => (0, None),
    };
    let takes = u64::from(matches!(answer.kind, Kind::Displaced | Kind::Popped));
    (under.puts, under.takes) == (puts, takes) && (takes == 0 || taken == Some(answer))
}
