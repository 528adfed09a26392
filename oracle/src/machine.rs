//! The machine of document 01 around the running source: workers, meter and refusals are the port's and written here as the
//! document says; what an act does, which place comes next and what a call answers is the source's doing.

use crate::call::{Call, Entry};
use crate::causes::{Causes, Watch};
use crate::coroutine::Coroutine;
use crate::facts::Refusal;
use crate::plain::Account;
use crate::window::Window;
use crate::queue::{Making, Queue};
use crate::source::{items_dropped, Seen, Source};
use crate::stage::{self, Action, Pending, Said, Word};
use crate::state::{Kind, State};
use crate::tally::{Ending, Tally};
use std::cell::Cell;

/// Refusal 7 is given from here on.
const METER_LIMIT: u64 = 4_294_967_295;

thread_local! {
    /// The call a worker is about to begin, and the queue to call.
    static CALL: Cell<Option<(Call, *const dyn Source)>> = const { Cell::new(None) };
}

/// A call under way.
#[derive(Clone, Copy)]
struct Busy {
    call: Call,
    pending: Pending,
    seen: Seen,
}

struct Worker {
    coroutine: Coroutine,
    busy: Option<Busy>,
    /// The place of the call, or the last answer.
    state: State,
    losses: Losses,
}

/// The exchanges that a worker's present call, or its last one, lost.
#[derive(Clone, Copy, Debug, Default, PartialEq, Eq)]
pub struct Losses {
    /// Because the words differed.
    pub differed: u64,
    /// By the schedule.
    pub failed: u64,
}

pub struct Machine {
    kind: Queue,
    queue: *mut dyn Source,
    workers: Vec<Worker>,
    meter: u64,
    stock: u64,
    watch: Watch,
    because: Option<Causes>,
    plain: Account,
    window: Window,
    pub tally: Tally,
}

impl Machine {
    pub fn make(making: Making, workers: u64) -> Result<Machine, Refusal> {
        Ok(Machine::over(making, making.source(workers)?, workers as usize))
    }

    /// A machine over a fresh queue.
    pub(crate) fn over(making: Making, source: Box<dyn Source>, workers: usize) -> Machine {
        Machine {
            kind: making.queue(),
            queue: Box::into_raw(source),
            workers: (0..workers).map(|_| Worker::new()).collect(),
            meter: 0,
            stock: 0,
            watch: Watch::new(workers),
            because: None,
            plain: Account::new(making, workers),
            window: Window::new(making, workers),
            tally: Tally::new(making.queue()),
        }
    }

    pub fn source(&self) -> &dyn Source {
        // SAFETY: the machine keeps the queue while it lives, and nobody changes it but through a shared reference.
        unsafe { &*self.queue }
    }

    pub fn word(&self, word: Word) -> u64 {
        self.source().word(word)
    }

    pub fn value(&self, slot: usize) -> u64 {
        self.source().value(slot)
    }

    pub fn meter(&self) -> u64 {
        self.meter
    }

    /// How many acts there are before refusal 7.
    pub fn acts_left(&self) -> u64 {
        METER_LIMIT.saturating_sub(self.meter)
    }

    /// The items claimed at tail whose value is not yet read out.
    pub fn stock(&self) -> u64 {
        self.stock
    }

    /// Why the last entry's act went back, if it was one that did.
    pub fn because(&self) -> Option<Causes> {
        self.because
    }

    /// The causes that there would be if a busy worker went back without an exchange.
    pub fn would_be(&self, worker: usize) -> Option<Causes> {
        self.workers[worker].busy.map(|busy| self.watch.causes(worker, busy.call))
    }

    /// Answers beyond the window of sixteen-bit words are held to the plain queue too, of which they are none.
    pub fn judged_beyond_the_window(&mut self) {
        self.window.uncounted();
    }

    /// Whether the entries so far keep the window of sixteen-bit words.
    pub fn window(&self) -> &Window {
        &self.window
    }

    /// The plain queue along the entries so far.
    pub fn plain(&self) -> &Account {
        &self.plain
    }

    pub fn workers(&self) -> usize {
        self.workers.len()
    }

    /// Where a worker stands, or none if there is no such worker.
    pub fn state(&self, worker: u64) -> Option<State> {
        self.worker(worker).map(|worker| worker.state)
    }

    /// What a worker lost, or none if there is no such worker.
    pub fn losses(&self, worker: u64) -> Option<Losses> {
        self.worker(worker).map(|worker| worker.losses)
    }

    pub fn busy(&self, worker: u64) -> bool {
        self.pending(worker).is_some()
    }

    /// The first words of the acts that are not refused.
    pub fn acts(&self) -> Vec<u64> {
        let mut acts = Vec::new();
        for worker in 0..self.workers() as u64 {
            match self.pending(worker) {
                None => {}
                Some(Action::WeakExchange(..)) => acts.extend([16 * worker + 8, 16 * worker + 9]),
                Some(_) => acts.push(16 * worker + 8),
            }
        }
        acts
    }

    /// The action a busy worker does next.
    pub fn pending(&self, worker: u64) -> Option<Action> {
        self.worker(worker)?.busy.map(|busy| busy.pending.action)
    }

    /// Whether the next act of a worker would be refused by 23.
    pub fn lacks_a_block(&self, worker: u64) -> bool {
        self.pending(worker) == Some(Action::Take) && self.source().none_free()
    }

    fn worker(&self, worker: u64) -> Option<&Worker> {
        self.workers.get(usize::try_from(worker).ok()?)
    }

    /// One entry of a schedule: 0 or a refusal. The machine stays as it was if the entry is refused. Refusal 6 is not given
    /// here: from a fresh machine the source never comes to a broken one.
    pub fn enter(&mut self, first: u64, second: u64) -> Refusal {
        let worker = first / 16;
        self.because = None;
        self.plain.next();
        self.window.next();
        let done = match Entry::decode(self.kind, first % 16, second) {
            None => Err(9),
            Some(_) if self.worker(worker).is_none() => Err(3),
            Some(Entry::Begin(call)) => self.begin(worker as usize, call),
            Some(Entry::Act { lose }) => self.act(worker as usize, lose),
        };
        if done.is_ok() {
            self.plain.done();
        }
        let refusal = done.err().unwrap_or(0);
        self.tally.refusal(refusal);
        refusal
    }

    /// The call runs up to its first action; that is no act.
    fn begin(&mut self, worker: usize, call: Call) -> Result<(), Refusal> {
        if self.workers[worker].busy.is_some() {
            return Err(4);
        }
        self.workers[worker].losses = Losses::default();
        self.plain.begin(worker, call);
        CALL.set(Some((call, self.queue)));
        self.resume(worker);
        self.settle(worker, call, Seen::default());
        Ok(())
    }

    fn act(&mut self, worker: usize, lose: bool) -> Result<(), Refusal> {
        let Some(Busy { call, pending, mut seen }) = self.workers[worker].busy else {
            return Err(5);
        };
        if self.meter >= METER_LIMIT {
            return Err(7);
        }
        if lose && !matches!(pending.action, Action::WeakExchange(..)) {
            return Err(8);
        }
        if self.lacks_a_block(worker as u64) {
            return Err(23);
        }
        let place = self.workers[worker].state.kind;
        self.meter += 1;
        stage::let_lose(lose);
        self.resume(worker);
        self.count_act(worker, place, pending.action, lose, &seen);
        self.count_stock(pending.action, &seen);
        let met = stage::met();
        let causes = self.watch.act(worker, call, pending.action, met);
        self.source().note(&mut seen, pending, met);
        self.settle(worker, call, seen);
        let Worker { busy, state, .. } = &self.workers[worker];
        let answer = busy.is_none().then_some(*state);
        self.window.act(worker, place, self.workers[worker].state.kind);
        if self.window.is_left() {
            self.plain.beyond(answer.is_some());
        } else {
            self.plain.act(worker, pending.action, met, answer);
        }
        self.count_back(worker, place, causes);
        Ok(())
    }

    fn resume(&self, worker: usize) {
        self.source().enter();
        self.workers[worker].coroutine.resume();
    }

    /// A call goes back if the place it comes to is an earlier one.
    fn count_back(&mut self, worker: usize, from: Kind, causes: Causes) {
        if self.workers[worker].busy.is_some() && self.workers[worker].state.kind < from {
            self.because = Some(causes);
            self.tally.backs.count(from, causes);
        }
    }

    /// Records where a worker came to rest: before its next action, or with its call's answer.
    fn settle(&mut self, worker: usize, call: Call, seen: Seen) {
        let (busy, state) = match stage::said() {
            Said::Pending(pending) => (Some(Busy { call, pending, seen }), self.source().place(call, pending, &seen)),
            Said::Answer(state) => {
                self.tally.answer(call, state.kind);
                (None, state)
            }
        };
        self.tally.place(state.kind);
        let worker = &mut self.workers[worker];
        worker.busy = busy;
        worker.state = state;
    }

    fn count_act(&mut self, worker: usize, place: Kind, action: Action, lose: bool, seen: &Seen) {
        let met = stage::met();
        self.tally.acts += 1;
        match action {
            Action::Exchange(_, expected, _) | Action::WeakExchange(_, expected, _) => {
                let ending = match (met.won, met.found == expected) {
                    (true, _) => Ending::Won,
                    (false, true) => Ending::LostBySchedule,
                    (false, false) if lose => Ending::LostByBoth,
                    (false, false) => Ending::LostByWords,
                };
                self.tally.exchange(place, ending);
                self.workers[worker].losses.count(ending);
            }
            // Nothing but a close changes tail under a worker at F7.
            Action::Store(Word::Tail, _) | Action::FetchAdd(Word::Tail, _) if seen.tail != Some(met.found as u64) => {
                self.tally.closes_met += 1;
            }
            _ => {}
        }
    }

    /// Tail is claimed by a won exchange and by the store of F7; a value is read by the call that won head.
    fn count_stock(&mut self, action: Action, seen: &Seen) {
        match action {
            Action::WeakExchange(Word::Tail, ..) if stage::met().won => self.stock = self.stock.wrapping_add(1),
            Action::Store(Word::Tail, _) | Action::FetchAdd(Word::Tail, _) => self.stock = self.stock.wrapping_add(1),
            Action::Value(_) if seen.won == Some(Word::Head) => self.stock = self.stock.wrapping_sub(1),
            _ => {}
        }
    }

    /// What the source's `Drop` meets, or refusal 4, and the plain queue at the end. The queue is gone afterwards, so this comes last.
    pub fn ended(mut self) -> (Result<Vec<u64>, Refusal>, Account) {
        let plain = std::mem::replace(&mut self.plain, Account::new(Making::Single, 0));
        if self.any_busy() {
            return (Err(4), plain);
        }
        (Ok(items_dropped(|| drop(self))), plain)
    }

    pub fn contents(self) -> Result<Vec<u64>, Refusal> {
        self.ended().0
    }

    fn any_busy(&self) -> bool {
        self.workers.iter().any(|worker| worker.busy.is_some())
    }
}

impl Drop for Machine {
    /// A worker may still stand in a call. Its stack is given up as it is: it holds numbers and nothing to be freed.
    fn drop(&mut self) {
        if self.any_busy() {
            self.source().abandon();
        }
        // SAFETY: made by `Box::into_raw`, and no worker runs again.
        drop(unsafe { Box::from_raw(self.queue) });
    }
}

impl Worker {
    fn new() -> Worker {
        Worker { coroutine: Coroutine::new(serve), busy: None, state: Kind::None.alone(), losses: Losses::default() }
    }
}

impl Losses {
    /// Where both kinds apply it is the words'.
    fn count(&mut self, ending: Ending) {
        match ending {
            Ending::Won => {}
            Ending::LostByWords | Ending::LostByBoth => self.differed += 1,
            Ending::LostBySchedule => self.failed += 1,
        }
    }
}

/// The body of each worker: one call after the other.
extern "C" fn serve() -> ! {
    loop {
        let (call, queue) = CALL.take().expect("a worker is resumed with a call");
        // SAFETY: the machine keeps the queue while its workers run.
        stage::answer(unsafe { &*queue }.answer(call));
    }
}

#[cfg(test)]
mod tests {
    use super::*;
    use crate::call::code::FORCE_PUSH;
    use crate::random::Random;
    use crate::state::NONE;

    /// No run reaches the meter's limit, so it is set: 5, 7, 8 in this order, and a call may still begin.
    #[test]
    fn meter_at_its_limit() {
        for (making, after) in [
            (Queue::RING.making(1), Kind::P2Push.with(&[0, 5])),
            (Making::Single, Kind::A2.with(&[5])),
            (Making::Unbounded, Kind::U2.with(&[NONE, 0, 5])),
        ] {
            let mut machine = Machine::make(making, 2).unwrap_or_else(|_| panic!("refused"));
            machine.meter = METER_LIMIT - 1;
            assert_eq!(machine.acts_left(), 1);
            assert_eq!(
                [(0, 5), (8, 0), (8, 0), (9, 0), (24, 0), (16, 6)].map(|(a, b)| machine.enter(a, b)),
                [0, 0, 7, 7, 5, 0]
            );
            assert_eq!((machine.meter, machine.acts_left()), (METER_LIMIT, 0));
            assert_eq!(machine.state(0), Some(after));
        }
    }

    /// Stepping changes nothing: the same calls made on a second queue directly, outside a coroutine, answer the same.
    #[test]
    fn stepped_and_direct_calls_agree() {
        let mut random = Random::new(3);
        let capacities = |queue: Queue| match queue {
            Queue::Bounded { .. } => &[1, 2, 3, 8, 256, 1024][..],
            Queue::Single | Queue::Unbounded => &[0],
        };
        for making in
            Queue::ALL.iter().flat_map(|queue| capacities(*queue).iter().map(|capacity| queue.making(*capacity)))
        {
            let mut machine = Machine::make(making, 1).unwrap_or_else(|_| panic!("refused"));
            let direct = making.source(1).unwrap_or_else(|_| panic!("refused"));
            for round in 0..5000 {
                let codes: &[u64] =
                    if round < 4900 { &[0, 0, 1, 2, 2, 3, 4, 5, 7] } else { &[0, 1, 2, 2, 3, 4, 5, 6, 7] };
                let code = random.pick(codes);
                if making == Making::Unbounded && code == FORCE_PUSH {
                    continue;
                }
                let item = if code < 2 { random.item() } else { 0 };
                let call = Call::decode(code, item).expect("a call");
                assert_eq!(machine.enter(code, item), 0);
                while machine.busy(0) {
                    assert_eq!(machine.enter(8, 0), 0);
                }
                direct.enter();
                assert_eq!(machine.state(0), Some(direct.answer(call)));
                assert_eq!(written(machine.source()), written(&*direct));
            }
        }
    }

    fn written(source: &dyn Source) -> String {
        let mut out = String::new();
        source.write_words(&mut out);
        source.write_slots(&mut out);
        out
    }
}
