//! Every state that can be reached, each once, layer by layer: a layer has those that need one entry more than those of the layer before. A schedule of the fewest acts is then one of the
//! fewest entries, since all begin the same calls.
//!
//! States stand by their shared words. Of those with the same a state is one word: of each worker the number of its part (world.rs). Below it, in the same word, stands what is noted of it
//! while its layer is made: the fewest changes of worker with which it is reached in so few entries, and the workers that act last where they are so few. From there to the next layer: who
//! went last on such a way goes on for nothing, everybody else for one change. No more need be known, since who can go on for nothing at one change more is no better than everybody else.

use crate::table::{Notes, Shelf, Word};
use crate::world::{Next, World};
use fernmoldew::Answer;
use std::collections::{HashMap, HashSet};

/// Bits of a state's word: low to high, a bit for each worker that does anything, the changes, the parts of these workers.
#[derive(Clone, Debug)]
struct Layout {
    changes: u32,
    /// Of each that does anything: its worker, and how many bits its part has.
    active: Vec<(usize, u32)>,
}

/// What does not fit its bits.
enum Narrow {
    Changes,
    Part(usize),
}

/// Why not all that comes next of states is found.
enum Cut {
    /// So many states as were allowed are there.
    Most,
    Narrow(Narrow),
}

/// Bits of a part to begin with, where there are so many.
const USUAL: u32 = 8;
const FEWEST: u32 = 2;

impl Layout {
    fn new(world: &World) -> Layout {
        let active: Vec<usize> = (0..world.workers()).filter(|worker| world.is_active(*worker)).collect();
        let noted = CHANGES + active.len() as u32;
        let each = u64::BITS.saturating_sub(noted) / (active.len() as u32).max(1);
        let bits = each.clamp(FEWEST, USUAL);
        Layout { changes: CHANGES, active: active.into_iter().map(|worker| (worker, bits)).collect() }
    }

    fn noted(&self) -> u32 {
        self.changes + self.active.len() as u32
    }

    fn bits(&self) -> u32 {
        self.noted() + self.active.iter().map(|active| active.1).sum::<u32>()
    }

    fn widened(&self, narrow: Narrow) -> Layout {
        let mut wider = self.clone();
        match narrow {
            Narrow::Changes => wider.changes += 1,
            Narrow::Part(at) => wider.active[at].1 += 1,
        }
        wider
    }
}

/// Bits of the changes to begin with.
const CHANGES: u32 = 4;

/// A part of the key: where it begins, and its mask there.
#[derive(Clone, Copy)]
struct Field<W> {
    shift: u32,
    mask: W,
}

/// One way in which all calls have ended: what each worker's answered, by the numbers of world.rs.
struct Ending<W> {
    answers: Vec<u32>,
    entries: usize,
    /// A state that so few entries, and then so few changes, lead to: its shared words, and its word.
    last: (u32, W),
    /// The shared words with which it ends.
    shared: HashSet<u32>,
}

/// How a search ended: nothing is left to try; or so many states as were allowed were found, somebody asked it to stop, or no word is wide enough.
#[derive(Clone, Copy, PartialEq, Eq)]
enum Stop {
    Complete,
    Short,
}

/// States of a layer that have the same shared words: where they stand on their shelf.
#[derive(Clone, Copy)]
struct Run {
    shared: u32,
    from: u32,
    to: u32,
}

/// A search under way, in words of 64 or of 128 bits.
struct Search<W> {
    layout: Layout,
    fields: Vec<Field<W>>,
    notes: Notes<W>,
    /// The states, by their shared words.
    shelves: Vec<Shelf<W>>,
    states: usize,
    edges: Edges<W>,
    /// The layers that are whole, by shared words; of the last one states are being tried.
    layers: Vec<Vec<Run>>,
    /// Shelves that have states of the layer that is made.
    touched: Vec<u32>,
    /// The run of the last layer at which it is, and how many of its states are tried; and of all.
    at: usize,
    of_run: u32,
    tried: usize,
    endings: HashMap<Vec<u32>, Ending<W>>,
    reduced: bool,
}

/// How a worker's entry leads on, from certain shared words and a part of it: to which buckets, with its exchange failing too where that leads elsewhere.
#[derive(Clone, Copy)]
struct Edge {
    /// Known in this turn alone.
    turn: u32,
    bucket: u16,
    failing: u16,
}

const NOWHERE: u16 = u16::MAX;

/// States that one entry leads to, which all have the same shared words.
#[derive(Clone, Copy)]
struct Bucket<W> {
    /// What is another in the word: the worker's part, and its bit.
    differs: W,
    shared: u32,
    len: u32,
}

/// The edges from the shared words at which the search is: a layer has the states of one number in a row, which is a turn.
struct Edges<W> {
    known: Vec<Edge>,
    /// Where those of each worker begin, by the number of its part.
    first: Vec<usize>,
    turn: u32,
    shared: u32,
    buckets: Vec<Bucket<W>>,
    /// What stands in them, `STRIDE` words for each.
    filled: Vec<W>,
}

/// So many states are tried at once, of so many workers at most; and then it is asked whether to go on.
const BATCH: usize = 256;
/// A bucket's room: such a number that buckets do not meet in a cache.
const STRIDE: usize = BATCH + 8;
/// With so many buckets a turn begins anew, and a batch makes no more than as many again.
const BUCKETS: usize = 4096;

impl<W: Word> Edges<W> {
    fn new(layout: &Layout) -> Edges<W> {
        let mut count = 0;
        let mut first = vec![];
        for (_, bits) in &layout.active {
            first.push(count);
            count += 1 << bits;
        }
        let none = Edge { turn: 0, bucket: NOWHERE, failing: NOWHERE };
        Edges { known: vec![none; count], first, turn: 0, shared: u32::MAX, buckets: vec![], filled: vec![] }
    }

    fn turn_to(&mut self, shared: u32) {
        if self.shared != shared || self.buckets.len() > BUCKETS {
            self.shared = shared;
            self.turn = self.turn.wrapping_add(1);
            if self.turn == 0 {
                self.known.iter_mut().for_each(|edge| edge.turn = 0);
                self.turn = 1;
            }
            self.buckets.clear();
        }
        for bucket in &mut self.buckets {
            bucket.len = 0;
        }
    }

    fn bucket(&mut self, differs: W, shared: u32) -> u16 {
        let number = self.buckets.len();
        self.buckets.push(Bucket { differs, shared, len: 0 });
        if self.filled.len() < STRIDE * (number + 1) {
            self.filled.resize(STRIDE * (number + 1), W::ZERO);
        }
        number as u16
    }

    #[inline]
    fn put(&mut self, bucket: u16, word: W) {
        let number = bucket as usize;
        let bucket = &mut self.buckets[number];
        self.filled[STRIDE * number + bucket.len as usize] = word ^ bucket.differs;
        bucket.len += 1;
    }
}

impl<W: Word> Search<W> {
    fn new(layout: Layout, reduced: bool) -> Search<W> {
        let mut search = Search {
            fields: fields(&layout),
            notes: notes(&layout),
            edges: Edges::new(&layout),
            layout,
            shelves: vec![],
            states: 1,
            layers: vec![vec![Run { shared: 0, from: 0, to: 1 }]],
            touched: vec![],
            at: 0,
            of_run: 0,
            tried: 0,
            endings: HashMap::new(),
            reduced,
        };
        // nobody went last, so that all go on for nothing; the state itself is number 0 throughout
        let everybody = ((1u128 << search.layout.active.len()) - 1) as u64;
        search.shelves.push(Shelf::of(vec![W::of(everybody)], 1, search.notes.key));
        search
    }

    #[inline]
    fn changes_of(&self, word: W) -> u64 {
        (word >> self.layout.active.len() as u32).low() & ((1 << self.layout.changes) - 1)
    }

    /// Who went last, a bit each.
    #[inline]
    fn last_of(&self, word: W) -> u64 {
        word.low() & (((1u128 << self.layout.active.len()) - 1) as u64)
    }

    #[inline]
    fn part_of(&self, word: W, at: usize) -> u32 {
        let Field { shift, mask } = self.fields[at];
        ((word & mask) >> shift).low() as u32
    }

    #[inline]
    fn with(&self, key: W, at: usize, part: u32) -> W {
        let own = self.fields[at];
        key & !own.mask | W::of(u64::from(part)) << own.shift
    }

    /// Searches on until nothing is left, so many states are there, or `goes_on` says no. Where the layout is too narrow, one that is not: nothing is lost, and the search goes on in it.
    fn run(
        &mut self,
        world: &mut World,
        most: usize,
        goes_on: &mut dyn FnMut(usize, usize) -> bool,
    ) -> Result<Stop, Layout> {
        let batch = (BATCH.min(BUCKETS / (2 * self.layout.active.len().max(1))) as u32).max(1);
        loop {
            let layer = &self.layers[self.layers.len() - 1];
            let Some(run) = layer.get(self.at).copied() else {
                if self.touched.is_empty() {
                    return Ok(Stop::Complete);
                }
                self.close_layer();
                continue;
            };
            if !goes_on(self.states, self.tried) {
                return Ok(self.stopped(world));
            }
            let from = run.from + self.of_run;
            let to = run.to.min(from + batch);
            match self.try_states(world, run.shared, from as usize, to as usize, most) {
                Ok(()) => {}
                Err(Cut::Most) => return Ok(self.stopped(world)),
                // nothing was found yet of these states
                Err(Cut::Narrow(narrow)) => return Err(self.layout.widened(narrow)),
            }
            self.tried += (to - from) as usize;
            self.of_run += to - from;
            if to == run.to {
                self.at += 1;
                self.of_run = 0;
            }
        }
    }

    /// Finds everything that comes next of some states of one shelf: first all of it, by the entries that lead there, and then each shelf is come to with what is for it.
    fn try_states(&mut self, world: &mut World, shared: u32, from: usize, to: usize, most: usize) -> Result<(), Cut> {
        self.edges.turn_to(shared);
        let count = self.layout.active.len();
        let widest = (1 << self.layout.changes) - 1;
        for number in from..to {
            let word = self.shelves[shared as usize].words()[number];
            let (key, changes, last) = (word & self.notes.key, self.changes_of(word), self.last_of(word));
            if changes == widest {
                return Err(Cut::Narrow(Narrow::Changes));
            }
            // who went last goes on for nothing, everybody else for one change
            let goes_on = key | W::of(changes) << count as u32;
            let takes_over = key | W::of(changes + 1) << count as u32;
            let only = if self.reduced {
                (0..count).find(|at| world.is_alone(self.layout.active[*at].0, self.part_of(word, *at)))
            } else {
                None
            };
            let mut is_end = true;
            for at in only.map_or(0..count, |only| only..only + 1) {
                let part = self.part_of(word, at);
                let place = self.edges.first[at] + part as usize;
                let mut edge = self.edges.known[place];
                if edge.turn != self.edges.turn {
                    edge = self.learn(world, at, shared, part).map_err(Cut::Narrow)?;
                    self.edges.known[place] = edge;
                }
                if edge.bucket == NOWHERE {
                    continue;
                }
                is_end = false;
                let word = if last >> at & 1 == 1 { goes_on } else { takes_over };
                self.edges.put(edge.bucket, word);
                if edge.failing != NOWHERE {
                    self.edges.put(edge.failing, word);
                }
            }
            if is_end {
                self.ended(world, self.layers.len() - 1, shared, word);
            }
        }
        let Search { shelves, edges, states, touched, notes, .. } = self;
        for (number, bucket) in edges.buckets.iter().enumerate() {
            let these = &edges.filled[STRIDE * number..][..bucket.len as usize];
            let shelf = &mut shelves[bucket.shared as usize];
            let before = shelf.words().len() as u32;
            let is_whole = shelf.come_to(these, *notes, || {
                let takes = *states < most;
                *states += usize::from(takes);
                takes
            });
            if before == shelf.closed() && shelf.words().len() as u32 > before {
                touched.push(bucket.shared);
            }
            if !is_whole {
                return Err(Cut::Most);
            }
        }
        Ok(())
    }

    #[cold]
    fn learn(&mut self, world: &mut World, at: usize, shared: u32, part: u32) -> Result<Edge, Narrow> {
        let turn = self.edges.turn;
        let worker = self.layout.active[at].0;
        let Some((next, is_weak)) = world.next(worker, shared, part) else {
            return Ok(Edge { turn, bucket: NOWHERE, failing: NOWHERE });
        };
        let bucket = self.bucket(at, part, next)?;
        let failing = match if is_weak { world.next_losing(worker, shared, part) } else { None } {
            Some(next) => self.bucket(at, part, next)?,
            None => NOWHERE,
        };
        Ok(Edge { turn, bucket, failing })
    }

    fn bucket(&mut self, at: usize, part: u32, next: Next) -> Result<u16, Narrow> {
        if u64::from(next.part) >> self.layout.active[at].1 != 0 {
            return Err(Narrow::Part(at));
        }
        if next.shared as usize >= self.shelves.len() {
            self.shelves.resize_with(next.shared as usize + 1, Shelf::new);
        }
        let differs = W::of(u64::from(part ^ next.part)) << self.fields[at].shift | W::of(1 << at);
        Ok(self.edges.bucket(differs, next.shared))
    }

    /// The layer that was made is whole: it is the next to be tried, by shared words.
    fn close_layer(&mut self) {
        let mut touched = std::mem::take(&mut self.touched);
        touched.sort_unstable();
        let runs = touched.iter().map(|shared| {
            let shelf = &mut self.shelves[*shared as usize];
            let from = shelf.closed();
            shelf.close();
            Run { shared: *shared, from, to: shelf.closed() }
        });
        let runs = runs.collect();
        self.layers.push(runs);
        (self.at, self.of_run) = (0, 0);
        touched.clear();
        self.touched = touched;
    }

    /// The same search in another layout.
    fn in_layout<V: Word>(self, layout: Layout) -> Search<V> {
        let Search { layout: old, fields: old_fields, notes: old_notes, shelves, edges, .. } = self;
        drop(edges);
        let (fields, notes) = (fields::<V>(&layout), notes::<V>(&layout));
        let noted = !old_notes.key;
        let in_it = |word: W| {
            let mut other = V::of((word & noted).low());
            for (from, to) in old_fields.iter().zip(&fields) {
                other = other | V::of(((word & from.mask) >> from.shift).low()) << to.shift;
            }
            other
        };
        debug_assert!(old.noted() <= layout.noted() && layout.noted() <= u64::BITS);
        let shelves = shelves
            .into_iter()
            .map(|shelf| {
                let closed = shelf.closed();
                Shelf::of(shelf.into_words().into_iter().map(in_it).collect(), closed, notes.key)
            })
            .collect();
        let endings = self.endings.into_iter().map(|(answers, ending)| {
            let Ending { answers: same, entries, last: (by, word), shared } = ending;
            (answers, Ending { answers: same, entries, last: (by, in_it(word)), shared })
        });
        let endings = endings.collect();
        Search {
            edges: Edges::new(&layout),
            layout,
            fields,
            notes,
            shelves,
            states: self.states,
            layers: self.layers,
            touched: self.touched,
            at: self.at,
            of_run: self.of_run,
            tried: self.tried,
            endings,
            reduced: self.reduced,
        }
    }

    /// Stopped before its end: the last layer is as whole as it is.
    fn stopped(&mut self, world: &World) -> Stop {
        // what was found and not tried yet may have ended all calls, and then there is nothing to try
        let here = self.layers.len() - 1;
        let (at, of_run) = (self.at, self.of_run);
        self.close_layer();
        let mut left: Vec<(usize, Run)> = self.layers[here][at..].iter().map(|run| (here, *run)).collect();
        if let Some((_, run)) = left.first_mut() {
            run.from += of_run;
        }
        left.extend(self.layers[here + 1].iter().map(|run| (here + 1, *run)));
        for (entries, run) in left {
            for number in run.from..run.to {
                let word = self.shelves[run.shared as usize].words()[number as usize];
                if self.is_end(world, word) {
                    self.tried += 1;
                    self.ended(world, entries, run.shared, word);
                }
            }
        }
        Stop::Short
    }

    fn is_end(&self, world: &World, word: W) -> bool {
        self.layout.active.iter().enumerate().all(|(at, (worker, _))| world.is_done(*worker, self.part_of(word, at)))
    }

    /// Notes the ending of a state that ends all calls, after so many entries.
    fn ended(&mut self, world: &World, entries: usize, shared: u32, word: W) {
        let answers: Vec<u32> = self
            .layout
            .active
            .iter()
            .enumerate()
            .map(|(at, (worker, _))| world.answers_number(*worker, self.part_of(word, at)))
            .collect();
        // of equal ones that whose last worker has the highest number: then schedules begin with the lowest
        let rank = |search: &Search<W>, (shared, word): (u32, W)| {
            (search.changes_of(word), search.last_of(word).leading_zeros(), shared, word)
        };
        let is_better = match self.endings.get(&answers) {
            Some(known) => known.entries == entries && rank(self, (shared, word)) < rank(self, known.last),
            None => true,
        };
        let ending = self.endings.entry(answers.clone()).or_insert_with(|| Ending {
            answers,
            entries,
            last: (shared, word),
            shared: HashSet::new(),
        });
        ending.shared.insert(shared);
        if is_better {
            ending.last = (shared, word);
        }
    }

    /// A schedule of each of these endings, from its last entry to its first: what is noted of each layer says which state before is on such a way, and who went last there.
    fn schedules(&self, world: &World, endings: &[&Ending<W>]) -> Vec<Vec<[u64; 2]>> {
        let mut before: Vec<HashMap<Next, Vec<(Next, bool)>>> = vec![HashMap::new(); self.layout.active.len()];
        for (steps, (worker, _)) in before.iter_mut().zip(&self.layout.active) {
            for (from, to, fails) in world.steps_of(*worker) {
                steps.entry(to).or_default().push((from, fails));
            }
        }
        let mut ways: Vec<Way<W>> = endings
            .iter()
            .map(|ending| {
                let (shared, word) = ending.last;
                let (by, changes) = (highest(self.last_of(word)), self.changes_of(word));
                Way { shared, key: word & self.notes.key, by, changes, entries: vec![] }
            })
            .collect();
        let deepest = endings.iter().map(|ending| ending.entries).max().unwrap_or(0);
        for layer in (0..deepest).rev() {
            // every state from which such a way's state may have come: which way, and whether by an exchange that failed
            let mut sought: HashMap<u32, HashMap<W, Vec<(usize, bool)>>> = HashMap::new();
            for (number, way) in ways.iter().enumerate().filter(|(number, _)| endings[*number].entries > layer) {
                let to = Next { shared: way.shared, part: self.part_of(way.key, way.by) };
                for (from, fails) in before[way.by].get(&to).into_iter().flatten() {
                    let key = self.with(way.key, way.by, from.part);
                    sought.entry(from.shared).or_default().entry(key).or_default().push((number, *fails));
                }
            }
            let mut best: Vec<Option<Before<W>>> = vec![None; ways.len()];
            for run in &self.layers[layer] {
                let Some(sought) = sought.get(&run.shared) else { continue };
                for word in &self.shelves[run.shared as usize].words()[run.from as usize..run.to as usize] {
                    let key = *word & self.notes.key;
                    for (number, fails) in sought.get(&key).into_iter().flatten().copied() {
                        let way = &ways[number];
                        let (changes, last) = (self.changes_of(*word), self.last_of(*word));
                        let goes_on = last >> way.by & 1 == 1;
                        if changes + u64::from(!goes_on) != way.changes {
                            continue;
                        }
                        let by = if goes_on { way.by } else { highest(last) };
                        let rank = (fails, !goes_on, u32::MAX - by as u32, run.shared, key);
                        if best[number].as_ref().is_none_or(|known| rank < known.rank) {
                            best[number] = Some(Before { rank, by, changes });
                        }
                    }
                }
            }
            for (way, found) in ways.iter_mut().zip(best) {
                let Some(Before { rank: (fails, _, _, shared, key), by, changes }) = found else { continue };
                let (worker, part) = (self.layout.active[way.by].0, self.part_of(key, way.by));
                way.entries.push(match world.call_next(worker, part) {
                    Some(call) => call.entry(worker),
                    None if fails => fernmoldew::losing_entry(worker),
                    None => fernmoldew::act_entry(worker),
                });
                (way.shared, way.key, way.by, way.changes) = (shared, key, by, changes);
            }
        }
        for (way, ending) in ways.iter_mut().zip(endings) {
            assert!(way.entries.len() == ending.entries, "every layer has a state on the way");
            way.entries.reverse();
        }
        ways.into_iter().map(|way| way.entries).collect()
    }

    fn outcome(&self, world: &mut World, stop: Stop, wanted: Wanted) -> Outcome {
        let (states, left) = (self.states, self.states - self.tried);
        let begins: usize = (0..world.workers()).map(|worker| world.calls(worker)).sum();
        let mut endings: Vec<(Found, &Ending<W>)> = vec![];
        for ending in self.endings.values() {
            let mut answers = vec![vec![]; world.workers()];
            for ((worker, _), number) in self.layout.active.iter().zip(&ending.answers) {
                answers[*worker] = world.answers_of(*number);
            }
            let mut waits: Vec<Vec<u64>> = ending.shared.iter().map(|shared| world.contents(*shared)).collect();
            waits.sort();
            waits.dedup();
            let (acts, changes) = (ending.entries - begins, self.changes_of(ending.last.1));
            endings.push((Found { answers, acts, changes, waits, schedule: None }, ending));
        }
        endings.sort_by_key(|(found, _)| {
            let answers: Vec<Vec<(usize, u64)>> =
                found.answers.iter().map(|answers| answers.iter().map(|answer| rank_of(*answer)).collect()).collect();
            (found.acts, found.changes, answers)
        });
        let chosen: Vec<usize> = match wanted {
            Wanted::Nothing => vec![],
            Wanted::One(number) => number.checked_sub(1).filter(|at| *at < endings.len()).into_iter().collect(),
            Wanted::All => (0..endings.len()).collect(),
        };
        let these: Vec<&Ending<W>> = chosen.iter().map(|at| endings[*at].1).collect();
        let schedules = if these.is_empty() { vec![] } else { self.schedules(world, &these) };
        for (at, schedule) in chosen.into_iter().zip(schedules) {
            endings[at].0.schedule = Some(schedule);
        }
        Outcome {
            states,
            left,
            is_complete: stop == Stop::Complete,
            steps: world.steps,
            endings: endings.into_iter().map(|(found, _)| found).collect(),
        }
    }
}

/// A schedule that is being found, from its end: the state that it is at, who went last, and the changes up to there.
struct Way<W> {
    shared: u32,
    key: W,
    by: usize,
    changes: u64,
    entries: Vec<[u64; 2]>,
}

/// A state from which it may have come. Of several the least: by no exchange that failed, by who goes on, by the highest worker, and so that it is one.
#[derive(Clone, Copy)]
struct Before<W> {
    rank: (bool, bool, u32, u32, W),
    by: usize,
    changes: u64,
}

fn highest(workers: u64) -> usize {
    63 - workers.leading_zeros() as usize
}

/// Answers in an order: by what they are, then by their number.
fn rank_of(answer: Answer) -> (usize, u64) {
    match answer {
        Answer::Nothing => (0, 0),
        Answer::Pushed => (1, 0),
        Answer::Displaced(item) => (2, item),
        Answer::Full(_) => (3, 0),
        Answer::Popped(item) => (4, item),
        Answer::Empty => (5, 0),
        Answer::Len(count) => (6, count),
        Answer::Yes => (7, 0),
        Answer::No => (8, 0),
        Answer::Closed(_) | Answer::PopClosed => (9, 0),
    }
}

/// Of which endings a schedule is wanted, by their numbers from 1.
#[derive(Clone, Copy)]
pub enum Wanted {
    Nothing,
    One(usize),
    All,
}

pub struct Found {
    /// Of each worker's calls, in their order.
    pub answers: Vec<Vec<Answer>>,
    /// The fewest.
    pub acts: usize,
    /// The fewest with so few acts; of a reduced search, those of the schedule that it found.
    pub changes: u64,
    /// What can wait at the end.
    pub waits: Vec<Vec<u64>>,
    pub schedule: Option<Vec<[u64; 2]>>,
}

pub struct Outcome {
    pub states: usize,
    /// Found, and not tried.
    pub left: usize,
    pub is_complete: bool,
    /// How many steps the library took.
    pub steps: u64,
    /// By acts, changes and answers.
    pub endings: Vec<Found>,
}

/// Searches, with at most so many states, until `goes_on` says no: it is told how many were found and how many of these tried.
pub fn search(
    world: &mut World,
    reduced: bool,
    most: usize,
    wanted: Wanted,
    goes_on: &mut dyn FnMut(usize, usize) -> bool,
) -> Outcome {
    enum Either {
        Short(Search<u64>),
        Long(Search<u128>),
    }
    let layout = Layout::new(world);
    if layout.bits() > u128::BITS {
        // each of these workers has three places at least: no memory has room for the search
        return Outcome { states: 1, left: 1, is_complete: false, steps: 0, endings: vec![] };
    }
    let mut search = if layout.bits() <= u64::BITS {
        Either::Short(Search::new(layout, reduced))
    } else {
        Either::Long(Search::new(layout, reduced))
    };
    loop {
        search = match search {
            Either::Short(mut search) => match search.run(world, most, goes_on) {
                Ok(stop) => return search.outcome(world, stop, wanted),
                Err(wider) if wider.bits() <= u64::BITS => Either::Short(search.in_layout(wider)),
                Err(wider) => Either::Long(search.in_layout(wider)),
            },
            Either::Long(mut search) => match search.run(world, most, goes_on) {
                Ok(stop) => return search.outcome(world, stop, wanted),
                Err(wider) if wider.bits() <= u128::BITS => Either::Long(search.in_layout(wider)),
                Err(_) => {
                    let stop = search.stopped(world);
                    return search.outcome(world, stop, wanted);
                }
            },
        }
    }
}

fn notes<W: Word>(layout: &Layout) -> Notes<W> {
    let noted = layout.noted();
    Notes { key: !(W::of(((1u128 << noted) - 1) as u64)), by_all: layout.active.len() as u32 }
}

fn fields<W: Word>(layout: &Layout) -> Vec<Field<W>> {
    let mut shift = layout.noted();
    let mut fields = vec![];
    for (_, bits) in &layout.active {
        fields.push(Field { shift, mask: W::of((1 << bits) - 1) << shift });
        shift += bits;
    }
    fields
}
