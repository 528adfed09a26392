//! A test bed for programs around the queue: what loom and shuttle are for threads.
//!
//! A program is a closure. It makes [`ConcurrentQueue`](crate::ConcurrentQueue)s and [`spawn`]s tasks; the bed runs it many times, one task at a time, and chooses before each begin and each act who goes on. [`random`] chooses by
//! seeds; [`explore`] takes every order of acts, up to a bound on them, and none twice from a state that it has been in. What fails is told with its seed and with a tape of each queue, for `./replay --explain --tape`.
//!
//! ```
//! use fernmoldew::{model, ConcurrentQueue};
//! use std::sync::Arc;
//!
//! let explored = model::explore(|| {
//!     let queue = Arc::new(ConcurrentQueue::bounded(2));
//!     let reader = {
//!         let queue = Arc::clone(&queue);
//!         model::spawn(move || queue.push(2950))
//!     };
//!     let judged = queue.pop();
//!     assert_eq!(reader.join(), Ok(()));
//!     assert!(judged.is_ok() || queue.len() == 1);
//! });
//! assert!(explored.complete());
//! ```
//!
//! What tasks share must be queues of the bed, and what joins hand over: a task is to do the same wherever its calls answer the same. [`explore`] takes states for the same by the queues' words and by what each task was answered, as
//! digests of 128 bits. A begin touches nothing that another task sees, so that [`explore`] has no other orders of begins. The machines are the proved ones; this module is not proved.

use std::cell::RefCell;
use std::collections::hash_map::DefaultHasher;
use std::collections::HashMap;
use std::fmt;
use std::future::Future;
use std::hash::{Hash, Hasher};
use std::panic::{catch_unwind, resume_unwind, AssertUnwindSafe};
use std::path::{Path, PathBuf};
use std::sync::atomic::{AtomicU64, Ordering};
use std::sync::{Arc, Condvar, Mutex, MutexGuard};
use std::task::{Context, Poll, Wake, Waker};
use std::{env, fs, io, process, thread};

use crate::queue::{locked, Stepped, MOST_TASKS};
use crate::{Answer, Edition, Tape};

/// How programs are run.
#[derive(Clone, Copy, Debug)]
pub struct Bed {
    edition: Edition,
    acts: u64,
    seed: u64,
    runs: u64,
    losses: bool,
}

impl Default for Bed {
    fn default() -> Bed {
        Bed { edition: Edition::Source, acts: 10_000, seed: 0, runs: 1_000, losses: false }
    }
}

impl Bed {
    /// The source's edition, 10,000 acts of a run, seeds 0 to 999, no exchange made to fail.
    pub fn new() -> Bed {
        Bed::default()
    }

    /// The edition of the queues that programs make.
    pub fn edition(self, edition: Edition) -> Bed {
        Bed { edition, ..self }
    }

    /// The most acts of a run: one that would go on is cut off there, and counted.
    pub fn acts(self, acts: u64) -> Bed {
        Bed { acts, ..self }
    }

    /// The first seed of [`Bed::random`].
    pub fn seed(self, seed: u64) -> Bed {
        Bed { seed, ..self }
    }

    /// How many seeds [`Bed::random`] takes.
    pub fn runs(self, runs: u64) -> Bed {
        Bed { runs, ..self }
    }

    /// Whether weak exchanges are made to fail as well: one in eight, and in [`Bed::explore`] each.
    pub fn losses(self, losses: bool) -> Bed {
        Bed { losses, ..self }
    }

    /// Runs a program once for each seed, in orders that the seed says.
    pub fn random(self, program: impl Fn() + Send + Sync + 'static) -> Result<Explored, Failure> {
        let program: Program = Arc::new(program);
        let mut explored = Explored::default();
        for seed in (0..self.runs).map(|more| self.seed.wrapping_add(more)) {
            let ran = self.run(Chooser::of(seed), &program);
            explored.count(&ran);
            if let Some(Ended::Failed(what)) = ran.ended {
                return Err(Failure { what, seed: Some(seed), runs: explored.runs, recorded: ran.recorded });
            }
        }
        Ok(explored)
    }

    /// Runs a program in every order of acts, up to the bound on them; from a state that it has been in with no more acts it goes no further.
    pub fn explore(self, program: impl Fn() + Send + Sync + 'static) -> Result<Explored, Failure> {
        let program: Program = Arc::new(program);
        let (mut explored, mut trail) = (Explored::default(), Trail::default());
        loop {
            trail.at = 0;
            let ran = self.run(Chooser::Trail(trail), &program);
            explored.count(&ran);
            trail = match ran.chooser {
                Chooser::Trail(left) => left,
                _ => unreachable!("it is handed back"),
            };
            explored.states = trail.seen.len() as u64;
            if let Some(Ended::Failed(what)) = ran.ended {
                return Err(Failure { what, seed: None, runs: explored.runs, recorded: ran.recorded });
            }
            if !trail.turns() {
                return Ok(explored);
            }
        }
    }

    fn run(self, chooser: Chooser, program: &Program) -> Ran {
        static RUNS: AtomicU64 = AtomicU64::new(1);
        let state = State { current: usize::MAX, loses: false, acts: 0, alive: 0, tasks: Vec::new(), queues: Vec::new(), chooser, ended: None };
        let run = Arc::new(Run { number: RUNS.fetch_add(1, Ordering::Relaxed), bed: self, state: Mutex::new(state), over: Condvar::new() });
        let program = Arc::clone(program);
        run.starts(Digest::of(&0), move || program());
        let mut state = run.state();
        run.goes_on(&mut state);
        while state.alive > 0 {
            state = wait(&run.over, state);
        }
        let recorded = match state.ended {
            Some(Ended::Failed(_)) => state.queues.iter().map(|queue| Recorded::of(&locked(queue))).collect(),
            _ => Vec::new(),
        };
        let chooser = std::mem::replace(&mut state.chooser, Chooser::of(0));
        Ran { chooser, acts: state.acts, ended: state.ended.take(), recorded }
    }

    /// The task that this thread is, if it is one.
    pub(crate) fn here() -> Option<Here> {
        HERE.with(|here| here.borrow().clone())
    }
}

/// [`Bed::random`] as a test has it: a failure panics, with the seed and the tapes, which are saved below the folder that FERNMOLDEW_TAPES names, or that of temporary files.
///
/// # Panics
/// Where a run fails.
pub fn random(program: impl Fn() + Send + Sync + 'static) -> Explored {
    Bed::new().random(program).unwrap_or_else(|failure| failure.panics())
}

/// [`Bed::explore`] in the same way.
///
/// # Panics
/// Where a run fails.
pub fn explore(program: impl Fn() + Send + Sync + 'static) -> Explored {
    Bed::new().explore(program).unwrap_or_else(|failure| failure.panics())
}

/// What was run, and nothing failed.
#[derive(Clone, Copy, Debug, Default, PartialEq, Eq)]
pub struct Explored {
    /// Runs of the program, also those that ended in a state that was known.
    pub runs: u64,
    /// Acts of all runs.
    pub acts: u64,
    /// States at which there was a choice; of [`Bed::explore`] alone.
    pub states: u64,
    /// Runs that the bound on acts cut off.
    pub cut: u64,
}

impl Explored {
    fn count(&mut self, ran: &Ran) {
        self.runs += 1;
        self.acts += ran.acts;
        self.cut += u64::from(matches!(ran.ended, Some(Ended::Cut)));
    }

    /// Whether no run was cut off: then [`Bed::explore`] has seen every order.
    pub fn complete(&self) -> bool {
        self.cut == 0
    }
}

/// A run that failed: a task panicked, or all waited for one another.
#[derive(Clone, Debug)]
pub struct Failure {
    /// What the task said, or who waits.
    pub what: String,
    /// The seed, of [`Bed::random`]: `Bed::new().seed(it).runs(1)` fails alike.
    pub seed: Option<u64>,
    /// Which run it was, from 1.
    pub runs: u64,
    /// What was done on each queue, in the order in which they were made.
    pub recorded: Vec<Recorded>,
}

/// The schedule of a queue of a run that failed.
#[derive(Clone, Debug)]
pub struct Recorded {
    /// Its name for `./replay --queue`.
    pub queue: &'static str,
    /// Its edition.
    pub edition: Edition,
    /// The schedule; a task's number is the worker's.
    pub tape: Tape,
}

impl Recorded {
    fn of(stepped: &Stepped) -> Recorded {
        Recorded { queue: stepped.name(), edition: stepped.edition(), tape: stepped.tape() }
    }
}

impl Failure {
    /// Writes each queue's tape into a folder, and gives their paths.
    pub fn save(&self, folder: &Path) -> io::Result<Vec<PathBuf>> {
        static SAVED: AtomicU64 = AtomicU64::new(0);
        let number = SAVED.fetch_add(1, Ordering::Relaxed);
        fs::create_dir_all(folder)?;
        let save = |(place, recorded): (usize, &Recorded)| {
            let path = folder.join(format!("fernmoldew-{}-{number}-{place}.tape", process::id()));
            let bytes = recorded.tape.to_bytes().map_err(|spoiled| io::Error::new(io::ErrorKind::InvalidData, spoiled))?;
            fs::write(&path, bytes).map(|()| path)
        };
        self.recorded.iter().enumerate().map(save).collect()
    }

    fn panics(&self) -> ! {
        let folder = env::var_os("FERNMOLDEW_TAPES").map_or_else(env::temp_dir, PathBuf::from);
        let tapes = match self.save(&folder) {
            Ok(paths) => paths.iter().zip(&self.recorded).map(|(path, recorded)| format!("\n{}", command(recorded, path))).collect(),
            Err(error) => format!("\n{}: {error}", folder.display()),
        };
        panic!("{self}{tapes}")
    }
}

fn command(recorded: &Recorded, path: &Path) -> String {
    let queue = match recorded.queue {
        other @ ("single" | "unbounded") => format!("--queue {other}"),
        _ => format!("--edition {}", recorded.edition as u64),
    };
    format!("./replay --explain {queue} --tape {}", path.display())
}

impl fmt::Display for Failure {
    fn fmt(&self, f: &mut fmt::Formatter<'_>) -> fmt::Result {
        match self.seed {
            Some(seed) => write!(f, "seed {seed}: {}", self.what),
            None => write!(f, "run {}: {}", self.runs, self.what),
        }
    }
}

impl std::error::Error for Failure {}

// ---- Tasks

/// A task that was begun; what it returns can be waited for.
#[derive(Debug)]
pub struct Task<T> {
    number: usize,
    returned: Arc<Mutex<Option<T>>>,
}

impl<T> Task<T> {
    /// Its number, which is also the worker's in a tape; the program itself is task 0.
    pub fn number(&self) -> usize {
        self.number
    }

    /// Waits until the task ends, and hands over what it returned.
    ///
    /// # Panics
    /// Outside of a test bed.
    pub fn join(self) -> T {
        expected_here().waits_for(self.number);
        locked(&self.returned).take().expect("a task that ended has returned")
    }
}

fn expected_here() -> Here {
    Bed::here().expect("only a task of a test bed does this: model::random or model::explore runs it")
}

/// Begins a task: a closure that calls queues.
///
/// # Panics
/// Outside of a test bed, or where there are sixteen tasks.
pub fn spawn<T: Send + 'static>(task: impl FnOnce() -> T + Send + 'static) -> Task<T> {
    let here = expected_here();
    let returned = Arc::new(Mutex::new(None));
    let digest = {
        let mut state = here.run.state();
        let own = &mut state.tasks[here.task];
        own.digest.add(&"spawn");
        own.digest
    };
    let into = Arc::clone(&returned);
    let number = here.run.starts(digest, move || {
        let value = task();
        *locked(&into) = Some(value);
    });
    Task { number, returned }
}

/// Begins a task that is an async function's future. While it is pending it waits until it is woken.
///
/// # Panics
/// As [`spawn`].
pub fn spawn_async<T: Send + 'static>(future: impl Future<Output = T> + Send + 'static) -> Task<T> {
    spawn(move || {
        let here = expected_here();
        let waker = Waker::from(Arc::new(Woken { run: Arc::clone(&here.run), task: here.task }));
        let mut future = Box::pin(future);
        loop {
            if let Poll::Ready(value) = future.as_mut().poll(&mut Context::from_waker(&waker)) {
                return value;
            }
            here.stops(Point::Pending);
        }
    })
}

/// Lets another task go on first, if one can: for a loop that tries again.
///
/// # Panics
/// Outside of a test bed.
pub fn yield_now() {
    let here = expected_here();
    here.run.state().tasks[here.task].yields = true;
    here.stops(Point::Local);
}

struct Woken {
    run: Arc<Run>,
    task: usize,
}

impl Wake for Woken {
    fn wake(self: Arc<Self>) {
        self.run.state().tasks[self.task].woken = true;
    }
}

// ---- One run

type Program = Arc<dyn Fn() + Send + Sync>;

struct Ran {
    chooser: Chooser,
    acts: u64,
    ended: Option<Ended>,
    recorded: Vec<Recorded>,
}

struct Run {
    number: u64,
    bed: Bed,
    state: Mutex<State>,
    over: Condvar,
}

struct State {
    current: usize,
    loses: bool,
    acts: u64,
    alive: usize,
    tasks: Vec<Stands>,
    queues: Vec<Arc<Mutex<Stepped>>>,
    chooser: Chooser,
    ended: Option<Ended>,
}

/// Why a run ended before all tasks did.
enum Ended {
    Failed(String),
    Cut,
    Seen,
}

/// Where a task is stopped.
#[derive(Clone, Copy, PartialEq, Eq, Hash)]
enum Point {
    /// It has come to no act yet: what it does up to there nobody sees.
    Local,
    /// Before an act on this queue.
    Act(usize),
    Joins(usize),
    Pending,
    Ended,
}

struct Stands {
    point: Point,
    yields: bool,
    woken: bool,
    digest: Digest,
    wake: Arc<Condvar>,
}

/// Of what a task was answered: what it does next is a matter of that alone.
#[derive(Clone, Copy, PartialEq, Eq, Hash)]
struct Digest(u64, u64);

impl Digest {
    fn of(what: &impl Hash) -> Digest {
        let half = |salt: u64| {
            let mut hasher = DefaultHasher::new();
            salt.hash(&mut hasher);
            what.hash(&mut hasher);
            hasher.finish()
        };
        Digest(half(1), half(2))
    }

    fn add(&mut self, what: &impl Hash) {
        *self = Digest::of(&(*self, Digest::of(what)));
    }
}

/// A task whose run is over is unwound with this, which nobody is told of.
struct Over;

fn wait<'a>(on: &Condvar, state: MutexGuard<'a, State>) -> MutexGuard<'a, State> {
    on.wait(state).unwrap_or_else(std::sync::PoisonError::into_inner)
}

impl Run {
    fn state(&self) -> MutexGuard<'_, State> {
        locked(&self.state)
    }

    /// A task's thread, which waits for its turn.
    fn starts(self: &Arc<Run>, digest: Digest, task: impl FnOnce() + Send + 'static) -> usize {
        let mut state = self.state();
        let number = state.tasks.len();
        if number == MOST_TASKS {
            drop(state);
            panic!("a program has at most {MOST_TASKS} tasks");
        }
        state.tasks.push(Stands { point: Point::Local, yields: false, woken: false, digest, wake: Arc::new(Condvar::new()) });
        state.alive += 1;
        let here = Here { run: Arc::clone(self), task: number };
        let body = move || {
            HERE.with(|own| *own.borrow_mut() = Some(here.clone()));
            let ran = catch_unwind(AssertUnwindSafe(|| {
                here.waits_for_its_turn(here.run.state());
                task();
            }));
            HERE.with(|own| *own.borrow_mut() = None);
            here.ends(ran.err());
        };
        if let Err(error) = thread::Builder::new().name(format!("task {number}")).spawn(body) {
            state.alive -= 1;
            state.ended = Some(Ended::Failed(format!("no thread for task {number}: {error}")));
        }
        number
    }

    fn ready(state: &State, task: usize) -> bool {
        match state.tasks[task].point {
            Point::Local | Point::Act(_) => true,
            Point::Joins(other) => state.tasks[other].point == Point::Ended,
            Point::Pending => state.tasks[task].woken,
            Point::Ended => false,
        }
    }

    /// Chooses who goes on, and wakes that task; or ends the run.
    fn goes_on(&self, state: &mut State) {
        if state.ended.is_none() {
            match self.choice(state) {
                Ok(Some((task, loses))) => {
                    state.current = task;
                    state.loses = loses;
                    if let Point::Act(_) = state.tasks[task].point {
                        state.acts += 1;
                        for (number, other) in state.tasks.iter_mut().enumerate() {
                            other.yields &= number == task;
                        }
                    }
                    state.tasks[task].wake.notify_one();
                    return;
                }
                Ok(None) => return,
                Err(ended) => state.ended = Some(ended),
            }
        }
        state.tasks.iter().for_each(|task| task.wake.notify_one());
    }

    /// None where all have ended.
    fn choice(&self, state: &mut State) -> Result<Option<(usize, bool)>, Ended> {
        let ready: Vec<usize> = (0..state.tasks.len()).filter(|task| Run::ready(state, *task)).collect();
        if ready.is_empty() {
            let waiting: Vec<String> = (0..state.tasks.len()).filter(|task| state.tasks[*task].point != Point::Ended).map(|task| task.to_string()).collect();
            return if waiting.is_empty() { Ok(None) } else { Err(Ended::Failed(format!("nobody can go on: tasks that wait: {}", waiting.join(", ")))) };
        }
        let others: Vec<usize> = ready.iter().copied().filter(|task| !state.tasks[*task].yields).collect();
        let options = if others.is_empty() { ready } else { others };
        let at_weak = |state: &State, task: usize| match state.tasks[task].point {
            Point::Act(queue) => self.bed.losses && locked(&state.queues[queue]).weak_next(task),
            _ => false,
        };
        let acts = |state: &State, task: usize| matches!(state.tasks[task].point, Point::Act(_));
        let chosen = match &mut state.chooser {
            Chooser::Random { luck, turns } => {
                let stays = below(luck, *turns) != 0 && options.contains(&state.current);
                let task = if stays { state.current } else { options[below(luck, options.len() as u64) as usize] };
                let loses = below(luck, 8) == 0;
                (task, loses && at_weak(state, task))
            }
            Chooser::Trail(_) => match options.iter().find(|task| !acts(state, **task)) {
                Some(local) => (*local, false),
                None if state.acts >= self.bed.acts => return Err(Ended::Cut),
                None => {
                    let options: Vec<(usize, bool)> = options.iter().flat_map(|task| [(*task, false)].into_iter().chain(at_weak(state, *task).then_some((*task, true)))).collect();
                    let (key, used) = (Run::key(state), state.acts);
                    match &mut state.chooser {
                        Chooser::Trail(trail) => trail.follows(options, key, used)?,
                        _ => unreachable!("it is one"),
                    }
                }
            },
        };
        if acts(state, chosen.0) && state.acts >= self.bed.acts {
            return Err(Ended::Cut);
        }
        Ok(Some(chosen))
    }

    /// What the rest of a run depends on.
    fn key(state: &State) -> Digest {
        let mut words = Vec::new();
        for queue in &state.queues {
            locked(queue).key(&mut words);
        }
        let tasks: Vec<_> = state.tasks.iter().map(|task| (task.point, task.yields, task.woken, task.digest)).collect();
        Digest::of(&(words, tasks))
    }
}

thread_local! {
    static HERE: RefCell<Option<Here>> = const { RefCell::new(None) };
}

/// A task, as it is seen from its thread.
#[derive(Clone)]
pub(crate) struct Here {
    run: Arc<Run>,
    task: usize,
}

impl Here {
    pub(crate) fn edition(&self) -> Edition {
        self.run.bed.edition
    }

    pub(crate) fn run(&self) -> u64 {
        self.run.number
    }

    pub(crate) fn task(&self) -> usize {
        self.task
    }

    /// Whether no step can be taken any more.
    pub(crate) fn is_ended(&self) -> bool {
        thread::panicking() || self.run.state().ended.is_some()
    }

    /// A queue that this task makes: its number in the run.
    pub(crate) fn adds(&self, queue: Arc<Mutex<Stepped>>) -> (u64, usize) {
        let mut state = self.run.state();
        state.queues.push(queue);
        (self.run.number, state.queues.len() - 1)
    }

    fn waits_for_its_turn(&self, mut state: MutexGuard<'_, State>) -> bool {
        let wake = Arc::clone(&state.tasks[self.task].wake);
        while state.current != self.task && state.ended.is_none() {
            state = wait(&wake, state);
        }
        if state.ended.is_some() {
            drop(state);
            resume_unwind(Box::new(Over));
        }
        state.tasks[self.task].woken = false;
        state.loses
    }

    /// Stops here until it is this task's turn again.
    fn stops(&self, point: Point) -> bool {
        let mut state = self.run.state();
        state.tasks[self.task].point = point;
        self.run.goes_on(&mut state);
        self.waits_for_its_turn(state)
    }

    /// Before a call begins: a choice of its own where orders are random.
    pub(crate) fn begins(&self, _queue: usize) {
        let random = matches!(self.run.state().chooser, Chooser::Random { .. });
        if random {
            self.stops(Point::Local);
        }
    }

    /// Before an act: whether its weak exchange is to fail.
    pub(crate) fn acts(&self, queue: usize) -> bool {
        self.stops(Point::Act(queue))
    }

    pub(crate) fn answered(&self, queue: usize, code: u64, answer: Answer) {
        self.run.state().tasks[self.task].digest.add(&(queue, code, answer));
    }

    fn waits_for(&self, task: usize) {
        self.stops(Point::Joins(task));
        let mut state = self.run.state();
        let theirs = state.tasks[task].digest;
        state.tasks[self.task].digest.add(&theirs);
    }

    fn ends(&self, panicked: Option<Box<dyn std::any::Any + Send>>) {
        let mut state = self.run.state();
        state.tasks[self.task].point = Point::Ended;
        if let Some(why) = panicked.filter(|why| !why.is::<Over>()) {
            let said = why.downcast_ref::<&str>().map(|said| said.to_string()).or_else(|| why.downcast_ref::<String>().cloned());
            state.ended = Some(Ended::Failed(format!("task {} panicked: {}", self.task, said.unwrap_or_else(|| "no text".into()))));
        }
        state.alive -= 1;
        self.run.goes_on(&mut state);
        if state.alive == 0 {
            self.run.over.notify_one();
        }
    }
}

// ---- Who goes on

enum Chooser {
    /// Another task is chosen at one step in `turns`.
    Random { luck: u64, turns: u64 },
    Trail(Trail),
}

impl Chooser {
    /// Some seeds turn at every step, others seldom: what is to be found may want a task that is stopped in the midst of a call while others do much.
    fn of(seed: u64) -> Chooser {
        let mut luck = seed ^ 0x9e37_79b9_7f4a_7c15;
        let turns = 1 << below(&mut luck, 6);
        Chooser::Random { luck, turns }
    }
}

fn below(state: &mut u64, below: u64) -> u64 {
    *state = state.wrapping_mul(6364136223846793005).wrapping_add(1442695040888963407);
    (*state >> 33) % below
}

/// A choice: in which state, of what, and which is taken.
struct Fork {
    key: Digest,
    options: Vec<(usize, bool)>,
    taken: usize,
}

/// The choices of the present run, and every state at which there was a choice, with the fewest acts in which it was reached.
#[derive(Default)]
struct Trail {
    forks: Vec<Fork>,
    at: usize,
    seen: HashMap<Digest, u64>,
}

impl Trail {
    fn follows(&mut self, options: Vec<(usize, bool)>, key: Digest, acts: u64) -> Result<(usize, bool), Ended> {
        if let [only] = options[..] {
            return Ok(only);
        }
        self.at += 1;
        if let Some(fork) = self.forks.get(self.at - 1) {
            let known = fork.key == key && fork.options == options;
            return if known { Ok(options[fork.taken]) } else { Err(Ended::Failed("the same answers lead the tasks to other calls: something else than queues is shared".into())) };
        }
        if self.seen.get(&key).map_or(false, |fewest| *fewest <= acts) {
            return Err(Ended::Seen);
        }
        self.seen.insert(key, acts);
        let first = options[0];
        self.forks.push(Fork { key, options, taken: 0 });
        Ok(first)
    }

    /// To the next order; false where there is none.
    fn turns(&mut self) -> bool {
        while let Some(fork) = self.forks.last_mut() {
            fork.taken += 1;
            if fork.taken < fork.options.len() {
                return true;
            }
            self.forks.pop();
        }
        false
    }
}
