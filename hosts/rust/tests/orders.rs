//! What `explore` finds beside a search of its own over the machines, with copies of them and none of the test bed: every set of answers that some order gives, within a bound on acts, and no other.

use fernmoldew::model::{self, Bed};
use fernmoldew::{Answer, Call, ConcurrentQueue, Edition, Machine, OneSlot, PopError, PushError, Queue, Unbounded};
use std::collections::{BTreeSet, HashSet};
use std::sync::{Arc, Mutex};

type Answers = Vec<Vec<String>>;

/// What each task calls, one after the other.
type Calls = Vec<Vec<Call>>;

fn called(queue: &ConcurrentQueue<u64>, call: Call) -> Answer {
    let yes = |is_so| if is_so { Answer::Yes } else { Answer::No };
    match call {
        Call::Push(item) => match queue.push(item) {
            Ok(()) => Answer::Pushed,
            Err(PushError::Full(item)) => Answer::Full(item),
            Err(PushError::Closed(item)) => Answer::Closed(item),
        },
        Call::ForcePush(item) => match queue.force_push(item) {
            Ok(None) => Answer::Pushed,
            Ok(Some(old)) => Answer::Displaced(old),
            Err(back) => Answer::Closed(back.into_inner()),
        },
        Call::Pop => match queue.pop() {
            Ok(item) => Answer::Popped(item),
            Err(PopError::Empty) => Answer::Empty,
            Err(PopError::Closed) => Answer::PopClosed,
        },
        Call::Len => Answer::Len(queue.len() as u64),
        Call::IsEmpty => yes(queue.is_empty()),
        Call::IsFull => yes(queue.is_full()),
        Call::Close => yes(queue.close()),
        Call::IsClosed => yes(queue.is_closed()),
    }
}

/// Of capacity 0: unbounded.
fn found(capacity: usize, edition: Edition, acts: u64, losses: bool, calls: &Calls) -> BTreeSet<Answers> {
    let found = Arc::new(Mutex::new(BTreeSet::new()));
    let (into, calls) = (Arc::clone(&found), calls.clone());
    let program = move || {
        let queue = Arc::new(if capacity == 0 { ConcurrentQueue::unbounded() } else { ConcurrentQueue::bounded(capacity) });
        let task = |calls: &Vec<Call>| {
            let (queue, calls) = (Arc::clone(&queue), calls.clone());
            model::spawn(move || calls.into_iter().map(|call| called(&queue, call).to_string()).collect::<Vec<_>>())
        };
        let tasks: Vec<_> = calls.iter().map(task).collect();
        let answers: Answers = tasks.into_iter().map(|task| task.join()).collect();
        into.lock().unwrap().insert(answers);
    };
    Bed::new().edition(edition).acts(acts).losses(losses).explore(program).unwrap();
    let found = found.lock().unwrap().clone();
    found
}

/// All words but those of slots that no capacity here uses, and of blocks that no program here takes.
fn key(queue: &impl Queue) -> Vec<u64> {
    let words = queue.words();
    let used = |part: &&[u64]| part.len().min(if part.len() == fernmoldew::UNBOUNDED_POOL_WORDS { 3 * 64 } else { 32 });
    words.iter().flat_map(|part| &part[..used(part)]).copied().collect()
}

/// Every order of acts; a state is told apart by all its words, by what was answered and by how many acts it took.
fn searched<Q: Queue + Clone>(fresh: Q, acts: u64, losses: bool, calls: &Calls) -> BTreeSet<Answers> {
    struct State<Q> {
        queue: Q,
        answers: Answers,
        acts: u64,
    }
    let (mut ends, mut seen) = (BTreeSet::new(), HashSet::new());
    let mut to_do = vec![State { queue: fresh, answers: vec![Vec::new(); calls.len()], acts: 0 }];
    while let Some(mut state) = to_do.pop() {
        for (worker, calls) in calls.iter().enumerate() {
            if let (false, Some(call)) = (state.queue.busy(worker), calls.get(state.answers[worker].len())) {
                state.queue.begin(worker, *call).unwrap();
            }
        }
        let busy: Vec<usize> = (0..calls.len()).filter(|worker| state.queue.busy(*worker)).collect();
        if busy.is_empty() {
            ends.insert(state.answers);
            continue;
        }
        if state.acts == acts || !seen.insert((key(&state.queue), state.answers.clone(), state.acts)) {
            continue;
        }
        for worker in busy {
            let weak = state.queue.place(worker).is_some_and(|place| place.is_weak());
            for loses in [false, true].into_iter().take(if weak && losses { 2 } else { 1 }) {
                let mut after = State { queue: state.queue.clone(), answers: state.answers.clone(), acts: state.acts + 1 };
                if loses { after.queue.act_losing(worker) } else { after.queue.act(worker) }.unwrap();
                after.answers[worker].extend(after.queue.answer(worker).map(|answer| answer.to_string()));
                to_do.push(after);
            }
        }
    }
    ends
}

#[test]
fn explore_finds_every_set_of_answers_and_no_other() {
    use Call::*;
    let programs: [Calls; 4] = [
        vec![vec![Push(1), Push(2)], vec![Pop, Pop]],
        vec![vec![ForcePush(1), Pop], vec![ForcePush(2), Len], vec![Close]],
        vec![vec![Push(1), Push(2), ForcePush(3)], vec![Close, IsClosed]],
        vec![vec![Push(1), Pop, Pop], vec![Push(2), Pop]],
    ];
    let mut sets = 0;
    for (number, calls) in programs.iter().enumerate() {
        for (capacity, edition, acts, losses) in [(2, Edition::Source, 17, false), (2, Edition::CloseHolds, 12, true), (1, Edition::Source, 12, false), (1, Edition::Source, 8, false)] {
            let ours = found(capacity, edition, acts, losses, calls);
            let theirs = match capacity {
                1 => searched(OneSlot::new(3).unwrap(), acts, losses, calls),
                _ => searched(Machine::new(capacity as u64, 3, edition).unwrap(), acts, losses, calls),
            };
            assert_eq!(ours, theirs, "program {number} on {capacity} slots, edition {edition:?}, {acts} acts");
            sets += ours.len();
        }
    }
    assert!(sets > 30, "{sets}");
}

#[test]
fn explore_finds_every_set_of_answers_of_an_unbounded_queue() {
    use Call::*;
    let programs: [Calls; 3] = [vec![vec![Push(1), Len], vec![Pop, Pop]], vec![vec![Push(1), Pop], vec![Push(2), IsEmpty]], vec![vec![Push(1), Push(2)], vec![Close, IsClosed, IsFull]]];
    let mut sets = 0;
    for (number, calls) in programs.iter().enumerate() {
        for (acts, losses) in [(26, false), (20, true)] {
            let ours = found(0, Edition::Source, acts, losses, calls);
            assert_eq!(ours, searched(Unbounded::new(2).unwrap(), acts, losses, calls), "program {number}, {acts} acts");
            sets += ours.len();
        }
    }
    assert!(sets > 12, "{sets}");
}

/// Two tasks to their end, and then two others: what the first two were answered is the same in orders that leave other words.
fn told_after(before: [Call; 2], filled: u64, after: [Vec<Call>; 2]) -> BTreeSet<Answers> {
    let found = Arc::new(Mutex::new(BTreeSet::new()));
    let into = Arc::clone(&found);
    let program = move || {
        let queue = Arc::new(ConcurrentQueue::bounded(2));
        (0..filled).for_each(|item| queue.push(item).unwrap());
        let both = |calls: [Vec<Call>; 2]| {
            let task = |calls: Vec<Call>| {
                let queue = Arc::clone(&queue);
                model::spawn(move || calls.into_iter().map(|call| called(&queue, call).to_string()).collect::<Vec<_>>())
            };
            let tasks = calls.map(task);
            tasks.map(|task| task.join()).to_vec()
        };
        both(before.map(|call| vec![call]));
        let answers = both(after.clone());
        into.lock().unwrap().insert(answers);
    };
    assert!(Bed::new().explore(program).unwrap().complete());
    let found = found.lock().unwrap().clone();
    found
}

#[test]
fn what_waits_and_whether_it_is_closed_is_part_of_a_state() {
    let popped = told_after([Call::Push(7), Call::Push(8)], 0, [vec![Call::Pop, Call::Pop], vec![Call::IsClosed]]);
    let first: BTreeSet<String> = popped.into_iter().map(|answers| answers[0].join(", ")).collect();
    assert_eq!(first, BTreeSet::from(["popped 7, popped 8".to_string(), "popped 8, popped 7".to_string()]));
    let closed = told_after([Call::ForcePush(7), Call::Close], 2, [vec![Call::IsClosed], vec![Call::Len]]);
    let closed: BTreeSet<String> = closed.into_iter().map(|answers| answers[0].join(", ")).collect();
    assert_eq!(closed, BTreeSet::from(["yes".to_string(), "no".to_string()]));
}
