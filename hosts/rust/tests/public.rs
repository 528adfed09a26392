//! The public tests of concurrent-queue 2.5.0 (its tests/bounded.rs and tests/single.rs), written against the test bed's queue: what one thread does is as there; what threads do is done by tasks, in random orders and, of small
//! counts, in every order.

use fernmoldew::model::{self, Bed, Task};
use fernmoldew::{ConcurrentQueue, Edition, ForcePushError, PopError, PushError};
use std::sync::atomic::{AtomicUsize, Ordering};
use std::sync::Arc;

/// Of a ring, and of a one-slot queue.
const CAPACITIES: [usize; 2] = [2, 1];

fn shared<T>(capacity: usize) -> Arc<ConcurrentQueue<T>> {
    Arc::new(ConcurrentQueue::bounded(capacity))
}

fn task<T: Send + 'static, R: Send + 'static>(queue: &Arc<ConcurrentQueue<T>>, body: impl FnOnce(&ConcurrentQueue<T>) -> R + Send + 'static) -> Task<R> {
    let queue = Arc::clone(queue);
    model::spawn(move || body(&queue))
}

fn pops<T>(queue: &ConcurrentQueue<T>) -> T {
    loop {
        match queue.pop() {
            Ok(item) => return item,
            Err(_) => model::yield_now(),
        }
    }
}

fn pushes<T>(queue: &ConcurrentQueue<T>, mut item: T) {
    while let Err(back) = queue.push(item) {
        assert!(back.is_full());
        item = back.into_inner();
        model::yield_now();
    }
}

/// Fewer runs than [`model::random`] has, so that all of it takes seconds.
fn random(program: impl Fn() + Send + Sync + 'static) {
    let ran = Bed::new().runs(40).random(program).unwrap_or_else(|failure| panic!("{failure}"));
    assert_eq!((ran.runs, ran.cut), (40, 0));
}

#[test]
fn smoke() {
    for capacity in CAPACITIES {
        let q = ConcurrentQueue::bounded(capacity);
        q.push(7).unwrap();
        assert_eq!(q.pop(), Ok(7));
        q.push(8).unwrap();
        assert_eq!(q.pop(), Ok(8));
        assert!(q.pop().is_err());
    }
}

#[test]
fn capacity() {
    for i in 1..10 {
        let q = ConcurrentQueue::<i32>::bounded(i);
        assert_eq!(q.capacity(), Some(i));
    }
}

#[test]
#[should_panic(expected = "capacity must be positive")]
fn zero_capacity() {
    let _ = ConcurrentQueue::<i32>::bounded(0);
}

#[test]
fn len_empty_full() {
    let q = ConcurrentQueue::bounded(2);
    assert_eq!((q.len(), q.is_empty(), q.is_full()), (0, true, false));
    q.push(()).unwrap();
    assert_eq!((q.len(), q.is_empty(), q.is_full()), (1, false, false));
    q.push(()).unwrap();
    assert_eq!((q.len(), q.is_empty(), q.is_full()), (2, false, true));
    q.pop().unwrap();
    assert_eq!((q.len(), q.is_empty(), q.is_full()), (1, false, false));
    let q = ConcurrentQueue::bounded(1);
    q.push(()).unwrap();
    assert_eq!((q.len(), q.is_empty(), q.is_full()), (1, false, true));
    q.pop().unwrap();
    assert_eq!((q.len(), q.is_empty(), q.is_full()), (0, true, false));
}

#[test]
fn len() {
    const CAPACITY: usize = 20;
    let q = ConcurrentQueue::bounded(CAPACITY);
    assert_eq!(q.len(), 0);
    for _ in 0..CAPACITY / 10 {
        for i in 0..10 {
            q.push(i).unwrap();
            assert_eq!(q.len(), i + 1);
        }
        for i in 0..10 {
            q.pop().unwrap();
            assert_eq!(q.len(), 10 - i - 1);
        }
    }
    for i in 0..CAPACITY {
        q.push(i).unwrap();
        assert_eq!(q.len(), i + 1);
    }
    for _ in 0..CAPACITY {
        q.pop().unwrap();
    }
    assert_eq!(q.len(), 0);

    // while one pushes and one pops, len is never above the capacity
    random(|| {
        let q = shared(3);
        let pushing = task(&q, |q| (0..10).for_each(|i| pushes(q, i)));
        let popping = task(&q, |q| {
            for i in 0..10 {
                assert_eq!(pops(q), i);
                assert!(q.len() <= 3);
            }
        });
        pushing.join();
        popping.join();
        assert_eq!(q.len(), 0);
    });
}

#[test]
fn close() {
    for capacity in CAPACITIES {
        let q = ConcurrentQueue::bounded(capacity);
        assert_eq!(q.push(10), Ok(()));
        assert!(!q.is_closed());
        assert!(q.close());
        assert!(q.is_closed());
        assert!(!q.close());
        assert_eq!(q.push(20), Err(PushError::Closed(20)));
        assert_eq!(q.force_push(20), Err(ForcePushError(20)));
        assert_eq!(q.pop(), Ok(10));
        assert_eq!(q.pop(), Err(PopError::Closed));
    }
}

#[test]
fn force_push() {
    let q = ConcurrentQueue::<i32>::bounded(5);
    for i in 1..=5 {
        assert_eq!(q.force_push(i), Ok(None));
    }
    assert!(!q.is_closed());
    for i in 6..=10 {
        assert_eq!(q.force_push(i), Ok(Some(i - 5)));
    }
    assert_eq!(q.pop(), Ok(6));
    assert_eq!(q.force_push(11), Ok(None));
    assert_eq!(q.force_push(12), Ok(Some(7)));
    assert!(q.close());
    assert_eq!(q.force_push(13), Err(ForcePushError(13)));
    assert_eq!(q.try_iter().collect::<Vec<_>>(), [8, 9, 10, 11, 12]);
    assert_eq!(q.pop(), Err(PopError::Closed));
}

#[test]
fn spsc() {
    for capacity in [1, 2, 3] {
        random(move || {
            let q = shared(capacity);
            let popping = task(&q, |q| {
                for i in 0..12 {
                    assert_eq!(pops(q), i);
                }
                assert!(q.pop().is_err());
            });
            (0..12).for_each(|i| pushes(&q, i));
            popping.join();
        });
    }
}

#[test]
fn spsc_in_every_order() {
    for capacity in CAPACITIES {
        let explored = Bed::new()
            .acts(60)
            .losses(true)
            .explore(move || {
                let q = shared(capacity);
                let pushing = task(&q, |q| (q.push(1), q.push(2)));
                let popped = (q.pop(), q.pop());
                let pushed = pushing.join();
                let all: Vec<i32> = [popped.0, popped.1].into_iter().flatten().chain(q.try_iter()).collect();
                let expected: Vec<i32> = [(pushed.0, 1), (pushed.1, 2)].into_iter().filter(|(done, _)| done.is_ok()).map(|(_, item)| item).collect();
                assert_eq!(all, expected, "each item comes out once, in its order");
            })
            .unwrap();
        assert!(explored.complete() || capacity == 2, "{explored:?}");
    }
}

#[test]
fn mpmc() {
    for capacity in [1, 3] {
        random(move || {
            const COUNT: usize = 5;
            let q = shared::<usize>(capacity);
            let popping: Vec<_> = (0..2).map(|_| task(&q, |q| (0..COUNT).map(|_| pops(q)).collect::<Vec<usize>>())).collect();
            let pushing: Vec<_> = (0..2).map(|_| task(&q, |q| (0..COUNT).for_each(|i| pushes(q, i)))).collect();
            pushing.into_iter().for_each(Task::join);
            let mut seen: Vec<usize> = popping.into_iter().flat_map(Task::join).collect();
            seen.sort_unstable();
            assert_eq!(seen, (0..COUNT).flat_map(|i| [i, i]).collect::<Vec<_>>());
        });
    }
}

#[test]
fn ring_buffers() {
    // spsc_ring_buffer and mpmc_ring_buffer: what is displaced and what is popped is all that was forced in
    for capacity in [1, 3] {
        random(move || {
            const COUNT: usize = 6;
            let q = shared::<usize>(capacity);
            let popping = task(&q, |q| {
                let mut seen = Vec::new();
                while !q.is_closed() {
                    seen.extend(q.pop());
                    model::yield_now();
                }
                seen.extend(q.try_iter());
                seen
            });
            let forcing: Vec<_> = (0..2).map(|who| task(&q, move |q| (0..COUNT).filter_map(|i| q.force_push(2 * i + who).unwrap()).collect::<Vec<usize>>())).collect();
            let mut seen: Vec<usize> = forcing.into_iter().flat_map(Task::join).collect();
            q.close();
            seen.extend(popping.join());
            seen.extend(q.try_iter());
            seen.sort_unstable();
            assert_eq!(seen, (0..2 * COUNT).collect::<Vec<_>>());
        });
    }
}

#[test]
fn drops() {
    static DROPS: AtomicUsize = AtomicUsize::new(0);
    struct Counted;
    impl Drop for Counted {
        fn drop(&mut self) {
            DROPS.fetch_add(1, Ordering::SeqCst);
        }
    }
    for capacity in [1, 50] {
        let before = DROPS.load(Ordering::SeqCst);
        let q = ConcurrentQueue::bounded(capacity);
        let kept = (0..70).filter(|_| q.push(Counted).is_ok()).count();
        assert_eq!((kept, DROPS.load(Ordering::SeqCst) - before), (capacity, 70 - capacity));
        drop(q.pop());
        assert_eq!(DROPS.load(Ordering::SeqCst) - before, 71 - capacity);
        drop(q);
        assert_eq!(DROPS.load(Ordering::SeqCst) - before, 70);
    }
}

#[test]
fn linearizable() {
    // whoever has put an item in, and none went out for it, finds one
    for capacity in [4, 1] {
        random(move || {
            let q = shared(capacity);
            let pushing = (0..2).map(|_| {
                task(&q, |q| {
                    for _ in 0..3 {
                        pushes(q, 0);
                        q.pop().unwrap();
                    }
                })
            });
            let forcing = (0..2).map(|_| {
                task(&q, |q| {
                    for _ in 0..3 {
                        if q.force_push(0).unwrap().is_none() {
                            q.pop().unwrap();
                        }
                    }
                })
            });
            pushing.chain(forcing).collect::<Vec<_>>().into_iter().for_each(Task::join);
        });
    }
}

#[test]
fn into_iter_and_try_iter() {
    let q = ConcurrentQueue::bounded(3);
    (0..3).for_each(|i| q.push(i).unwrap());
    assert_eq!(q.try_iter().next(), Some(0));
    assert_eq!(q.into_iter().collect::<Vec<_>>(), [1, 2]);
}

/// A close while a force_push is under way.
fn closes_beside_a_force_push() {
    let q = shared(2);
    q.push(1).unwrap();
    q.push(2).unwrap();
    let forcing = task(&q, |q| q.force_push(3).is_ok());
    assert!(q.close());
    forcing.join();
    assert!(q.is_closed(), "the close is lost");
}

#[test]
fn the_lost_close_is_found_in_the_sources_edition_alone() {
    let failed = Bed::new().explore(closes_beside_a_force_push).unwrap_err();
    assert!(failed.what.contains("the close is lost"), "{failed}");
    assert!(Bed::new().edition(Edition::CloseHolds).explore(closes_beside_a_force_push).unwrap().complete());

    // by seeds too; the seed alone brings it back, and its tape runs on the library and ends with the answer no
    let failed = Bed::new().random(closes_beside_a_force_push).unwrap_err();
    let again = Bed::new().seed(failed.seed.unwrap()).runs(1).random(closes_beside_a_force_push).unwrap_err();
    assert_eq!((again.runs, &again.what), (1, &failed.what));
    let [recorded] = &failed.recorded[..] else { panic!("one queue") };
    assert_eq!(recorded.tape, again.recorded[0].tape);
    let tape = fernmoldew::Tape::from_bytes(&recorded.tape.to_bytes().unwrap()).unwrap();
    let mut machine = fernmoldew::Machine::new(tape.about.capacity, tape.about.workers as usize, recorded.edition).unwrap();
    fernmoldew::Queue::run(&mut machine, &tape.schedule).unwrap();
    assert_eq!(fernmoldew::Queue::answer(&machine, 0), Some(fernmoldew::Answer::No));
}

#[test]
fn a_failure_is_told_with_its_seed_and_a_tape() {
    let folder = std::env::temp_dir().join(format!("fernmoldew-tapes-{}", std::process::id()));
    let failed = Bed::new().random(closes_beside_a_force_push).unwrap_err();
    let paths = failed.save(&folder).unwrap();
    assert_eq!(std::fs::read(&paths[0]).unwrap(), failed.recorded[0].tape.to_bytes().unwrap());
    std::fs::remove_dir_all(&folder).unwrap();
    assert!(failed.to_string().starts_with(&format!("seed {}: task 0 panicked: the close is lost", failed.seed.unwrap())), "{failed}");
}

#[test]
fn all_that_wait_for_one_another_fail() {
    let failed = Bed::new().explore(|| model::spawn_async(std::future::pending::<()>()).join()).unwrap_err();
    assert!(failed.what.starts_with("nobody can go on"), "{failed}");
}

#[test]
fn async_functions_are_tasks() {
    use std::task::Poll;
    let explored = model::explore(|| {
        let q = shared(2);
        let other = Arc::clone(&q);
        let mut asked = 0;
        let popping = model::spawn_async(std::future::poll_fn(move |context| {
            asked += 1;
            match other.pop() {
                Ok(item) => Poll::Ready(item),
                Err(_) if asked < 3 => {
                    context.waker().wake_by_ref();
                    Poll::Pending
                }
                Err(_) => Poll::Ready(7),
            }
        }));
        q.push(7).unwrap();
        assert_eq!(popping.join(), 7);
    });
    assert!(explored.complete() && explored.runs > 1, "{explored:?}");
}

#[test]
fn a_bound_cuts_off_what_does_not_end() {
    let explored = Bed::new()
        .acts(40)
        .explore(|| {
            let q = shared::<i32>(2);
            task(&q, |q| while q.pop().is_err() {}).join();
        })
        .unwrap();
    assert!(!explored.complete());
}

#[test]
fn what_is_shared_beside_queues_is_told() {
    static TURN: AtomicUsize = AtomicUsize::new(0);
    let failed = Bed::new()
        .explore(|| {
            let q = shared(2);
            let pushing = task(&q, |q| q.push(1));
            if TURN.fetch_add(1, Ordering::SeqCst) % 2 == 0 {
                let _ = q.pop();
            }
            let _ = q.len();
            pushing.join().unwrap();
        })
        .unwrap_err();
    assert!(failed.what.contains("something else than queues is shared"), "{failed}");
}

#[test]
fn what_a_task_that_panics_drops_takes_no_steps() {
    struct Drains(Arc<ConcurrentQueue<i32>>);
    impl Drop for Drains {
        fn drop(&mut self) {
            assert_eq!(self.0.pop(), Err(PopError::Closed), "no step can be taken any more");
        }
    }
    let failed = Bed::new()
        .explore(|| {
            let drains = Drains(shared(2));
            drains.0.push(7).unwrap();
            panic!("over");
        })
        .unwrap_err();
    assert_eq!(failed.what, "task 0 panicked: over");
    assert_eq!(failed.recorded[0].tape.schedule[..2], [0, 100]);
    assert_eq!(failed.recorded[0].tape.schedule.len(), 2 * 6);
}
