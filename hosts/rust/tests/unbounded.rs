//! The public tests of concurrent-queue 2.5.0's unbounded queue (its tests/unbounded.rs), written against the test bed's queue: what one thread does is as there; what threads do is done by tasks, in random orders and, of small
//! counts, in every order.

use fernmoldew::model::{self, Bed, Task};
use fernmoldew::{Answer, Call, ConcurrentQueue, ForcePushError, PopError, PushError, Refusal, Unbounded};
use std::sync::atomic::{AtomicUsize, Ordering};
use std::sync::Arc;

fn shared<T>() -> Arc<ConcurrentQueue<T>> {
    Arc::new(ConcurrentQueue::unbounded())
}

fn task<T: Send + 'static, R: Send + 'static>(queue: &Arc<ConcurrentQueue<T>>, body: impl FnOnce(&ConcurrentQueue<T>) -> R + Send + 'static) -> Task<R> {
    let queue = Arc::clone(queue);
    model::spawn(move || body(&queue))
}

fn pops<T>(queue: &ConcurrentQueue<T>) -> T {
    loop {
        match queue.pop() {
            Ok(item) => return item,
            Err(_) => model::yield_now(),
        }
    }
}

/// Fewer runs than [`model::random`] has, so that all of it takes seconds.
fn random(program: impl Fn() + Send + Sync + 'static) {
    let ran = Bed::new().runs(20).random(program).unwrap_or_else(|failure| panic!("{failure}"));
    assert_eq!((ran.runs, ran.cut), (20, 0));
}

#[test]
fn smoke() {
    let q = ConcurrentQueue::unbounded();
    q.push(7).unwrap();
    assert_eq!(q.pop(), Ok(7));
    q.push(8).unwrap();
    assert_eq!(q.pop(), Ok(8));
    assert!(q.pop().is_err());
    assert_eq!(q.capacity(), None);
}

#[test]
fn len_empty_full() {
    let q = ConcurrentQueue::unbounded();
    assert_eq!((q.len(), q.is_empty(), q.is_full()), (0, true, false));
    q.push(()).unwrap();
    assert_eq!((q.len(), q.is_empty(), q.is_full()), (1, false, false));
    q.pop().unwrap();
    assert_eq!((q.len(), q.is_empty(), q.is_full()), (0, true, false));
}

#[test]
fn len() {
    let q = ConcurrentQueue::unbounded();
    assert_eq!(q.len(), 0);
    for i in 0..50 {
        q.push(i).unwrap();
        assert_eq!(q.len(), i + 1);
    }
    for i in 0..50 {
        q.pop().unwrap();
        assert_eq!(q.len(), 50 - i - 1);
    }
    assert_eq!(q.len(), 0);
}

#[test]
fn close() {
    let q = ConcurrentQueue::unbounded();
    assert_eq!(q.push(10), Ok(()));
    assert!(!q.is_closed());
    assert!(q.close());
    assert!(q.is_closed());
    assert!(!q.close());
    assert_eq!(q.push(20), Err(PushError::Closed(20)));
    assert_eq!(q.force_push(20), Err(ForcePushError(20)));
    assert_eq!(q.pop(), Ok(10));
    assert_eq!(q.pop(), Err(PopError::Closed));
}

#[test]
fn force_push_is_a_push() {
    let q = ConcurrentQueue::unbounded();
    assert_eq!((q.force_push(1), q.force_push(2)), (Ok(None), Ok(None)));
    assert_eq!(q.try_iter().collect::<Vec<_>>(), [1, 2]);
}

#[test]
fn spsc() {
    // over a block's end
    random(|| {
        let q = shared();
        let popping = task(&q, |q| {
            for i in 0..40 {
                assert_eq!(pops(q), i);
            }
            assert!(q.pop().is_err());
        });
        (0..40).for_each(|i| q.push(i).unwrap());
        popping.join();
    });
}

#[test]
fn spsc_in_every_order() {
    let explored = Bed::new()
        .acts(60)
        .explore(|| {
            let q = shared();
            let pushing = task(&q, |q| q.push(1).and(q.push(2)));
            let popped = (q.pop(), q.pop());
            assert_eq!(pushing.join(), Ok(()));
            let all: Vec<i32> = [popped.0, popped.1].into_iter().flatten().chain(q.try_iter()).collect();
            assert_eq!(all, [1, 2], "each item comes out once, in its order");
        })
        .unwrap();
    assert!(explored.states > 100, "{explored:?}");
}

#[test]
fn mpmc() {
    random(|| {
        const COUNT: usize = 5;
        let q = shared::<usize>();
        let popping: Vec<_> = (0..2).map(|_| task(&q, |q| (0..COUNT).map(|_| pops(q)).collect::<Vec<usize>>())).collect();
        let pushing: Vec<_> = (0..2).map(|_| task(&q, |q| (0..COUNT).for_each(|i| q.push(i).unwrap()))).collect();
        pushing.into_iter().for_each(Task::join);
        let mut seen: Vec<usize> = popping.into_iter().flat_map(Task::join).collect();
        seen.sort_unstable();
        assert_eq!(seen, (0..COUNT).flat_map(|i| [i, i]).collect::<Vec<_>>());
    });
}

#[test]
fn drops() {
    static DROPS: AtomicUsize = AtomicUsize::new(0);
    struct Counted;
    impl Drop for Counted {
        fn drop(&mut self) {
            DROPS.fetch_add(1, Ordering::SeqCst);
        }
    }
    let q = ConcurrentQueue::unbounded();
    (0..70).for_each(|_| q.push(Counted).unwrap_or_else(|_| panic!("there is room")));
    assert_eq!(DROPS.load(Ordering::SeqCst), 0);
    drop(q.pop());
    assert_eq!(DROPS.load(Ordering::SeqCst), 1);
    drop(q);
    assert_eq!(DROPS.load(Ordering::SeqCst), 70);
}

#[test]
fn linearizable() {
    // whoever has put an item in finds one
    random(|| {
        let q = shared();
        let tasks: Vec<_> = (0..4)
            .map(|_| {
                task(&q, |q| {
                    for _ in 0..3 {
                        q.push(0).unwrap();
                        q.pop().unwrap();
                    }
                })
            })
            .collect();
        tasks.into_iter().for_each(Task::join);
    });
}

#[test]
fn a_failures_tape_is_of_the_unbounded_queue() {
    let failed = Bed::new()
        .explore(|| {
            let q = shared();
            let pushing = task(&q, |q| q.push(1));
            let popped = q.pop();
            pushing.join().unwrap();
            assert_eq!(popped, Err(PopError::Empty), "an item was there");
        })
        .unwrap_err();
    let [recorded] = &failed.recorded[..] else { panic!("one queue") };
    assert_eq!(recorded.queue, "unbounded");
    let mut queue = Unbounded::new(recorded.tape.about.workers).unwrap();
    queue.run(&recorded.tape.schedule).unwrap();
    assert_eq!(queue.answer(0), Some(Answer::Popped(101)));
}

#[test]
fn where_the_pool_is_used_up_a_push_is_refused_and_goes_on_later() {
    let mut queue = Unbounded::new(2).unwrap();
    // a push of a block's last item wants the next one
    for item in 0..64 * 31 - 1 {
        assert_eq!(queue.call(0, Call::Push(item)), Ok(Some(Answer::Pushed)), "{item}");
    }
    assert_eq!(queue.call(0, Call::Push(1983)), Err(Refusal::NoBlock));
    let before = queue.clone();
    assert_eq!((queue.act(0), &queue), (Err(Refusal::NoBlock), &before));
    for item in 0..31 {
        assert_eq!(queue.call(1, Call::Pop), Ok(Some(Answer::Popped(item))));
    }
    while queue.busy(0) {
        queue.act(0).unwrap();
    }
    assert_eq!((queue.answer(0), queue.contents().unwrap().len()), (Some(Answer::Pushed), 64 * 31 - 31));
    let pushing = std::thread::spawn(|| {
        let q = ConcurrentQueue::unbounded();
        (0..).for_each(|i| q.push(i).unwrap());
    });
    let said = pushing.join().unwrap_err();
    assert!(said.downcast_ref::<&str>().is_some_and(|said| said.contains("used up its pool")), "{said:?}");
}
