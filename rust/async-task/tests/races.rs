//! Threads that call at once on one task: nothing is dropped twice or never, and no wake is lost.
//!
//! `ASYNC_TASK_ROUNDS` multiplies the rounds.
mod common;

use std::future::poll_fn;
use std::panic::{catch_unwind, AssertUnwindSafe};
use std::sync::atomic::{AtomicUsize, Ordering::SeqCst};
use std::sync::{mpsc, Arc, Barrier, Mutex};
use std::task::{Poll, Waker};
use std::thread;
use std::time::Duration;

use async_task::{spawn, Runnable, Task};
use common::{block_on, poll, Count, Dropped};

/// How often a test is made.
fn rounds(few: usize) -> usize {
    few * std::env::var("ASYNC_TASK_ROUNDS").map_or(1, |times| times.parse().unwrap())
}

/// What a schedule function does with a Runnable.
#[derive(Clone, Copy, Debug)]
enum Scheduling {
    Queues,
    Slowly,
    InPlace,
    Drops,
    Panics,
}

use Scheduling::*;

/// A task in a race: its parts, and what it counts.
struct Raced {
    runnable: Option<Runnable>,
    task: Option<Task<Dropped>>,
    waker: Waker,
    queue: Arc<Mutex<Vec<Runnable>>>,
    futures: Count,
    outputs: Count,
    schedules: Count,
}

/// Spawns a task that is ready at its poll of this number, and yields before, or keeps a waker to itself.
fn raced(polls: usize, yields: bool, scheduling: Scheduling) -> Raced {
    let (futures, outputs, schedules) = (Count::default(), Count::default(), Count::default());
    let queue = Arc::new(Mutex::new(Vec::new()));
    let (to, kept, output) = (queue.clone(), schedules.dropped(), outputs.clone());
    let schedule = move |runnable: Runnable| {
        let _kept = &kept;
        match scheduling {
            Queues => to.lock().unwrap().push(runnable),
            Slowly => {
                to.lock().unwrap().push(runnable);
                thread::sleep(Duration::from_micros(200));
            }
            InPlace => drop(runnable.run()),
            Drops => drop(runnable),
            Panics => {
                drop(runnable);
                std::panic::resume_unwind(Box::new("of the schedule function"))
            }
        }
    };
    let (future, mut left) = (futures.dropped(), polls);
    let (runnable, task) = spawn(
        async move {
            let _future = &future;
            poll_fn(|context| {
                left -= 1;
                if left == 0 {
                    return Poll::Ready(());
                }
                if yields {
                    context.waker().wake_by_ref();
                }
                Poll::Pending
            })
            .await;
            output.dropped()
        },
        schedule,
    );
    let waker = runnable.waker();
    Raced { runnable: Some(runnable), task: Some(task), waker, queue, futures, outputs, schedules }
}

/// Does these at once, each on a thread of its own, with panics caught.
fn at_once(acts: Vec<Box<dyn FnOnce() + Send>>) {
    let barrier = Barrier::new(acts.len());
    thread::scope(|scope| {
        for act in acts {
            let barrier = &barrier;
            scope.spawn(move || {
                barrier.wait();
                let _caught = catch_unwind(AssertUnwindSafe(act));
            });
        }
    });
}

/// Races the calls in a way each, and looks that future, output and schedule function are gone after, once.
fn race(polls: usize, yields: bool, scheduling: Scheduling, first: bool, task_acts: usize, run: bool) {
    let Raced { mut runnable, mut task, waker, queue, futures, outputs, schedules } = raced(polls, yields, scheduling);
    if first {
        let _caught = catch_unwind(AssertUnwindSafe(|| runnable.take().map(Runnable::run)));
    }
    let runnable = runnable.or_else(|| queue.lock().unwrap().pop());
    let (task, woken) = (task.take().unwrap(), Count::default());
    let awaiter = woken.waker();
    let mut acts: Vec<Box<dyn FnOnce() + Send>> = Vec::new();
    let by_value = waker.clone();
    acts.push(Box::new(move || by_value.wake()));
    acts.push(Box::new(move || match task_acts {
        0 => drop(task),
        1 => task.detach(),
        2 => {
            let mut task = task;
            let _pending = poll(&mut task, &awaiter);
            let _again = poll(&mut task, &awaiter);
        }
        _ => {
            let mut cancel = Box::pin(task.cancel());
            let _pending = poll(&mut cancel, &awaiter);
        }
    }));
    acts.push(Box::new(move || {
        if let Some(runnable) = runnable {
            if run {
                runnable.run();
            }
        }
    }));
    at_once(acts);
    // What is left is run until nothing is.
    drop(catch_unwind(AssertUnwindSafe(move || drop(waker))));
    let pop = || queue.lock().unwrap().pop();
    while let Some(next) = pop() {
        let _caught = catch_unwind(AssertUnwindSafe(|| next.run()));
    }
    let said = format!("{polls} {yields} {scheduling:?} {first} {task_acts} {run}");
    assert_eq!((futures.get(), schedules.get()), (1, 1), "{said}");
    assert!(outputs.get() <= 1, "{said}");
}

#[test]
fn a_waker_a_task_and_a_runnable() {
    for _ in 0..rounds(6) {
        for scheduling in [Queues, Slowly, InPlace, Drops, Panics] {
            for polls in [1, 2, 3] {
                for task_acts in 0..4 {
                    // In place a yield would recurse.
                    let yields = polls == 2 && !matches!(scheduling, InPlace);
                    race(polls, yields, scheduling, polls > 1, task_acts, true);
                    race(polls, false, scheduling, false, task_acts, false);
                }
            }
        }
    }
}

#[test]
fn one_waker_by_reference_from_three_threads() {
    for _ in 0..rounds(400) {
        let Raced { runnable, task, waker, queue, futures, schedules, .. } = raced(3, false, Queues);
        runnable.map(Runnable::run);
        thread::scope(|scope| {
            for _ in 0..3 {
                scope.spawn(|| {
                    drop(waker.clone());
                    waker.wake_by_ref();
                });
            }
        });
        assert_eq!(queue.lock().unwrap().len(), 1, "an idle task that is woken is scheduled once");
        drop((task, waker));
        for runnable in queue.lock().unwrap().drain(..) {
            runnable.run();
        }
        assert_eq!((futures.get(), schedules.get()), (1, 1));
    }
}

#[test]
fn awaiters_are_woken_while_the_task_ends() {
    for round in 0..rounds(400) {
        let Raced { runnable, task, waker, futures, outputs, schedules, .. } = raced(1, false, Queues);
        let runnable = runnable.unwrap();
        let runs = thread::spawn(move || round % 3 != 0 && runnable.run());
        let output = block_on(task.unwrap().fallible());
        assert_eq!(output.is_some(), round % 3 != 0);
        drop((output, waker));
        runs.join().unwrap();
        assert_eq!((futures.get(), outputs.get(), schedules.get()), (1, usize::from(round % 3 != 0), 1));
    }
}

#[test]
fn awaiters_that_change_while_the_task_ends() {
    for _ in 0..rounds(400) {
        let Raced { runnable, task, waker, futures, schedules, .. } = raced(1, false, Queues);
        let (runnable, mut task) = (runnable.unwrap(), task.unwrap());
        let runs = thread::spawn(move || runnable.run());
        let awaiters: Vec<Count> = (0..6).map(|_| Count::default()).collect();
        let mut last = None;
        for (index, awaiter) in awaiters.iter().enumerate() {
            if poll(&mut task, &awaiter.waker()).is_ready() {
                last = None;
                break;
            }
            last = Some(index);
        }
        runs.join().unwrap();
        if let Some(last) = last {
            assert_eq!(awaiters[last].get(), 1, "the last awaiter is woken once the task is over");
            assert!(poll(&mut task, &awaiters[last].waker()).is_ready());
        }
        drop((task, waker));
        assert_eq!((futures.get(), schedules.get()), (1, 1));
    }
}

/// Wakes from threads, each after a count that the future reads: after the last wake a poll sees the last count.
fn no_wake_is_lost(wakes: usize) {
    let (to, queue) = mpsc::channel::<Runnable>();
    let (sum, seen) = (Arc::new(AtomicUsize::new(0)), Arc::new(AtomicUsize::new(0)));
    let (sum_of, seen_of) = (sum.clone(), seen.clone());
    let future = poll_fn(move |_| -> Poll<()> {
        seen_of.store(sum_of.load(SeqCst), SeqCst);
        if seen_of.load(SeqCst) == wakes * 3 {
            Poll::Ready(())
        } else {
            Poll::Pending
        }
    });
    let (runnable, task) = spawn(future, move |runnable| to.send(runnable).unwrap());
    let waker = runnable.waker();
    runnable.run();
    thread::scope(|scope| {
        for way in 0..3 {
            let (waker, sum) = (waker.clone(), &sum);
            scope.spawn(move || {
                for _ in 0..wakes {
                    sum.fetch_add(1, SeqCst);
                    if way == 0 {
                        waker.clone().wake()
                    } else {
                        waker.wake_by_ref()
                    }
                }
            });
        }
        while !task.is_finished() {
            queue.recv_timeout(Duration::from_secs(20)).expect("no wake is lost").run();
        }
    });
    assert_eq!(seen.load(SeqCst), wakes * 3);
    drop(waker);
    block_on(task);
}

#[test]
fn wakes_of_three_threads() {
    no_wake_is_lost(rounds(30_000));
}
