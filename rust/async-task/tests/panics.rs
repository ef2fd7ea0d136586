//! Panics of futures, schedule functions and outputs: where they go, and what is dropped.
mod common;

use std::panic::{catch_unwind, AssertUnwindSafe};
use std::task::Poll;

use async_task::{spawn, Runnable};
use common::{poll, Count, Dropped};

/// Whether it panics.
fn panics<A>(act: impl FnOnce() -> A) -> bool {
    catch_unwind(AssertUnwindSafe(act)).is_err()
}

/// A future that panics, and counts its drop.
async fn panicking(_guard: Dropped) {
    panic!("of the future")
}

#[test]
fn a_future_that_panics_closes_its_task() {
    let (dropped, woken) = (Count::default(), Count::default());
    let (runnable, mut task) = spawn(panicking(dropped.dropped()), |_| {});
    assert!(poll(&mut task, &woken.waker()).is_pending());
    assert!(panics(|| runnable.run()));
    assert_eq!((dropped.get(), woken.get(), task.is_finished()), (1, 1, true));
    assert!(matches!(poll(&mut task.fallible(), &woken.waker()), Poll::Ready(None)));
}

#[test]
fn a_detached_future_that_panics() {
    let (dropped, kept) = (Count::default(), Count::default());
    let guard = kept.dropped();
    let schedule = move |_: Runnable| {
        let _guard = &guard;
    };
    let (runnable, task) = spawn(panicking(dropped.dropped()), schedule);
    let waker = runnable.waker();
    task.detach();
    assert!(panics(|| runnable.run()));
    assert_eq!((dropped.get(), kept.get()), (1, 0));
    waker.wake();
    assert_eq!(kept.get(), 1);
}

#[test]
fn a_future_that_wakes_or_cancels_and_panics() {
    for cancels in [false, true] {
        let (dropped, scheduled) = (Count::default(), Count::default());
        let counts = scheduled.clone();
        let guard = dropped.dropped();
        let slot = std::sync::Arc::new(std::sync::Mutex::new(None));
        let task_slot = slot.clone();
        let future = std::future::poll_fn(move |context| -> Poll<()> {
            let _guard = &guard;
            context.waker().wake_by_ref();
            if cancels {
                drop(task_slot.lock().unwrap().take());
            }
            panic!("of the future")
        });
        let (runnable, task) = spawn(future, move |_: Runnable| counts.add());
        *slot.lock().unwrap() = Some(task);
        assert!(panics(|| runnable.run()));
        assert_eq!((dropped.get(), scheduled.get()), (1, 0));
    }
}

#[cfg(feature = "std")]
#[test]
fn a_panic_that_goes_to_who_awaits() {
    let (dropped, woken) = (Count::default(), Count::default());
    let (runnable, mut task) =
        async_task::Builder::new().propagate_panic(true).spawn(|()| panicking(dropped.dropped()), |_| {});
    assert!(poll(&mut task, &woken.waker()).is_pending());
    assert!(!runnable.run());
    assert_eq!((dropped.get(), woken.get()), (1, 1));
    assert!(panics(|| poll(&mut task, &woken.waker())));
    assert!(panics(|| poll(&mut task, &woken.waker())));
}

#[test]
fn a_schedule_function_that_panics() {
    let (dropped, kept) = (Count::default(), Count::default());
    let (future, guard) = (dropped.dropped(), kept.dropped());
    let schedule = move |_: Runnable| {
        let _guard = &guard;
        panic!("of the schedule function")
    };
    let future = async move {
        let _future = future;
        std::future::pending::<()>().await
    };
    let (runnable, task) = spawn(future, schedule);
    let waker = runnable.waker();
    assert!(!runnable.run());
    assert!(panics(|| waker.wake()));
    assert_eq!((dropped.get(), kept.get(), task.is_finished()), (1, 0, true));
    task.detach();
    assert_eq!(kept.get(), 1);
    let (runnable, task) = spawn(async {}, |_: Runnable| panic!("of the schedule function"));
    assert!(panics(|| runnable.schedule()));
    assert!(task.is_finished());
}

#[test]
fn an_output_whose_drop_panics() {
    struct Bad(#[allow(dead_code)] Dropped);
    impl Drop for Bad {
        fn drop(&mut self) {
            panic!("of the output")
        }
    }
    let (dropped, kept) = (Count::default(), Count::default());
    let (output, guard) = (dropped.dropped(), kept.dropped());
    let schedule = move |_: Runnable| {
        let _guard = &guard;
    };
    let (runnable, task) = spawn(async move { Bad(output) }, schedule);
    runnable.run();
    assert!(panics(|| task.detach()));
    assert_eq!((dropped.get(), kept.get()), (1, 1));
}
