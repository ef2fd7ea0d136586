//! Each call, from each state that a task can be in, on one thread: what it answers, and what is dropped, woken and scheduled.
mod common;

use std::task::Poll;

use async_task::{spawn, Builder, Runnable, Task, WithInfo};
use common::{block_on, is_pending, poll, Count, Dropped, Queue, Seen};

fn task(polls: usize, yields: bool) -> (Runnable, Task<Dropped>, Seen, Queue) {
    let (seen, queue) = (Seen::default(), Queue::default());
    let (runnable, task) = spawn(seen.future(polls, yields), WithInfo(queue.schedule()));
    (runnable, task, seen, queue)
}

#[test]
fn run_and_await() {
    let (runnable, mut task, seen, queue) = task(1, false);
    let woken = Count::default();
    assert!(is_pending(&mut task, &woken.waker()));
    assert!(!runnable.run());
    assert_eq!((seen.counts(), woken.get(), queue.len()), ((1, 1, 0), 1, 0));
    assert!(task.is_finished());
    drop(block_on(task));
    assert_eq!(seen.counts(), (1, 1, 1));
}

#[test]
fn run_then_await() {
    let (runnable, mut task, seen, _) = task(1, false);
    runnable.run();
    let woken = Count::default();
    assert!(poll(&mut task, &woken.waker()).is_ready());
    assert_eq!((seen.counts(), woken.get()), ((1, 1, 1), 0));
}

#[test]
fn wake_then_run() {
    let (runnable, task, seen, queue) = task(2, false);
    assert!(!runnable.run());
    let waker = seen.waker();
    assert_eq!(queue.len(), 0);
    waker.wake_by_ref();
    waker.wake_by_ref();
    waker.wake();
    assert_eq!(queue.len(), 1);
    let (runnable, woken_while_running) = queue.pop().unwrap();
    assert!(!woken_while_running);
    assert!(!runnable.run());
    assert_eq!(seen.counts(), (2, 1, 0));
    drop(task);
    assert_eq!(seen.counts(), (2, 1, 1));
}

#[test]
fn yield_to_the_queue() {
    let (runnable, task, seen, queue) = task(3, true);
    assert!(runnable.run());
    for last in [false, true] {
        let (runnable, woken_while_running) = queue.pop().unwrap();
        assert!(woken_while_running);
        assert_eq!(runnable.run(), !last);
    }
    assert_eq!((seen.counts(), queue.len()), ((3, 1, 0), 0));
    task.detach();
    assert_eq!(seen.counts(), (3, 1, 1));
}

#[test]
fn an_output_that_nobody_claims_is_dropped_last() {
    struct Last(Count);
    impl Drop for Last {
        fn drop(&mut self) {
            assert_eq!(self.0.get(), 1);
            self.0.add();
        }
    }
    let dropped = Count::default();
    let (output, guard) = (Last(dropped.clone()), dropped.dropped());
    let (runnable, task) = spawn(async move { output }, move |_: Runnable| {
        let _guard = &guard;
    });
    runnable.run();
    task.detach();
    assert_eq!(dropped.get(), 2);
}

#[test]
fn detach_then_run() {
    let (runnable, task, seen, queue) = task(1, false);
    task.detach();
    runnable.run();
    assert_eq!((seen.counts(), queue.len()), ((1, 1, 1), 0));
}

#[test]
fn drop_the_task_while_scheduled() {
    let (runnable, task, seen, queue) = task(1, false);
    drop(task);
    assert_eq!(seen.counts(), (0, 0, 0));
    assert!(!runnable.run());
    assert_eq!((seen.counts(), queue.len()), ((0, 1, 0), 0));
}

#[test]
fn drop_the_task_while_idle() {
    let (runnable, task, seen, queue) = task(2, false);
    runnable.run();
    drop(task);
    assert_eq!((seen.counts(), queue.len()), ((1, 0, 0), 1));
    drop(queue.take());
    assert_eq!(seen.counts(), (1, 1, 0));
    seen.waker().wake();
    assert_eq!((seen.counts(), queue.len()), ((1, 1, 0), 0));
}

#[test]
fn drop_the_runnable() {
    let (runnable, mut task, seen, _) = task(1, false);
    let woken = Count::default();
    assert!(is_pending(&mut task, &woken.waker()));
    drop(runnable);
    assert_eq!((seen.counts(), woken.get()), ((0, 1, 0), 1));
    assert!(matches!(poll(&mut task.fallible(), &woken.waker()), Poll::Ready(None)));
}

#[test]
#[should_panic(expected = "Task polled after completion")]
fn await_a_cancelled_task() {
    let (runnable, task, ..) = task(1, false);
    drop(runnable);
    block_on(task);
}

#[test]
fn cancel_before_and_after() {
    let (runnable, task, seen, _) = task(1, false);
    let mut cancel = Box::pin(task.cancel());
    let woken = Count::default();
    assert!(poll(&mut cancel, &woken.waker()).is_pending());
    runnable.run();
    assert_eq!((seen.counts(), woken.get()), ((0, 1, 0), 1));
    assert!(matches!(poll(&mut cancel, &woken.waker()), Poll::Ready(None)));
    let (runnable, task, seen, _) = self::task(1, false);
    runnable.run();
    assert!(block_on(task.cancel()).is_some());
    assert_eq!(seen.counts(), (1, 1, 1));
}

#[test]
fn cancel_an_awaited_idle_task() {
    let (runnable, mut task, seen, queue) = task(2, false);
    let (first, second) = (Count::default(), Count::default());
    runnable.run();
    assert!(is_pending(&mut task, &first.waker()));
    let mut cancel = Box::pin(task.cancel());
    assert!(poll(&mut cancel, &second.waker()).is_pending());
    assert_eq!((first.get(), second.get(), queue.len()), (1, 0, 1));
    queue.take().run();
    assert_eq!((second.get(), seen.counts()), (1, (1, 1, 0)));
    assert!(matches!(poll(&mut cancel, &second.waker()), Poll::Ready(None)));
}

#[test]
fn the_last_waker_closes_an_open_task() {
    let (runnable, task, seen, queue) = task(2, false);
    runnable.run();
    task.detach();
    assert_eq!(queue.len(), 0);
    let waker = seen.waker();
    drop(waker.clone());
    drop(waker);
    assert_eq!((seen.counts(), queue.len()), ((1, 0, 0), 1));
    queue.take().run();
    assert_eq!(seen.counts(), (1, 1, 0));
}

#[test]
fn the_last_task_closes_an_open_task() {
    let (runnable, task, seen, queue) = task(2, false);
    runnable.run();
    drop(seen.waker());
    assert_eq!((seen.counts(), queue.len()), ((1, 0, 0), 0));
    task.detach();
    assert_eq!(queue.len(), 1);
    queue.take().run();
    assert_eq!(seen.counts(), (1, 1, 0));
}

#[test]
fn a_detached_run_that_keeps_no_waker() {
    let (queue, dropped) = (Queue::default(), Count::default());
    let guard = dropped.dropped();
    let future = async move {
        let _guard = guard;
        std::future::pending::<()>().await
    };
    let (runnable, task) = spawn(future, WithInfo(queue.schedule()));
    task.detach();
    assert!(!runnable.run());
    assert_eq!((dropped.get(), queue.len()), (0, 1));
    assert!(!queue.take().run());
    assert_eq!(dropped.get(), 1);
}

#[test]
fn replaced_awaiters() {
    let (runnable, mut task, _, _) = task(1, false);
    let (first, second) = (Count::default(), Count::default());
    assert!(is_pending(&mut task, &first.waker()));
    assert!(is_pending(&mut task, &second.waker()));
    runnable.run();
    assert_eq!((first.get(), second.get()), (0, 1));
}

#[test]
fn an_awaiter_that_is_left_is_dropped() {
    let dropped = Count::default();
    let (runnable, mut task, ..) = task(1, false);
    struct Silent(#[allow(dead_code)] Dropped);
    impl std::task::Wake for Silent {
        fn wake(self: std::sync::Arc<Self>) {}
    }
    let waker = std::sync::Arc::new(Silent(dropped.dropped())).into();
    assert!(is_pending(&mut task, &waker));
    drop(waker);
    assert_eq!(dropped.get(), 0);
    task.detach();
    runnable.run();
    assert_eq!(dropped.get(), 1);
}

#[test]
fn wakers_of_one_task_wake_alike() {
    let (runnable, task, seen, queue) = task(2, false);
    let waker = runnable.waker();
    runnable.run();
    assert!(waker.will_wake(&seen.waker()) && waker.will_wake(&waker.clone()));
    let (other, _task, ..) = self::task(1, false);
    assert!(!waker.will_wake(&other.waker()));
    drop(task);
    // A Runnable in its own queue would keep itself.
    queue.take().run();
}

#[test]
fn schedule_hands_over() {
    let (runnable, task, _, queue) = task(1, false);
    runnable.schedule();
    assert_eq!(queue.len(), 1);
    queue.take().schedule();
    assert_eq!(queue.len(), 1);
    queue.take().run();
    assert!(task.is_finished());
}

#[test]
fn metadata_and_debug() {
    let dropped = Count::default();
    let builder = Builder::new().metadata((7, dropped.dropped()));
    let (runnable, task) = builder.spawn(|metadata| std::future::ready(metadata.0 + 1), |_| {});
    assert_eq!((runnable.metadata().0, task.metadata().0), (7, 7));
    runnable.run();
    assert_eq!(dropped.get(), 0);
    assert_eq!(block_on(task), 8);
    assert_eq!(dropped.get(), 1);
    let (runnable, task) = Builder::default().spawn(|name: &String| std::future::ready(name.len()), |_| {});
    assert!(format!("{runnable:?} {task:?}").contains("metadata: \"\""));
    assert!(format!("{:?} {:?}", task.fallible(), Builder::new()).starts_with("FallibleTask"));
}

#[test]
fn large_and_aligned_futures() {
    #[repr(align(256))]
    struct Aligned([u8; 256]);
    let aligned = Aligned([1; 256]);
    let (runnable, task) = spawn(async move { &aligned as *const _ as usize % 256 + aligned.0[9] as usize }, |_| {});
    runnable.run();
    assert_eq!(block_on(task), 1);
    let large = [3u8; 5000];
    let (runnable, task) = spawn(
        async move {
            std::future::ready(()).await;
            large[4999]
        },
        |_| {},
    );
    runnable.run();
    assert_eq!(block_on(task), 3);
}

#[test]
fn a_runnable_goes_through_a_pointer() {
    let (runnable, task, seen, _) = task(1, false);
    let pointer = runnable.into_raw();
    drop(task);
    // SAFETY: the pointer is turned back once.
    let runnable: Runnable = unsafe { Runnable::from_raw(pointer) };
    assert!(!runnable.run());
    assert_eq!(seen.counts(), (0, 1, 0));
}

#[test]
fn a_schedule_function_that_runs_in_place() {
    let seen = Seen::default();
    let kept = Count::default();
    let guard = kept.dropped();
    let schedule = move |runnable: Runnable| {
        let _guard = &guard;
        runnable.run();
    };
    let (runnable, task) = spawn(seen.future(3, false), schedule);
    task.detach();
    runnable.schedule();
    seen.waker().wake();
    assert_eq!((seen.counts(), kept.get()), ((2, 0, 0), 0));
    seen.waker().wake();
    assert_eq!((seen.counts(), kept.get()), ((3, 1, 1), 1));
}

#[test]
fn a_task_that_ends_inside_its_schedule_function() {
    let (kept, futures) = (Count::default(), Count::default());
    let (guard, seen, future) = (kept.dropped(), kept.clone(), futures.dropped());
    let schedule = move |runnable: Runnable| {
        let _guard = &guard;
        drop(runnable);
        assert_eq!(seen.get(), 0, "the schedule function outlives its own call");
    };
    let (runnable, task) = spawn(async move { drop(future) }, schedule);
    task.detach();
    runnable.schedule();
    assert_eq!((futures.get(), kept.get()), (1, 1));
}

#[cfg(feature = "std")]
#[test]
fn a_builder_keeps_what_it_was_told() {
    let builder = Builder::new().propagate_panic(true).metadata(1).propagate_panic(true);
    let (runnable, task) = builder.spawn(|_| async { panic!("of the future") }, |_| {});
    assert!(!runnable.run());
    task.detach();
    let builder = Builder::new().propagate_panic(true).metadata(1);
    let (runnable, task) = builder.spawn(|_| async { panic!("of the future") }, |_| {});
    assert!(!runnable.run());
    task.detach();
}

#[test]
fn auto_traits() {
    fn shared<T: Send + Sync>() {}
    fn unwinds<T: std::panic::UnwindSafe + std::panic::RefUnwindSafe>() {}
    fn moves<T: Unpin>() {}
    type Kept = (std::cell::Cell<u8>, &'static mut u8, std::marker::PhantomPinned);
    shared::<(Runnable<u8>, Task<std::cell::Cell<u8>, u8>)>();
    unwinds::<(Runnable<Kept>, Task<Kept, Kept>)>();
    moves::<Task<Kept, Kept>>();
}
