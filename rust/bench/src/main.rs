//! What the calls cost, over whatever `async-task` this is built with. The names are those of docs/PERFORMANCE.md.
//!
//!     bench [quick]               a line `NAME MEDIAN min LEAST` for each: nanoseconds for one operation
//!     bench perform NAME COUNT    does operations alone, to count instructions
use std::collections::VecDeque;
use std::future::Future;
use std::hint::black_box;
use std::pin::Pin;
use std::sync::atomic::{AtomicBool, Ordering::Relaxed};
use std::sync::{Arc, Barrier, Mutex};
use std::task::{Context, Poll, Wake, Waker};
use std::time::{Duration, Instant};

use async_task::{spawn, Runnable, Task};

/// A future that is ready at once.
struct Ready(u64);

impl Future for Ready {
    type Output = u64;

    fn poll(self: Pin<&mut Self>, _: &mut Context<'_>) -> Poll<u64> {
        Poll::Ready(self.0)
    }
}

/// A future that is never ready.
struct Never;

impl Future for Never {
    type Output = ();

    fn poll(self: Pin<&mut Self>, _: &mut Context<'_>) -> Poll<()> {
        Poll::Pending
    }
}

/// A future that wakes itself this many times.
struct Yields(u64);

impl Future for Yields {
    type Output = ();

    fn poll(mut self: Pin<&mut Self>, context: &mut Context<'_>) -> Poll<()> {
        if self.0 == 0 {
            return Poll::Ready(());
        }
        self.0 -= 1;
        context.waker().wake_by_ref();
        Poll::Pending
    }
}

/// A queue under a lock.
static QUEUE: Mutex<VecDeque<Runnable>> = Mutex::new(VecDeque::new());

fn push(runnable: Runnable) {
    QUEUE.lock().unwrap().push_back(runnable);
}

fn pop() -> Option<Runnable> {
    QUEUE.lock().unwrap().pop_front()
}

/// A place for one Runnable, of this thread.
struct Slot(std::cell::UnsafeCell<Option<Runnable>>);

// SAFETY: only the benchmarks of one thread use it.
unsafe impl Sync for Slot {}

static SLOT: Slot = Slot(std::cell::UnsafeCell::new(None));

fn put(runnable: Runnable) {
    // SAFETY: as above.
    unsafe { *SLOT.0.get() = Some(runnable) }
}

fn take() -> Option<Runnable> {
    // SAFETY: as above.
    unsafe { (*SLOT.0.get()).take() }
}

/// A waker that wakes nobody.
fn nobody() -> Waker {
    struct Nobody;

    impl Wake for Nobody {
        fn wake(self: Arc<Self>) {}
    }

    Arc::new(Nobody).into()
}

fn poll<T>(task: &mut Task<T>, waker: &Waker) -> bool {
    black_box(Pin::new(task).poll(&mut Context::from_waker(waker))).is_ready()
}

/// A schedule function with something in it, as those of executors have.
fn queue(kept: u64) -> impl Fn(Runnable) + Send + Sync + 'static {
    move |runnable| {
        black_box(&kept);
        push(runnable);
    }
}

/// An operation: what makes it ready, and does it so often.
type Operation = (&'static str, fn(u64));

/// The operations of one thread.
const OPERATIONS: &[Operation] = &[
    ("a_spawn_run_poll_drop", |times| {
        let waker = nobody();
        for i in 0..times {
            let (runnable, mut task) = spawn(Ready(i), queue(i));
            runnable.run();
            poll(&mut task, &waker);
        }
    }),
    ("a2_spawn_detach_run", |times| {
        for i in 0..times {
            let (runnable, task) = spawn(Ready(i), queue(i));
            task.detach();
            runnable.run();
        }
    }),
    ("a3_spawn_poll_run_poll_drop", |times| {
        let waker = nobody();
        for i in 0..times {
            let (runnable, mut task) = spawn(Ready(i), queue(i));
            poll(&mut task, &waker);
            runnable.run();
            poll(&mut task, &waker);
        }
    }),
    ("b_wake_run_slot", |times| {
        let (runnable, task) = spawn(Never, put);
        let waker = runnable.waker();
        runnable.run();
        for _ in 0..times {
            waker.wake_by_ref();
            take().unwrap().run();
        }
        drop(task);
        drop(take());
    }),
    ("b_wake_run_mutex_queue", |times| {
        let (runnable, task) = spawn(Never, queue(1));
        let waker = runnable.waker();
        runnable.run();
        for _ in 0..times {
            waker.wake_by_ref();
            pop().unwrap().run();
        }
        drop(task);
        drop(pop());
    }),
    ("b2_self_wake_run_slot", |times| {
        let (runnable, task) = spawn(Yields(u64::MAX), put);
        put(runnable);
        for _ in 0..times {
            take().unwrap().run();
        }
        drop(task);
        drop(take());
    }),
    ("b3_wake_by_ref_scheduled", |times| {
        let (runnable, _task) = spawn(Never, queue(1));
        let waker = runnable.waker();
        for _ in 0..times {
            black_box(&waker).wake_by_ref();
        }
    }),
    ("b4_wake_by_ref_completed", |times| {
        let (runnable, _task) = spawn(Ready(1), queue(1));
        let waker = runnable.waker();
        runnable.run();
        for _ in 0..times {
            black_box(&waker).wake_by_ref();
        }
    }),
    ("b5_task_is_finished", |times| {
        let (_runnable, task) = spawn(Never, queue(1));
        for _ in 0..times {
            black_box(black_box(&task).is_finished());
        }
    }),
    ("b6_task_poll_pending_register", |times| {
        let (_runnable, mut task) = spawn(Never, queue(1));
        let waker = nobody();
        for _ in 0..times {
            poll(black_box(&mut task), &waker);
        }
    }),
    ("c_waker_clone_drop", |times| {
        let (runnable, _task) = spawn(Never, queue(1));
        let waker = runnable.waker();
        for _ in 0..times {
            drop(black_box(black_box(&waker).clone()));
        }
    }),
    ("d_spawn_drop_drop", |times| {
        for i in 0..times {
            let (runnable, task) = spawn(Ready(i), queue(i));
            drop(runnable);
            drop(task);
        }
    }),
    ("e_executor_n1000_k0_per_task", |times| execute(times, 0)),
    ("e_executor_n1000_k10_per_task", |times| execute(times, 10)),
];

/// Spawns tasks by the thousand, detached, which give way so often, and runs the queue until it is empty.
fn execute(times: u64, yields: u64) {
    let mut left = times;
    while left > 0 {
        for i in 0..left.min(1000) {
            let (runnable, task) = spawn(Yields(yields), queue(i));
            task.detach();
            runnable.schedule();
        }
        while let Some(runnable) = pop() {
            runnable.run();
        }
        left = left.saturating_sub(1000);
    }
}

/// Prints the median and the least of some times.
fn print(name: &str, mut times: Vec<f64>) {
    times.sort_by(f64::total_cmp);
    println!("{name} {:.2} min {:.2}", times[times.len() / 2], times[0]);
}

/// Measures an operation of one thread: so many that one repetition takes 60 milliseconds.
fn measure((name, operation): &Operation, repetitions: usize) {
    let mut times = 1000;
    loop {
        let start = Instant::now();
        operation(times);
        if start.elapsed() > Duration::from_millis(60) {
            break;
        }
        times *= 2;
    }
    let repeat = |_| {
        let start = Instant::now();
        operation(times);
        start.elapsed().as_nanos() as f64 / times as f64
    };
    print(name, (0..repetitions).map(repeat).collect());
}

/// Measures what threads do at once for a while, and one more thread that runs the queue.
fn measure_threads(name: &str, threads: usize, repetitions: usize, act: impl Fn(usize) + Sync) {
    let repeat = |_| {
        let (stop, barrier) = (AtomicBool::new(false), Barrier::new(threads + 2));
        std::thread::scope(|scope| {
            let workers: Vec<_> = (0..threads)
                .map(|index| {
                    let (stop, barrier, act) = (&stop, &barrier, &act);
                    scope.spawn(move || {
                        barrier.wait();
                        let mut done = 0u64;
                        while !stop.load(Relaxed) {
                            (0..64).for_each(|_| act(index));
                            done += 64;
                        }
                        done
                    })
                })
                .collect();
            scope.spawn(|| {
                barrier.wait();
                while !stop.load(Relaxed) {
                    let _ran = pop().map(Runnable::run);
                }
            });
            barrier.wait();
            let start = Instant::now();
            std::thread::sleep(Duration::from_millis(150));
            stop.store(true, Relaxed);
            let done: u64 = workers.into_iter().map(|worker| worker.join().unwrap()).sum();
            start.elapsed().as_nanos() as f64 * threads as f64 / done as f64
        })
    };
    print(name, (0..repetitions).map(repeat).collect());
}

/// The operations of threads that share a task.
fn contended(repetitions: usize) {
    for threads in [1, 2, 4] {
        let (runnable, task) = spawn(Never, queue(1));
        let wakers: Vec<Waker> = (0..threads).map(|_| runnable.waker()).collect();
        runnable.run();
        let wake = |index: usize| wakers[index].wake_by_ref();
        measure_threads(&format!("f_wake_storm_t{threads}"), threads, repetitions, wake);
        let clone = |index: usize| drop(black_box(wakers[index].clone()));
        measure_threads(&format!("g_clone_drop_t{threads}"), threads, repetitions, clone);
        let one = |_| wakers[0].wake_by_ref();
        measure_threads(&format!("h_one_waker_t{threads}"), threads, repetitions, one);
        drop((task, wakers));
        while let Some(runnable) = pop() {
            runnable.run();
        }
    }
}

fn main() {
    let words: Vec<String> = std::env::args().skip(1).collect();
    match &words[..] {
        [perform, name, count] if perform == "perform" => {
            let operation = OPERATIONS.iter().find(|(known, _)| known == name).expect("an operation of this name");
            operation.1(count.parse().expect("a count"));
        }
        _ => {
            let repetitions = if words.iter().any(|word| word == "quick") { 5 } else { 15 };
            OPERATIONS.iter().for_each(|operation| measure(operation, repetitions));
            contended(repetitions);
        }
    }
}
