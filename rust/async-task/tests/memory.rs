//! What is allocated: one block a task, and all of it is freed. One test, since all threads share the counts.
use std::alloc::{GlobalAlloc, Layout, System};
use std::sync::atomic::{AtomicIsize, AtomicUsize, Ordering::SeqCst};

use async_task::{spawn, Builder, Runnable};

static ALLOCATIONS: AtomicUsize = AtomicUsize::new(0);
static BYTES: AtomicIsize = AtomicIsize::new(0);

/// The system's heap, counted.
struct Counts;

// SAFETY: it is the system's heap.
unsafe impl GlobalAlloc for Counts {
    unsafe fn alloc(&self, layout: Layout) -> *mut u8 {
        ALLOCATIONS.fetch_add(1, SeqCst);
        BYTES.fetch_add(layout.size() as isize, SeqCst);
        System.alloc(layout)
    }

    unsafe fn dealloc(&self, at: *mut u8, layout: Layout) {
        BYTES.fetch_sub(layout.size() as isize, SeqCst);
        System.dealloc(at, layout)
    }
}

#[global_allocator]
static HEAP: Counts = Counts;

/// How many allocations it makes, and how many bytes it leaves.
fn counted(act: impl FnOnce()) -> (usize, isize) {
    let before = (ALLOCATIONS.load(SeqCst), BYTES.load(SeqCst));
    act();
    (ALLOCATIONS.load(SeqCst) - before.0, BYTES.load(SeqCst) - before.1)
}

#[test]
fn one_allocation_a_task_and_all_freed() {
    let run = |runnable: Runnable| drop(runnable);
    run(spawn(async {}, |_| {}).0);
    let ready = counted(|| {
        let (runnable, task) = spawn(async { 1 }, move |_| {});
        runnable.run();
        drop(task);
    });
    assert_eq!(ready, (1, 0));
    let wakers = counted(|| {
        let (runnable, task) = spawn(std::future::pending::<()>(), run);
        let waker = runnable.waker();
        drop(waker.clone());
        runnable.run();
        task.detach();
        waker.wake();
    });
    assert_eq!(wakers, (1, 0));
    let dropped = counted(|| {
        let (runnable, task) = Builder::new().metadata([1u64; 9]).spawn(|_| async {}, |_| {});
        drop(task);
        drop(runnable);
    });
    assert_eq!(dropped, (1, 0));
    let large = [1u8; 4000];
    let boxed = counted(|| {
        let (runnable, task) = spawn(async move { large[3] }, |_| {});
        drop((task, runnable));
    });
    assert_eq!(boxed, (2, 0));
}
