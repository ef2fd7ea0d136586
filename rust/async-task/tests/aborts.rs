//! What ends the process: each case runs in a process of its own, which has to end by an abort and not by a panic.
mod common;

use std::alloc::{GlobalAlloc, Layout, System};
use std::os::unix::process::ExitStatusExt;
use std::process::{Command, Stdio};
use std::sync::atomic::{AtomicBool, Ordering::SeqCst};
use std::sync::Arc;
use std::task::{Wake, Waker};

use async_task::spawn;
#[cfg(feature = "std")]
use async_task::{spawn_local, Runnable};
use common::poll;
#[cfg(feature = "std")]
use common::Count;

/// Whether the heap refuses memory.
static REFUSES: AtomicBool = AtomicBool::new(false);

/// The system's heap, which refuses on demand.
struct Heap;

// SAFETY: it is the system's heap, or refuses.
unsafe impl GlobalAlloc for Heap {
    unsafe fn alloc(&self, layout: Layout) -> *mut u8 {
        if REFUSES.load(SeqCst) && layout.size() > 400 {
            return std::ptr::null_mut();
        }
        System.alloc(layout)
    }

    unsafe fn dealloc(&self, at: *mut u8, layout: Layout) {
        System.dealloc(at, layout)
    }
}

#[global_allocator]
static HEAP: Heap = Heap;

/// Panics at its drop.
struct PanicsAtDrop;

impl Drop for PanicsAtDrop {
    fn drop(&mut self) {
        panic!("of a drop")
    }
}

/// An awaiter that panics where it is woken.
struct PanicsAtWake;

impl Wake for PanicsAtWake {
    fn wake(self: Arc<Self>) {
        panic!("of a wake")
    }
}

/// Runs the test of this name in a process of its own, which has to abort after `act` has begun.
fn aborts(name: &str, act: impl FnOnce()) {
    if std::env::var_os("ACTS").is_some() {
        let _caught = std::panic::catch_unwind(std::panic::AssertUnwindSafe(act));
        std::process::exit(0);
    }
    let mut child = Command::new(std::env::current_exe().unwrap());
    child.args(["--exact", name, "--nocapture"]).env("ACTS", "1").env("RUST_BACKTRACE", "0");
    let status = child.stdout(Stdio::null()).stderr(Stdio::null()).status().unwrap();
    assert_eq!(status.signal(), Some(6), "{name}: {status}");
}

#[test]
fn the_drop_of_a_future_panics() {
    aborts("the_drop_of_a_future_panics", || {
        let guard = PanicsAtDrop;
        let (runnable, task) = spawn(
            async move {
                let _guard = guard;
                std::future::pending::<()>().await
            },
            |_| {},
        );
        task.detach();
        drop(runnable);
    });
}

#[test]
fn the_drop_of_an_unclaimed_output_panics() {
    aborts("the_drop_of_an_unclaimed_output_panics", || {
        let (runnable, task) = spawn(async { PanicsAtDrop }, |_| {});
        task.detach();
        runnable.run();
    });
}

#[test]
fn the_drop_of_metadata_panics() {
    aborts("the_drop_of_metadata_panics", || {
        let (runnable, task) = async_task::Builder::new().metadata(PanicsAtDrop).spawn(|_| async {}, |_| {});
        task.detach();
        runnable.run();
    });
}

#[test]
fn the_wake_of_an_awaiter_panics() {
    aborts("the_wake_of_an_awaiter_panics", || {
        let (runnable, mut task) = spawn(async {}, |_| {});
        assert!(poll(&mut task, &Waker::from(Arc::new(PanicsAtWake))).is_pending());
        runnable.run();
    });
}

#[test]
fn the_wake_of_an_awaiter_panics_in_a_cancel() {
    aborts("the_wake_of_an_awaiter_panics_in_a_cancel", || {
        let (runnable, mut task) = spawn(async {}, |_| {});
        assert!(poll(&mut task, &Waker::from(Arc::new(PanicsAtWake))).is_pending());
        drop(task);
        runnable.run();
    });
}

#[test]
fn memory_is_refused() {
    aborts("memory_is_refused", || {
        let large = [1u8; 1000];
        REFUSES.store(true, SeqCst);
        let (runnable, task) = spawn(async move { large[0] }, |_| {});
        REFUSES.store(false, SeqCst);
        drop((runnable, task));
    });
}

#[test]
fn the_making_of_a_future_panics() {
    aborts("the_making_of_a_future_panics", || {
        fn maker(_: &()) -> std::future::Ready<()> {
            panic!("of the maker")
        }
        let (runnable, task) = async_task::Builder::new().spawn(maker, |_| {});
        drop((runnable, task));
    });
}

#[cfg(feature = "std")]
#[test]
fn a_local_task_is_run_on_another_thread() {
    aborts("a_local_task_is_run_on_another_thread", || {
        let (runnable, task) = spawn_local(async {}, |_| {});
        // The future panics at its poll, and again at its drop, which ends the process.
        let _ended = std::thread::spawn(move || runnable.run()).join();
        drop(task);
    });
}

#[cfg(feature = "std")]
#[test]
fn a_local_task_is_dropped_on_another_thread() {
    aborts("a_local_task_is_dropped_on_another_thread", || {
        let (runnable, task): (Runnable, _) = spawn_local(async {}, |_| {});
        let _ended = std::thread::spawn(move || drop(runnable)).join();
        drop(task);
    });
}

#[cfg(feature = "std")]
#[test]
fn a_local_task_comes_back_to_its_thread() {
    let woken = Count::default();
    let (runnable, mut task) = spawn_local(async {}, |_| {});
    let runnable = std::thread::spawn(move || runnable).join().unwrap();
    assert!(poll(&mut task, &woken.waker()).is_pending());
    runnable.run();
    assert_eq!(woken.get(), 1);
}
