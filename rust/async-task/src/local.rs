//! Futures of one thread.
use std::{future::Future, mem::ManuallyDrop, pin::Pin, task::Context, task::Poll, thread, thread::ThreadId};

/// This thread.
fn here() -> ThreadId {
    std::thread_local!(static HERE: ThreadId = thread::current().id());
    HERE.try_with(|here| *here).unwrap_or_else(|_| thread::current().id())
}

/// A future that only its own thread may poll or drop.
pub(crate) struct OfThread<F> {
    thread: ThreadId,
    future: ManuallyDrop<F>,
}

impl<F> OfThread<F> {
    /// The future, for this thread.
    pub(crate) fn new(future: F) -> Self {
        OfThread { thread: here(), future: ManuallyDrop::new(future) }
    }
}

impl<F> Drop for OfThread<F> {
    fn drop(&mut self) {
        assert!(self.thread == here(), "local task dropped by a thread that didn't spawn it");
        // SAFETY: it is dropped once, here.
        unsafe { ManuallyDrop::drop(&mut self.future) }
    }
}

impl<F: Future> Future for OfThread<F> {
    type Output = F::Output;

    fn poll(self: Pin<&mut Self>, context: &mut Context<'_>) -> Poll<F::Output> {
        assert!(self.thread == here(), "local task polled by a thread that didn't spawn it");
        // SAFETY: the future is pinned as its wrapper is, and never moved out.
        unsafe { self.map_unchecked_mut(|local| &mut *local.future) }.poll(context)
    }
}
