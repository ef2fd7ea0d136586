//! What the tests share: a queue, futures that count, wakers that count.
#![allow(dead_code)]
use std::collections::VecDeque;
use std::future::Future;
use std::pin::Pin;
use std::sync::atomic::{AtomicUsize, Ordering::SeqCst};
use std::sync::{Arc, Mutex};
use std::task::{Context, Poll, Wake, Waker};

use async_task::{Runnable, ScheduleInfo, Task};

/// A queue of Runnables, and of what the schedule function was told.
#[derive(Clone, Default)]
pub struct Queue(Arc<Mutex<VecDeque<(Runnable, bool)>>>);

impl Queue {
    /// Its schedule function.
    pub fn schedule(&self) -> impl Fn(Runnable, ScheduleInfo) + Send + Sync + 'static {
        let queue = self.clone();
        move |runnable, info| queue.0.lock().unwrap().push_back((runnable, info.woken_while_running))
    }

    /// The oldest Runnable, and whether it was woken while it ran.
    pub fn pop(&self) -> Option<(Runnable, bool)> {
        self.0.lock().unwrap().pop_front()
    }

    /// The oldest Runnable.
    pub fn take(&self) -> Runnable {
        self.pop().expect("a Runnable is queued").0
    }

    /// How many there are.
    pub fn len(&self) -> usize {
        self.0.lock().unwrap().len()
    }
}

/// A count.
#[derive(Clone, Default)]
pub struct Count(Arc<AtomicUsize>);

impl Count {
    /// The count now.
    pub fn get(&self) -> usize {
        self.0.load(SeqCst)
    }

    /// One more.
    pub fn add(&self) {
        self.0.fetch_add(1, SeqCst);
    }

    /// What counts its drop.
    pub fn dropped(&self) -> Dropped {
        Dropped(self.clone())
    }

    /// A waker that counts its wakes.
    pub fn waker(&self) -> Waker {
        Arc::new(Wakes(self.clone())).into()
    }
}

/// Counts its drop.
pub struct Dropped(Count);

impl Drop for Dropped {
    fn drop(&mut self) {
        self.0.add();
    }
}

struct Wakes(Count);

impl Wake for Wakes {
    fn wake(self: Arc<Self>) {
        self.0.add();
    }

    fn wake_by_ref(self: &Arc<Self>) {
        self.0.add();
    }
}

/// A future that keeps its waker, and is ready at its poll with this number. Beside it what it counts.
pub struct Steps {
    pub polls: usize,
    pub wakers: Arc<Mutex<Vec<Waker>>>,
    pub polled: Count,
    pub yields: bool,
    pub future: Dropped,
    pub output: Count,
}

/// What the tests look at of a task of [`Steps`].
#[derive(Clone, Default)]
pub struct Seen {
    pub wakers: Arc<Mutex<Vec<Waker>>>,
    pub polled: Count,
    pub futures: Count,
    pub outputs: Count,
}

impl Seen {
    /// A future that is ready at its poll of this number.
    pub fn future(&self, polls: usize, yields: bool) -> Steps {
        Steps {
            polls,
            wakers: self.wakers.clone(),
            polled: self.polled.clone(),
            yields,
            future: self.futures.dropped(),
            output: self.outputs.clone(),
        }
    }

    /// The waker that the last poll kept.
    pub fn waker(&self) -> Waker {
        self.wakers.lock().unwrap().pop().expect("a waker was kept")
    }

    /// How many polls, and drops of the future and of the output, there were.
    pub fn counts(&self) -> (usize, usize, usize) {
        (self.polled.get(), self.futures.get(), self.outputs.get())
    }
}

impl Future for Steps {
    type Output = Dropped;

    fn poll(mut self: Pin<&mut Self>, context: &mut Context<'_>) -> Poll<Dropped> {
        self.polled.add();
        self.polls -= 1;
        if self.polls == 0 {
            return Poll::Ready(self.output.dropped());
        }
        if self.yields {
            context.waker().wake_by_ref();
        } else {
            self.wakers.lock().unwrap().push(context.waker().clone());
        }
        Poll::Pending
    }
}

/// Polls a Task by this waker.
pub fn poll<F: Future + Unpin>(task: &mut F, waker: &Waker) -> Poll<F::Output> {
    Pin::new(task).poll(&mut Context::from_waker(waker))
}

/// Whether the Task is pending.
pub fn is_pending<T>(task: &mut Task<T>, waker: &Waker) -> bool {
    poll(task, waker).is_pending()
}

/// Waits for a future on this thread.
pub fn block_on<F: Future>(future: F) -> F::Output {
    struct Unpark(std::thread::Thread);

    impl Wake for Unpark {
        fn wake(self: Arc<Self>) {
            self.0.unpark();
        }
    }

    let waker = Waker::from(Arc::new(Unpark(std::thread::current())));
    let mut future = Box::pin(future);
    loop {
        match future.as_mut().poll(&mut Context::from_waker(&waker)) {
            Poll::Ready(output) => return output,
            Poll::Pending => std::thread::park(),
        }
    }
}
