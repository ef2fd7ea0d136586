//! Making tasks.
use alloc::boxed::Box;
use core::{future::Future, mem::size_of};

use crate::{body::Body, runnable::Runnable, schedule::Schedule, task::Task};

/// From this size on a future gets an allocation of its own.
const LARGE: usize = 2048;

/// Makes tasks that carry metadata, or whose panics go to who awaits them.
///
/// ```
/// let builder = async_task::Builder::new().metadata("parser").propagate_panic(true);
/// let (runnable, task) = builder.spawn(|_| async {}, |_| {});
/// assert_eq!(*task.metadata(), "parser");
/// # drop(runnable);
/// ```
#[derive(Debug, Default)]
pub struct Builder<M> {
    pub(crate) metadata: M,
    pub(crate) propagate_panic: bool,
}

impl Builder<()> {
    /// A builder without metadata.
    ///
    /// ```
    /// let (runnable, task) = async_task::Builder::new().spawn(|()| async {}, |_| {});
    /// runnable.run();
    /// assert!(task.is_finished());
    /// ```
    pub fn new() -> Builder<()> {
        Builder { metadata: (), propagate_panic: false }
    }

    /// Adds metadata, which the Runnable and the Task show.
    ///
    /// ```
    /// let (runnable, task) = async_task::Builder::new().metadata(7).spawn(|_| async {}, |_| {});
    /// assert_eq!(*runnable.metadata(), 7);
    /// # drop(task);
    /// ```
    pub fn metadata<M>(self, metadata: M) -> Builder<M> {
        Builder { metadata, propagate_panic: self.propagate_panic }
    }
}

impl<M> Builder<M> {
    /// Says whether a panic of the future goes to who awaits the Task, and not to who runs it.
    ///
    /// ```
    /// let builder = async_task::Builder::new().propagate_panic(true);
    /// let (runnable, task) = builder.spawn(|()| async { panic!() }, |_| {});
    /// assert!(!runnable.run()); // No panic here.
    /// # drop(task);
    /// ```
    #[cfg(feature = "std")]
    pub fn propagate_panic(self, propagate_panic: bool) -> Builder<M> {
        Builder { metadata: self.metadata, propagate_panic }
    }

    /// Makes a task as [`spawn()`], of a future that may look at the metadata.
    ///
    /// ```
    /// let builder = async_task::Builder::new().metadata(20);
    /// let (runnable, task) = builder.spawn(|&twenty| async move { twenty + 1 }, |_| {});
    /// runnable.run();
    /// # drop(task);
    /// ```
    pub fn spawn<F, Fut, S>(self, future: F, schedule: S) -> (Runnable<M>, Task<Fut::Output, M>)
    where
        F: FnOnce(&M) -> Fut,
        Fut: Future + Send + 'static,
        Fut::Output: Send + 'static,
        S: Schedule<M> + Send + Sync + 'static,
    {
        // SAFETY: the future and the schedule function may go to any thread, and borrow nothing.
        unsafe { self.spawn_unchecked(future, schedule) }
    }

    /// Makes a task as [`spawn_local()`], of a future that may look at the metadata.
    ///
    /// ```
    /// let shared = std::rc::Rc::new(1);
    /// let (runnable, task) = async_task::Builder::new().spawn_local(|()| async move { *shared }, |_| {});
    /// runnable.run();
    /// # drop(task);
    /// ```
    #[cfg(feature = "std")]
    pub fn spawn_local<F, Fut, S>(self, future: F, schedule: S) -> (Runnable<M>, Task<Fut::Output, M>)
    where
        F: FnOnce(&M) -> Fut,
        Fut: Future + 'static,
        Fut::Output: 'static,
        S: Schedule<M> + Send + Sync + 'static,
    {
        let future = move |metadata: &M| crate::local::OfThread::new(future(metadata));
        // SAFETY: the future looks at the thread at each poll and at its drop; the schedule function may go to any thread.
        unsafe { self.spawn_unchecked(future, schedule) }
    }

    /// Makes a task without the bounds of [`spawn()`](Builder::spawn).
    ///
    /// # Safety
    ///
    /// - A future that is not [`Send`] has its Runnable run and dropped on its own thread alone.
    /// - What the future borrows lives until its Runnable has ended for good.
    /// - Where the schedule function is not `Send` and `Sync`, the task's wakers stay on its own thread.
    /// - What the schedule function borrows outlives all the task's wakers.
    ///
    /// ```
    /// let text = String::from("borrowed");
    /// let (runnable, task) = unsafe { async_task::Builder::new().spawn_unchecked(|()| async { text.len() }, |_| {}) };
    /// runnable.run();
    /// # drop(task);
    /// ```
    pub unsafe fn spawn_unchecked<'a, F, Fut, S>(self, future: F, schedule: S) -> (Runnable<M>, Task<Fut::Output, M>)
    where
        F: FnOnce(&'a M) -> Fut,
        Fut: Future + 'a,
        S: Schedule<M>,
        M: 'a,
    {
        if size_of::<Fut>() >= LARGE {
            Body::allocate(|metadata| Box::pin(future(metadata)), schedule, self)
        } else {
            Body::allocate(future, schedule, self)
        }
    }
}

/// Makes a task: the [`Runnable`] polls the future once where it is run, and the [`Task`] awaits its output.
///
/// When the task is woken, its Runnable goes to the schedule function, which keeps it for later.
///
/// ```
/// let (to, queue) = std::sync::mpsc::channel();
/// let (runnable, task) = async_task::spawn(async { 1 + 2 }, move |runnable| to.send(runnable).unwrap());
/// runnable.schedule();
/// queue.recv().unwrap().run();
/// assert!(task.is_finished());
/// ```
pub fn spawn<F, S>(future: F, schedule: S) -> (Runnable, Task<F::Output>)
where
    F: Future + Send + 'static,
    F::Output: Send + 'static,
    S: Schedule + Send + Sync + 'static,
{
    // SAFETY: as in `Builder::spawn`.
    unsafe { spawn_unchecked(future, schedule) }
}

/// Makes a task of this thread: a run or drop of its Runnable on another one panics.
///
/// ```
/// let shared = std::rc::Rc::new(1);
/// let (runnable, task) = async_task::spawn_local(async move { *shared }, |_| {});
/// runnable.run();
/// # drop(task);
/// ```
#[cfg(feature = "std")]
pub fn spawn_local<F, S>(future: F, schedule: S) -> (Runnable, Task<F::Output>)
where
    F: Future + 'static,
    F::Output: 'static,
    S: Schedule + Send + Sync + 'static,
{
    Builder::new().spawn_local(move |()| future, schedule)
}

/// Makes a task without the bounds of [`spawn()`].
///
/// # Safety
///
/// As of [`Builder::spawn_unchecked`].
///
/// ```
/// let text = String::from("borrowed");
/// let (runnable, task) = unsafe { async_task::spawn_unchecked(async { text.len() }, |_| {}) };
/// runnable.run();
/// # drop(task);
/// ```
pub unsafe fn spawn_unchecked<F, S>(future: F, schedule: S) -> (Runnable, Task<F::Output>)
where
    F: Future,
    S: Schedule,
{
    Builder::new().spawn_unchecked(move |()| future, schedule)
}
