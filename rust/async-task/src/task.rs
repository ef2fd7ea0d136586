//! The Task.
use core::{fmt, future::Future, marker::PhantomData, mem::forget, pin::Pin, ptr::NonNull, task::Context, task::Poll};

use crate::{await_task, body::Header, cell::*, panics::resume};

/// Awaits the output of a task. Its drop cancels the task.
///
/// A cancelled task is scheduled once more, and its future dropped by the run or the drop of that Runnable.
///
/// ```
/// let (runnable, task) = async_task::spawn(async { 1 + 2 }, |_| {});
/// runnable.run();
/// let (waits, waiting) = async_task::spawn(async { assert_eq!(task.await, 3) }, |_| {});
/// waits.run();
/// assert!(waiting.is_finished());
/// ```
#[must_use = "tasks get canceled when dropped, use `.detach()` to run them in the background"]
pub struct Task<T, M = ()> {
    pub(crate) ptr: NonNull<()>,
    pub(crate) marker: PhantomData<fn() -> (T, M)>,
}

// SAFETY: the output may go with the Task; metadata is shared; for the rest see `Runnable`.
unsafe impl<T: Send, M: Send + Sync> Send for Task<T, M> {}
// SAFETY: by reference a Task shows its metadata, and whether it is finished.
unsafe impl<T, M: Send + Sync> Sync for Task<T, M> {}

impl<T, M> Task<T, M> {
    /// Lets the task go on without its Task, in the background.
    ///
    /// ```
    /// let (runnable, task) = async_task::spawn(async { println!("in the background") }, |_| {});
    /// task.detach();
    /// runnable.run();
    /// ```
    pub fn detach(self) {
        let at = self.at();
        forget(self);
        // SAFETY: `T` is the type of the output.
        unsafe { await_task::detach::<T>(at) }
    }

    /// Cancels the task, and waits until its future is dropped. The output, if the task was completed before.
    ///
    /// ```
    /// let (runnable, task) = async_task::spawn(async { 1 }, |_| {});
    /// runnable.run();
    /// let (waits, waiting) = async_task::spawn(async { assert_eq!(task.cancel().await, Some(1)) }, |_| {});
    /// waits.run();
    /// assert!(waiting.is_finished());
    /// ```
    pub async fn cancel(self) -> Option<T> {
        await_task::cancel(self.at(), |At { .. }| {});
        self.fallible().await
    }

    /// The same as a future whose output is `None` where the task was cancelled.
    ///
    /// ```
    /// let (runnable, task) = async_task::spawn(async { 1 }, |_| {});
    /// drop(runnable);
    /// let (waits, waiting) = async_task::spawn(async { assert_eq!(task.fallible().await, None) }, |_| {});
    /// waits.run();
    /// assert!(waiting.is_finished());
    /// ```
    pub fn fallible(self) -> FallibleTask<T, M> {
        FallibleTask { task: self }
    }

    /// Whether the task is completed or closed, at this moment.
    ///
    /// ```
    /// let (runnable, task) = async_task::spawn(async {}, |_| {});
    /// assert!(!task.is_finished());
    /// runnable.run();
    /// assert!(task.is_finished());
    /// ```
    pub fn is_finished(&self) -> bool {
        // SAFETY: a Task can be lent for the call.
        unsafe { At::<Lent>::of(self.ptr) }.choose::<IsFinished>()
    }

    /// The metadata of the task.
    ///
    /// ```
    /// let (runnable, task) = async_task::Builder::new().metadata('m').spawn(|_| async {}, |_| {});
    /// assert_eq!(*task.metadata(), 'm');
    /// # drop(runnable);
    /// ```
    pub fn metadata(&self) -> &M {
        // SAFETY: the Task keeps the allocation, whose metadata is an `M`.
        unsafe { &self.ptr.cast::<Header<M>>().as_ref().metadata }
    }

    /// The handle of this Task, for a call that leaves it resting or ends it.
    fn at(&self) -> At<Resting> {
        // SAFETY: each caller has the Task alone, for one such call at a time.
        unsafe { At::of(self.ptr) }
    }

    /// Polls the Task: the output, or `None` where the task was closed. A panic that goes to who awaits goes on here.
    fn poll_output(&mut self, context: &Context<'_>) -> Poll<Option<T>> {
        // SAFETY: `T` is the type of the output.
        let (answer, At { .. }) = unsafe { await_task::poll(self.at(), context.waker()) };
        answer.map(|outcome| outcome.map(|outcome| outcome.unwrap_or_else(|panic| resume(panic))))
    }
}

impl<T, M> Drop for Task<T, M> {
    fn drop(&mut self) {
        // SAFETY: `T` is the type of the output.
        await_task::cancel(self.at(), |at| unsafe { await_task::detach::<T>(at) });
    }
}

impl<T, M> Future for Task<T, M> {
    type Output = T;

    fn poll(mut self: Pin<&mut Self>, context: &mut Context<'_>) -> Poll<T> {
        self.poll_output(context).map(|output| output.expect("Task polled after completion"))
    }
}

impl<T, M: fmt::Debug> fmt::Debug for Task<T, M> {
    fn fmt(&self, f: &mut fmt::Formatter<'_>) -> fmt::Result {
        f.debug_struct("Task").field("finished", &self.is_finished()).field("metadata", self.metadata()).finish()
    }
}

/// A Task whose output is `None` where the task was cancelled.
///
/// ```
/// let (runnable, task) = async_task::spawn(async { 1 }, |_| {});
/// let task = task.fallible();
/// drop(runnable);
/// assert!(task.is_finished());
/// ```
#[must_use = "tasks get canceled when dropped, use `.detach()` to run them in the background"]
pub struct FallibleTask<T, M = ()> {
    task: Task<T, M>,
}

impl<T, M> FallibleTask<T, M> {
    /// Lets the task go on without its Task. See [`Task::detach`].
    ///
    /// ```
    /// let (runnable, task) = async_task::spawn(async {}, |_| {});
    /// task.fallible().detach();
    /// runnable.run();
    /// ```
    pub fn detach(self) {
        self.task.detach()
    }

    /// Cancels the task, and waits until its future is dropped. See [`Task::cancel`].
    ///
    /// ```
    /// let (runnable, task) = async_task::spawn(async { 1 }, |_| {});
    /// drop(runnable);
    /// let (waits, waiting) = async_task::spawn(async { assert_eq!(task.fallible().cancel().await, None) }, |_| {});
    /// waits.run();
    /// assert!(waiting.is_finished());
    /// ```
    pub async fn cancel(self) -> Option<T> {
        self.task.cancel().await
    }

    /// Whether the task is completed or closed. See [`Task::is_finished`].
    ///
    /// ```
    /// let (runnable, task) = async_task::spawn(async {}, |_| {});
    /// assert!(!task.fallible().is_finished());
    /// # drop(runnable);
    /// ```
    pub fn is_finished(&self) -> bool {
        self.task.is_finished()
    }
}

impl<T, M> Future for FallibleTask<T, M> {
    type Output = Option<T>;

    fn poll(mut self: Pin<&mut Self>, context: &mut Context<'_>) -> Poll<Option<T>> {
        self.task.poll_output(context)
    }
}

impl<T, M: fmt::Debug> fmt::Debug for FallibleTask<T, M> {
    fn fmt(&self, f: &mut fmt::Formatter<'_>) -> fmt::Result {
        f.debug_struct("FallibleTask").field("task", &self.task).finish()
    }
}
