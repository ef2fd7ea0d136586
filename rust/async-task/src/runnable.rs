//! The Runnable.
use core::{fmt, marker::PhantomData, mem::forget, ptr::NonNull, task::Waker};

use crate::{body::Header, cell::*, run, waker};

/// A task that is due: it exists while the task is scheduled, and there is one at most.
///
/// Its drop cancels the task: the future is dropped, and who awaits the [`Task`](crate::Task) panics.
///
/// ```
/// let (runnable, task) = async_task::spawn(async {}, |_| {});
/// drop(runnable);
/// assert!(task.is_finished());
/// ```
pub struct Runnable<M = ()> {
    ptr: NonNull<()>,
    marker: PhantomData<M>,
}

// SAFETY: a future, output or schedule function that has to stay on a thread is promised to by `spawn_unchecked`; metadata is shared.
unsafe impl<M: Send + Sync> Send for Runnable<M> {}
// SAFETY: as above; by reference it makes wakers and shows its metadata.
unsafe impl<M: Send + Sync> Sync for Runnable<M> {}
impl<M> core::panic::UnwindSafe for Runnable<M> {}
impl<M> core::panic::RefUnwindSafe for Runnable<M> {}

impl<M> Runnable<M> {
    /// The handle of this Runnable.
    fn into_at(self) -> At<Scheduled> {
        // SAFETY: the Runnable is its one user, and is gone with this.
        unsafe { At::of(self.into_raw()) }
    }

    /// The metadata of the task.
    ///
    /// ```
    /// let (runnable, task) = async_task::Builder::new().metadata(3).spawn(|_| async {}, |_| {});
    /// assert_eq!(*runnable.metadata(), 3);
    /// # drop(task);
    /// ```
    pub fn metadata(&self) -> &M {
        // SAFETY: the Runnable keeps the allocation, whose metadata is an `M`.
        unsafe { &self.ptr.cast::<Header<M>>().as_ref().metadata }
    }

    /// Hands the Runnable to the schedule function.
    ///
    /// ```
    /// let (to, queue) = std::sync::mpsc::channel();
    /// let (runnable, task) = async_task::spawn(async {}, move |runnable| to.send(runnable).unwrap());
    /// runnable.schedule();
    /// assert!(queue.try_recv().is_ok());
    /// # drop(task);
    /// ```
    pub fn schedule(self) {
        hand_on(self.into_at().choose::<Schedules>());
    }

    /// Polls the future once. The answer is whether the task was woken meanwhile, so that its Runnable is with the schedule function again.
    ///
    /// A task that was cancelled has its future dropped instead. A panic of the future closes the task, and goes on here.
    ///
    /// ```
    /// let (runnable, task) = async_task::spawn(async { 1 + 2 }, |_| {});
    /// assert!(!runnable.run());
    /// assert!(task.is_finished());
    /// ```
    pub fn run(self) -> bool {
        let at = self.into_at();
        let run = at.header().methods.run;
        // SAFETY: the task is of the types of its own methods, and its Runnable goes to the call.
        unsafe { run(at.into_raw()) }
    }

    /// A waker of the task.
    ///
    /// ```
    /// let (to, queue) = std::sync::mpsc::channel();
    /// let schedule = move |runnable| to.send(runnable).unwrap();
    /// let (runnable, task) = async_task::spawn(std::future::pending::<()>(), schedule);
    /// let waker = runnable.waker();
    /// runnable.run();
    /// waker.wake();
    /// assert!(queue.try_recv().is_ok());
    /// # drop(task);
    /// ```
    pub fn waker(&self) -> Waker {
        // SAFETY: a Runnable can be lent for the call, which leaves the reference of the waker.
        unsafe { Waker::from_raw(waker::raw(At::<Lent>::of(self.ptr).choose::<Gains>().into_raw())) }
    }

    /// The Runnable as a pointer, which [`from_raw`](Runnable::from_raw) turns back.
    ///
    /// ```
    /// use async_task::Runnable;
    ///
    /// let (runnable, task) = async_task::spawn(async {}, |_| {});
    /// let pointer = runnable.into_raw();
    /// let runnable: Runnable = unsafe { Runnable::from_raw(pointer) };
    /// runnable.run();
    /// # drop(task);
    /// ```
    pub fn into_raw(self) -> NonNull<()> {
        let ptr = self.ptr;
        forget(self);
        ptr
    }

    /// The Runnable of a pointer.
    ///
    /// # Safety
    ///
    /// The pointer is of [`into_raw`](Runnable::into_raw) of a Runnable with this `M`, and is turned back once.
    ///
    /// ```
    /// use async_task::{Builder, Runnable};
    ///
    /// let (runnable, task) = Builder::new().metadata("parser").spawn(|_| async {}, |_| {});
    /// let pointer = runnable.into_raw();
    /// let runnable: Runnable<&str> = unsafe { Runnable::from_raw(pointer) };
    /// assert_eq!(*runnable.metadata(), "parser");
    /// # drop(task);
    /// ```
    pub unsafe fn from_raw(ptr: NonNull<()>) -> Self {
        Runnable { ptr, marker: PhantomData }
    }
}

impl<M> Drop for Runnable<M> {
    fn drop(&mut self) {
        // SAFETY: the Runnable is the one user of its handle, and is gone with this.
        run::discard(unsafe { At::of(self.ptr) });
    }
}

impl<M: fmt::Debug> fmt::Debug for Runnable<M> {
    fn fmt(&self, f: &mut fmt::Formatter<'_>) -> fmt::Result {
        f.debug_struct("Runnable").field("metadata", self.metadata()).finish()
    }
}
