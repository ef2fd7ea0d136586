//! Schedule functions.
use crate::runnable::Runnable;

mod sealed {
    use super::{Runnable, ScheduleInfo, WithInfo};

    pub trait Sealed<M> {}

    impl<M, F: Fn(Runnable<M>)> Sealed<M> for F {}

    impl<M, F: Fn(Runnable<M>, ScheduleInfo)> Sealed<M> for WithInfo<F> {}
}

/// What a schedule function is told beside the Runnable.
///
/// ```
/// use async_task::{Runnable, ScheduleInfo, WithInfo};
///
/// let (to, queue) = std::sync::mpsc::channel();
/// let schedule = move |runnable: Runnable, info: ScheduleInfo| {
///     assert!(!info.woken_while_running);
///     to.send(runnable).unwrap();
/// };
/// let (runnable, task) = async_task::spawn(async {}, WithInfo(schedule));
/// runnable.schedule();
/// queue.recv().unwrap().run();
/// assert!(task.is_finished());
/// ```
#[derive(Debug, Copy, Clone)]
#[non_exhaustive]
pub struct ScheduleInfo {
    /// Whether the task was woken while it ran, as it is where it gives way.
    pub woken_while_running: bool,
}

/// A schedule function: it gets the Runnable of a task that was woken, and keeps it for the executor.
///
/// Every `Fn(Runnable<M>)` is one, and [`WithInfo`] makes one of an `Fn(Runnable<M>, ScheduleInfo)`.
///
/// ```
/// fn queue_of(to: std::sync::mpsc::Sender<async_task::Runnable>) -> impl async_task::Schedule {
///     move |runnable| to.send(runnable).unwrap()
/// }
/// let (to, queue) = std::sync::mpsc::channel();
/// let (runnable, task) = async_task::spawn(async { 1 }, queue_of(to));
/// runnable.schedule();
/// assert!(!queue.recv().unwrap().run());
/// # drop(task);
/// ```
pub trait Schedule<M = ()>: sealed::Sealed<M> {
    /// Schedules the task.
    ///
    /// ```
    /// use async_task::{Runnable, Schedule, ScheduleInfo, WithInfo};
    ///
    /// fn told(inner: impl Schedule + Send + Sync + 'static) -> impl Schedule + Send + Sync + 'static {
    ///     WithInfo(move |runnable: Runnable, info: ScheduleInfo| {
    ///         println!("scheduled");
    ///         inner.schedule(runnable, info);
    ///     })
    /// }
    /// let (runnable, task) = async_task::spawn(async {}, told(|runnable: Runnable| drop(runnable)));
    /// runnable.schedule();
    /// assert!(task.is_finished());
    /// ```
    fn schedule(&self, runnable: Runnable<M>, info: ScheduleInfo);
}

impl<M, F: Fn(Runnable<M>)> Schedule<M> for F {
    fn schedule(&self, runnable: Runnable<M>, _: ScheduleInfo) {
        self(runnable)
    }
}

/// A schedule function that is told [`ScheduleInfo`], too.
///
/// ```
/// use async_task::{Runnable, ScheduleInfo, WithInfo};
///
/// let schedule = WithInfo(|runnable: Runnable, _: ScheduleInfo| drop(runnable));
/// let (runnable, task) = async_task::spawn(async {}, schedule);
/// runnable.schedule();
/// assert!(task.is_finished());
/// ```
#[derive(Debug)]
pub struct WithInfo<F>(pub F);

impl<F> From<F> for WithInfo<F> {
    fn from(value: F) -> Self {
        WithInfo(value)
    }
}

impl<M, F: Fn(Runnable<M>, ScheduleInfo)> Schedule<M> for WithInfo<F> {
    fn schedule(&self, runnable: Runnable<M>, info: ScheduleInfo) {
        (self.0)(runnable, info)
    }
}
