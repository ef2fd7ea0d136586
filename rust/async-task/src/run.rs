//! The calls of a Runnable, as the cell asks for their steps.
use core::{future::Future, mem::ManuallyDrop, pin::Pin, ptr::NonNull, task::Context, task::Poll, task::Waker};

use crate::{body::Body, body::Outcome, cell::*, panics::caught, schedule::Schedule, waker};

impl<F: Future, S: Schedule<M>, M> Body<F, S, M> {
    /// Runs a task: whether it was woken meanwhile, and gave way.
    ///
    /// # Safety
    ///
    /// The task is of these types, and its Runnable goes to this call.
    pub(crate) unsafe fn run(task: NonNull<()>) -> bool {
        match At::<Scheduled>::of(task).choose::<Starts>() {
            Started::Closed(at) => end_closed(at),
            Started::Polls(at) => match Self::poll(at, task) {
                (at, Poll::Pending) => end_pending(at.choose::<Pends>()),
                (at, Poll::Ready(outcome)) => Self::end_ready(at, task, outcome),
            },
        }
    }

    /// Polls the future, with a waker that is lent.
    unsafe fn poll(at: At<Polling>, task: NonNull<()>) -> (At<Polling>, Poll<Outcome<F::Output>>) {
        let waker = ManuallyDrop::new(Waker::from_raw(waker::raw(task)));
        let context = &mut Context::from_waker(&waker);
        let future = Pin::new_unchecked(&mut *Self::stage::<F>(task));
        if at.header().propagate_panic {
            let answer = caught(|| future.poll(context));
            return (at, answer.map_or_else(|panic| Poll::Ready(Err(panic)), |answer| answer.map(Ok)));
        }
        let closes = Finally::new(at, end_panicked);
        let answer = future.poll(context).map(Ok);
        (closes.into_value(), answer)
    }

    /// Ends a run whose poll was ready, with what the task ends with.
    unsafe fn end_ready(at: At<Polling>, task: NonNull<()>, outcome: Outcome<F::Output>) -> bool {
        end_run(match store_output(at.ready(), Self::stage::<F>(task), outcome) {
            Completed::Left(leaving) => leaving,
            Completed::Unclaimed(at) => drop_output(at, Self::stage::<Outcome<F::Output>>(task)),
            Completed::UnclaimedDue(at) => drop_output(at, Self::stage::<Outcome<F::Output>>(task)),
        })
    }
}

/// Ends a run whose poll has panicked: the task is closed.
#[cold]
fn end_panicked(at: At<Polling>) {
    match at.panicked() {
        Ok(at) => discard(at),
        Err(at) => drop(end_closed(at)),
    }
}

/// Ends a run of a task that was closed.
#[cold]
fn end_closed<N: Step<Then = Leaving<RunTaken>>>(at: At<DropsFuture, N>) -> bool {
    end_run(drop_future(at))
}

/// Ends a run whose poll was pending.
#[inline(always)]
fn end_pending(pended: Pended) -> bool {
    match pended {
        Pended::Idle => false,
        Pended::Orphan(at) => rarely(|| hand_on(at)),
        Pended::Woken(at) => hand_on(at),
        Pended::Closed(at) => end_closed(at),
    }
}

/// Ends a run that does not give way: an awaiter that was taken is woken last.
#[inline(always)]
fn end_run(leaving: Leaving<RunTaken>) -> bool {
    match leaving {
        Leaving::Left(left) => left.finish(),
        Leaving::Takes(at) => end_taken(at),
    }
    false
}

/// Ends a run that empties the awaiter's place.
#[inline(never)]
fn end_taken(at: At<TakesAwaiter, RunTaken>) {
    match take_awaiter(at) {
        (_, Finished::Nothing) => {}
        (_, Finished::Last(at)) => empty(at),
        (awaiter, Finished::Wakes(at)) => wake_awaiter(at, awaiter),
        (awaiter, Finished::LastWakes(at)) => {
            empty(at);
            wake_taken(awaiter);
        }
    }
}

/// Drops a Runnable, which cancels the task: an awaiter that was taken is woken first.
pub(crate) fn discard(at: At<Scheduled>) {
    match drop_future(at.choose::<Discards>()) {
        Leaving::Left(left) => left.finish(),
        Leaving::Takes(at) => match take_awaiter(at) {
            (_, DiscardEnds::Left(left)) => left.finish(),
            (awaiter, DiscardEnds::Wakes(at)) => wake_awaiter(at, awaiter).finish(),
        },
    }
}
