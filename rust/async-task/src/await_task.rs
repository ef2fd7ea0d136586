//! The calls of a Task, as the cell asks for their steps.
use core::task::{Poll, Waker};

use crate::{body::Outcome, cell::*};

/// Cancels the task, unless it is over, and then does something with the Task, also where the schedule function panics.
pub(crate) fn cancel(task: At<Resting>, then: impl Fn(At<Resting>)) {
    let end = |closed| then(end_cancel(closed));
    match task.choose::<Cancels>() {
        Cancelled::Busy(closed) => end(closed),
        Cancelled::Idle(at) => rarely(|| end(deliver(at, end))),
        Cancelled::IdleDue(at) => rarely(|| end(deliver(at, end))),
    }
}

/// Ends a cancel after its Runnable was handed over, if it had one.
#[inline]
fn end_cancel(closed: Closed) -> At<Resting> {
    match closed {
        Closed::Over(task) => task,
        Closed::Takes(at) => rarely(|| match take_awaiter(at) {
            (_, CancelEnds::Over(task)) => task,
            (awaiter, CancelEnds::Wakes(at)) => wake_awaiter(at, awaiter),
        }),
    }
}

/// Gives the Task up.
///
/// # Safety
///
/// `T` is the type of the task's output.
#[inline(always)]
pub(crate) unsafe fn detach<T>(task: At<Resting>) {
    match task.choose::<Detaches>() {
        Detached::Left(left) => left.finish(),
        Detached::Orphan(at) => drop(rarely(|| hand_on(at))),
        Detached::Unclaimed(at) => drop_unclaimed::<T>(at),
    }
}

/// Polls the Task: what the task ended with, or `None` where it was closed.
///
/// # Safety
///
/// `T` is the type of the task's output.
pub(crate) unsafe fn poll<T>(task: At<Resting>, caller: &Waker) -> (Poll<Option<Outcome<T>>>, At<Resting>) {
    let look = match task.choose::<Polls>() {
        FirstLook::Found(look) => look,
        FirstLook::Clones(at) => register(at, caller),
    };
    let (outcome, task) = match look {
        Look::Pending(task) => return (Poll::Pending, task),
        Look::Closed(task) => return (Poll::Ready(None), task),
        Look::Shuts(at) => return (Poll::Ready(None), shut(at, caller)),
        Look::Output(at) => take_output(at),
        Look::Claims(at) => take_output(claim(at, caller)),
    };
    (Poll::Ready(Some(outcome)), task)
}

/// Registers the caller's awaiter, and looks again.
#[inline(always)]
fn register(at: At<Clones, Cloned>, caller: &Waker) -> Look {
    let second = match clone_caller(at, caller) {
        (clone, Registers::Stores(at)) => store_awaiter(at, clone),
        (clone, Registers::Replaces(at)) => store_awaiter(at, clone),
        (clone, Registers::WakesCaller(at)) => return wake_caller(at, caller, clone),
    };
    match second {
        SecondLook::Found(look) => look,
        SecondLook::TakesBack(at) => {
            let (clone, at) = take_awaiter(at);
            wake_awaiter(at, clone)
        }
    }
}

/// Empties the awaiter's place before the output is taken out.
fn claim(at: At<TakesAwaiter, ClaimTaken>, caller: &Waker) -> At<TakesOutput, OutputTaken> {
    match take_awaiter(at) {
        (_, Claims::Output(at)) => at,
        (awaiter, Claims::Wakes(at)) => wake_other(at, awaiter, caller),
    }
}

/// Empties the awaiter's place of a closed task.
fn shut(at: At<TakesAwaiter, ShutTaken>, caller: &Waker) -> At<Resting> {
    match take_awaiter(at) {
        (_, Shuts::Over(task)) => task,
        (awaiter, Shuts::Wakes(at)) => wake_other(at, awaiter, caller),
    }
}
