//! The acts that the steps ask for. Each uses its position up, makes the step after it, and leaves what that answers.
use core::{mem::replace, task::Waker};

use super::{abort, at::*, steps::*, Finally};
use crate::{body::Header, body::Outcome, schedule::ScheduleInfo};

/// Does a longer way of a call, which is compiled apart from the shortest one.
#[cold]
pub(crate) fn rarely<A>(act: impl FnOnce() -> A) -> A {
    act()
}

/// Calls foreign code whose panic cannot be undone: it ends the process.
pub(crate) fn or_abort<A>(act: impl FnOnce() -> A) -> A {
    let bomb = Finally::new((), |()| abort());
    let answer = act();
    bomb.into_value();
    answer
}

impl<P, N> At<P, N> {
    /// What all handles of the task see.
    pub(crate) fn header(&self) -> &Header {
        // SAFETY: a handle keeps the allocation, which begins with its header.
        unsafe { self.task.cast::<Header>().as_ref() }
    }

    /// Empties the awaiter's place, and fills it anew.
    ///
    /// # Safety
    ///
    /// The cell has given the place to this handle.
    unsafe fn replace_awaiter(&self, awaiter: Option<Waker>) -> Option<Waker> {
        replace(&mut *self.header().awaiter.get(), awaiter)
    }

    /// The place of the output.
    ///
    /// # Safety
    ///
    /// `T` is the type of the task's output.
    unsafe fn output<T>(&self) -> *mut Outcome<T> {
        (self.header().methods.output)(self.task).cast()
    }

    /// Calls the schedule function with the Runnable that this party hands over.
    fn call_schedule(&self, woken_while_running: bool) {
        // SAFETY: there is a Runnable, which goes to the schedule function; the caller keeps that until it has returned.
        unsafe { (self.header().methods.schedule)(self.task, ScheduleInfo { woken_while_running }) }
    }
}

/// Drops the future.
pub(crate) fn drop_future<N: Step>(at: At<DropsFuture, N>) -> N::Then {
    // SAFETY: the cell has given the future to this handle, and asks for its drop once.
    or_abort(|| unsafe { (at.header().methods.drop_future)(at.task) });
    at.done()
}

/// Drops the future, and stores in its place what the task ends with.
///
/// # Safety
///
/// The place is that of the task's future, of this type, and of its output.
pub(crate) unsafe fn store_output<F, T>(at: At<StoresOutput, Completes>, place: *mut F, end: Outcome<T>) -> Completed {
    or_abort(|| place.drop_in_place());
    place.cast::<Outcome<T>>().write(end);
    at.done()
}

/// Drops the output that nobody will claim.
///
/// # Safety
///
/// The place is that of the task's output.
#[inline(always)]
pub(crate) unsafe fn drop_output<T, N: Step>(at: At<DropsOutput, N>, place: *mut Outcome<T>) -> N::Then {
    or_abort(|| place.drop_in_place());
    at.done()
}

/// Takes out the output that nobody will claim, goes on, and drops it last, where its drop may panic.
///
/// # Safety
///
/// `T` is the type of the task's output.
pub(crate) unsafe fn drop_unclaimed<T>(at: At<DropsLast, DetachDropped>) {
    let output = at.output::<T>().read();
    at.done().finish();
    drop(output);
}

/// Takes the output out.
///
/// # Safety
///
/// `T` is the type of the task's output.
pub(crate) unsafe fn take_output<T, N: Step>(at: At<TakesOutput, N>) -> (Outcome<T>, N::Then) {
    (at.output::<T>().read(), at.done())
}

/// Empties the awaiter's place.
pub(crate) fn take_awaiter<N: Step>(at: At<TakesAwaiter, N>) -> (Option<Waker>, N::Then) {
    // SAFETY: the cell has given the awaiter's place to this handle.
    (unsafe { at.replace_awaiter(None) }, at.done())
}

/// Wakes the awaiter that was taken, by a handle that is gone.
pub(crate) fn wake_taken(taken: Option<Waker>) {
    match taken {
        Some(awaiter) => or_abort(|| awaiter.wake()),
        None => abort(),
    }
}

/// Wakes the awaiter that was taken.
pub(crate) fn wake_awaiter<N: Step>(at: At<WakesAwaiter, N>, taken: Option<Waker>) -> N::Then {
    wake_taken(taken);
    at.done()
}

/// Wakes the awaiter that was taken, or drops it where its wake would wake the caller.
pub(crate) fn wake_other<W: Step, D: Step<Then = W::Then>>(
    at: At<WakesOther, (W, D)>,
    taken: Option<Waker>,
    caller: &Waker,
) -> W::Then {
    match taken {
        Some(awaiter) if awaiter.will_wake(caller) => {
            or_abort(|| drop(awaiter));
            D::step(At::stands(at.task))
        }
        taken => wake_awaiter(At::<_, W>::stands(at.task), taken),
    }
}

/// Clones the caller's awaiter.
pub(crate) fn clone_caller<N: Step>(at: At<Clones, N>, caller: &Waker) -> (Waker, N::Then) {
    (or_abort(|| caller.clone()), at.done())
}

/// Puts the clone into the awaiter's place, and drops what lay there.
#[inline(always)]
pub(crate) fn store_awaiter<N: Step>(at: At<StoresAwaiter, N>, clone: Waker) -> N::Then {
    // SAFETY: the cell has given the awaiter's place to this handle.
    let old = unsafe { at.replace_awaiter(Some(clone)) };
    or_abort(|| drop(old));
    at.done()
}

/// Wakes who polls, and drops the clone.
pub(crate) fn wake_caller<N: Step>(at: At<WakesCaller, N>, caller: &Waker, clone: Waker) -> N::Then {
    or_abort(|| caller.wake_by_ref());
    or_abort(|| drop(clone));
    at.done()
}

/// Hands the Runnable over. Where the schedule function panics, what comes then is done in the panic.
pub(crate) fn deliver<N: Step>(at: At<Delivers, N>, in_panic: impl FnOnce(N::Then)) -> N::Then {
    let rest = Finally::new(At::stands(at.task), |rest: At<Delivers, N>| in_panic(rest.done()));
    at.call_schedule(false);
    rest.into_value().done()
}

/// Hands the Runnable over, by a hold that keeps the schedule function until it has returned, unless there is nothing to keep. Whether the task was woken while it ran.
pub(crate) fn hand_on<const WOKEN: bool>(at: At<HandsOn<WOKEN>>) -> bool {
    if at.header().methods.keeps_schedule {
        let hold = At::<Lent>::stands(at.task).choose::<Holds>();
        let _release = Finally::new(hold, |hold| Held::step(hold).finish());
        at.call_schedule(WOKEN);
    } else {
        at.call_schedule(WOKEN);
    }
    WOKEN
}

/// Drops an awaiter that is left, and then all else, once nobody holds it.
#[inline]
pub(crate) fn empty<N: Step<Then = End>>(at: At<Empties, N>) {
    // SAFETY: this is the last handle, so nobody looks at the place again.
    or_abort(|| unsafe { at.header().awaiter.get().drop_in_place() });
    at.done().finish();
}

impl End {
    /// Drops the metadata and the schedule function and frees the task's allocation, if the cell has ended.
    #[inline]
    pub(crate) fn finish(self) {
        if let End::Ended(at) = self {
            // SAFETY: the cell has ended, and tells so once.
            unsafe { (at.header().methods.destroy)(at.task) }
        }
    }
}

impl Left {
    /// Does what is left to do by a handle that was given up.
    #[inline(always)]
    pub(crate) fn finish(self) {
        match self {
            Left::Nothing => {}
            Left::Last(at) => empty(at),
        }
    }
}
