//! The wakers of a task.
use core::{ptr::NonNull, task::RawWaker, task::RawWakerVTable};

use crate::cell::*;

/// All wakers of all tasks call these.
static WAKER: RawWakerVTable = RawWakerVTable::new(clone, wake, wake_by_ref, give_up);

/// The parts of a waker: the address of its task is all its data, so wakers of one task wake alike.
#[inline]
pub(crate) fn raw(task: NonNull<()>) -> RawWaker {
    RawWaker::new(task.as_ptr(), &WAKER)
}

// SAFETY, of all below: a waker calls them with the data of `raw`, by value where it ends; so there is its handle.

/// The handle of the waker with this data, at `P`.
unsafe fn at<P>(data: *const ()) -> At<P> {
    At::of(NonNull::new_unchecked(data as *mut ()))
}

unsafe fn clone(data: *const ()) -> RawWaker {
    raw(at::<Lent>(data).choose::<Gains>().into_raw())
}

unsafe fn wake_by_ref(data: *const ()) {
    if let Woken::Idle(at) = at::<Lent>(data).choose::<Wakes>() {
        // Most wakes find a task that is scheduled or over: that is to be tested for first.
        rarely(|| {});
        deliver(at, |()| {});
    }
}

unsafe fn wake(data: *const ()) {
    let _after = Finally::new(data, |data| give_up(data));
    wake_by_ref(data);
}

unsafe fn give_up(data: *const ()) {
    match Owned::step(at(data)) {
        Dropped::Left(Left::Nothing) => {}
        Dropped::Left(left) => rarely(|| left.finish()),
        Dropped::Orphan(at) => drop(rarely(|| hand_on(at))),
    }
}
