//! A handle of the cell, where it stands, and how an export gets it.
use core::{marker::PhantomData, ptr::NonNull};

/// A handle that stands at the position `P`, and goes on from `N` once the act is done that `P` asks for.
///
/// It is used up by the one step or act of `P`, and neither copied nor cloned. Its bits are the address of the block, with which the task's allocation begins, and the same for each handle of a task: where a task is made, they are looked at.
#[must_use = "the cell waits for the step or act that this stands for"]
pub(crate) struct At<P, N = ()> {
    pub(super) task: NonNull<()>,
    position: PhantomData<(P, N)>,
}

/// A position with one step.
pub(crate) trait Step: Sized {
    /// What comes then.
    type Then;

    /// Makes the step.
    fn step(at: At<Self>) -> Self::Then;
}

/// A step that may be chosen at `P`.
pub(crate) trait Choice<P>: Step {}

/// What can be made of the number that an export answers.
pub(super) trait Answer {
    /// What this number says of the handle.
    fn answer(task: NonNull<()>, number: u32) -> Self;
}

/// A place that is lent to an export: 8 bytes with a handle in them, or room for one.
#[repr(C)]
pub(super) struct Place {
    pub(super) at: *mut *mut (),
}

impl<P, N> At<P, N> {
    /// The handle of the task at this address.
    ///
    /// # Safety
    ///
    /// There is such a handle, it stands at `P`, and nobody else uses it; or `P` is `Lent`, and there is a handle of the task.
    pub(crate) unsafe fn of(task: NonNull<()>) -> Self {
        At::stands(task)
    }

    /// The same, for the steps and acts alone.
    pub(super) fn stands(task: NonNull<()>) -> Self {
        At { task, position: PhantomData }
    }

    /// Makes a step that may be chosen here.
    pub(crate) fn choose<C: Choice<P>>(self) -> C::Then {
        C::step(At::stands(self.task))
    }

    /// The address of the task, for who keeps the handle in another form.
    pub(crate) fn into_raw(self) -> NonNull<()> {
        self.task
    }

    /// Calls an export by the bits of this handle.
    pub(super) fn bits(&self, export: impl FnOnce(NonNull<()>) -> u32) -> u32 {
        export(self.task)
    }

    /// Calls an export by a place of this call's in which the bits of this handle lie.
    pub(super) fn place(&self, export: impl FnOnce(*mut Place) -> u32) -> u32 {
        let mut bits = self.task.as_ptr();
        export(&mut Place { at: &mut bits })
    }
}

impl<P, N: Step> At<P, N> {
    /// Goes on after the act was done that `P` asks for.
    pub(super) fn done(self) -> N::Then {
        N::step(At::stands(self.task))
    }
}
