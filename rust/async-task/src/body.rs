//! The allocation of a task: the block of its cell, and what stays in Rust: the awaiter, the metadata, the schedule function, and the future or its output.
use alloc::alloc::{alloc, dealloc, handle_alloc_error, Layout};
use core::mem::{needs_drop, size_of, ManuallyDrop, MaybeUninit};
use core::ptr::{addr_of, addr_of_mut, NonNull};
use core::{cell::UnsafeCell, future::Future, marker::PhantomData, task::Waker};

use crate::{builder::Builder, cell::*, panics::Panic, runnable::Runnable, schedule::*, task::Task};

/// What a task ends with: its output, or the panic of its future, which goes to who awaits it.
pub(crate) type Outcome<T> = Result<T, Panic>;

/// What depends on the types of a task that its handles do not name.
pub(crate) struct Methods {
    pub(crate) schedule: unsafe fn(NonNull<()>, ScheduleInfo),
    /// Whether the schedule function has to be kept while it is called.
    pub(crate) keeps_schedule: bool,
    pub(crate) run: unsafe fn(NonNull<()>) -> bool,
    pub(crate) drop_future: unsafe fn(NonNull<()>),
    pub(crate) output: unsafe fn(NonNull<()>) -> *mut (),
    pub(crate) destroy: unsafe fn(NonNull<()>),
}

/// The beginning of each allocation, up to its metadata; what is before that, is the same for all `M`.
#[repr(C)]
pub(crate) struct Header<M = ()> {
    block: UnsafeCell<MaybeUninit<[u64; ROOM]>>,
    pub(crate) methods: &'static Methods,
    pub(crate) awaiter: UnsafeCell<Option<Waker>>,
    pub(crate) propagate_panic: bool,
    pub(crate) metadata: M,
}

/// The future, or what the task ends with. The cell knows which.
union Stage<F: Future> {
    _future: ManuallyDrop<F>,
    _output: ManuallyDrop<Outcome<F::Output>>,
}

/// A task's allocation.
#[repr(C)]
pub(crate) struct Body<F: Future, S, M> {
    header: Header<M>,
    schedule: S,
    stage: UnsafeCell<Stage<F>>,
}

impl<F: Future, S: Schedule<M>, M> Body<F, S, M> {
    const METHODS: &'static Methods = &Methods {
        schedule: Self::schedule,
        keeps_schedule: size_of::<S>() > 0 || needs_drop::<S>(),
        run: Self::run,
        drop_future: Self::drop_future,
        output: Self::stage,
        destroy: Self::destroy,
    };

    /// Allocates a task. Where memory is refused, the process ends.
    pub(crate) fn allocate<'a>(
        future: impl FnOnce(&'a M) -> F,
        schedule: S,
        builder: Builder<M>,
    ) -> (Runnable<M>, Task<F::Output, M>)
    where
        M: 'a,
    {
        let layout = Layout::new::<Self>();
        // SAFETY: the layout has a size, since a block has one; each field is written once, and its place is in the allocation; the future may borrow the metadata, which stays where it is until the allocation ends.
        unsafe {
            let body = NonNull::new(alloc(layout).cast::<Self>()).unwrap_or_else(|| handle_alloc_error(layout));
            let at = body.as_ptr();
            addr_of_mut!((*at).header).write(Header {
                block: UnsafeCell::new(MaybeUninit::uninit()),
                methods: Self::METHODS,
                awaiter: UnsafeCell::new(None),
                propagate_panic: builder.propagate_panic,
                metadata: builder.metadata,
            });
            addr_of_mut!((*at).schedule).write(schedule);
            let metadata: &'a M = &*addr_of!((*at).header.metadata);
            let future = or_abort(|| future(metadata));
            Self::stage::<F>(body.cast()).write(future);
            let (runnable, task) = make(body.cast());
            (Runnable::from_raw(runnable.into_raw()), Task { ptr: task.into_raw(), marker: PhantomData })
        }
    }

    // SAFETY, of all methods below: the task is of these types, and somebody keeps it; what is used has been given to the caller by the cell.

    /// The place of the future, or of the output.
    pub(crate) unsafe fn stage<A>(task: NonNull<()>) -> *mut A {
        UnsafeCell::raw_get(addr_of!((*task.as_ptr().cast::<Self>()).stage)).cast()
    }

    /// Calls the schedule function with the task's Runnable.
    unsafe fn schedule(task: NonNull<()>, info: ScheduleInfo) {
        (*task.as_ptr().cast::<Self>()).schedule.schedule(Runnable::from_raw(task), info);
    }

    /// Drops the future.
    pub(crate) unsafe fn drop_future(task: NonNull<()>) {
        Self::stage::<F>(task).drop_in_place();
    }

    /// Drops the metadata and the schedule function, and frees the memory.
    unsafe fn destroy(task: NonNull<()>) {
        let at = task.as_ptr().cast::<Self>();
        or_abort(|| {
            addr_of_mut!((*at).header.metadata).drop_in_place();
            addr_of_mut!((*at).schedule).drop_in_place();
        });
        dealloc(at.cast(), Layout::new::<Self>());
    }
}
