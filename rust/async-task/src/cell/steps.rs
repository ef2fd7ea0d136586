//! The steps of the cell, by types: at which position each export is called, and what it answers. A handle at a position has the steps or the act of that position alone, which use it up; what a step answers is what there is to do now.
use core::{mem::MaybeUninit, ptr::null_mut, ptr::NonNull};

use super::{abort, at::*, heap};

/// Defines positions: they are names, and have no values.
macro_rules! positions {
    ($($(#[$doc:meta])* $name:ident)*) => { $($(#[$doc])* pub(crate) enum $name {})* };
}

/// How an export gets its handle: by its bits, or by a place in which they lie.
macro_rules! handle {
    (bits) => { NonNull<()> };
    (place) => { *mut Place };
}

/// Defines positions with a step: how an export gets its handle, by which export, what that is told beside, and what its answer says; or the one number that it answers, and where the handle stands then. `of` a position is what may be chosen there.
macro_rules! steps {
    ($($(#[$doc:meta])* $position:ident $(of $from:ident)? = $form:ident $export:ident $(($kind:ty: $told:expr))? $(-> $answer:ty)? $(=> $number:ident $then:ty)?;)*) => { $(
        positions! { $(#[$doc])* $position }
        $(impl Choice<$from> for $position {})?

        impl Step for $position {
            type Then = $($answer)? $($then)?;

            #[inline]
            fn step(at: At<Self>) -> Self::Then {
                extern "C" {
                    fn $export(handle: handle!($form) $(, told: $kind)?) -> u32;
                }
                // SAFETY: the handle stands where the export wants it, since the table says so; the places outlive the call.
                let number = at.$form(|handle| unsafe { $export(handle $(, $told)?) });
                $(<$answer>::answer(at.task, number))?
                $(if number == $number { <$then>::stands(at.task) } else { abort() })?
            }
        }
    )* };
}

/// Defines what exports answer: by a number where the handle stands, or what another type makes of it. A number that stands nowhere ends the process: `0` among them, which says that each of 2^64 - 1 tries has missed, and `LIMIT`.
macro_rules! answers {
    ($($(#[$doc:meta])* $name:ident $(<$n:ident>)? { $($number:ident => $variant:ident $(($($at:tt)*))?,)* $(_ => $other:ident($rest:ty))? })*) => { $(
        $(#[$doc])*
        #[must_use = "the cell waits for the step or act that this asks for"]
        pub(crate) enum $name $(<$n>)? { $($variant $((At<$($at)*>))?,)* $($other($rest))? }

        impl $(<$n>)? Answer for $name $(<$n>)? {
            #[inline]
            fn answer(task: NonNull<()>, number: u32) -> Self {
                match number {
                    $($number => $name::$variant $((At::<$($at)*>::stands(task)))?,)*
                    $(_ if true => $name::$other(<$rest>::answer(task, number)),)?
                    _ => abort(),
                }
            }
        }
    )* };
}

/// Defines the numbers that exports answer.
macro_rules! numbers {
    ($($name:ident = $number:literal)*) => { $(const $name: u32 = $number;)* };
}

/// A place with room for a second handle, whose bits would be the same.
macro_rules! room {
    () => {
        &mut Place { at: MaybeUninit::uninit().as_mut_ptr() }
    };
}

numbers! {
    OVER = 1 ENDED = 2 POLL = 3 DROP_FUTURE = 4 DROP_OUTPUT = 5 DROP_OUTPUT_DUE = 6 TAKE = 7 WAKE = 8 LAST = 9
    SCHEDULE = 10 SCHEDULE_WOKEN = 11 DONE = 12 WAKE_FIRST = 14 LAST_WAKE = 15 SCHEDULE_DUE = 25
    OUTPUT = 16 CLOSED = 17 PENDING = 18 CLONE = 19 STORE = 20 REPLACE = 21 WAKE_CALLER = 22 TAKE_BACK = 23 TAKE_CLAIMED = 24
}

steps! {
    /// A wake by a handle that is lent.
    Wakes of Lent = bits async_task_wake -> Woken;
    /// Gains a reference for a waker. At the limit the process ends.
    Gains of Lent = bits async_task_gain => DONE At<Owned>;
    /// A waker of its own, which is given up.
    Owned = bits async_task_drop_waker -> Dropped;
    /// A hold of the body.
    Holds of Lent = place async_task_hold(*mut Place: room!()) => DONE At<Held>;
    /// A hold, which is released.
    Held = place async_task_release -> End;
    /// Whether the task is completed or closed.
    IsFinished of Lent = bits async_task_is_finished -> bool;
    /// The start of a run.
    Starts of Scheduled = bits async_task_start -> Started;
    /// The drop of a Runnable, which closes the task.
    Discards of Scheduled = place async_task_discard => DROP_FUTURE At<DropsFuture, Discarded>;
    /// A Runnable that is handed to the schedule function.
    Schedules of Scheduled = place async_task_schedule => SCHEDULE At<HandsOn<false>>;
    /// A run whose poll was pending.
    Pends of Polling = bits async_task_pending -> Pended;
    /// A run with its output stored.
    Completes = bits async_task_complete -> Completed;
    /// A run whose output was dropped.
    OutputDropped = place async_task_output_dropped(bool: false) -> Leaving<RunTaken>;
    /// The same, with an awaiter that is due.
    OutputDroppedDue = place async_task_output_dropped(bool: true) -> Leaving<RunTaken>;
    /// A run of a closed task, after the future was dropped.
    RunClosed = place async_task_run_closed -> Leaving<RunTaken>;
    /// The same, where the task was closed while the poll went on.
    PendingClosed = place async_task_pending_closed -> Leaving<RunTaken>;
    /// A run that has emptied the awaiter's place.
    RunTaken = bits async_task_finish -> Finished;
    /// A Runnable that is dropped, after the future was.
    Discarded = place async_task_discarded -> Leaving<DiscardTaken>;
    /// The same, after it has emptied the awaiter's place.
    DiscardTaken = place async_task_discard_taken -> DiscardEnds;
    /// The same, after it has woken the awaiter.
    DiscardWoken = place async_task_discard_woken -> Left;
    /// The last handle, after an awaiter that was left was dropped.
    Emptied = place async_task_empty(bool: false) -> End;
    /// The same, of a run that has taken an awaiter.
    EmptiedTook = place async_task_empty(bool: true) -> End;
    /// A cancel, which closes the task, unless it is over.
    Cancels of Resting = place async_task_cancel(*mut Place: room!()) -> Cancelled;
    /// A cancel that has handed the Runnable over.
    CancelScheduled = place async_task_cancel_scheduled(u32: 0) -> Closed;
    /// The same, with an awaiter that is due.
    CancelScheduledDue = place async_task_cancel_scheduled(u32: 1) -> Closed;
    /// A cancel that has emptied the awaiter's place.
    CancelTaken = place async_task_cancel_taken -> CancelEnds;
    /// The same, after it has woken the awaiter.
    CancelWoken = place async_task_cancel_woken => DONE At<Resting>;
    /// A detach.
    Detaches of Resting = bits async_task_detach -> Detached;
    /// A detach that has taken the output out, to drop it last.
    DetachDropped = bits async_task_detach_dropped -> Left;
    /// A poll of the Task.
    Polls of Resting = bits async_task_poll -> FirstLook;
    /// A poll that has a clone of the caller's awaiter.
    Cloned = bits async_task_register -> Registers;
    /// A poll that has put it into the awaiter's place.
    Stored = bits async_task_registered(u32: 0) -> SecondLook;
    /// The same, where an older one lay there.
    Replaced = bits async_task_registered(u32: 1) -> SecondLook;
    /// A poll that has taken its clone back.
    TakenBack = bits async_task_taken_back => WAKE_FIRST At<WakesAwaiter, CloneWoken>;
    /// The same, after it has woken that.
    CloneWoken = bits async_task_clone_woken -> Look;
    /// A poll that could not register: it has woken the caller, and dropped its clone.
    CloneDropped = bits async_task_clone_dropped -> Look;
    /// A poll of a closed task that has emptied the awaiter's place.
    ShutTaken = bits async_task_poll_taken -> Shuts;
    /// The same, after it has woken the awaiter.
    ShutWoken = bits async_task_poll_woken => CLOSED At<Resting>;
    /// The same, after it has dropped the awaiter, which is the caller's.
    ShutDropped = bits async_task_poll_dropped => CLOSED At<Resting>;
    /// A poll that has claimed the output, and emptied the awaiter's place.
    ClaimTaken = bits async_task_claim_taken -> Claims;
    /// The same, after it has woken the awaiter.
    ClaimWoken = bits async_task_claim_woken => OUTPUT At<TakesOutput, OutputTaken>;
    /// The same, after it has dropped the awaiter, which is the caller's.
    ClaimDropped = bits async_task_claim_dropped => OUTPUT At<TakesOutput, OutputTaken>;
    /// A poll that has taken the output out.
    OutputTaken = bits async_task_output_taken => DONE At<Resting>;
}

positions! {
    /// Any handle, lent for one call.
    Lent
    /// A Runnable that nobody has begun to run or drop.
    Scheduled
    /// A run, in its poll.
    Polling
    /// The Task, between its calls.
    Resting
    /// Asks that the future is dropped.
    DropsFuture
    /// Asks that the future is dropped, and what the task ends with is stored in its place.
    StoresOutput
    /// Asks that the output is dropped, since nobody will claim it.
    DropsOutput
    /// The same of a detach, which takes the output out and drops it last, since its drop may panic.
    DropsLast
    /// Asks that the output is taken out.
    TakesOutput
    /// Asks that the awaiter's place is emptied.
    TakesAwaiter
    /// Asks that the awaiter is woken that was taken.
    WakesAwaiter
    /// The same, or that it is dropped where it is the caller's.
    WakesOther
    /// Asks for a clone of the caller's awaiter.
    Clones
    /// Asks that the clone is put into the awaiter's place.
    StoresAwaiter
    /// A notifier came before: asks that the caller is woken, and the clone dropped.
    WakesCaller
    /// The last handle: asks that an awaiter that is left is dropped.
    Empties
    /// A cell that has ended: asks that the body is freed.
    Frees
    /// Asks that a Runnable is handed over by a party that keeps its own handle.
    Delivers
}

/// Asks that a Runnable is handed over with the last handle of this party, woken while it ran or not.
pub(crate) enum HandsOn<const WOKEN: bool> {}

answers! {
    /// Whether a wake has brought the Runnable of an idle task.
    Woken { SCHEDULE => Idle(Delivers), DONE => Already, }
    /// What a handle leaves that is given up.
    Left { OVER => Nothing, LAST => Last(Empties, Emptied), }
    /// The same, unless the awaiter's place is to be emptied before.
    Leaving<N> { TAKE => Takes(TakesAwaiter, N), _ => Left(Left) }
    /// Whether the cell has ended, or a hold keeps it.
    End { DONE => Held, ENDED => Ended(Frees), }
    /// How a run starts.
    Started { POLL => Polls(Polling), DROP_FUTURE => Closed(DropsFuture, RunClosed), }
    /// How a run ends whose poll was pending.
    Pended {
        OVER => Idle, SCHEDULE => Orphan(HandsOn<false>), SCHEDULE_WOKEN => Woken(HandsOn<true>),
        DROP_FUTURE => Closed(DropsFuture, PendingClosed),
    }
    /// How a run ends whose poll was ready.
    Completed {
        DROP_OUTPUT => Unclaimed(DropsOutput, OutputDropped), DROP_OUTPUT_DUE => UnclaimedDue(DropsOutput, OutputDroppedDue),
        _ => Left(Leaving<RunTaken>)
    }
    /// How a run ends that emptied the awaiter's place.
    Finished {
        OVER => Nothing, LAST => Last(Empties, Emptied), WAKE => Wakes(WakesAwaiter),
        LAST_WAKE => LastWakes(Empties, EmptiedTook),
    }
    /// How a dropped Runnable ends that emptied the awaiter's place.
    DiscardEnds { WAKE_FIRST => Wakes(WakesAwaiter, DiscardWoken), _ => Left(Left) }
    /// A cancel.
    Cancelled {
        SCHEDULE => Idle(Delivers, CancelScheduled), SCHEDULE_DUE => IdleDue(Delivers, CancelScheduledDue),
        _ => Busy(Closed)
    }
    /// A cancel that has no Runnable to hand over any more, unless it has ended.
    Closed { DONE => Over(Resting), TAKE => Takes(TakesAwaiter, CancelTaken), }
    /// A cancel that emptied the awaiter's place.
    CancelEnds { DONE => Over(Resting), WAKE_FIRST => Wakes(WakesAwaiter, CancelWoken), }
    /// A waker's drop.
    Dropped { SCHEDULE => Orphan(HandsOn<false>), _ => Left(Left) }
    /// A detach.
    Detached { DROP_OUTPUT => Unclaimed(DropsLast, DetachDropped), SCHEDULE => Orphan(HandsOn<false>), _ => Left(Left) }
    /// What a poll of the Task finds.
    Look {
        OUTPUT => Output(TakesOutput, OutputTaken), TAKE_CLAIMED => Claims(TakesAwaiter, ClaimTaken),
        CLOSED => Closed(Resting), TAKE => Shuts(TakesAwaiter, ShutTaken), PENDING => Pending(Resting),
    }
    /// What it finds at first.
    FirstLook { CLONE => Clones(Clones, Cloned), _ => Found(Look) }
    /// How it registers.
    Registers {
        STORE => Stores(StoresAwaiter, Stored), REPLACE => Replaces(StoresAwaiter, Replaced),
        WAKE_CALLER => WakesCaller(WakesCaller, CloneDropped),
    }
    /// What it finds after it has registered.
    SecondLook { TAKE_BACK => TakesBack(TakesAwaiter, TakenBack), _ => Found(Look) }
    /// A poll of a closed task that emptied the awaiter's place.
    Shuts { CLOSED => Over(Resting), WAKE_FIRST => Wakes(WakesOther, (ShutWoken, ShutDropped)), }
    /// A poll that claimed the output, and emptied the awaiter's place.
    Claims { OUTPUT => Output(TakesOutput, OutputTaken), WAKE_FIRST => Wakes(WakesOther, (ClaimWoken, ClaimDropped)), }
}

/// Whether something is the case: 1 or 0.
impl Answer for bool {
    fn answer(_: NonNull<()>, number: u32) -> Self {
        number == 1
    }
}

/// A handle that is gone.
impl Step for () {
    type Then = ();

    fn step(_: At<()>) {}
}

impl At<Polling> {
    /// The poll has answered ready: a step without an export.
    pub(crate) fn ready(self) -> At<StoresOutput, Completes> {
        At::stands(self.task)
    }

    /// The poll has panicked. The task is woken, so that its run leaves a Runnable, whose drop closes the task; or it is closed.
    pub(crate) fn panicked(self) -> Result<At<Scheduled>, At<DropsFuture, PendingClosed>> {
        match (At::<Lent>::stands(self.task).choose::<Wakes>(), self.choose::<Pends>()) {
            (Woken::Already, Pended::Woken(at)) => Ok(At::stands(at.task)),
            (Woken::Already, Pended::Closed(at)) => Err(at),
            _ => abort(),
        }
    }
}

/// Makes a cell in this room, which is the beginning of its task's allocation: its Runnable and its Task.
#[inline]
pub(crate) fn make(room: NonNull<()>) -> (At<Scheduled>, At<Resting>) {
    extern "C" {
        fn async_task_new(runnable: *mut Place, task: *mut Place) -> u32;
    }
    let (mut runnable, mut task) = (null_mut(), null_mut());
    heap::offer(room.as_ptr().cast());
    // SAFETY: both places are room for 8 bytes, and outlive the call.
    let number = unsafe { async_task_new(&mut Place { at: &mut runnable }, &mut Place { at: &mut task }) };
    match number {
        DONE if [runnable, task] == [room.as_ptr(); 2] => (At::stands(room), At::stands(room)),
        _ => abort(),
    }
}
