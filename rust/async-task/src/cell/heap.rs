//! The heap of the archive. It asks for one thing, the block of a cell, and gets the room that the task's own allocation has for it.
use core::ptr::null_mut;
#[cfg(not(feature = "std"))]
use core::sync::atomic::{AtomicPtr, Ordering::SeqCst};

/// The words of the room for a block.
pub(crate) const ROOM: usize = 4;

/// What the archive is answered: whether there is memory, and where.
#[repr(C)]
struct Tried {
    ok: bool,
    at: *mut u8,
}

#[cfg(feature = "std")]
std::thread_local! {
    /// The room of the spawn that this thread is in.
    static OFFERED: core::cell::Cell<*mut u8> = const { core::cell::Cell::new(null_mut()) };
}

/// The room of the one spawn that is at its block: without places of each thread they go one by one.
#[cfg(not(feature = "std"))]
static OFFERED: AtomicPtr<u8> = AtomicPtr::new(null_mut());

/// Offers this room to the one call of the archive's heap that follows on this thread.
#[inline]
pub(super) fn offer(room: *mut u8) {
    #[cfg(feature = "std")]
    OFFERED.with(|offered| offered.set(room));
    #[cfg(not(feature = "std"))]
    while OFFERED.compare_exchange(null_mut(), room, SeqCst, SeqCst).is_err() {
        core::hint::spin_loop();
    }
}

/// The room that is offered, once.
fn take_offered() -> *mut u8 {
    #[cfg(feature = "std")]
    return OFFERED.with(|offered| offered.replace(null_mut()));
    #[cfg(not(feature = "std"))]
    OFFERED.swap(null_mut(), SeqCst)
}

/// Hands out the room that is offered, once, where `size` bytes fit.
#[no_mangle]
extern "C" fn rattle_alloc(size: usize, align: usize) -> Tried {
    let at = if size <= ROOM * 8 && align <= 8 { take_offered() } else { null_mut() };
    Tried { ok: !at.is_null(), at }
}

/// Keeps the room: the task's own allocation ends after the export that answers that the cell has ended.
#[no_mangle]
extern "C" fn rattle_dealloc(_at: *mut u8) {}
