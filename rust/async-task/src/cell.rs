//! The proved cell: the steps that its exports are, and the acts that these ask for.
mod acts;
mod at;
mod heap;
mod steps;

pub(crate) use self::{acts::*, at::*, heap::ROOM, steps::*};

/// Does something with a value where it is dropped, as in a panic of what comes next.
pub(crate) struct Finally<V, F: FnOnce(V)>(Option<(V, F)>);

impl<V, F: FnOnce(V)> Finally<V, F> {
    pub(crate) fn new(value: V, last: F) -> Self {
        Finally(Some((value, last)))
    }

    /// The value, with nothing to do any more.
    pub(crate) fn into_value(mut self) -> V {
        self.0.take().map_or_else(|| abort(), |(value, _)| value)
    }
}

impl<V, F: FnOnce(V)> Drop for Finally<V, F> {
    fn drop(&mut self) {
        if let Some((value, last)) = self.0.take() {
            last(value);
        }
    }
}

/// Ends the process, by a panic in a panic.
#[cold]
pub(crate) fn abort() -> ! {
    let _again = Finally::new((), |()| panic!("async-task ends the process"));
    panic!("async-task ends the process");
}
