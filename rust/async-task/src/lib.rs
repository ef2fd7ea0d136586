//! Tasks for executors: the interface of async-task 4.7.1 over a task cell that is proved in Rattle.
//!
//! A task is a future with what it takes to run it from a queue. An executor spawns tasks, keeps their [`Runnable`]s in a queue of its own, and runs them:
//!
//! ```
//! let (to, queue) = std::sync::mpsc::channel();
//! let schedule = move |runnable| to.send(runnable).unwrap();
//! let (runnable, task) = async_task::spawn(async { 1 + 2 }, schedule);
//! runnable.schedule();
//! task.detach();
//! for runnable in queue {
//!     runnable.run();
//! }
//! ```
//!
//! Each step on a task is one of the archive in `lib`, which is proved. What the code here owes to it says the README of this package.
#![no_std]
#![warn(missing_docs, missing_debug_implementations, rust_2018_idioms, unreachable_pub)]
#![deny(unused_must_use, unused_variables)]
#![doc(test(attr(deny(rust_2018_idioms, warnings))))]
#![doc(test(attr(allow(unused_extern_crates, unused_variables))))]

extern crate alloc;
#[cfg(feature = "std")]
extern crate std;

mod await_task;
mod body;
mod builder;
mod cell;
#[cfg(feature = "std")]
mod local;
mod panics;
mod run;
mod runnable;
mod schedule;
mod task;
mod waker;

pub use crate::{builder::*, runnable::Runnable, schedule::Schedule, schedule::ScheduleInfo, schedule::WithInfo};
pub use crate::{task::FallibleTask, task::Task};
