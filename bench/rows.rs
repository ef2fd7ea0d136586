//! Plays the worked rows of `taskrows` on async-task: a line is a script. For each it prints the counters at the end, and the
//! first step that was not as it says. `bench/replay` builds it.
//!
//! `rows_fixtures` has the steps: its player says what each does. Those that no such row makes are not here. A poll may answer
//! `panics`. All is on one thread: what the first thread does beside a run of the second is done inside the poll of that run.

use async_task::{Runnable, ScheduleInfo, Task, WithInfo};
use std::cell::{Cell, RefCell};
use std::collections::VecDeque;
use std::future::Future;
use std::io::BufRead;
use std::mem::ManuallyDrop;
use std::panic::{AssertUnwindSafe, catch_unwind};
use std::pin::Pin;
use std::ptr;
use std::str::SplitAsciiWhitespace as Words;
use std::task::{Context, Poll, RawWaker, RawWakerVTable, Waker};

thread_local! {
    /// What happened in the row so far.
    static LOG: RefCell<Vec<String>> = const { RefCell::new(Vec::new()) };
}

fn note(word: &str) {
    LOG.with_borrow_mut(|log| log.push(word.to_string()));
}

/// How often that happened.
fn count(word: &str) -> u64 {
    LOG.with_borrow(|log| log.iter().filter(|it| *it == word).count() as u64)
}

/// What happened after so much of it, as a row notes it: without numbers, polls and clones.
fn events(looked: usize) -> Vec<String> {
    let log = LOG.with_borrow(|log| log[looked..].to_vec());
    let names = log.iter().map(|it| it.trim_end_matches(char::is_numeric).to_string());
    names.filter(|it| it != "polled" && it != "cloned").collect()
}

/// Polls, schedule calls, drops of futures and drops of schedule values.
fn counts() -> [u64; 4] {
    ["polled", "handed", "future", "kept"].map(count)
}

/// Notes a word when it is dropped.
struct Noted(&'static str);

impl Drop for Noted {
    fn drop(&mut self) {
        note(self.0);
    }
}

/// The calls of awaiters. Their data is the number of the awaiter.
static AWAITER: RawWakerVTable = RawWakerVTable::new(cloned, woken, woken, unwoken);

fn cloned(data: *const ()) -> RawWaker {
    note(&format!("cloned{}", data.addr()));
    RawWaker::new(data, &AWAITER)
}

fn woken(data: *const ()) {
    note(&format!("woken{}", data.addr()));
}

fn unwoken(data: *const ()) {
    note(&format!("unwoken{}", data.addr()));
}

/// The awaiter of a number. It is never dropped, since only drops of clones are counted.
fn awaiter(number: u64) -> ManuallyDrop<Waker> {
    let data = ptr::without_provenance(number as usize);
    ManuallyDrop::new(unsafe { Waker::from_raw(RawWaker::new(data, &AWAITER)) })
}

/// The output of a future.
struct Output(u64, #[allow(dead_code)] Noted);

/// What a future answers at its first poll and at later ones, and what each poll does beside.
struct Behaviour {
    first: Option<u64>,
    later: Option<u64>,
    keeps_waker: bool,
    drops_task: bool,
}

impl Behaviour {
    fn read(words: &mut Words<'_>) -> Option<Behaviour> {
        let name = words.next()?;
        let later = match name {
            "pending" | "keep_pending" => None,
            "sum" => Some(number(words)? + number(words)?),
            "ready" | "keep" | "drop_task" => Some(number(words)?),
            _ => return None,
        };
        let first = later.filter(|_| name != "keep");
        let (keeps_waker, drops_task) = (name.starts_with("keep"), name == "drop_task");
        Some(Behaviour { first, later, keeps_waker, drops_task })
    }
}

/// The future of a row's task.
struct RowFuture(&'static Row, Behaviour, #[allow(dead_code)] Noted);

impl Future for RowFuture {
    type Output = Output;

    fn poll(mut self: Pin<&mut Self>, context: &mut Context<'_>) -> Poll<Output> {
        note("polled");
        let RowFuture(row, behaviour, _) = &mut *self;
        if behaviour.keeps_waker {
            row.stored.set(Some(context.waker().clone()));
        }
        if behaviour.drops_task {
            row.kept_task.set(None);
        }
        if let Some(steps) = row.beside.take() {
            row.play(&steps);
        }
        match std::mem::replace(&mut behaviour.first, behaviour.later) {
            Some(number) => Poll::Ready(Output(number, Noted("output"))),
            None => Poll::Pending,
        }
    }
}

/// The schedule value of a row's task.
struct Scheduler(&'static Row, #[allow(dead_code)] Noted);

impl Scheduler {
    fn schedule(&self, runnable: Runnable, info: ScheduleInfo) {
        let row = self.0;
        note("handed");
        row.told.borrow_mut().push(info.woken_while_running.to_string());
        if row.drops_each.get() {
            drop(runnable);
            note("returned");
        } else {
            row.queue.borrow_mut().push_back(runnable);
        }
    }
}

/// A Task, or the FallibleTask or cancel that was made of it.
enum Held {
    Task(Task<Output>),
    Other(Pin<Box<dyn Future<Output = Option<Output>>>>),
}

/// A row: its handles, and what schedule values and futures reach.
#[derive(Default)]
struct Row {
    runnable: Cell<Option<Runnable>>,
    wakers: RefCell<VecDeque<Waker>>,
    task: Cell<Option<Held>>,
    other_tasks: RefCell<VecDeque<Held>>,
    queue: RefCell<VecDeque<Runnable>>,
    drops_each: Cell<bool>,
    stored: Cell<Option<Waker>>,
    kept_task: Cell<Option<Task<Output>>>,
    /// The steps that are made inside the next poll.
    beside: Cell<Option<String>>,
    /// What schedule calls were told since the last look at that.
    told: RefCell<Vec<String>>,
    /// How much had happened at the last look at the events.
    looked: Cell<usize>,
    /// The first step that was not as it says.
    failed: RefCell<Option<String>>,
}

impl Row {
    /// Plays a script. What is left at its end is never dropped.
    fn play_parts(&'static self, script: &str) {
        let mut parts = script.split('|');
        self.play(parts.next().unwrap_or_default());
        if let (Some(run), Some(beside)) = (parts.next(), parts.next()) {
            self.beside.set(Some(beside.to_string()));
            self.play(run);
            // Steps that are left are those of a poll that did not come.
            self.beside.take().inspect(|steps| self.fail(steps));
        }
        parts.for_each(|part| self.play(part));
    }

    /// Makes these steps, until one is not as it says.
    fn play(&'static self, steps: &str) {
        for step in steps.split(';').filter(|it| !it.trim().is_empty()) {
            if self.failed.borrow().is_some() {
                return;
            }
            let mut words = step.split_ascii_whitespace();
            let name = words.next().unwrap_or_default();
            if self.step(name, &mut words) != Some(true) || words.next().is_some() {
                self.fail(step);
            }
        }
    }

    fn fail(&self, step: &str) {
        self.failed.borrow_mut().get_or_insert(step.trim().to_string());
    }

    /// Makes a step: whether it was as it says, or `None` where there is no such step, or not what it is made on.
    fn step(&'static self, name: &str, words: &mut Words<'_>) -> Option<bool> {
        match name {
            "spawn" => self.spawn(Behaviour::read(words)?),
            "receive" => {
                let received = self.queue.borrow_mut().pop_front()?;
                return Some(self.runnable.replace(Some(received)).is_none());
            }
            "schedule" => self.runnable.take()?.schedule(),
            "run" => {
                let is_again = self.runnable.take()?.run();
                return Some(is_again == (words.next() == Some("again")));
            }
            "drop_runnable" => drop(self.runnable.take()?),
            "waker" => {
                let runnable = self.runnable.take()?;
                self.wakers.borrow_mut().push_back(runnable.waker());
                self.runnable.set(Some(runnable));
            }
            "take_stored" => self.wakers.borrow_mut().push_back(self.stored.take()?),
            "clone_waker" => {
                let clone = self.wakers.borrow().back()?.clone();
                self.wakers.borrow_mut().push_back(clone);
            }
            "wake_by_ref" => self.wakers.borrow().back()?.wake_by_ref(),
            "wake" => self.wakers.borrow_mut().pop_back()?.wake(),
            "drop_waker" => drop(self.wakers.borrow_mut().pop_front()?),
            "clear" => drop(self.queue.take()),
            "drop_each" => self.drops_each.set(true),
            _ => return self.step_of_task(name, words),
        }
        Some(true)
    }

    fn step_of_task(&self, name: &str, words: &mut Words<'_>) -> Option<bool> {
        match name {
            "poll" => return self.poll(words),
            "finished" => {
                let task = self.take_task()?;
                let is_finished = task.is_finished();
                self.task.set(Some(Held::Task(task)));
                return Some(is_finished);
            }
            "detach" => self.take_task()?.detach(),
            "drop_task" => drop(self.task.take()?),
            "fallible" => {
                let fallible = Box::pin(self.take_task()?.fallible());
                self.task.set(Some(Held::Other(fallible)));
            }
            "cancel" => {
                let cancel = Box::pin(self.take_task()?.cancel());
                self.task.set(Some(Held::Other(cancel)));
            }
            "keep_task" => self.kept_task.set(Some(self.take_task()?)),
            "next_task" => {
                let mut tasks = self.other_tasks.borrow_mut();
                tasks.extend(self.task.take());
                self.task.set(Some(tasks.pop_front()?));
            }
            _ => return self.look(name, words),
        }
        Some(true)
    }

    fn look(&self, name: &str, words: &mut Words<'_>) -> Option<bool> {
        Some(match name {
            "none_kept" => self.kept_task.take().is_none(),
            "told" => words.eq(self.told.take()),
            "noted" => words.eq(events(self.looked.replace(LOG.with_borrow(Vec::len)))),
            "counted" => are_next(words, counts()),
            "outputs" => are_next(words, [count("output")]),
            "queued" => are_next(words, [self.queue.borrow().len() as u64]),
            "woken" => {
                let woken = count(&format!("woken{}", number(words)?));
                are_next(words, [woken])
            }
            "ends" => {
                let number = number(words)?;
                let ends = ["cloned", "woken", "unwoken"].map(|it| format!("{it}{number}"));
                are_next(words, ends.map(|it| count(&it)))
            }
            _ => return None,
        })
    }

    fn take_task(&self) -> Option<Task<Output>> {
        match self.task.take()? {
            Held::Task(task) => Some(task),
            Held::Other(_) => None,
        }
    }

    /// Spawns a task. The Task of an earlier spawn is behind the new one.
    fn spawn(&'static self, behaviour: Behaviour) {
        let scheduler = Scheduler(self, Noted("kept"));
        let schedule = move |runnable, info| scheduler.schedule(runnable, info);
        let future = RowFuture(self, behaviour, Noted("future"));
        // All is on this thread.
        let (runnable, task) = unsafe { async_task::spawn_unchecked(future, WithInfo(schedule)) };
        self.runnable.set(Some(runnable));
        let former = self.task.replace(Some(Held::Task(task)));
        self.other_tasks.borrow_mut().extend(former);
    }

    /// Polls what is left of the Task. No output is dropped before the look at the answer.
    fn poll(&self, words: &mut Words<'_>) -> Option<bool> {
        let awaiter = awaiter(number(words)?);
        let mut context = Context::from_waker(&awaiter);
        let mut held = self.task.take()?;
        let drops = count("output");
        let polled = catch_unwind(AssertUnwindSafe(|| match &mut held {
            Held::Task(task) => Pin::new(task).poll(&mut context).map(Some),
            Held::Other(task) => task.as_mut().poll(&mut context),
        }));
        self.task.set(Some(held));
        let is_answer = match (words.next()?, &polled) {
            ("waits", Ok(Poll::Pending)) | ("closed", Ok(Poll::Ready(None))) => true,
            ("gives", Ok(Poll::Ready(Some(output)))) => are_next(words, [output.0]),
            (word, answer) => word == "panics" && answer.is_err(),
        };
        Some(is_answer && count("output") == drops)
    }
}

/// The next word, as a number.
fn number(words: &mut Words<'_>) -> Option<u64> {
    words.next()?.parse().ok()
}

/// Whether the next words are these numbers.
fn are_next<const N: usize>(words: &mut Words<'_>, numbers: [u64; N]) -> bool {
    numbers.into_iter().all(|it| number(words) == Some(it))
}

fn main() -> std::io::Result<()> {
    std::panic::set_hook(Box::new(|_| {}));
    for line in std::io::stdin().lock().lines() {
        LOG.take();
        let row: &Row = Box::leak(Box::default());
        row.play_parts(&line?);
        let counts = counts().map(|it| it.to_string()).join(",");
        let failed = row.failed.take().map(|step| format!(" FAILED: {step}"));
        println!("{counts}{}", failed.unwrap_or_default());
    }
    Ok(())
}
