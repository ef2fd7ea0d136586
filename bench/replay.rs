//! Plays scripts of calls on async-task, and prints what `replay_calls` prints of them: a line of what happened in each.
//! A poll that panics, since the task is closed, answers `panicked` here. `bench/replay` builds it.

use async_task::{Builder, FallibleTask, Runnable, ScheduleInfo, Task, WithInfo};
use std::cell::{Cell, RefCell};
use std::collections::{HashMap, VecDeque};
use std::fmt;
use std::future::Future;
use std::io::{BufRead, Write};
use std::mem::ManuallyDrop;
use std::panic::{AssertUnwindSafe, catch_unwind};
use std::pin::Pin;
use std::rc::{Rc, Weak};
use std::task::{Context, Poll, RawWaker, RawWakerVTable, Waker};

/// How deep calls are made inside foreign code.
const DEPTH: usize = 2;

/// The words of what happened so far.
#[derive(Default)]
struct Log(RefCell<String>);

impl Log {
    fn note(&self, word: &str) {
        let mut text = self.0.borrow_mut();
        text.push_str(word);
        text.push(' ');
    }

    fn begin(&self, call: &str) {
        self.note(&format!("{call}("));
    }

    fn end(&self, answer: &str) {
        self.note(&format!("){answer}"));
    }
}

/// Notes a word when it is dropped, and makes the calls that the script has for this moment.
struct Noted(Rc<Handles>, &'static str, &'static str);

impl fmt::Debug for Noted {
    fn fmt(&self, f: &mut fmt::Formatter<'_>) -> fmt::Result {
        f.write_str("Metadata")
    }
}

impl Drop for Noted {
    fn drop(&mut self) {
        self.0.log.note(self.1);
        self.0.reach(self.2);
    }
}

/// An awaiter: its number, and whose it is.
struct Awaiter(u8, Weak<Handles>);

impl Awaiter {
    const TABLE: RawWakerVTable =
        RawWakerVTable::new(Self::clone, Self::wake, Self::wake_by_ref, Self::drop);

    /// A waker of this awaiter. It is never dropped, since only drops of clones are noted.
    fn waker(number: u8, handles: &Weak<Handles>) -> ManuallyDrop<Waker> {
        let awaiter = Rc::new(Awaiter(number, handles.clone()));
        let data = Rc::into_raw(awaiter).cast();
        ManuallyDrop::new(unsafe { Waker::from_raw(RawWaker::new(data, &Self::TABLE)) })
    }

    unsafe fn note(data: *const (), word: &str, moment: &str) {
        let Awaiter(number, handles) = unsafe { &*data.cast::<Awaiter>() };
        let Some(handles) = handles.upgrade() else {
            return;
        };
        handles.log.note(&format!("{word}{number}"));
        handles.reach(moment);
    }

    unsafe fn clone(data: *const ()) -> RawWaker {
        unsafe {
            Self::note(data, "cloned", "in_awaiter_clone");
            Rc::increment_strong_count(data.cast::<Awaiter>());
        }
        RawWaker::new(data, &Self::TABLE)
    }

    unsafe fn wake(data: *const ()) {
        unsafe {
            Self::note(data, "woken", "in_awaiter_wake");
            Rc::decrement_strong_count(data.cast::<Awaiter>());
        }
    }

    unsafe fn wake_by_ref(data: *const ()) {
        unsafe { Self::note(data, "woken_by_ref", "in_awaiter_wake") }
    }

    unsafe fn drop(data: *const ()) {
        unsafe {
            Self::note(data, "dropped", "in_awaiter_drop");
            Rc::decrement_strong_count(data.cast::<Awaiter>());
        }
    }
}

/// What is left of the Task.
enum HeldTask {
    Task(Task<Noted, Noted>),
    Fallible(FallibleTask<Noted, Noted>),
    Cancel(Pin<Box<dyn Future<Output = Option<Noted>>>>),
}

/// The handles of the task of a script, which the values of the task share.
struct Handles {
    log: Log,
    script: Script,
    next: Cell<usize>,
    inside: RefCell<HashMap<String, VecDeque<Vec<String>>>>,
    depth: Cell<usize>,
    awaiters: [ManuallyDrop<Waker>; 2],
    runnable: Cell<Option<Runnable<Noted>>>,
    wakers: RefCell<Vec<Waker>>,
    task: Cell<Option<HeldTask>>,
}

/// The future, which does what the script says.
struct ScriptFuture(Rc<Handles>, #[allow(dead_code)] Noted);

impl Future for ScriptFuture {
    type Output = Noted;

    fn poll(self: Pin<&mut Self>, context: &mut Context<'_>) -> Poll<Noted> {
        let log = &self.0.log;
        log.begin("future_polled");
        if self.0.play_poll(context.waker()) {
            log.end("ready");
            Poll::Ready(Noted(self.0.clone(), "output_dropped", "in_output_drop"))
        } else {
            log.end("pending");
            Poll::Pending
        }
    }
}

impl Handles {
    fn spawn(self: &Rc<Self>) {
        let noted = |word, moment| Noted(self.clone(), word, moment);
        let dropped = noted("future_dropped", "in_future_drop");
        let future = ScriptFuture(self.clone(), dropped);
        let told = noted("schedule_dropped", "in_schedule_drop");
        let schedule = move |runnable: Runnable<Noted>, info: ScheduleInfo| {
            let handles = &told.0;
            handles.log.begin(if info.woken_while_running { "scheduled_woken" } else { "scheduled" });
            if handles.script.way == "shows" {
                handles.log.note(&format!("{runnable:?}"));
            }
            if handles.script.way == "drops" {
                drop(runnable);
            } else {
                handles.runnable.set(Some(runnable));
            }
            handles.reach("in_schedule");
            handles.log.end("");
        };
        let metadata = noted("metadata_dropped", "in_metadata_drop");
        let builder = Builder::new().metadata(metadata);
        // All is on this thread.
        let (runnable, task) = unsafe { builder.spawn_unchecked(|_| future, WithInfo(schedule)) };
        self.runnable.set(Some(runnable));
        self.task.set(Some(HeldTask::Task(task)));
    }

    /// Makes the calls that the script has next for this moment, unless foreign code is reached too deep.
    fn reach(&self, moment: &str) {
        if self.depth.get() >= DEPTH {
            return;
        }
        let next = self.inside.borrow_mut().get_mut(moment).and_then(VecDeque::pop_front);
        let Some(calls) = next else {
            return;
        };
        self.depth.set(self.depth.get() + 1);
        self.log.begin("inside");
        for call in &calls {
            self.call_outside(call);
        }
        self.log.end("");
        self.depth.set(self.depth.get() - 1);
    }

    fn play_poll(&self, lent: &Waker) -> bool {
        while let Some(word) = self.script.polls.get(self.next.get()) {
            self.next.set(self.next.get() + 1);
            match word.as_str() {
                "pending" => return false,
                "ready" => return true,
                "keep" => {
                    self.log.note("keep");
                    self.keep(lent.clone());
                }
                "wake_lent" => self.noted("wake_lent", || lent.wake_by_ref()),
                call => self.call(call),
            }
        }
        false
    }

    fn call_outside(&self, call: &str) {
        match call {
            "run" => {
                if let Some(runnable) = self.runnable.take() {
                    self.log.begin("run");
                    let woken = runnable.run();
                    self.log.end(&woken.to_string());
                }
            }
            "schedule" => {
                if let Some(runnable) = self.runnable.take() {
                    self.noted("schedule", || runnable.schedule());
                }
            }
            "drop_runnable" => {
                self.drop_runnable();
            }
            "waker" => {
                if let Some(runnable) = self.runnable.take() {
                    self.log.note("waker");
                    self.keep(runnable.waker());
                    self.runnable.set(Some(runnable));
                }
            }
            _ => self.call(call),
        }
    }

    /// Drops all handles that are left, also those that come meanwhile.
    fn end(&self) {
        self.log.begin("end");
        while self.drop_waker() || self.drop_task() || self.drop_runnable() {}
        self.log.end("");
    }

    fn call(&self, call: &str) {
        match call {
            "wake" => self.with_last(|waker| self.noted("wake", || waker.wake())),
            "wake_by_ref" => self.with_last(|waker| {
                self.noted("wake_by_ref", || waker.wake_by_ref());
                self.keep(waker);
            }),
            "clone" => self.with_last(|waker| {
                self.log.note("clone");
                self.keep(waker.clone());
                self.keep(waker);
            }),
            "drop_waker" => {
                self.drop_waker();
            }
            "poll0" => self.poll(call, &self.awaiters[0]),
            "poll1" => self.poll(call, &self.awaiters[1]),
            "fallible" => self.change(|task| match task {
                HeldTask::Task(task) => HeldTask::Fallible(task.fallible()),
                other => other,
            }),
            "cancel" => self.change(|task| match task {
                HeldTask::Task(task) => HeldTask::Cancel(Box::pin(task.cancel())),
                HeldTask::Fallible(task) => HeldTask::Cancel(Box::pin(task.cancel())),
                other => other,
            }),
            "detach" => match self.task.take() {
                Some(HeldTask::Task(task)) => self.noted("detach", || task.detach()),
                Some(HeldTask::Fallible(task)) => self.noted("detach", || task.detach()),
                other => self.task.set(other),
            },
            "drop_task" => {
                self.drop_task();
            }
            "is_finished" => self.look(|task| {
                let answer = match task {
                    HeldTask::Task(task) => task.is_finished(),
                    HeldTask::Fallible(task) => task.is_finished(),
                    HeldTask::Cancel(_) => return,
                };
                self.log.begin("is_finished");
                self.log.end(&answer.to_string());
            }),
            "show" => self.look(|task| match task {
                HeldTask::Task(task) => self.log.note(&format!("{task:?}")),
                HeldTask::Fallible(task) => self.log.note(&format!("{task:?}")),
                HeldTask::Cancel(_) => {}
            }),
            _ => {}
        }
    }

    /// Makes a call that answers nothing.
    fn noted(&self, call: &str, act: impl FnOnce()) {
        self.log.begin(call);
        act();
        self.log.end("");
    }

    fn keep(&self, waker: Waker) {
        self.wakers.borrow_mut().push(waker);
    }

    fn with_last(&self, act: impl FnOnce(Waker)) {
        let last = self.wakers.borrow_mut().pop();
        if let Some(waker) = last {
            act(waker);
        }
    }

    fn change(&self, change: impl FnOnce(HeldTask) -> HeldTask) {
        self.task.set(self.task.take().map(change));
    }

    fn look(&self, look: impl FnOnce(&HeldTask)) {
        let task = self.task.take();
        if let Some(task) = &task {
            look(task);
        }
        self.task.set(task);
    }

    fn drop_waker(&self) -> bool {
        let last = self.wakers.borrow_mut().pop();
        let Some(waker) = last else {
            return false;
        };
        self.noted("drop_waker", || drop(waker));
        true
    }

    fn drop_task(&self) -> bool {
        let Some(task) = self.task.take() else {
            return false;
        };
        self.noted("drop_task", || drop(task));
        true
    }

    fn drop_runnable(&self) -> bool {
        let Some(runnable) = self.runnable.take() else {
            return false;
        };
        self.noted("drop_runnable", || drop(runnable));
        true
    }

    /// Polls what is left of the Task. A cancel that is ready is dropped, as a future that was awaited.
    fn poll(&self, call: &str, awaiter: &Waker) {
        let Some(mut task) = self.task.take() else {
            return;
        };
        self.log.begin(call);
        let mut context = Context::from_waker(awaiter);
        let polled = catch_unwind(AssertUnwindSafe(|| match &mut task {
            HeldTask::Task(task) => Pin::new(task).poll(&mut context).map(Some),
            HeldTask::Fallible(task) => Pin::new(task).poll(&mut context),
            HeldTask::Cancel(task) => task.as_mut().poll(&mut context),
        }));
        match task {
            HeldTask::Cancel(task) if matches!(polled, Ok(Poll::Ready(_))) => drop(task),
            task => self.task.set(Some(task)),
        }
        self.log.end(match &polled {
            Ok(Poll::Pending) => "pending",
            Ok(Poll::Ready(Some(_))) => "output",
            Ok(Poll::Ready(None)) => "closed",
            Err(_) => "panicked",
        });
    }
}

/// A script, as `replay_calls` reads it.
#[derive(Default)]
struct Script {
    way: String,
    polls: Vec<String>,
    inside: HashMap<String, VecDeque<Vec<String>>>,
    calls: Vec<String>,
}

fn read(text: &str) -> Script {
    let mut words = text.split_ascii_whitespace().map(str::to_string);
    let way = words.next().unwrap_or_default();
    let mut script = Script { way, ..Script::default() };
    while let Some(word) = words.next() {
        if word == "polled" {
            for word in words.by_ref() {
                script.polls.push(word);
                if matches!(script.polls.last().map(String::as_str), Some("pending" | "ready")) {
                    break;
                }
            }
        } else if word.starts_with("in_") {
            let calls = words.by_ref().take_while(|word| word != "done").collect();
            script.inside.entry(word).or_default().push_back(calls);
        } else {
            script.calls.push(word);
        }
    }
    script
}

/// What happens in a script.
fn play(text: &str) -> String {
    let mut script = read(text);
    let (inside, calls) = (std::mem::take(&mut script.inside), std::mem::take(&mut script.calls));
    let handles = Rc::new_cyclic(|handles| Handles {
        log: Log::default(),
        script,
        next: Cell::new(0),
        inside: RefCell::new(inside),
        depth: Cell::new(0),
        awaiters: [Awaiter::waker(0, handles), Awaiter::waker(1, handles)],
        runnable: Cell::new(None),
        wakers: RefCell::new(Vec::new()),
        task: Cell::new(None),
    });
    handles.spawn();
    for call in &calls {
        handles.call_outside(call);
    }
    handles.end();
    handles.log.0.take()
}

fn main() -> std::io::Result<()> {
    std::panic::set_hook(Box::new(|_| {}));
    let mut out = std::io::BufWriter::new(std::io::stdout());
    for line in std::io::stdin().lock().lines() {
        writeln!(out, "{}", play(&line?).trim_end())?;
    }
    out.flush()
}
