"""A task on one thread: what `replay_calls` and `replay.rs` print of a script, by the rules in which async-task differs.

A rule that is given, in `there`, has what it says as async-task has it. With none all is as here, with all as there.
"""

# Each rule is named by the paragraph of docs/DIFFERENCES.md that it stands for.
PANIC = "Handles, impl Future of both: a poll of a closed task panics"
WAKER = "Behaviour, a schedule function is kept by a waker while it runs"
LEAK = "Behaviour, a run that ends Pending with the last reference frees the cell"
REGISTER = "Behaviour, register clones the awaiter while REGISTERING stands"
RULES = (PANIC, WAKER, LEAK, REGISTER)

# How deep calls are made inside foreign code.
DEPTH = 2


def read(text):
    """The parts of a script: the way of the schedule value, words of polls, calls inside foreign code, calls."""
    words = iter(text.split())
    way, polls, inside, calls = next(words), [], {}, []
    for word in words:
        if word == "polled":
            for it in words:
                polls.append(it)
                if it in ("pending", "ready"):
                    break
        elif word.startswith("in_"):
            group = list(iter(lambda: next(words), "done"))
            inside.setdefault(word, []).append(group)
        else:
            calls.append(word)
    return way, polls, inside, calls


class Cell:
    """The word and the places of the task, its steps, and the foreign code that they call."""

    def __init__(self, text, there):
        self.way, polls, self.inside, self.script = read(text)
        self.polls, self.there, self.words, self.depth = iter(polls), there, [], 0
        # The word.
        self.scheduled, self.running, self.completed, self.closed, self.task = True, False, False, False, True
        self.awaiter, self.registering, self.notifying, self.references = False, False, False, 1
        # The stored awaiter, the schedule calls that hold the block, and whether its slots are empty.
        self.stored, self.holds, self.emptied = None, 0, False
        # The handles that are kept.
        self.kept_runnable, self.kept_wakers, self.kept_task, self.cancelled = True, 0, "Task", False

    # Foreign code.

    def reach(self, moment):
        if self.depth >= DEPTH or not self.inside.get(moment):
            return
        self.depth += 1
        self.words.append("inside(")
        for call in self.inside[moment].pop(0):
            self.call(call)
        self.words.append(")")
        self.depth -= 1

    def event(self, word, moment):
        self.words.append(word)
        self.reach(moment)

    def drop_future(self):
        self.event("future_dropped", "in_future_drop")

    def drop_output(self):
        self.event("output_dropped", "in_output_drop")

    def clone_awaiter(self, number):
        self.event(f"cloned{number}", "in_awaiter_clone")

    def drop_awaiter(self, number):
        self.event(f"dropped{number}", "in_awaiter_drop")

    def wake_awaiter(self, number):
        if number is not None:
            self.event(f"woken{number}", "in_awaiter_wake")

    def drop_block(self):
        self.event("metadata_dropped", "in_metadata_drop")
        self.event("schedule_dropped", "in_schedule_drop")

    def schedule_value(self, woken):
        """The schedule value gets the Runnable."""
        self.words.append("scheduled_woken(" if woken else "scheduled(")
        if self.way == "shows":
            self.show("Runnable")
        if self.way == "drops":
            self.discard()
        else:
            self.kept_runnable = True
        self.reach("in_schedule")
        self.words.append(")")

    def poll_future(self):
        """Whether the future is ready."""
        self.words.append("future_polled(")
        for word in self.polls:
            if word == "ready":
                self.words.append(")ready")
                return True
            if word == "pending":
                break
            self.call_in_poll(word)
        self.words.append(")pending")
        return False

    # Steps.

    def show(self, name):
        flags = ("scheduled", "running", "completed", "closed", "awaiter", "task")
        text = "".join(f"{flag}: {str(getattr(self, flag)).lower()}, " for flag in flags)
        text = f"{name} {{ header: Header {{ {text}ref_count: {self.references}, metadata: Metadata }} }}"
        self.words += text.split()

    def schedule(self, woken):
        """A Runnable is scheduled by somebody whose handle goes with it."""
        if WAKER in self.there:
            self.references += 1
            self.schedule_value(woken)
            self.release_waker()
            return
        self.holds += 1
        self.schedule_value(woken)
        self.holds -= 1
        if self.emptied and self.holds == 0:
            self.drop_block()

    def schedule_beside(self):
        """A Runnable is scheduled by a Task that stays."""
        if WAKER in self.there:
            self.schedule(False)
        else:
            self.schedule_value(False)

    def empty(self):
        """The last handle has gone."""
        stored, self.stored = self.stored, None
        if stored is not None:
            self.drop_awaiter(stored)
        self.emptied = True
        if self.holds == 0:
            self.drop_block()

    def orphan(self):
        """The last handle of an open task closes it and schedules it."""
        self.scheduled, self.closed, self.references, self.task, self.awaiter = True, True, 1, False, False
        self.schedule(False)

    def release(self):
        """The reference of a run or a Runnable is released."""
        self.references -= 1
        if self.references == 0 and not self.task:
            self.empty()

    def release_waker(self):
        self.references -= 1
        if self.references == 0 and not self.task:
            if self.completed or self.closed:
                self.empty()
            else:
                self.orphan()

    def take(self):
        """Takes the stored awaiter."""
        was_taken = self.notifying or self.registering
        self.notifying = True
        if was_taken:
            return None
        number, self.stored = self.stored, None
        self.notifying = self.awaiter = False
        return number

    def take_for(self, number):
        """Takes the stored awaiter for a poll that is ready, by this awaiter."""
        stored = self.take()
        if stored == number:
            self.drop_awaiter(stored)
        else:
            self.wake_awaiter(stored)

    def register(self, number):
        if REGISTER not in self.there:
            self.clone_awaiter(number)
        self.registering = True
        if REGISTER in self.there:
            self.clone_awaiter(number)
        old, self.stored = self.stored, number
        if old is not None:
            self.drop_awaiter(old)
        number = None
        if self.notifying:
            number, self.stored = self.stored, None
        self.notifying = self.registering = False
        self.awaiter = number is None
        self.wake_awaiter(number)

    # Calls of the handles.

    def run(self):
        if self.closed:
            self.drop_future()
            due, self.scheduled = self.awaiter, False
            self.end_run(due)
            return False
        self.scheduled, self.running = False, True
        if self.poll_future():
            self.drop_future()
            is_unclaimed, due = self.closed or not self.task, self.awaiter
            self.running = self.scheduled = False
            self.completed, self.closed = True, self.closed or not self.task
            if is_unclaimed:
                self.drop_output()
            self.end_run(due)
            return False
        return self.end_pending()

    def end_pending(self):
        if self.closed:
            self.drop_future()
            due = self.awaiter
            self.running = self.scheduled = False
            self.end_run(due)
            return False
        self.running = False
        if self.scheduled:
            self.schedule(True)
            return True
        if self.references == 1 and not self.task and LEAK not in self.there:
            self.orphan()
        else:
            self.release()
        return False

    def end_run(self, due):
        number = self.take() if due else None
        self.release()
        self.wake_awaiter(number)

    def discard(self):
        """The drop of a Runnable."""
        self.closed = self.closed or not self.completed
        self.drop_future()
        due, self.scheduled = self.awaiter, False
        if due:
            self.wake_awaiter(self.take())
        self.release()

    def cancel(self):
        if self.completed or self.closed:
            return
        is_idle, due = not (self.scheduled or self.running), self.awaiter
        self.closed = True
        if is_idle:
            self.scheduled = True
            self.references += 1
            self.schedule_beside()
        if due:
            self.wake_awaiter(self.take())

    def detach(self):
        is_unclaimed = self.completed and not self.closed
        if is_unclaimed:
            self.closed = True
        if self.references == 0 and not self.closed:
            self.orphan()
        else:
            self.task = False
            if self.references == 0:
                self.empty()
        if is_unclaimed:
            self.drop_output()

    def poll(self, number):
        """What a poll of the Task answers."""
        if not (self.completed or self.closed) or self.closed and (self.scheduled or self.running):
            self.register(number)
        if self.completed and not self.closed:
            self.closed = True
            if self.awaiter:
                self.take_for(number)
            return "output"
        if self.closed and not (self.scheduled or self.running):
            self.take_for(number)
            return "closed"
        return "pending"

    def wake_by_ref(self):
        if self.completed or self.closed or self.scheduled:
            return
        self.scheduled = True
        if not self.running:
            self.references += 1
            self.schedule_value(False)


class Played(Cell):
    """The calls of a script, each of which is passed over where it has no handle."""

    def play(self):
        for call in self.script:
            self.call(call)
        self.words.append("end(")
        while self.drop_waker() or self.drop_task() or self.drop_runnable():
            pass
        self.words.append(")")
        return " ".join(self.words)

    def call(self, word):
        if hasattr(self, f"call_{word}"):
            getattr(self, f"call_{word}")()

    def call_in_poll(self, word):
        if word == "keep":
            self.words.append("keep")
            self.references += 1
            self.kept_wakers += 1
        elif word == "wake_lent":
            self.noted("wake_lent", self.wake_by_ref)
        elif word not in ("run", "schedule", "drop_runnable", "waker"):
            self.call(word)

    def noted(self, word, act):
        self.words.append(f"{word}(")
        act()
        self.words.append(")")
        return True

    def call_run(self):
        if self.kept_runnable:
            self.kept_runnable = False
            self.words.append("run(")
            self.words.append(f"){str(self.run()).lower()}")

    def call_schedule(self):
        if self.kept_runnable:
            self.kept_runnable = False
            self.noted("schedule", lambda: self.schedule(False))

    def drop_runnable(self):
        if not self.kept_runnable:
            return False
        self.kept_runnable = False
        return self.noted("drop_runnable", self.discard)

    call_drop_runnable = drop_runnable

    def call_waker(self):
        if self.kept_runnable:
            self.words.append("waker")
            self.references += 1
            self.kept_wakers += 1

    def call_wake(self):
        if self.kept_wakers:
            self.kept_wakers -= 1
            self.noted("wake", lambda: (self.wake_by_ref(), self.release_waker()))

    def call_wake_by_ref(self):
        if self.kept_wakers:
            self.kept_wakers -= 1
            self.noted("wake_by_ref", self.wake_by_ref)
            self.kept_wakers += 1

    def call_clone(self):
        if self.kept_wakers:
            self.words.append("clone")
            self.references += 1
            self.kept_wakers += 1

    def drop_waker(self):
        if not self.kept_wakers:
            return False
        self.kept_wakers -= 1
        return self.noted("drop_waker", self.release_waker)

    call_drop_waker = drop_waker

    def call_poll0(self):
        self.poll_kept(0)

    def call_poll1(self):
        self.poll_kept(1)

    def poll_kept(self, number):
        """Polls what is left of the Task. A Cancel that is ready is dropped."""
        kept, self.kept_task = self.kept_task, None
        if kept is None:
            return
        self.words.append(f"poll{number}(")
        if kept == "Cancel" and not self.cancelled:
            self.cancelled = True
            self.cancel()
        answer = self.poll(number)
        if kept == "Cancel" and answer != "pending":
            self.end_task()
        else:
            self.kept_task = kept
        is_panic = PANIC in self.there and kept == "Task" and answer == "closed"
        self.words.append(")panicked" if is_panic else f"){answer}")
        if answer == "output":
            self.drop_output()

    def call_fallible(self):
        if self.kept_task == "Task":
            self.kept_task = "FallibleTask"

    def call_cancel(self):
        if self.kept_task:
            self.kept_task = "Cancel"

    def call_detach(self):
        if self.kept_task in ("Task", "FallibleTask"):
            self.kept_task = None
            self.noted("detach", self.detach)

    def end_task(self):
        self.cancel()
        self.detach()

    def drop_task(self):
        if self.kept_task is None:
            return False
        self.kept_task = None
        return self.noted("drop_task", self.end_task)

    call_drop_task = drop_task

    def call_is_finished(self):
        if self.kept_task in ("Task", "FallibleTask"):
            self.words += ["is_finished(", f"){str(self.completed or self.closed).lower()}"]

    def call_show(self):
        if self.kept_task in ("Task", "FallibleTask"):
            self.show(self.kept_task)


def played(text, there=frozenset()):
    """What is printed of a script."""
    return Played(text, frozenset(there)).play()
