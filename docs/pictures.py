#!/usr/bin/env python3
"""Draws the pictures for users: holders.svg, phases.svg, crates.svg and wait.svg. With --check it only compares them with what it would draw.

phases.svg has the arrows of word.svg, with the flags read as phases by crates/task_atomic/specs/Small.antt, and crates.svg the crates of crates.txt. The
script refuses to draw an arrow or a crate that is not there, to leave one out, to name a function that no crate has, and to draw one thing over another.
"""

import re
import sys

# no folder of compiled scripts is left among the documents
sys.dont_write_bytecode = True

from charts import (
    CRATES, DOCUMENTS, INK, LINE, OPEN, OVER,
    Definitions, around, arrow, between, block, main, opened, outside, overlap, source, written,
)

# the width of every picture, of a letter in a box or a label, and of one in a line of text, as an upper bound
WIDTH, LETTER, WIDE = 940, 8.2, 9.2
DASHES = ' stroke-dasharray="6 4"'


class Picture:
    """Boxes, arrows with labels, and lines of text. Each takes an area that nothing else may cover."""

    def __init__(self, title, height):
        """An empty picture of this height."""
        self.title, self.size, self.areas, self.curves, self.told = title, (WIDTH, height), [], [], []
        self.below, self.above, self.calls = [], [], []

    def frame(self, area, title, base):
        """A box around others, with a title on this base line."""
        left, top, right, bottom = area
        self.below.append(
            f'<rect x="{left}" y="{top}" width="{right - left}" height="{bottom - top}" rx="10" fill="none" stroke="{INK}" stroke-width="1.4"/>')
        self.line((left + 16, base), title, "bold")

    def box(self, area, lines, fill=OPEN):
        """A box with lines of text."""
        self.areas.append((f"the box {' '.join(lines)}", area))
        self.above += block(area, [(line, INK) for line in lines], fill)

    def line(self, place, text, weight="normal"):
        """A line of text."""
        left, base = place
        self.areas.append((f"the line '{text}'", (left, base - 13, left + (WIDE if weight == "bold" else LETTER) * len(text), base + 4)))
        self.above.append(written(place, text, weight=weight))

    def arrow(self, curve, label, dashes="", at=0.5, above=False):
        """An arrow along a curve, with a label at this share of it, or above it."""
        size = max(map(len, label)) * LETTER + 8, len(label) * LINE + 4
        x, y = between(curve, at, at)
        middle = min(max(x, size[0] / 2 + 6), WIDTH - size[0] / 2 - 6), y - above * (size[1] / 2 + 5)
        area = around(middle, *size)
        self.areas.append((f"the label {' '.join(label)}", area))
        self.curves.append((area, curve))
        self.below += arrow(*curve, dashes=dashes)
        self.above += block(area, [(line, INK) for line in label], "white")

    def faults(self):
        """What is drawn over something else, or beside the picture."""
        for place, (name, area) in enumerate(self.areas):
            yield from (f"{name} covers {other}" for other, covered in self.areas[:place] if overlap(area, covered))
            if area[0] < 0 or area[1] < 0 or area[2] > self.size[0] or area[3] > self.size[1]:
                yield f"{name} is not in the picture"
            for label, curve in self.curves:
                points = [between(curve, step / 200, step / 200) for step in range(1, 200)]
                if label != area and any(overlap(2 * point, area) for point in points):
                    yield f"an arrow crosses {name}"

    def text(self):
        """The picture, with what it shows in words."""
        return "\n".join([*opened(self.size, self.title, " ".join(self.told)), *self.below, *self.above, "</svg>", ""])


def straight(start, end):
    """A straight curve."""
    return start, ((start[0] + end[0]) / 2, (start[1] + end[1]) / 2), end


# WHO HOLDS WHAT: the boxes; and of each arrow its ends, what it says, where its label stands, and the same in words
HELD = (
    ((70, 68, 270, 132), ("queue of Runnables", "that are due")),
    ((345, 68, 545, 132), ("store of the wakers", "that futures keep")),
    ((650, 40, 920, 132), ("who waits for the output:", "a thread, a group,", "or another task")),
    ((160, 262, 310, 332), ("Runnable", "at most one")),
    ((385, 262, 535, 332), ("waker", "any number")),
    ((620, 262, 770, 332), ("Task", "at most one")),
    ((40, 462, 190, 516), ("schedule value",)),
    ((275, 462, 730, 516), ("place of the future,", "and then of its output")),
    ((770, 462, 900, 516), ("place of", "the awaiter")),
    ((40, 528, 385, 560), ("word: flags, and how many shares are out",)),
    ((402, 528, 578, 560), ("holds: schedule calls",)),
    ((595, 528, 900, 560), ("metadata, limit, runtime, allocator",)),
)
EXECUTOR, CELL = (20, 16, 600, 150), (20, 440, 920, 600)
OWNS = (
    ((200, 132), (200, 262), ("owns",), 0.5, "The queue owns a Runnable."),
    ((420, 132), (420, 262), ("owns",), 0.5, "The store owns wakers."),
    ((720, 132), (720, 262), ("owns",), 0.5, "Who waits owns the Task."),
    ((195, 332), (195, 440), ("owns", "a share"), 0.45, "A Runnable, a waker and the Task each own a share of the cell."),
    ((515, 332), (515, 440), ("owns", "a share"), 0.45, ""),
    ((735, 332), (735, 440), ("owns", "a share"), 0.45, ""),
)
REACHES = (
    ((280, 262), (280, 150), ("carries",), 0.5, "Each carries a reference to the executor, or another value that can be copied."),
    ((500, 262), (500, 150), ("carries",), 0.5, ""),
    ((650, 262), (570, 150), ("carries",), 0.5, ""),
    ((290, 332), (325, 462), ("its run", "polls"), 0.37, "The run of a Runnable polls the future in its place."),
    ((375, 462), (410, 332), ("borrows one", "for a poll"), 0.63, "The future borrows a waker during a poll."),
    ((660, 332), (660, 462), ("its poll", "takes"), 0.37, "A poll of the Task takes the output."),
    ((850, 462), (850, 132), ("wakes",), 0.5, "The awaiter wakes who waits."),
    ((100, 462), (100, 132), ("hands over", "each Runnable", "that is due"), 0.53, "The schedule value hands each Runnable that is due over to the queue."),
)


def holders():
    """Who holds what."""
    picture = Picture("Who holds what", 680)
    picture.told.append("The executor has the queue and the store. The cell has all that stands below the handles.")
    picture.frame(EXECUTOR, "the executor: yours, or the pool", 42)
    picture.frame(CELL, "the cell: one block of memory, which goes with the last share and the last hold", 586)
    for area, lines in HELD:
        picture.box(area, lines)
    for arrows, dashes in ((OWNS, ""), (REACHES, DASHES)):
        for start, end, label, at, words in arrows:
            picture.arrow(straight(start, end), label, dashes, at)
            picture.told += [words] if words else []
    picture.line((20, 628), "Solid arrow: owns. Dashed arrow: borrows, or reaches by a reference.")
    picture.line((20, 648), "What a handle carries is mostly a reference to the executor, and () while the executor keeps the handle.")
    picture.line((20, 668), "The waker that a future borrows has no share. A future cannot keep it: the store keeps a clone.")
    return picture


# A TASK AS ITS USER SEES IT: a box by phase and whether it is closed, with its middle, and what it says
PHASES = {
    ("Queued", False): ((90, 130), ("queued", "as a Runnable")),
    ("Polled", False): ((430, 180), ("polled", "by a run")),
    ("PolledAndWoken", False): ((850, 180), ("polled,", "and woken")),
    ("Idle", False): ((240, 320), ("idle", "until a wake")),
    ("Done", False): ((640, 320), ("done", "with an output")),
    ("Queued", True): ((90, 560), ("queued,", "closed")),
    ("Polled", True): ((430, 560), ("polled,", "closed")),
    ("PolledAndWoken", True): ((850, 560), ("polled, woken,", "closed")),
    ("Done", True): ((640, 660), ("done,", "closed")),
}
PHASE = (140, 54)
# from where to where, by what in the words of API.md, by which rows, and where it bends and its label stands. Which acts a call makes stands in
# API.md, under "When a call acts", at which rows in specs/Atomic.antt of task_atomic, and what the call does in RULES.md: of runs 3.2 to 3.5, of the Task 4.1, 4.6 and 4.7, of wakers 5.2 and 5.3
MOVES = (
    ("Queued", "Polled", ("run",), "StartRun", None, 0.5),
    ("Polled", "Idle", ("Pending",), "EndIdle", None, 0.5),
    ("Idle", "Queued", ("wake",), "WakeIdle", None, 0.5),
    ("Polled", "PolledAndWoken", ("wake",), "WakeRunning", None, 0.5),
    ("PolledAndWoken", "Queued", ("Pending: scheduled again",), "Reschedule", (470, 0), 0.5),
    ("Polled", "Done", ("Ready",), "Complete", None, 0.5),
    ("PolledAndWoken", "Done", ("Ready",), "Complete", None, 0.5),
    ("Queued", "Queued closed", ("cancel,", "drop of the", "Runnable"), "CancelBusy DiscardOpen", None, 0.5),
    ("Idle", "Queued closed", ("cancel,", "last handle", "gone"), "CancelIdle CloseOrphan DetachOrphan", None, 0.38),
    ("Polled", "Queued closed", ("Pending,", "no other handle"), "EndOrphaned", (330, 500), 0.52),
    ("Polled", "Polled closed", ("cancel",), "CancelBusy", None, 0.5),
    ("PolledAndWoken", "PolledAndWoken closed", ("cancel",), "CancelBusy", None, 0.5),
    ("Polled", "Done closed", ("Ready, after", "a detach"), "CompleteDetached", None, 0.62),
    ("PolledAndWoken", "Done closed", ("Ready, after", "a detach"), "CompleteDetached", None, 0.62),
    ("Done", "Done closed", ("poll takes it,", "the Task's end", "drops it"), "ClaimOutput GiveUpOutput", None, 0.22),
    ("Queued closed", "Done closed", ("run or drop of the Runnable",), "Unschedule", (330, 690), 0.5),
    ("Polled closed", "Done closed", ("poll ends",), "Complete CompleteDetached EndClosed", None, 0.5),
    ("PolledAndWoken closed", "Done closed", ("poll ends",), "Complete CompleteDetached EndClosed", None, 0.5),
)


def phase_of(name):
    """A phase, and whether it is closed."""
    return name.split()[0], name.endswith(" closed")


def moves_of_word():
    """The rows from phase to phase: the arrows of word.svg, with each set of flags read as a phase."""
    definitions, moves = Definitions([source("task_atomic/specs/Small.antt")]), {}

    def read(flags):
        names = ("scheduled", "running", "completed", "closed", "task")
        word = tuple((name, name.upper() in flags.split()) for name in names) + (("references", 1),)
        task = dict(definitions("small_task", word))
        return task["phase"][0], task["closed"]

    described = (DOCUMENTS / "word.svg").read_text(encoding="utf-8").split("<desc>")[1].split("</desc>")[0].split(". ", 1)[1].rstrip(".")
    for before, after, rows in re.findall(r"([A-Za-z ]+?) to ([A-Za-z ]+?) by ([\w, ]+)", described):
        moves.setdefault((read(before.strip()), read(after.strip())), set()).update(rows.split(", "))
    return moves


def phases():
    """A task as its user sees it. Ends the program where the arrows are not those of word.svg."""
    drawn = {(phase_of(before), phase_of(after)): set(rows.split()) for before, after, _, rows, _, _ in MOVES}
    found = moves_of_word()
    wrong = [pair for pair in {*drawn, *found} if drawn.get(pair) != found.get(pair)]
    if wrong:
        sys.exit(f"phases.svg: other rows lead from phase to phase: {sorted(wrong)}")
    picture = Picture("A task as its user sees it", 780)
    boxes = {state: around(middle, *PHASE) for state, (middle, _) in PHASES.items()}
    for state, (_, lines) in PHASES.items():
        picture.box(boxes[state], lines, OVER if state[1] or state[0] == "Done" else OPEN)
    picture.told.append("A spawned task is queued.")
    picture.above.append(f'<circle cx="90" cy="30" r="6" fill="{INK}"/>')
    picture.arrow(straight((90, 30), (90, 103)), ("spawn",))
    for before, after, label, _, bend, at in MOVES:
        states = phase_of(before), phase_of(after)
        start, end = (PHASES[state][0] for state in states)
        curve = (start, bend, end) if bend else straight(start, end)
        picture.arrow(outside(curve, [boxes[state] for state in states]), label, at=at)
        names = [" ".join(PHASES[state][1]) for state in states]
        picture.told.append(f"From {names[0]} to {names[1]}: {' '.join(label)}.")
    picture.line((20, 728), "Blue: the task is open. Grey, with the word done or closed: it is over. A wake without an arrow changes nothing.")
    picture.line((20, 748), "cancel: the drop of the Task, or a Cancel's first poll or drop. Ready, Pending: what the future answers.")
    picture.line((20, 768), "A closed task is done once its future is gone. One that is closed while it is queued is polled no more.")
    return picture


# WHAT TO TAKE: each crate of crates.txt that a user names, with what it is for; those of the library that are not here come with async_task
TAKEN = {
    "task_core": "the traits that you write: Future, Wake, Schedule",
    "async_task": "a task for executors: spawn, run, wake, cancel, poll",
    "local_task": "a task of one thread, as one value",
    "executor_parts": "block_on, groups and awaiters, for executors of your own",
    "work_queues": "queues and sleeping workers, of any items",
    "executor": "a pool of threads; wakers to keep",
    "future_parts": "futures for every executor: join, race, channel, mutex",
    "future_time": "timers: sleep, interval, timeout",
}
INDENT, ROW = 34, 42


def below_of():
    """For each crate of the library, which comes before the examples in crates.txt, those of them that it stands on, directly or not."""
    library, below = (CRATES.parent / "crates.txt").read_text(encoding="utf-8").split("# Examples")[0], {}
    for name, direct in re.findall(r"^(\w+):(.*)$", library, re.MULTILINE):
        ours = [crate for crate in direct.split() if crate in below]
        below[name] = set(ours).union(*(below[crate] for crate in ours))
    return below


def parents_of(below):
    """For each crate of the picture those that it stands on by no other of them, the one with the longest chain first."""
    parents = {}
    for name in TAKEN:
        shown = [crate for crate in TAKEN if crate in below[name]]
        near = [crate for crate in shown if not any(crate in below[other] for other in shown)]
        parents[name] = sorted(near, key=lambda crate: -len(below[crate]))
    return parents


def tree_of(parents, names, depth=0):
    """These crates with their depth in the tree, each before those that hang on it."""
    for name in names:
        yield name, depth
        yield from tree_of(parents, [child for child in parents if parents[child][:1] == [name]], depth + 1)


def take():
    """What to take. Ends the program where crates.txt has other crates."""
    below = below_of()
    other = {*TAKEN} ^ {*below} - (below["async_task"] - {*TAKEN})
    if other:
        sys.exit(f"crates.svg: not as in crates.txt: {' '.join(other)}")
    picture, parents, places = Picture("What to take", 120 + ROW * len(TAKEN)), parents_of(below), {}
    for place, text in ((20, "crate"), (350, "what it is for"), (830, "copies")):
        picture.line((place, 30), text, "bold")
    for name, depth in tree_of(parents, [name for name in TAKEN if not parents[name]]):
        left, middle = 20 + INDENT * depth, 62 + ROW * len(places)
        places[name] = left + 16, middle
        if depth:
            x, y = places[parents[name][0]]
            picture.below.append(f'<path d="M {x} {y} V {middle} H {left}" fill="none" stroke="{INK}" stroke-width="1.4"/>')
            # the line to the next crate begins here
            places[parents[name][0]] = x, middle
        picture.box((left, middle - 15, left + 126, middle + 15), (name,))
        copies = f"{len(below[name]) + 1} crate{'s' * bool(below[name])}"
        picture.line((350, middle + 5), TAKEN[name] + "".join(f"; also over {crate}" for crate in parents[name][1:]))
        picture.line((830, middle + 5), copies)
        over = f", over {' and '.join(parents[name])}" if parents[name] else ""
        picture.told.append(f"{name}{over}: {TAKEN[name]}; it copies {copies}.")
    hidden = [name for name in below if name not in TAKEN]
    picture.line((20, picture.size[1] - 34), f"Not drawn: {', '.join(hidden)}, on which async_task stands.")
    picture.line((20, picture.size[1] - 14), "A line leads to the crates that stand on one. tools/take FOLDER CRATE copies a crate with what it stands on.")
    return picture


# A WAIT IN THE POOL: the columns, and by sections each message from one to another. The order is that of `await_kept` and `wake_posted` in kept.rt, of
# `wake_by_ref` in bell_awaiter.rt, of `await_within` and `turn` in turns.rt, of `schedule` in pool.rt, and in crew of work_queues
# of `rest` in resting.rt and `lie_down` in worker.rt
COLUMNS = {
    "task": (72, ("the task", "that waits")),
    "store": (204, ("store", "of wakers")),
    "queue": (336, ("queue", "of the worker")),
    "worker": (468, ("worker", "of the pool")),
    "bells": (600, ("bells", "of the workers")),
    "mail": (732, ("mail", "of numbers")),
    "other": (866, ("awaited task,", "other thread")),
}
WAIT = (
    "The task keeps its waker, and is pending",
    ("worker", "task", "run: polls the future"),
    ("task", "store", "keep_waker: a clone, under the number of its key"),
    ("task", "other", "then polls the Task that it awaits, with an awaiter of this number"),
    ("task", "worker", "Pending: the task is idle"),
    "The worker finds nothing, and sleeps",
    ("worker", "bells", "asks how many interruptions there were"),
    ("worker", "mail", "wake_posted: no number waits"),
    ("worker", "queue", "next: no Runnable, here or in any other queue; searches for a while"),
    ("worker", "bells", "lie_down: counts as asleep, then looks at the flag of each queue"),
    ("worker", "bells", "rest: no flag shows anything, so it sleeps on its word"),
    "Another thread ends what it awaits",
    ("other", "mail", "post: the awaiter's wake adds its number"),
    ("other", "bells", "interrupt: is due, and wakes one that sleeps"),
    ("bells", "worker", "wakes up"),
    "The worker polls the task again",
    ("worker", "mail", "wake_posted: takes the number"),
    ("worker", "store", "takes the waker of this number"),
    ("worker", "task", "wake: the idle task is queued"),
    ("task", "queue", "schedule: pushes its Runnable"),
    ("queue", "worker", "next: takes the Runnable"),
    ("worker", "task", "run: polls the future"),
)
FIRST, STEP, HEADS = 106, 36, (118, 44)


def show_title(picture, height, title):
    """The title of what follows, below a line."""
    picture.told.append(f"{title}:")
    picture.below.append(f'<path d="M 12 {height - 20} H {WIDTH - 12}" stroke="{OVER}"/>')
    picture.above += block((12, height - 16, 20 + WIDE * len(title), height + 6), [], "white")
    picture.line((16, height), title, "bold")


def show_message(picture, height, start, end, label):
    """The arrow of a message, and the call that its label begins with."""
    picture.arrow(straight((COLUMNS[start][0], height), (COLUMNS[end][0], height)), (label,), above=True)
    picture.told.append(f"From {' '.join(COLUMNS[start][1])} to {' '.join(COLUMNS[end][1])}: {label}.")
    picture.calls += re.findall(r"^([a-z_]+):", label)


def wait():
    """A wait in the pool, message by message."""
    picture, last, heights = Picture("A wait in the pool", FIRST + 42 + STEP * len(WAIT)), FIRST + STEP * len(WAIT) - 20, {}
    for place, lines in COLUMNS.values():
        picture.below.append(f'<path d="M {place} {34 + HEADS[1] / 2} V {last}" stroke="{INK}"/>')
        picture.box(around((place, 34), *HEADS), lines)
    for place, row in enumerate(WAIT):
        height = FIRST + STEP * place
        if isinstance(row, str):
            show_title(picture, height, row)
        else:
            show_message(picture, height, *row)
            heights[row[2].split(":")[0]] = height
    left, top, bottom = COLUMNS["worker"][0] - 8, heights["rest"], heights["wakes up"]
    picture.areas.append(("the bar", (left, top + 6, left + 16, bottom - 6)))
    picture.below.append(f'<rect x="{left}" y="{top}" width="16" height="{bottom - top}" rx="6" fill="{OVER}" stroke="{INK}"/>')
    picture.line((12, last + 26), "Grey bar: asleep. One worker is drawn: it may be another one that wakes up and goes on.")
    picture.line((12, last + 46), "The order counts: the waker is kept before the task looks, and the number is there before a bell rings.")
    return picture


def pictures():
    """The text of each picture. Ends the program where one has a fault."""
    known = {*below_of()}
    known.update(name for path in CRATES.glob("*/src/**/*.rt") for name in re.findall(r"\bfn (\w+)", path.read_text(encoding="utf-8")))
    for name, draw in (("holders.svg", holders), ("phases.svg", phases), ("crates.svg", take), ("wait.svg", wait)):
        picture = draw()
        faults = [*picture.faults()]
        names = picture.calls + re.findall(r"\b[a-z]+_\w+", " ".join(picture.told))
        faults += [f"nothing has the name {word}" for word in names if word not in known]
        if faults:
            sys.exit("\n".join(f"{name}: {fault}" for fault in faults))
        yield DOCUMENTS / name, picture.text()


if __name__ == "__main__":
    main(pictures(), "Draws the pictures for users.")
