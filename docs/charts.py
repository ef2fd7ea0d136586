#!/usr/bin/env python3
"""Draws word.svg, handshake.svg and life.svg from the table of moves. With --check it only compares them with the table.

The definitions are read from the specs/ of crates/task_core, crates/task_laws and crates/task_progress and evaluated as they stand there, over the
constants ROWS and NAMES of crates/task_core. All that is stated here is where each state of the word stands in a picture, who steps in a life of a task,
and how.
"""

import argparse
import functools
import math
import operator
import pathlib
import re
import sys

DOCUMENTS = pathlib.Path(__file__).resolve().parent
CRATES = DOCUMENTS.parent / "crates"
FILES = (
    "task_core/specs/Word", "task_core/specs/Rows", "task_laws/specs/Position", "task_laws/specs/Scene", "task_laws/specs/Onward",
    "task_laws/specs/Asks", "task_laws/specs/Line", "task_laws/specs/Lines", "task_laws/specs/Table", "task_laws/specs/Machine",
    "task_laws/specs/Holders",
    "task_progress/specs/Waiting",
)
TOKEN = re.compile(r"0x[0-9a-fA-F_]+|\d+|\w+|\[\]|&&|\|\||\+\+|\S")
PRECEDENCE = {"||": 1, "&&": 2, "∷": 3, "++": 3, "+": 4, "-": 4, "*": 5, "/": 5, "%": 5, "^": 6}

# the life that is drawn: what happens, and which party makes which acts
LIFE = (
    ("A spawn makes a Runnable and a Task. Party 2 stands for the wakers that calls have by a reference.", ()),
    ("A run polls the future, which clones the waker that it is lent, and answers Pending.", (
        (0, "StartRun StartPoll"), (2, "GainReference EndCall"), (0, "AnswerPending EndIdle EndCall"),
    )),
    ("A poll of the Task stores an awaiter, and answers Pending.", (
        (1, "Look CloneAwaiter BeginRegister StoreAwaiter EndRegister Look EndCall"),
    )),
    ("The waker wakes the task: a Runnable is made, and handed to the schedule value.", ((3, "WakeIdle EndCall"), (4, "HandOver EndCall"))),
    ("The run of this Runnable polls the future, which answers Ready. At its end it wakes the awaiter.", (
        (5, "StartRun StartPoll AnswerReady DropFuture StoreOutput Complete BeginNotify TakeAwaiter EndNotify GiveUpReference WakeAwaiter EndCall"),
    )),
    ("A second poll of the Task claims the output.", ((1, "ClaimOutput HandOutOutput EndCall"),)),
)
# of this picture the width, the column of each party, the height of a row, and half the size of the box with a party's name
WIDTH, COLUMNS, ROW, HEAD = 1450, {0: 340, 2: 525, 3: 710, 4: 895, 5: 1080, 1: 1275}, 24, (56, 17)


def chain_of(items, end=("[]",)):
    """The list of these elements, which goes on with the end."""
    return ("∷", items[0], chain_of(items[1:], end)) if items else end


def items_of(chain):
    """The elements of a list."""
    return [chain[1]] + items_of(chain[2]) if chain[0] == "∷" else []


def element(chain, place):
    """The element at this place, if there is one."""
    items = items_of(chain)
    return ("Some", items[place]) if place < len(items) else ("None",)


def replaced(chain, place, item):
    """The list with another element at this place."""
    items = items_of(chain)
    return chain_of(items[:place] + [item] + items[place + 1:])


def source(name):
    """The text of a file of the crates."""
    return (CRATES / name).read_text(encoding="utf-8")


def terms(text):
    """Constructors of at most one argument, parted by commas."""
    return [(name, (argument,)) if argument else (name,) for name, argument in re.findall(r"(\w+)(?:\((\w+)\))?", text)]


def fields_of(values):
    """A tuple as a record: its fields go by their places."""
    return tuple((str(place), value) for place, value in enumerate(values))


# the acts, and of each that is a row what it finds, how it edits the flags, and what it does to the count
ACTS = re.findall(r"\(Act::(\w+), ", source("task_core/src/acts.rt"))
ROWS = {
    act: (terms(tests), terms(edits), (count,))
    for act, tests, edits, count in re.findall(r"Row\((\w+), +\((.*)\), +\((.*)\), +(\w+)\),", source("task_core/src/table.rt"))
}


def row_of(act):
    """The row of an act, if it has one."""
    if act[0] not in ROWS:
        return ("None",)
    tests, edits, count = ROWS[act[0]]
    return ("Some", fields_of([act, fields_of(tests), fields_of(edits), count]))


PRIMITIVES = {
    "row_of": row_of,
    "||": operator.or_,
    "&&": operator.and_,
    "not": operator.not_,
    "cond": lambda condition, positive, negative: positive if condition else negative,
    "suc": lambda number: number + 1,
    "+": operator.add,
    "-": lambda left, right: max(0, left - right),
    "*": operator.mul,
    "/": operator.floordiv,
    "%": operator.mod,
    "^": operator.pow,
    "nat_lt": operator.lt,
    "nat_le": operator.le,
    "nat_eq": operator.eq,
    "++": lambda left, right: chain_of(items_of(left), right),
    "slice_get": element,
    "slice_set": replaced,
}
# the limit for references, and how many polls the Task begins; limit 3 and 3 polls give the same arrows
LIMIT, POLLS = 2, 2
# sizes: a box, a letter and a line of text, how far opposite arrows bend, and the arrow to the start
BOX, LETTER, LINE, BEND, MARK = (136, 96), 8.4, 17, 24, 36
INK, OPEN, OVER = "#333333", "#dcebfa", "#e6e6e6"
# who makes a step, with the colour of its name
RUNNER, TASK, WAKER = "a Runnable or its run", "the Task", "a waker"
COLORS = {RUNNER: "#a63a00", TASK: "#1d4fc4", WAKER: "#117a3a"}
# for each picture the flags, the name of the state without any, the size, and the middle of each state's box
PICTURES = {
    "word.svg": (("scheduled", "running", "completed", "closed"), "idle", (1400, 920), {
        "SCHEDULED": (130, 100),
        "RUNNING": (560, 260),
        "SCHEDULED RUNNING": (1300, 260),
        "": (280, 350),
        "COMPLETED": (930, 380),
        "SCHEDULED CLOSED": (130, 640),
        "RUNNING CLOSED": (560, 640),
        "SCHEDULED RUNNING CLOSED": (1300, 640),
        "CLOSED": (560, 810),
        "COMPLETED CLOSED": (930, 640),
    }),
    "handshake.svg": (("awaiter", "registering", "notifying"), "none", (1220, 640), {
        "": (420, 340),
        "NOTIFYING": (90, 340),
        "REGISTERING": (250, 80),
        "AWAITER": (740, 80),
        "AWAITER REGISTERING": (1130, 80),
        "AWAITER NOTIFYING": (740, 340),
        "AWAITER REGISTERING NOTIFYING": (1130, 500),
    }),
}


class Parser:
    """Reads an equation. An expression is its kind and its parts, and so is a pattern."""

    def __init__(self, text):
        """Takes the text apart into tokens."""
        self.tokens = TOKEN.findall(text) + [""]
        self.place = 0

    def at(self, *tokens):
        """Whether one of these tokens comes next."""
        return self.tokens[self.place] in tokens

    def take(self, *expected):
        """The next token, which is one of the expected ones."""
        if expected and not self.at(*expected):
            raise SyntaxError(f"{expected} expected before {' '.join(self.tokens[self.place:self.place + 8])}")
        self.place += 1
        return self.tokens[self.place - 1]

    def after(self, token):
        """The expression after this token."""
        self.take(token)
        return self.expression()

    def equation(self):
        """The name that is defined, the patterns of its arguments, and what it is equal to."""
        name, patterns = self.take(), []
        while not self.at("="):
            patterns.append(self.atom())
        body = self.after("=")
        self.take("")
        return name, patterns, body

    def expression(self, weakest=1):
        """An expression whose infix operators bind at least as strongly as the weakest one."""
        if self.at("if"):
            return "if", self.after("if"), self.after("then"), self.after("else")
        if self.at("let"):
            self.take("let")
            return "let", self.take(), self.after("="), self.after("in")
        left = self.application()
        while PRECEDENCE.get(self.tokens[self.place], 0) >= weakest:
            symbol = self.take()
            # the operators on lists group to the right, the others to the left
            right = self.expression(PRECEDENCE[symbol] + (symbol not in ("∷", "++")))
            left = self.applied(("constructor", symbol, []) if symbol == "∷" else ("name", symbol), [left, right])
        return left

    def application(self):
        """A function or a constructor, and its arguments."""
        head, arguments = self.atom(), []
        while re.match(r"\w|\(|\[\]", self.tokens[self.place]) and not self.at("then", "else", "in"):
            arguments.append(self.atom())
        return self.applied(head, arguments) if arguments else head

    @staticmethod
    def applied(head, arguments):
        """A head with its arguments. A constructor keeps them, a function is to be evaluated."""
        return ("constructor", head[1], arguments) if head[0] == "constructor" else ("apply", head, arguments)

    def atom(self):
        """A name, a number, a record or an expression in parentheses, and the fields that are taken of it."""
        token = self.take()
        if token == "(":
            result = self.expression()
            self.take(")")
        elif token == "record":
            result = ("record", None if self.at("{") else self.atom(), self.fields())
        elif token[0].isdigit() or token == "zero":
            result = ("constant", 0 if token == "zero" else int(token, 0))
        elif token in ("true", "false"):
            result = ("constant", token == "true")
        else:
            if self.at(".") and self.tokens[self.place + 1][0].isupper():
                # a constructor that is named by its module
                self.take(".")
                token = self.take()
            result = ("constructor", token, []) if token == "[]" or token[0].isupper() else ("name", token)
        while self.at("."):
            self.take(".")
            result = ("field", result, self.take())
        return result

    def fields(self):
        """The fields of a record, each with an expression."""
        result = []
        while self.take("{", ";", "}") != "}":
            if not self.at("}"):
                result.append((self.take(), self.after("=")))
        return result


class Definitions:
    """Evaluates definitions. A value is a number, a truth value, a constructor with arguments, or a record's fields."""

    def __init__(self, texts):
        """Keeps the equations of each name, in their order."""
        self.equations = {}
        for text in texts:
            # what stands below a `where` are items of their own
            text = re.sub(r"\n  where((?:\n    .*)*)", lambda local: local[1].replace("\n    ", "\n"), re.sub(r"--.*", "", text))
            # an item goes on until a line begins with a letter; types, imports and claims are no equations
            for item in re.findall(r"^\w.*(?:\n(?!\w).*)*", text, re.MULTILINE):
                # nor are statements, which nothing here asks for, and the search of a constant is a primitive
                if not re.match(r"(use|pub|abbrev) |\w+ : ", item) and not re.search("[→≡λ<≤]", item):
                    name, patterns, body = Parser(item).equation()
                    self.equations.setdefault(name, []).append((patterns, body))

    @functools.lru_cache(maxsize=None)
    def __call__(self, name, *arguments):
        """What the first equation that fits the arguments comes to. Most calls are made again, so what they come to is kept."""
        heads = tuple(value[0] if isinstance(value, tuple) else None for value in arguments)
        for patterns, body in self.candidates(name, heads):
            scope = {}
            if all(self.fits(pattern, value, scope) for pattern, value in zip(patterns, arguments)):
                return self.evaluate(body, scope)
        raise ValueError(f"no equation of {name} fits {arguments}")

    @functools.lru_cache(maxsize=None)
    def candidates(self, name, heads):
        """The equations that the constructors of the arguments do not rule out: most calls have one."""
        return [
            (patterns, body)
            for patterns, body in self.equations[name]
            if all(pattern[0] != "constructor" or pattern[1] == head for pattern, head in zip(patterns, heads))
        ]

    def fits(self, pattern, value, scope):
        """Whether the value fits the pattern; the scope gets the values of the pattern's variables."""
        if pattern[0] == "constant":
            return pattern[1] == value
        if pattern[0] == "apply":
            # of functions only the successor stands in a pattern
            return value > 0 and self.fits(pattern[2][0], value - 1, scope)
        if pattern[0] == "constructor":
            inner = zip(pattern[2], value[1:])
            return pattern[1] == value[0] and all(self.fits(part, of_value, scope) for part, of_value in inner)
        scope[pattern[1]] = value
        return True

    def evaluate(self, node, scope):
        """The value of an expression."""
        kind, first, *rest = node
        if kind == "constant":
            return first
        if kind == "name":
            return scope[first] if first in scope else self.meaning(first)
        if kind == "constructor":
            return (first, *(self.evaluate(part, scope) for part in rest[0]))
        if kind == "apply":
            return self.evaluate(first, scope)(*(self.evaluate(part, scope) for part in rest[0]))
        if kind == "field":
            return dict(self.evaluate(first, scope))[rest[0]]
        if kind == "record":
            fields = dict(self.evaluate(first, scope)) if first else {}
            fields.update((name, self.evaluate(part, scope)) for name, part in rest[0])
            return tuple(fields.items())
        if kind == "if":
            return self.evaluate(rest[0] if self.evaluate(first, scope) else rest[1], scope)
        return self.evaluate(rest[1], {**scope, first: self.evaluate(rest[0], scope)})

    def meaning(self, name):
        """A primitive, a function that is yet to be applied, or a constant."""
        if name in PRIMITIVES:
            return PRIMITIVES[name]
        has_arguments = self.equations[name][0][0]
        return functools.partial(self, name) if has_arguments else self(name)


def role(definitions, position):
    """Who stands at a position."""
    if definitions("is_task", position):
        return TASK
    return WAKER if definitions("is_waker", position) or position[-1] in (("Lent",), "OrphanHolder") else RUNNER


class Exploration:
    """The states that the machine can reach, and for each step of them the act, who makes it, the word before and the word after."""

    def __init__(self, definitions, acts):
        """Explores breadth first from the opening state."""
        self.definitions, self.acts = definitions, acts
        opening = dict(definitions("opening", LIMIT))
        start = self.settled(opening["word"], opening["slots"], items_of(opening["parties"]))
        self.seen, self.steps, front = {start}, set(), [start]
        while front:
            front = [after for before in front for after in self.follow(before)]

    def scene(self, word, slots):
        """What a party finds in this state."""
        return self.definitions("scene", (("limit", LIMIT), ("word", word), ("slots", slots)))

    def settled(self, word, slots, parties):
        """The state without what makes no difference to any other party, so that there are few of them.

        The end of a call neither finds nor leaves anything: it is made at once. So a lent waker is between two calls again
        after each of its steps, and of several one can do what all can. An ended party makes no step. The order of parties
        is of no use.
        """
        scene, ended, lent = self.scene(word, slots), ("At", ("Ended",)), ("At", ("Lent",))
        rested = [dict(self.outcome(scene, "EndCall", party) or {"next": party})["next"] for party in parties]
        others = [party for party in rested if party not in (ended, lent)]
        return word, slots, tuple(sorted(others + [lent] * (lent in rested)))

    @functools.lru_cache(maxsize=None)
    def outcome(self, scene, act, position):
        """What the act leaves, or nothing where the table does not allow it."""
        outcome = self.definitions("rule", scene, (act,), position)
        return dict(outcome[1]) if outcome[0] == "Some" else None

    @functools.lru_cache(maxsize=None)
    def lines(self, position):
        """The acts that have a line of the table at this position, whatever the state is."""
        return [act for act in self.acts if self.definitions("line", (act,), position)[0] == "Some"]

    @functools.lru_cache(maxsize=None)
    def moves(self, scene, position):
        """The acts that the table allows, and what each leaves. The Task begins no more than so many polls."""
        outcomes = ((act, self.outcome(scene, act, position)) for act in self.lines(position))
        return [(act, left) for act, left in outcomes if left and ("TaskPollBegins", POLLS + 1) not in items_of(left["told"])]

    def follow(self, state):
        """The new states after one step of one party."""
        word, slots, parties = state
        scene, new = self.scene(word, slots), []
        for party, act, left in ((party, *move) for party in sorted(set(parties)) for move in self.moves(scene, party)):
            self.steps.add((act, role(self.definitions, party), word, left["word"]))
            others = list(parties)
            others.remove(party)
            after = self.settled(left["word"], left["slots"], others + [left["next"]] + items_of(left["born"]))
            if after not in self.seen:
                self.seen.add(after)
                new.append(after)
        return new


class Chart:
    """The states of the word by some of its flags, and for each pair of states the rows from one to the other, each with who makes it."""

    def __init__(self, definitions, steps, flags):
        """Takes states and arrows from the steps of the machine. A state goes by the names of its flags."""
        self.flags, self.start = flags, self.state(definitions("opening_word"), flags)
        self.numbers, open_states, arrows = {}, set(), {}
        for act, who, *words in sorted(steps):
            before, after = (self.state(word, flags) for word in words)
            for state, word in zip((before, after), words):
                alone = tuple((field, field in flags and value) for field, value in word)
                self.numbers[state] = definitions("number_of", alone)
                open_states.update([state] if definitions("is_open", word) else [])
            if before != after:
                arrows.setdefault((before, after), {}).setdefault(act, set()).add(who)
        self.arrows = {pair: sorted(arrows[pair].items()) for pair in sorted(arrows)}
        self.over = set(self.numbers) - open_states

    def owners(self, definitions, exploration):
        """Who has the awaiter's slot, for each state in which somebody has it always, but for the last party of all, which empties it."""
        found = {}
        for word, _, parties in exploration.seen:
            having = [party for party in parties if definitions("owns_awaiter", party) and party[0] != "Emptier"]
            names = ["a notifier" if party[0] in ("Taker", "Releaser") else role(definitions, party) for party in having]
            found.setdefault(self.state(word, self.flags), set()).add(" ".join(names))
        return {state: f"slot: {owners.pop()}" for state, owners in found.items() if len(owners) == 1 and owners != {""}}

    @staticmethod
    def state(word, flags):
        """The flags that are set, in the order in which they are given."""
        return " ".join(flag.upper() for flag in flags if dict(word)[flag])


def around(middle, width, height):
    """The rectangle of this size around a point: left, top, right, bottom."""
    return middle[0] - width / 2, middle[1] - height / 2, middle[0] + width / 2, middle[1] + height / 2


def overlap(one, other):
    """Whether two rectangles have a point in common."""
    return one[0] <= other[2] and other[0] <= one[2] and one[1] <= other[3] and other[1] <= one[3]


def between(curve, first, last):
    """The point that the part of a curve between two shares bends towards; for equal shares, its point at that share.

    A curve is a start, a point that it bends towards, and an end.
    """
    weights = (1 - first) * (1 - last), first + last - 2 * first * last, first * last
    return tuple(weights[0] * start + weights[1] * bend + weights[2] * end for start, bend, end in zip(*curve))


def outside(curve, boxes):
    """The part of a curve that leads from one of these boxes to the other."""
    shares = [step / 500 for step in range(501)]
    free = [share for share in shares if not any(overlap(2 * between(curve, share, share), box) for box in boxes)]
    # boxes over each other leave no share, which is reported as a fault
    first, last = (free[0], free[-1]) if free else (0.5, 0.5)
    return between(curve, first, first), between(curve, first, last), between(curve, last, last)


def opened(size, title, description):
    """The first lines of a picture."""
    yield f'<svg xmlns="http://www.w3.org/2000/svg" width="{size[0]}" height="{size[1]}" viewBox="0 0 {size[0]} {size[1]}">'
    yield f"<title>{title}</title>"
    yield f"<desc>{description}</desc>"
    yield f'<rect width="{size[0]}" height="{size[1]}" fill="white"/>'


def written(place, text, color=INK, family="sans-serif", anchor="start", weight="normal", size=14):
    """A line of text at a place of its base line."""
    style = f'font-family="{family}" font-size="{size}" font-weight="{weight}" text-anchor="{anchor}" fill="{color}"'
    return f'<text x="{place[0]:.1f}" y="{place[1]:.1f}" {style}>{text}</text>'


def arrow(start, bend, end, color=INK, dashes=""):
    """The curve of an arrow, which may have dashes, and its head."""
    length = math.dist(bend, end)
    along, across = (end[0] - bend[0]) / length, (end[1] - bend[1]) / length
    corners = [(end[0] - 11 * along + side * across, end[1] - 11 * across - side * along) for side in (4.5, -4.5)]
    first, control, last, left, right = (f"{x:.1f} {y:.1f}" for x, y in (start, bend, end, *corners))
    yield f'<path d="M {first} Q {control} {last}" fill="none" stroke="{color}" stroke-width="1.4"{dashes}/>'
    yield f'<path d="M {last} L {left} L {right} Z" fill="{color}"/>'


def block(area, lines, fill, family="sans-serif"):
    """Lines of text, each with its colour, in a rectangle, which has a border where it is a box."""
    left, top, right, bottom = area
    size = f'x="{left:.1f}" y="{top:.1f}" width="{right - left:.1f}" height="{bottom - top:.1f}"'
    border = "" if fill == "white" else f' rx="10" stroke="{INK}"'
    yield f'<rect {size} fill="{fill}"{border}/>'
    for place, (line, color) in enumerate(lines):
        middle = (left + right) / 2, (top + bottom) / 2 + (place - len(lines) / 2 + 0.77) * LINE
        yield written(middle, line, color, family, "middle")


class Drawing:
    """A chart as a picture: a box for each state, an arrow from box to box, and its label in the middle of it."""

    def __init__(self, chart, empty, notes, size, places):
        """Finds the way of each arrow and the rectangle of each label. The state without flags has a name, and a state may have a note."""
        self.chart, self.empty, self.notes, self.size = chart, empty, notes, size
        self.boxes = {state: around(place, *BOX) for state, place in places.items()}
        self.mark = around((places[chart.start][0], places[chart.start][1] - BOX[1] / 2 - MARK / 2 - 1), 12, MARK)
        self.curves, self.labels = {}, {}
        for (source, target), rows in chart.arrows.items():
            curve = self.curve(places[source], places[target], (target, source) in chart.arrows)
            size = max(len(act) for act, _ in rows) * LETTER + 8, len(rows) * LINE + 4
            self.curves[source, target], self.labels[source, target] = curve, around(between(curve, 0.5, 0.5), *size)

    def curve(self, start, end, has_opposite):
        """The curve between the borders of two boxes. It is straight, unless there is an arrow back."""
        aside = 2 * BEND / math.dist(start, end) if has_opposite else 0
        across = aside * (start[1] - end[1]), aside * (end[0] - start[0])
        bend = (start[0] + end[0]) / 2 + across[0], (start[1] + end[1]) / 2 + across[1]
        return outside((start, bend, end), (around(start, *BOX), around(end, *BOX)))

    def faults(self):
        """What is drawn over something else, or beside the picture."""
        named = [(f"the box of {state}", box) for state, box in self.boxes.items()]
        named += [("the start mark", self.mark)]
        named += [(f"the label of {pair}", label) for pair, label in self.labels.items()]
        for place, (name, area) in enumerate(named):
            yield from (f"{name} covers {other}" for other, covered in named[:place] if overlap(area, covered))
            if area[0] < 0 or area[1] < 0 or area[2] > self.size[0] or area[3] > self.size[1] - 3 * LINE:
                yield f"{name} is not in the picture, or covers its legend"
            for pair, curve in self.curves.items():
                points = [between(curve, step / 200, step / 200) for step in range(1, 200)]
                covered = sum(overlap(2 * point, area) for point in points)
                if covered and area != self.labels[pair]:
                    yield f"the arrow of {pair} crosses {name}"
                elif covered > 150:
                    yield f"{name} covers most of its arrow"

    def text(self):
        """The picture."""
        names = ", ".join(flag.upper() for flag in self.chart.flags)
        arrows = "; ".join(f"{self.name(a)} to {self.name(b)} by {', '.join(act for act, _ in rows)}" for (a, b), rows in self.chart.arrows.items())
        lines = list(opened(self.size, f"The states of the word by {names}", f"The task starts in {self.name(self.chart.start)}. {arrows}."))
        start, end = (self.mark[0] + 6, self.mark[1] + 6), (self.mark[0] + 6, self.mark[3])
        lines.append(f'<circle cx="{start[0]:.1f}" cy="{start[1]:.1f}" r="6" fill="{INK}"/>')
        for curve in [(start, start, end), *self.curves.values()]:
            lines += arrow(*curve)
        for pair, label in self.labels.items():
            rows = [(act, COLORS[min(makers)] if len(makers) == 1 else INK) for act, makers in self.chart.arrows[pair]]
            lines += block(label, rows, "white", "monospace")
        for state, box in self.boxes.items():
            content = [self.empty] if not state else state.split()
            content += [f"0x{self.chart.numbers[state]:02X}"] + ([self.notes[state]] if state in self.notes else [])
            lines += block(box, [(line, INK) for line in content], OVER if state in self.chart.over else OPEN)
        return "\n".join([*lines, *self.legend(), "</svg>", ""])

    def name(self, state):
        """A state in words."""
        return state or self.empty

    def legend(self):
        """What boxes, dot and colours mean."""
        height, place = self.size[1], 20
        slot = " Slot: who has the slot of the awaiter." if self.notes else ""
        yield written((place, height - 32), f"Blue box: the task may be open. Grey box: it is over. Dot: the word after a spawn.{slot}")
        for who, color in [("The step is made by", INK), *COLORS.items(), ("one of several.", INK)]:
            yield written((place, height - 12), who, color)
            place += 7.6 * len(who) + 20


class Life:
    """A life of a task, played on the machine: a column for each party, a row for each step, and at the left each new word."""

    def __init__(self, definitions):
        """Plays the steps. Ends the program where the machine does not allow one."""
        self.definitions, self.machine = definitions, dict(definitions("opening", LIMIT))
        self.height, self.tops, self.calls, self.ends, self.told = 0, {}, {}, {}, []
        # what lies below, as the columns, and what is written over it
        self.below, self.above = [], []
        for title, turns in LIFE:
            self.height += 2 * ROW
            self.below.append(f'<path d="M 12 {self.height - 20} H {WIDTH - 12}" stroke="{OVER}"/>')
            self.above += block((12, self.height - 16, 12 + 8.4 * len(title), self.height + 6), [], "white")
            self.above.append(written((12, self.height), title, weight="bold"))
            if not self.tops:
                self.height += ROW + 4
                self.enter(self.parties())
                self.show_word()
            for party, acts in turns:
                for act in acts.split():
                    self.step(party, act)
        for party, top in self.tops.items():
            # the line of a party that has not ended goes on to the end of the picture
            end = self.ends.get(party, self.height + ROW)
            self.below.insert(0, f'<path d="M {COLUMNS[party]} {top} V {end}" stroke="{INK}"/>')

    def parties(self):
        """Where the parties stand."""
        return items_of(self.machine["parties"])

    def enter(self, positions):
        """The columns of new parties begin, each with a name."""
        for party, position in enumerate(positions, len(self.tops)):
            name, place = position[1][0] if position[0] == "At" else position[0], COLUMNS[party]
            name = {"Lent": "lent waker", "Waker": "waker", "Deliverer": "deliverer"}.get(name, name)
            area = place - HEAD[0], self.height - HEAD[1], place + HEAD[0], self.height + HEAD[1]
            self.above += block(area, [(name, INK), (f"party {party}", INK)], OPEN)
            self.tops[party] = self.height
            if position[0] != "At":
                self.calls[party] = self.height

    def show_word(self):
        """The word, with its flags."""
        number = self.definitions("number_of", self.machine["word"])
        flags = " ".join(name.upper() for name, value in self.machine["word"] if value is True)
        self.above.append(written((12, self.height + 5), f"0x{number:03X} {flags}", family="monospace", size=12))

    def step(self, party, act):
        """One step: a dot in the column of its party, and an arrow to a party that it adds, or whose awaiter it wakes."""
        before, position = self.machine, self.parties()[party]
        after = self.definitions("step", tuple(before.items()), (("party", party), ("act", (act,))))
        if after[0] == "None":
            sys.exit(f"life.svg: party {party} may not make {act}")
        self.machine = dict(after[1])
        events = items_of(self.machine["trace"])[:-len(items_of(before["trace"]))]
        added = self.parties()[len(self.tops):]
        target = COLUMNS[len(self.tops)] - HEAD[0] if added else COLUMNS[1] - 7 if any(event[0] == "Woken" for event in events) else None
        # above an arrow there is room for the name of the step, and below the name of a party
        self.height += ROW + 10 * (target is not None)
        self.told.append(f"{party} {act}")
        if position[0] == "At":
            self.calls[party] = self.height
        writes, color = self.machine["word"] != before["word"], COLORS[role(self.definitions, position)]
        self.show_step(COLUMNS[party], self.name(act, events), writes, color, target)
        if writes:
            self.show_word()
        self.enter(added)
        if act == "EndCall":
            self.end_call(party)
        self.height += 6 * len(added)

    @staticmethod
    def name(act, events):
        """The name of a step. The last one of a call tells what the call answers."""
        answers = [event[-1] for event in events if event[0] in ("CallEnds", "TaskPollEnds") and event[-1] != ("Nothing",)]
        parts = [str(part).lower() if isinstance(part, bool) else part for answer in answers for part in answer]
        return f"{act}: {' '.join(parts)}" if parts else act

    def show_step(self, place, name, writes, color, target):
        """The dot of a step, which is filled where the step writes the word, its name, and an arrow."""
        fill = color if writes else "white"
        self.above.append(f'<circle cx="{place}" cy="{self.height}" r="5" fill="{fill}" stroke="{color}" stroke-width="1.6"/>')
        self.above.append(written((place + 12, self.height + (5 if target is None else -6)), name, color))
        if target is not None:
            self.above += arrow((place + 6, self.height), ((place + target) / 2, self.height), (target, self.height), color)

    def end_call(self, party):
        """The bar of a call, from its first step to its last."""
        top = self.calls.pop(party)
        self.below.append(f'<rect x="{COLUMNS[party] - 8}" y="{top}" width="16" height="{self.height - top}" rx="6" fill="{OVER}"/>')
        if self.parties()[party] == ("At", ("Ended",)):
            self.ends[party] = self.height

    def text(self):
        """The picture."""
        size = WIDTH, self.height + 3 * ROW
        legend = "Dot: a step, filled where it writes the word, which stands at the left with its flags. Bar: a call. A column ends with its party."
        lines = opened(size, "A life of a task, step by step", f"Each party with its step, in order: {', '.join(self.told)}.")
        return "\n".join([*lines, *self.below, *self.above, written((12, size[1] - 14), legend), "</svg>", ""])


def pages():
    """The text of each picture. Ends the program where a place has no state, a state no place, or a picture a fault."""
    definitions = Definitions([source(f"{name}.antt") for name in FILES])
    yield DOCUMENTS / "life.svg", Life(definitions).text()
    exploration = Exploration(definitions, ACTS)
    print(f"{len(exploration.seen)} states of the machine")
    for name, (flags, empty, size, places) in PICTURES.items():
        chart = Chart(definitions, exploration.steps, flags)
        faults = [f"the state '{state}' has no place" for state in sorted(set(chart.numbers) - set(places))]
        faults += [f"the place '{state}' has no state" for state in sorted(set(places) - set(chart.numbers))]
        notes = chart.owners(definitions, exploration) if "awaiter" in flags else {}
        drawing = None if faults else Drawing(chart, empty, notes, size, places)
        faults = faults or list(drawing.faults())
        if faults:
            sys.exit("\n".join(f"{name}: {fault}" for fault in faults))
        yield DOCUMENTS / name, drawing.text()


def main(drawn, description):
    """Writes what is drawn, a page or a picture at each path, or compares it."""
    arguments = argparse.ArgumentParser(description=description)
    arguments.add_argument("--check", action="store_true", help="compare them, and write nothing")
    check, differs = arguments.parse_args().check, False
    for path, text in list(drawn):
        if not check:
            path.write_text(text, encoding="utf-8")
        elif not path.exists() or path.read_text(encoding="utf-8") != text:
            differs = True
            print(f"{path.name} differs from what is drawn: run docs/{pathlib.Path(sys.argv[0]).name}")
    sys.exit(1 if differs else 0)


if __name__ == "__main__":
    main(pages(), "Draws the charts from the table of moves.")
