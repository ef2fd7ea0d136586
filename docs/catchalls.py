#!/usr/bin/env python3
"""catchalls.py prints, by crate, the definitions in specs whose last line takes each act, position, event, .. that no line before it names. A new one goes
by that line, unless a proof asks for more. catchalls.py --check compares them with the table of docs/DEVELOPING.md.
"""
import collections
import pathlib
import re
import sys

HERE = pathlib.Path(__file__).resolve().parent.parent
PAGE = HERE / "docs/DEVELOPING.md"
CRATES = ("task_core", "task_laws", "task_steps", "task_progress", "task_atomic", "task_cell")
# the types that a new row or call may add to
GROWS = re.compile(r"\b(Act|Position|Event|Rest|NotifyingCall|Answer|PollAnswer)\b")
SIGNATURE = re.compile(r"\s*(?:abbrev )?(?:pub )?(\w+) : (.* → .*)")
EQUATION = re.compile(r"\s*(\w+) ([^:=]*?) =(?: |$)")
ARGUMENT = re.compile(r"\([^()]*(?:\([^()]*\)[^()]*)*\)|[^ ()]+")
TAKES_ALL = re.compile(r"[a-z_][\w']*|\(_ ∷ \w+\)")
ROW = re.compile(r"^[^|\n]* \| (`\w+`(?:, `\w+`)*)$", re.MULTILINE)


def definitions(path):
    """Each definition of a file: its name, the types of its arguments, and the arguments of each of its lines."""
    found = []
    for line in path.read_text(encoding="utf-8").splitlines():
        signature, equation = SIGNATURE.match(line), EQUATION.match(line)
        if signature:
            found.append((signature[1], [one for one in signature[2].split(" → ") if not one.startswith("{")], []))
        for name, types, lines in reversed(found):
            if equation and name == equation[1]:
                lines.append(ARGUMENT.findall(equation[2]))
                break
    return found


def is_catchall(types, lines):
    """Whether the last line takes all of a type that grows, of which a line before it names one."""
    places = [place for place, one in enumerate(types) if GROWS.search(one) and lines and place < len(lines[-1])]
    return any(TAKES_ALL.fullmatch(lines[-1][place]) and line[place] != "[]" and not TAKES_ALL.fullmatch(line[place])
               for place in places for line in lines[:-1])


def main():
    paths = {crate: sorted((HERE / "crates" / crate / "specs").rglob("*.antt")) for crate in CRATES}
    real = {crate: [name for path in paths[crate] for name, types, lines in definitions(path) if is_catchall(types, lines)] for crate in CRATES}
    if sys.argv[1:] != ["--check"]:
        return print("\n".join(f"{crate}: {', '.join(names)}" for crate, names in real.items()))
    told = collections.Counter(re.findall(r"\w+", " ".join(ROW.findall(PAGE.read_text(encoding="utf-8")))))
    real = collections.Counter(sum(real.values(), []))
    for name in sorted((real - told) | (told - real)):
        print(f"docs/DEVELOPING.md: {name} stands {told[name]} times in the table of catch-alls, and is one {real[name]} times")
    sys.exit(1 if real != told else 0)


if __name__ == "__main__":
    main()
