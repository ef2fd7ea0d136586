#!/usr/bin/env python3
"""quotes.py --check compares the code blocks of README.md and of other pages with the files that they are quoted from, and looks for what pages name:
the tests of docs/API.md, each name with an underscore on the pages of NAMING, and the kit's logic in README.md.

A block between fences is quoted from the file that the last path in backticks before it names: it is lines of it that stand together, moved to the
left. What is indented by four instead, as commands are, is no quotation.
"""
import pathlib
import re
import subprocess
import sys
import textwrap

HERE = pathlib.Path(__file__).resolve().parent.parent
PATH = re.compile(r"`(crates/[\w./]+)`")
FENCED = re.compile(r"^```\w*\n(.*?)^```\n", re.MULTILINE | re.DOTALL)
# crates with a page of their own, which is looked at as the other pages are
CRATES = ("task_core", "task_laws", "task_progress", "task_steps", "task_cell", "task_atomic", "task_replay", "executor_parts", "future_parts", "local_task", "executor", "async_task")
EXCERPTS = ("README.md", "docs/GUIDE.md", "docs/EXECUTOR_POOL.md", "crates/executor_parts/KIT.md") + tuple(f"crates/{name}/README.md" for name in CRATES)
# the pages that name hardly anything but what this repository has, and what they name of the kit
NAMING = EXCERPTS + (
    "CONTRIBUTING.md", "SECURITY.md", "docs/API.md", "docs/ARCHITECTURE.md", "docs/DEVELOPING.md", "docs/EXAMPLES.md",
    "docs/MACHINE.md", "docs/PROOFS.md", "docs/RULES.md", "crates/taskrows/README.md",
    "crates/replay_trace/README.md")
OF_THE_KIT = {"from_event_fd", "from_raw_fd", "get_mut", "pop_front"}
# a line of `rt version`: the kit, and the logic that its proofs are of. Kits of one logic judge alike
KIT = re.compile(r"rattle-kit-\w+ logic (\w+)")
# a definition of Rust or of a spec, a clause of a contract, a variable; or a field, a parameter or a constructor
DEFINED = re.compile(
    r"\b(?:fn|struct|enum|trait|mod|const|static|type|let|mut|ghost|requires|ensures|abbrev pub|pub data|pub record)\s+(\w+)"
    r"|^\s*(?:pub )?(\w+)\s*:", re.MULTILINE)


def blocks_of(page):
    """The blocks of a page, in their order, by the file that they are quoted from."""
    parts = FENCED.split((HERE / page).read_text(encoding="utf-8"))
    blocks, before = {}, []
    for text, block in zip(parts[::2], parts[1::2]):
        before += [path for path in PATH.findall(text) if (HERE / path).is_file()]
        if not before:
            sys.exit(f"{page}: no file is named before the block that begins with {block.splitlines()[0]}")
        blocks.setdefault(before[-1], []).append(block)
    return blocks


def agrees(path, blocks):
    """Whether these blocks stand in the file."""
    text = (HERE / path).read_text(encoding="utf-8")
    moved = [[textwrap.indent(block, " " * 4 * depth) for depth in range(10)] for block in blocks]
    return all(any("\n" + block in "\n" + text for block in depths) for depths in moved)


def sources(*patterns):
    """The files of all crates that fit one of these patterns."""
    return [path for pattern in patterns for path in (HERE / "crates").glob("*/" + pattern)]


def code():
    """The text of each file that defines anything."""
    return [path.read_text(encoding="utf-8") for path in sources("src/**/*.rt", "specs/**/*.antt", "proofs/**/*.antt")]


def lost_tests():
    """The names in the brackets at the end of a line of API.md that are no test."""
    tests = {name for text in code() for name in re.findall(r"#\[test\]\s+fn (\w+)", text)}
    lines = (HERE / "docs/API.md").read_text(encoding="utf-8").splitlines()
    last = [line.rsplit(" (", 1)[1] for line in lines if line.startswith("- ") and line.endswith(")")]
    return [name for brackets in last for name in re.findall(r"`(\w+)`", brackets) if name not in tests]


def lost_names():
    """The names with an underscore in the text of a page that nothing in this repository has, each with its page. A path is not looked at."""
    known = OF_THE_KIT | set(re.findall(r"\w+", (HERE / "crates.txt").read_text(encoding="utf-8")))
    known |= {path.stem for path in sources("src/**/*.rt", "must-fail/*.edit")}
    known |= {name for text in code() for pair in DEFINED.findall(text) for name in pair}
    for page in NAMING:
        text = FENCED.sub("", (HERE / page).read_text(encoding="utf-8"))
        spans = [span for span in re.findall(r"`([^`\n]+)`", text) if "/" not in span]
        names = {name for span in spans for name in re.findall(r"\b[a-z]\w*_\w+", span)}
        yield from ((page, name) for name in sorted(names - known))


def other_logic():
    """The line of `rt version`, where README.md has another logic, or none."""
    here = subprocess.run(["rt", "version"], stdout=subprocess.PIPE, text=True, check=True).stdout.strip()
    if KIT.findall((HERE / "README.md").read_text(encoding="utf-8")) != KIT.findall(here):
        yield here


def check():
    """Prints what is not as the code has it, and answers whether anything was."""
    wrong = [f"docs/API.md: no test has the name {name}" for name in lost_tests()]
    wrong += [f"{page}: nothing has the name {name}" for page, name in lost_names()]
    wrong += [f"README.md: `rt version` prints {here}, which is of another logic" for here in other_logic()]
    for page in EXCERPTS:
        for path, blocks in blocks_of(page).items():
            if not agrees(path, blocks):
                wrong.append(f"{page}: the blocks of {path} are not its text")
    print("".join(line + "\n" for line in wrong), end="")
    return bool(wrong)


def main():
    if sys.argv[1:] != ["--check"]:
        sys.exit(__doc__)
    sys.exit(1 if check() else 0)


if __name__ == "__main__":
    main()
