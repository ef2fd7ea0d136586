#!/usr/bin/env python3
"""api.py writes into docs/API.md what each call does: after the call of a line, `Type::name(..)` or `name(..)`, the first sentence of its doc comment, up
to what is promised, or to be written, and an example in brackets. A line `- others: ..` has names alone. A heading names the
crates whose calls stand below it. api.py --check writes nothing: it compares, and looks for calls that are not there.
"""
import pathlib
import re
import sys

HERE = pathlib.Path(__file__).resolve().parent.parent
PAGE = HERE / "docs/API.md"
# what a heading may name beside its crate: the crates whose calls `async_task` hands on
BELOW = {"async_task": ("async_task", "task_cell")}
CALL = re.compile(r"(- `(?:(\w+)::)?(\w+)[^`]*`[^:]*:).*?( \*[A-Z][a-z ]*:\* .*| \([^()]*\))?")
NAMES = re.compile(r"- others: ((?:`[\w:]+`(?:, |$))+)")
ITEM = re.compile(r"\s*(?:pub )?(?:fn|struct|enum|trait) (\w+)")


def without_generics(header):
    """The header of an impl without what stands between angle brackets."""
    while (less := re.sub(r"<[^<>]*>", "", header.replace("->", ""))) != header:
        header = less
    return header


def owner_of(header):
    """The type that an impl block is for, or the trait that a block declares."""
    words = re.sub(r"[:{].*", "", without_generics(header).replace("::", ".").split("where")[0]).split()
    return words[words.index("for") + 1 if "for" in words else -1].split(".")[-1]


def sentences(crate):
    """The first sentence of each doc comment of a crate, by the type and the name of what it describes; a type of its own has no type."""
    found = {}
    for path in sorted((HERE / "crates" / crate / "src").rglob("*.rt")):
        owner, header, doc = "", "", []
        for line in path.read_text(encoding="utf-8").splitlines():
            if header or re.match(r"impl\b|pub trait\b", line):
                header += " " + line
                if line.endswith("{"):
                    owner, header = owner_of(header), ""
            if line == "}":
                owner = ""
            item = ITEM.match(line)
            if item and doc:
                found.setdefault((owner if line.startswith(" ") else "", item[1]), re.split(r"(?<=\.) ", " ".join(doc))[0])
            if line.strip().startswith("///"):
                doc.append(line.strip()[4:] or ". ")
            elif not line.strip().startswith("#["):
                doc = []
    return found


def filled(text):
    """The page with its sentences, and the calls that are not there."""
    known, lost, lines = {}, [], []
    for line in text.splitlines():
        if line.startswith("## "):
            known = {}
            for crate in re.findall(r"`(\w+)`", line):
                for below in BELOW.get(crate, (crate,)):
                    known.update(sentences(below))
        names = NAMES.fullmatch(line)
        if names:
            lost += [name for owner, name in re.findall(r"`(?:(\w+)::)?(\w+)`", names[1]) if (owner, name) not in known]
        call = CALL.fullmatch(line)
        if call and known and not names:
            sentence = known.get((call[2] or "", call[3]))
            if sentence:
                line = f"{call[1]} {sentence}{call[4] or ''}"
            else:
                lost.append(line.split("`")[1])
        lines.append(line)
    return "\n".join(lines) + "\n", lost


page = PAGE.read_text(encoding="utf-8")
new, lost = filled(page)
for call in lost:
    print(f"docs/API.md: no call `{call}` with a doc comment")
if sys.argv[1:] != ["--check"]:
    PAGE.write_text(new, encoding="utf-8")
elif new != page:
    sys.exit("docs/API.md: a sentence is not that of its doc comment: docs/api.py writes them")
sys.exit(1 if lost else 0)
