#!/usr/bin/env python3
"""costs.py [PID]: what the parts of the gate cost. Runs `rt ci`, or watches the one of that number, and prints the table of DEVELOPING: the crates, the
dearest first, with the minutes of one processor. The log of `rt ci` has no times, and its crates are proved side by side: so the processes below it are
looked at twice a second, and what each had used when it was last seen is counted. The last line has what the system counted of all."""
import collections
import os
import pathlib
import subprocess
import sys
import time

HERE = pathlib.Path(__file__).resolve().parent.parent
TICK = os.sysconf("SC_CLK_TCK")
# A crate has a line of its own if it costs so many minutes.
LEAST = 5


def processes():
    """Of each process its parent, its seconds, those of its children that have ended, its words, and its folder, by its number."""
    found = {}
    for entry in pathlib.Path("/proc").glob("[0-9]*"):
        try:
            stat = (entry / "stat").read_text().rpartition(")")[2].split()
            words, folder = (entry / "cmdline").read_text().split("\0"), os.readlink(entry / "cwd")
        except (OSError, UnicodeDecodeError):
            continue
        own, ended = (sum(map(int, stat[i:i + 2])) / TICK for i in (11, 13))
        found[int(entry.name)] = (int(stat[1]), own, ended, words, folder)
    return found


def part(words, folder):
    """The crate that a process proves, and what of it: 0 itself, 1 its tests, 2 a wrong body, which `rt ci` tries in a folder of its own."""
    kind = 1 if "--test" in words else 2 if "/rt-edit-" in folder else 0
    return words[words.index("--crate-name") + 1], kind


def watch(gate):
    """The seconds of each part, and of all processes of the gate, until it ends."""
    used, total = {}, 0.0
    while gate in (now := processes()):
        total = now[gate][1] + now[gate][2]
        for number, (parent, own, _, words, folder) in now.items():
            while parent in now and parent != gate:
                parent = now[parent][0]
            if parent == gate and "--crate-name" in words:
                used[number, part(words, folder)] = own
        time.sleep(0.5)
    seconds = collections.Counter()
    for (_, it), own in used.items():
        seconds[it] += own
    return seconds, total


def row(name, minutes):
    """Prints a line of the table."""
    print(f"{name} | " + ", ".join(f"{it:.0f}" for it in minutes))


began = time.time()
seconds, total = watch(int(sys.argv[1]) if sys.argv[1:] else subprocess.Popen(["rt", "ci"], cwd=HERE).pid)
minutes = {name: [seconds[name, kind] / 60 for kind in range(3)] for name, _ in seconds}
names = sorted(minutes, key=lambda it: -sum(minutes[it]))
dear = [it for it in names if sum(minutes[it]) >= LEAST]
print("Crate | Proof, tests, wrong bodies\n--- | ---")
for name in dear:
    row(f"`{name}`", minutes[name])
row(f"{len(names) - len(dear)} others", [sum(minutes[it][kind] for it in names if it not in dear) for kind in range(3)])
print(f"\nThe whole gate: {total / 60:.0f} minutes of one processor, in {(time.time() - began) / 60:.0f}.")
