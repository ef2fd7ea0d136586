"""The worked rows of `taskrows`, as scripts for rows.rs, and by which paragraph of docs/DIFFERENCES.md async-task differs."""
import os
import re

from replay_rules import LEAK, PANIC

FOLDER = os.path.join(os.path.dirname(os.path.dirname(os.path.abspath(__file__))), "crates", "taskrows")
SCRIPT = re.compile(r'^pub const (\w+): &str =\s*"(.*?)";$', re.DOTALL | re.MULTILINE)
CANCEL = "Handles, cancel: the Task goes with the Cancel, not when it is ready"

# The steps that async-task lacks.
LACKING = {
    "spawn_limited": "Handles, Runnable::waker: an Err at the limit",
    "refuse_clone": "Handles, impl Future of both: Refused if the awaiter refuses to be cloned",
}
# What a row says, and what async-task does instead.
LEAKS = {
    "counted 1 1 0 0; queued 1; told false; receive; run": "counted 1 0 0 1; queued 0; told",
    "counted 1 1 1 1": "counted 1 0 0 1",
}
DIFFERING = {
    "last_run": (LEAK, LEAKS),
    "awaiter_orphan": (LEAK, LEAKS),
    "closed_poll": (PANIC, {"closed; poll 1 closed; fallible": "panics; poll 1 panics; fallible"}),
    "clear_queue": (PANIC, {"closed": "panics"}),
    # Nor does a Cancel tell there whether its task is finished.
    "cancel_future": (CANCEL, {"finished; ": "", "closed; woken 1 1; counted 0 0 1 0": "closed; woken 1 1; counted 0 0 1 1"}),
}


def there(name, script, counters):
    """What async-task is to play of a row, with a look at its counters, or None; and by which paragraph that is not as here."""
    if script is None:
        return None, "no script"
    for step, why in LACKING.items():
        if step in script:
            return None, why
    script += f"; counted {counters.replace(',', ' ')}"
    why, changes = DIFFERING.get(name, (None, {}))
    for old, new in changes.items():
        # Where a row does not say that any more, this is no step, which fails.
        script = script.replace(old, new) if old in script else f"without {old}"
    return script, why


def rows():
    """Of each row its number and name, and what is played there."""
    with open(os.path.join(FOLDER, "src", "scripts.rt")) as it:
        scripts = {name.lower(): re.sub(r"\\\n\s*", "", text) for name, text in SCRIPT.findall(it.read())}
    with open(os.path.join(FOLDER, "stdout")) as it:
        printed = [line.split() for line in it][:-1]
    found = []
    for number, name, counters in printed:
        found.append((f"{number} {name}", *there(name, scripts.pop(name, None), counters)))
    if scripts:
        raise ValueError(f"scripts of no row: {', '.join(scripts)}")
    return found
