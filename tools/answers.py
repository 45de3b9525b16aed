"""Which program answers ./cilk: the proved one where it is of these sources, else an unproved one that is.

What was found stays in crates/cilk/out/answers, so that a later call looks at sizes and times alone: a checksum of what `find` lists
(`seen` of ./cilk), whether the program is proved, the sum of the sources, and the program's name in that folder, a line each.
"""

import hashlib
import os
import shutil

import unproved
from unproved import OUT, tell

PROGRAM = f"{OUT}/cilk"
KEPT = f"{OUT}/answers"


def sum_of_sources(crates):
    """The sum of the sources of these crates, their proofs too, and of what each names: 16 digits. The kit isn't part of it."""
    total = hashlib.sha256()
    for name, below in crates.items():
        total.update(f"{name} {below} {unproved.sum_of_crate(name, ('src', 'specs', 'proofs'))}\n".encode())
    return total.hexdigest()[:16]


def sum_of_file(path):
    """The sum of a file's bytes; empty where it can't be read."""
    try:
        with open(path, "rb") as it:
            return hashlib.sha256(it.read()).hexdigest()[:16]
    except OSError:
        return ""


def is_proved(record, sources):
    """Whether the built program is the one that was proved of sources with this sum, by what its build recorded."""
    if not os.access(PROGRAM, os.X_OK) or record["sources"] != sources:
        return False
    return record["file"] == sum_of_file(PROGRAM)


def kept():
    """What the last call found: the kind, the sum and the name; empty words where nothing is kept."""
    try:
        with open(KEPT, encoding="utf-8") as it:
            found = it.read().split("\n")
        return tuple(found[1:4]) if len(found) == 5 else ("", "", "")
    except (OSError, ValueError):
        return "", "", ""


def keep(seen, kind, sources, path):
    """Keeps what was found, whole or not at all."""
    try:
        with open(f"{KEPT}.{os.getpid()}", "w", encoding="utf-8") as it:
            it.write(f"{seen}\n{kind}\n{sources}\n{os.path.basename(path)}\n")
        os.replace(f"{KEPT}.{os.getpid()}", KEPT)
    except OSError:
        pass  # (then each call looks again)


def unproved_of(crates, sources):
    """The unproved program of these sources, made first if need be: its path, or None and the status to end with.

    That it runs unproved is told once a build: a call that finds it as the last one did says nothing.
    """
    last = kept()
    path = f"{OUT}/{last[2]}"
    is_told = last[:2] == ("unproved", sources) and os.access(path, os.X_OK)
    if is_told and not shutil.which("rt"):
        return path, 0
    if not unproved.has_rt():
        return None, 2
    made = unproved.kept_path(crates)
    if made is not None and os.access(made, os.X_OK):
        if not is_told:
            unproved.tell_of(True)
        return made, 0
    unproved.tell_of(False)
    return unproved.program(crates)


def answering(crates, record, seen="", must_be_proved=False):
    """The kind of the program that answers, the sum of the sources and the program's path, or None and the status to end with."""
    sources = sum_of_sources(crates)
    if is_proved(record, sources):
        keep(seen, "proved", sources, PROGRAM)
        return "proved", sources, PROGRAM
    is_there = os.access(PROGRAM, os.X_OK)
    if must_be_proved:
        what = "the program here isn't known to be proved of these sources" if is_there else "no proved program is here"
        tell(f"{what}; `./cilk build` makes one")
        return "unproved", None, 2
    if is_there and kept()[:2] != ("unproved", sources):
        tell("the program that is built isn't known to be proved of these sources, so it isn't run")
    path, status = unproved_of(crates, sources)
    if path is None:
        return "unproved", None, status
    keep(seen, "unproved", sources, path)
    return "unproved", sources, path
