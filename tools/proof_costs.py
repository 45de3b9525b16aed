#!/usr/bin/env python3
"""The functions whose proofs take longest, by watching the prover: it writes a file for each part of a proof that it has checked.

proof_costs.py watch FOLDER       watches each prover of `rt ci`, until it is stopped; a file for each in FOLDER
proof_costs.py show FOLDER [--top N] [--parts] [CRATE ..]
                                  the seconds of each function in these files (of these crates alone), most first

A second counts for the part that is written at its end, so that a prover which waits for a processor shows more than it takes; what is
written in the last two seconds may be missing. With --parts the parts stand one by one: `Lts` is the function's code, `Proof` its goals
that are searched for, `Answers` those that have an answer, `Tie` that both fit. The first search of a prover counts the loading of
the search's library too. A function with a large `Proof` gets cheap by answers, one with many drops by an `impl Drop` of its types that
is written manually, or where an outer function owns and an inner one borrows; one with many arms, by a table.
"""

import argparse
import collections
import glob
import os
import re
import signal
import sys
import tempfile
import time

sys.dont_write_bytecode = True

from gate_times import kind_of

PART = re.compile(r"\.(Lts|Proof|Tie|Layout|Reads|Named|Kinds|Statement|Met|Code|Symbol|TheLink|Given|Goals|TheLaws|Key)(-\w+|\.\w+)*$")


def crate_of(process):
    """Which crate a process proves, if it is a prover."""
    try:
        with open(f"/proc/{process}/cmdline", "rb") as file:
            kind = kind_of([word.decode(errors="replace") for word in file.read().split(b"\0")])
    except OSError:
        return None
    return kind and kind[0]


def written(place, crate, known):
    """The parts of a crate's proofs in a prover's folder that aren't known yet, with the times at which they were written."""
    found = []
    for entry in os.scandir(place):
        if entry.name.startswith(f"Rattle-{crate}") and entry.name.endswith(".oantt") and entry.name not in known:
            found.append((entry.stat().st_mtime, entry.name.removesuffix(".oantt")))
            known.add(entry.name)
    return sorted(found)


def watch(folder):
    """Watches provers until this is stopped."""
    os.makedirs(folder, exist_ok=True)
    signal.signal(signal.SIGTERM, lambda *_: sys.exit(0))
    crates, known = {}, collections.defaultdict(set)
    while True:
        for place in glob.glob(f"{tempfile.gettempdir()}/rattle-logic-built-locked-*-*"):
            process = place.split("-")[-2]
            if place not in crates:
                crates[place] = crate_of(process)
            if crates[place]:
                try:
                    parts = written(place, crates[place], known[place])
                except OSError:
                    # (the prover has ended)
                    continue
                with open(f"{folder}/{crates[place]}.{process}", "a", encoding="utf-8") as file:
                    file.writelines(f"{at:.3f} {name}\n" for at, name in parts)
        time.sleep(2)


def seconds_in(path, crate, with_parts):
    """The seconds of each function, or of each part, that a prover wrote."""
    found, last = collections.Counter(), None
    with open(path, encoding="utf-8") as file:
        lines = sorted((float(at), name) for at, _, name in (line.rstrip("\n").partition(" ") for line in file))
    for at, name in lines:
        name = name.removeprefix(f"Rattle-{crate}-")
        if last is not None:
            found[name if with_parts else PART.sub("", name)] += at - last
        last = at
    return found


def show(folder, crates, top, with_parts):
    """Prints the functions of a folder's files, those that took longest first."""
    found = collections.Counter()
    for path in glob.glob(f"{folder}/*"):
        crate = os.path.basename(path).split(".")[0]
        if not crates or crate in crates:
            for name, seconds in seconds_in(path, crate, with_parts).items():
                found[f"{crate} {name}"] += seconds
    for name, seconds in found.most_common(top):
        print(f"{seconds:8.1f}  {name}")
    print(f"{sum(found.values()):8.1f}  in all")
    return 0


def main():
    asked = argparse.ArgumentParser(description=__doc__.splitlines()[0])
    asked.add_argument("verb", choices=("watch", "show"))
    asked.add_argument("folder", metavar="FOLDER")
    asked.add_argument("crates", nargs="*", metavar="CRATE")
    asked.add_argument("--top", type=int, default=30, metavar="N", help="how many are shown")
    asked.add_argument("--parts", action="store_true", help="each part of a proof by itself")
    words = asked.parse_args()
    return watch(words.folder) if words.verb == "watch" else show(words.folder, words.crates, words.top, words.parts)


if __name__ == "__main__":
    sys.exit(main())
