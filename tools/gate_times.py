#!/usr/bin/env python3
"""How many processor minutes each crate takes of the gate, by watching `rt ci`.

gate_times.py run [--write]      runs `rt ci` here, with no other check beside it, and watches it; the status is that of `rt ci`
gate_times.py watch FILE         watches every check on this machine until it is stopped, and keeps what it saw in FILE
gate_times.py table FILE [--write]     the table of what such a FILE holds

A process of the prover proves one crate, its tests, or tries one edit. Each is looked at every second, and counts with its
processor time as it was last seen, so that up to a second of each is missing. `--write` puts the times of the crates that
were seen into the table of docs/GATE.md, with the number of edits of each; the other entries stay. What `rt` keeps isn't
proved again: for the whole table run it on a machine that has kept nothing, and write machine and date there too.
"""

import argparse
import glob
import json
import os
import re
import signal
import subprocess
import sys
import threading
import time

sys.dont_write_bytecode = True

import build_plan

TOP = os.path.dirname(os.path.dirname(os.path.realpath(__file__)))
PAGE = f"{TOP}/docs/GATE.md"
KINDS = ("proof", "tests", "edits")
HEAD = "| Crate | Proof | Tests | Edits " * 2 + "|\n" + "|---" * 8 + "|\n"
ENTRY = re.compile(r"\| `(\w+)` \|([^|\n]*)\|([^|\n]*)\|([^|\n]*)(?=\|)")  # two a row


def kind_of(words):
    """Which crate a process of the prover works on, and whether it proves it, its tests, or tries an edit of it."""
    if len(words) < 2 or not words[0].endswith("/rattle") or words[1] not in ("build", "check"):
        return None
    if "--crate-name" not in words[:-1]:
        return None
    crate = words[words.index("--crate-name") + 1]
    if words[1] == "check":
        # (a program without edits is checked once more before it is built)
        return crate, "edits" if os.path.isdir(f"{TOP}/crates/{crate}/must-fail") else "proof"
    return crate, "tests" if "--test" in words else "proof"


def look(seen):
    """Notes the processor seconds and the memory of each process of the prover on this machine."""
    tick = os.sysconf("SC_CLK_TCK")
    for process in filter(str.isdigit, os.listdir("/proc")):
        try:
            with open(f"/proc/{process}/cmdline", "rb") as file:
                kind = kind_of([word.decode(errors="replace") for word in file.read().split(b"\0")])
            if kind is None:
                continue
            with open(f"/proc/{process}/stat", encoding="ascii", errors="replace") as file:
                told = file.read().rpartition(")")[2].split()
        except (OSError, ValueError):
            continue
        seconds = sum(int(number) for number in told[11:15]) / tick
        memory = int(told[21]) * os.sysconf("SC_PAGE_SIZE")
        before = seen.get(f"{process} {told[19]}", [*kind, 0.0, 0])
        seen[f"{process} {told[19]}"] = [*kind, max(seconds, before[2]), max(memory, before[3])]


def minutes_in(seen):
    """The minutes of each crate that was seen, by kind."""
    found = {}
    for crate, kind, seconds, _ in seen.values():
        times = found.setdefault(crate, dict.fromkeys(KINDS, 0.0))
        times[kind] += seconds / 60
    return found


def shown(minutes):
    return f"{minutes:.2f}" if minutes < 1 else f"{minutes:.1f}"


def write(found):
    """Puts these minutes into the page's table, which has the crates in the order of crates.txt."""
    with open(PAGE, encoding="utf-8") as file:
        before, head, rest = file.read().partition(HEAD)
    table, end, after = rest.partition("\n\n")
    entries = {crate: [cell.strip() for cell in cells] for crate, *cells in ENTRY.findall(table)}
    for crate, times in found.items():
        cells = entries.setdefault(crate, [""] * len(KINDS))
        for at, kind in enumerate(KINDS):
            if times[kind] > 0:
                cells[at] = shown(times[kind])
                if kind == "edits":
                    cells[at] += f" ({len(glob.glob(f'{TOP}/crates/{crate}/must-fail/*.edit'))})"
    with open(f"{TOP}/crates.txt", encoding="utf-8") as listed:
        halves = [f"| `{it}` | {' | '.join(entries[it])} " for it in build_plan.crates_of(listed.read()) if it in entries]
    halves += ["| | | | "] * (len(halves) % 2)
    rows = [f"{left}{right}|" for left, right in zip(halves[::2], halves[1::2])]
    with open(PAGE, "w", encoding="utf-8") as file:
        file.write(before + head + "\n".join(rows) + end + after)


def longest_chain(found):
    """The crates of the longest chain of proofs, with tests and edits at its end, and its minutes; without what `rt` had kept."""
    with open(f"{TOP}/crates.txt", encoding="utf-8") as listed:
        named = build_plan.crates_of(listed.read())
    nothing, chains = dict.fromkeys(KINDS, 0.0), {}

    def chain(name):
        if name not in chains:
            below = max(map(chain, named[name]), default=(0.0, []))
            chains[name] = (below[0] + found.get(name, nothing)["proof"], [*below[1], name])
        return chains[name]

    for name in named:
        chain(name)
    whole = [(chains[it][0] + found.get(it, nothing)["tests"] + found.get(it, nothing)["edits"], it) for it in named]
    minutes, last = max(whole)
    return minutes, chains[last][1]


def tell(seen, is_written):
    """Prints what was seen, and writes it where that is asked for."""
    found = minutes_in(seen)
    for crate in sorted(found):
        print(f"{crate:24}" + "".join(f"{shown(found[crate][kind]) if found[crate][kind] else '':>9}" for kind in KINDS))
    print(f"{'in all':24}" + "".join(f"{sum(times[kind] for times in found.values()):9.1f}" for kind in KINDS))
    print(f"the greatest process: {max((it[3] for it in seen.values()), default=0) / 1e9:.1f} GB")
    minutes, chain = longest_chain(found)
    print(f"the longest chain: {minutes:.1f} processor minutes, {' '.join(chain)}")
    if is_written:
        write(found)


def watched(seen, ended, kept=None):
    """Looks every second until it is ended."""
    while not ended.wait(1.0):
        look(seen)
        if kept:
            with open(f"{kept}.new", "w", encoding="utf-8") as file:
                json.dump(seen, file)
            os.replace(f"{kept}.new", kept)


def run(is_written):
    """Runs the gate, and tells what it took."""
    seen, ended = {}, threading.Event()
    watcher = threading.Thread(target=watched, args=(seen, ended))
    watcher.start()
    began = time.monotonic()
    status = subprocess.run(["rt", "ci"], cwd=TOP, check=False).returncode
    took = (time.monotonic() - began) / 60
    ended.set()
    watcher.join()
    tell(seen, is_written)
    print(f"by the clock: {took:.1f} minutes")
    return status


def main():
    asked = argparse.ArgumentParser(description=__doc__, formatter_class=argparse.RawDescriptionHelpFormatter)
    commands = asked.add_subparsers(dest="command", required=True)
    commands.add_parser("run").add_argument("--write", action="store_true")
    commands.add_parser("watch").add_argument("file")
    table = commands.add_parser("table")
    table.add_argument("file")
    table.add_argument("--write", action="store_true")
    words = asked.parse_args()
    if words.command == "run":
        return run(words.write)
    if words.command == "watch":
        ended = threading.Event()
        for number in (signal.SIGINT, signal.SIGTERM):
            signal.signal(number, lambda *_: ended.set())
        watched({}, ended, words.file)
        return 0
    with open(words.file, encoding="utf-8") as file:
        tell(json.load(file), words.write)
    return 0


if __name__ == "__main__":
    sys.exit(main())
