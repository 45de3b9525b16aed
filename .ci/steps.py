"""`rt ci`, and after it the steps below, whose counts are added to those of its last line.

A step reads texts, or runs the built program or built tests. Where the command that it needs isn't there, it says that it isn't made, and
counts nothing; its own last line is `N passed, M failed`. A step that ends otherwise counts as one that failed. After a failed `rt ci` no
step is made.
"""

import os
import re
import shutil
import signal
import subprocess
import sys

sys.dont_write_bytecode = True
TOP = os.path.dirname(os.path.dirname(os.path.realpath(__file__)))
sys.path.insert(0, f"{TOP}/tools")
import answers
import build_plan
import first_run

PROGRAM = "crates/cilk/out/cilk"
LAST_LINE = re.compile(r"^(\d+) passed, (\d+) failed(.*)$")

CC = os.environ.get("CC") or "cc"

# parts of the recorder's tests: what lacks its compiler, or gcc's headers for plugins, is left out there, by a line that says so
RECORDER = ["c", "build", "late", "refused", "whole", "forms"]

# what it is, the command that it needs, its words, and the seconds after which it is given up
STEPS = [
    ("what crates list", "python3", ["tools/crate_lines.py"], 60),
    ("the index of files", "python3", ["tools/index.py"], 60),
    ("where things are", "python3", ["tools/where.py"], 60),
    ("the list of wrong bodies", "python3", ["tools/wrong_bodies.py"], 60),
    ("hints that cases show", "python3", ["tools/hints_shown.py"], 60),
    ("the cases", "python3", ["tools/cases.py", "run", PROGRAM], 300),
    ("refused memory in a machine's choices", CC, ["tools/each_failure.py", "--choices"], 300),
    ("refused memory in two runs on one plan", CC, ["tools/each_failure.py", "--plan"], 300),
    ("the gallery of traces", "g++", ["examples/cilk/verdicts.py", PROGRAM], 300),
    ("the recorder", "python3", ["recorder/test", "--judge", f"{PROGRAM} judge", *RECORDER], 600),
    ("edits of crates that changed", "rt", ["tools/edits", "--drawn", "8"], 1800),
    ("hostile use of the program", CC, ["tools/hostile.py", PROGRAM, "--seconds", "150"], 300),
]


def shown(words, seconds=None):
    """Runs a command and shows its lines but for the last one: its status and that line."""
    last = ""
    with subprocess.Popen(words, cwd=TOP, stdout=subprocess.PIPE, text=True, errors="replace") as work:
        signal.signal(signal.SIGTERM, lambda *_: work.terminate())
        if seconds:
            signal.signal(signal.SIGALRM, lambda *_: work.kill())
            signal.alarm(seconds)
        for line in work.stdout:
            if last:
                print(last, flush=True)
            last = line.rstrip("\n")
        signal.alarm(0)
    return work.returncode, last


def step(what, need, words, seconds):
    """Makes one step: how many passed and how many failed."""
    if not os.access(f"{TOP}/{PROGRAM}", os.X_OK) or not shutil.which(need.split()[0]):
        print(f"{what}: not tried, since {PROGRAM} or the command `{need}` isn't here", flush=True)
        return 0, 0
    print(f"{what}:", flush=True)
    status, last = shown([sys.executable, *words], seconds)
    counts = LAST_LINE.match(last)
    print(f"{what}: {last}", flush=True)
    if not counts or bool(status) != bool(int(counts[2])):
        return 0, 1
    return int(counts[1]), int(counts[2])


def main():
    if not shutil.which("rt"):
        print("the command `rt` isn't here (README.md, 'To try it')\n0 passed, 1 failed")
        return 1
    crates = first_run.named()
    sources = answers.sum_of_sources(crates)
    # by measure, since the kit's own estimate of memory proves one or two of the upper crates at once
    os.environ.setdefault("RT_JOBS", str(build_plan.processors()))
    status, last = shown(["rt", "ci"])
    counts = LAST_LINE.match(last)
    if status or not counts:
        print(last if counts else f"{last}\n0 passed, 1 failed")
        return status or 1
    passed, failed = int(counts[1]), int(counts[2])
    print(f"the gate: {last}", flush=True)
    first_run.note_proved(first_run.record(), crates, sources)  # (so that ./cilk runs what was proved here)
    for it in STEPS:
        more = step(*it)
        passed, failed = passed + more[0], failed + more[1]
    print(f"{passed} passed, {failed} failed{counts[3]}")
    return 1 if failed else 0


if __name__ == "__main__":
    sys.exit(main())
