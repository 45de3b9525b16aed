#!/usr/bin/env python3
"""Runs each accepted program of examples/ by 1, 2, 4 and 8 workers, many times, and compares what `threads` shows with what `run` shows.

`tools/thread_runs.py PROGRAM [TIMES]`: PROGRAM is the built tool, TIMES how often each number of workers runs each program (100). It prints
each run that shows something else or doesn't end in 20 seconds, and in its last line how many runs there were and how many were wrong.
"""

import glob
import os
import subprocess
import sys
import tempfile

TOP = os.path.dirname(os.path.dirname(os.path.realpath(__file__)))
WORKERS = (1, 2, 4, 8)


def shown(words):
    """What a call shows on standard output, or None where it doesn't end with status 0 in time."""
    try:
        ran = subprocess.run(words, capture_output=True, timeout=20, check=False)
    except subprocess.TimeoutExpired:
        return None
    return ran.stdout if ran.returncode == 0 else None


def runs_of(tool, program, times, certificate):
    """How many runs of a program there were, and how many were wrong."""
    numbers = {"inputs": f"{TOP}/examples/numbers"}.get(os.path.basename(program)[:-2], program[:-2] + ".in")
    given = ["--input", numbers] if os.path.exists(numbers) else []
    wanted = shown([tool, "run", program, *given])
    certified = shown([tool, "certify", program, *given])
    if wanted is None or certified is None:
        return 0, 0
    with open(certificate, "wb") as file:
        file.write(certified)
    if shown([tool, "check", program, certificate, *given]) is None:
        return 0, 0
    wrong = 0
    for workers in WORKERS:
        for _ in range(times):
            if shown([tool, "threads", program, certificate, "--workers", str(workers), *given]) != wanted:
                print(f"{program}: not so by {workers} workers")
                wrong += 1
    return len(WORKERS) * times, wrong


def main():
    """Prints the counts."""
    tool = os.path.abspath(sys.argv[1])
    times = int(sys.argv[2]) if len(sys.argv) > 2 else 100
    runs = wrong = programs = 0
    with tempfile.TemporaryDirectory() as folder:
        for program in sorted(glob.glob(f"{TOP}/examples/*.c") + glob.glob(f"{TOP}/examples/gallery/*.c")):
            made, bad = runs_of(tool, program, times, f"{folder}/certificate")
            runs, wrong, programs = runs + made, wrong + bad, programs + (made > 0)
    print(f"{programs} programs, {runs} runs, {wrong} wrong")
    sys.exit(1 if wrong else 0)


if __name__ == "__main__":
    main()
