#!/usr/bin/env python3
"""Makes programs by chance, and runs those that `check` accepts by real threads.

random_threads.py FIRST END [--cilk COMMAND] [--keep FOLDER] [--times N]

Seeds go from FIRST up to END. `threads` with 1, 2, 3, 8 and 64 workers, N times each, has to show what `run` shows. On other numbers it has to
show what `run` shows there, where the certificates of both runs have the same events but for their values, and else `refused 502 POS`: by one
worker at the first event that differs, by several there or after it. A certificate doesn't tell which function or loop a frame starts, so a
call or spawn before that may be where the run departs, too; such are counted. A program that differs is kept in the folder, with its
certificate. A call that doesn't end in 20 seconds differs. Programs that aren't accepted, and long runs, are left out and counted.
"""

import argparse
import collections
import subprocess
import sys
import tempfile

sys.dont_write_bytecode = True
import random_certificates
import random_programs
from random_programs import TOP

OWN = (4, -9, 12)
OTHERS = ((5, 8, -3), (4, -9, 13), (0, 0, 0), (9, -9), (7, 7, 7, 7))
WORKERS = (1, 2, 3, 8, 64)
MOST_BYTES = 200_000  # of a certificate that isn't too long


def skeleton(certificate):
    """The events of a certificate, without values and sources."""
    lines = certificate.decode("ascii").split("\n")
    count = int(lines[1].split(" ")[1])
    kept = {"read": 2, "write": 2, "update": 3, "set": 3, "value": 3, "print": 1}
    events = [line.split(" ") for line in lines[-3 - count : -3]]  # after them come `result`, `end` and the last line feed
    return [words[: kept.get(words[0], 2)] for words in events]


def first_difference(one, other):
    """The first position from 1 at which two runs' events differ, or 0."""
    for at, (a, b) in enumerate(zip(one, other), 1):
        if a != b:
            return at
    return 0 if len(one) == len(other) else min(len(one), len(other)) + 1


class Comparison:
    """Compares one program after the other."""

    def __init__(self, words, room):
        self.words, self.room, self.seen, self.seed = words, room, collections.Counter(), 0

    def show(self, name, content):
        with open(f"{self.room}/{name}", "wb") as it:
            it.write(content)
        return f"{self.room}/{name}"

    def call(self, name, *words):
        """What a call shows on both outputs, and its status; a status of None where it doesn't end in time."""
        call = [*self.words.cilk.split(), name, f"{self.room}/program.c", *words]
        try:
            ran = subprocess.run(call, capture_output=True, check=False, timeout=20)
        except subprocess.TimeoutExpired:
            return b"", None
        return ran.stdout + ran.stderr, ran.returncode

    def differs(self, what, tool, wanted):
        self.seen["differ"] += 1
        print(f"seed {self.seed}: {what}: {tool!r}, not {wanted!r}", flush=True)
        for name in ("program.c", "certificate"):
            with open(f"{self.room}/{name}", "rb") as it, open(f"{self.words.keep}/differs_{self.seed}.{name}", "wb") as kept:
                kept.write(it.read())

    def threads(self, workers, *words):
        self.seen["calls of threads"] += 1
        return self.call("threads", f"{self.room}/certificate", "--input", f"{self.room}/own", "--workers", str(workers), *words)

    def on_its_own(self, wanted):
        for workers in WORKERS:
            for _ in range(self.words.times):
                shown = self.threads(workers)
                if shown != wanted:
                    self.differs(f"{workers} workers", shown, wanted)

    def departs(self, shown, own, workers, first, numbers):
        """`refused 502 POS` with a position that may be: the first that differs, or after it by several workers."""
        words = shown[0].split()
        fits = shown[1] == 4 and words[:2] == [b"refused", b"502"] and len(words) == 3
        at = int(words[2]) if fits else 0
        if not fits or not 1 <= at <= len(own) or first and at < first or workers == 1 and first and at != first:
            self.differs(f"{workers} workers on {numbers}", shown, f"refused 502 from {first} on")

    def starts_another(self, own, shown, first):
        """Whether a run is said to depart at a call or spawn before the first event that differs, or where none does."""
        words = shown[0].split()
        if shown[1] != 4 or words[:2] != [b"refused", b"502"] or not 1 <= int(words[2]) <= len(own):
            return False
        at = int(words[2])
        return (first == 0 or at < first) and own[at - 1][0] in ("call", "spawn")

    def on_others(self, own):
        for numbers in OTHERS:
            other = self.show("other", " ".join(map(str, numbers)).encode())
            certificate, status = self.call("certify", "--input", other)
            first = first_difference(own, skeleton(certificate)) if status == 0 else -1
            wanted = self.call("run", "--input", other)
            for workers in WORKERS:
                shown = self.threads(workers, "--on", other)
                if first >= 0 and self.starts_another(own, shown, first):
                    self.seen["calls that depart by another function or loop"] += 1
                elif first == 0 and shown != wanted:
                    self.differs(f"{workers} workers on {numbers}", shown, wanted)
                elif first != 0:
                    self.departs(shown, own, workers, max(first, 0), numbers)
            self.seen["other numbers: " + ("along the plan" if first == 0 else "depart" if first > 0 else "depart in a fault")] += 1

    def compare(self, seed, text):
        self.seed = seed
        self.show("program.c", text.encode())
        own = self.show("own", " ".join(map(str, OWN)).encode())
        certificate, status = self.call("certify", "--input", own)
        if status != 0 or len(certificate) > MOST_BYTES:
            self.seen["left out: a fault, or long"] += 1
            return
        self.show("certificate", certificate)
        if self.call("check", f"{self.room}/certificate", "--input", own) != (b"accepted\n", 0):
            self.seen["left out: refused"] += 1
            return
        self.seen["accepted"] += 1
        self.on_its_own(self.call("run", "--input", own))
        self.on_others(skeleton(certificate))


class Given(random_certificates.Apart):
    """Programs of frames that hardly share a cell, with numbers of the input."""

    def number(self):
        return self.pick("input(0)", "input(1)", "input(input_count() - 1)") if self.rarely(0.3) else super().number()


def text_of(seed):
    """A program: of any kind, of frames that hardly share a cell, or of many strands."""
    if seed % 4 == 0:
        return random_programs.Writer(seed).program()
    if seed % 4 == 1:
        return random_certificates.Shapes(seed).program().replace(", 2)", ", input(0))").replace("= 4;", "= input(1);")
    return Given(seed).program()


def main():
    known = argparse.ArgumentParser(description=__doc__, formatter_class=argparse.RawDescriptionHelpFormatter)
    known.add_argument("first", type=int)
    known.add_argument("end", type=int)
    known.add_argument("--cilk", default=f"{TOP}/cilk")
    known.add_argument("--keep", default=".")
    known.add_argument("--times", type=int, default=2)
    words = known.parse_args()
    with tempfile.TemporaryDirectory(prefix="random-") as room:
        comparison = Comparison(words, room)
        for seed in range(words.first, words.end):
            comparison.compare(seed, text_of(seed))
    print("; ".join(f"{kind}: {count}" for kind, count in sorted(comparison.seen.items())))
    sys.exit(1 if comparison.seen["differ"] else 0)


if __name__ == "__main__":
    main()
