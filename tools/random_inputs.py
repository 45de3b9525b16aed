#!/usr/bin/env python3
"""Makes programs by chance, and tries what `settle --every` says of inputs on alike ones, which are made by chance too.

random_inputs.py FIRST END [--cilk COMMAND] [--keep FOLDER] [--pairs N] [PROGRAM ..]

Seeds go from FIRST up to END. Of each program that is answered on every input, N inputs are made that differ from its own in numbers
that the answer doesn't fix: the serial run has to make the same events but for values, by its certificate, and `settle` has to
give the same verdict; a fault has to be the same one at the same position. Programs that are named are tried with as many inputs as
there are seeds; their own input is NAME.in. What differs is kept in the folder. Long runs, and faults of a limit, are left out.
"""

import argparse
import collections
import json
import os
import random
import re
import subprocess
import sys
import tempfile

sys.dont_write_bytecode = True
from random_programs import TOP, Writer

COUNT = 6  # numbers of an input
EDGES = (0, 1, -1, 2, 3, 5, 7, 2**31, -(2**31), 2**63 - 1, -(2**63))
VALUES = re.compile(rb"^((?:read \d+|write \d+|(?:update|set|value) \d+ \d+|print|result)) -?\d+", re.MULTILINE)
LIMITS = ("fault 204", "fault 205", "fault 206")


class Reader(Writer):
    """Programs that read their data from the input: at known places, and now and then at computed ones."""

    def __init__(self, seed):
        super().__init__(seed)
        self.decides = self.pick(0, 0.02, 0.1, 0.5)  # how often an expression that decides may read what an input left

    def number(self):
        return f"input({self.chance.randrange(COUNT)})" if self.rarely(0.5) else super().number()

    def expression(self, scope, depth=0):
        """As ever, but seldom with words that decide other than constants."""
        made = super().expression(scope, depth)
        for mark in ("/", "%", "&&", "||", "input("):
            if mark in made and not self.rarely(self.decides) and "input" in made:
                return f"({self.number()} {self.pick(*'+-*')} {self.number()})"
        return made

    def statement(self, scope, depth, place):
        made = super().statement(scope, depth, place)
        if made.startswith("if (") and not self.rarely(self.decides):
            return f"{self.chance.choice(self.of_kind(scope, 'written'))} += {self.number()};"
        return made


class Tool:
    """The program that is tried, in a room of its own."""

    def __init__(self, command, room):
        self.command, self.room = command.split(), room

    def lay(self, name, text):
        with open(f"{self.room}/{name}", "w", encoding="ascii") as it:
            it.write(text)

    def says(self, *words):
        ran = subprocess.run([*self.command, *words], cwd=self.room, capture_output=True, check=False)
        return ran.stdout, ran.stderr

    def run_on(self, name):
        """What a serial run makes on an input, without values: the certificate's lines, or the fault; and the verdict."""
        out, err = self.says("certify", "program.c", "--input", name)
        events = VALUES.sub(rb"\1", out) if out else err.splitlines()[:1]
        verdict = self.says("settle", "program.c", "--input", name, "--short")
        return events, [it.splitlines()[:1] for it in verdict]


def written(numbers):
    return " ".join(map(str, numbers))


def alike(chance, numbers, fixed):
    """Another input, which agrees with this one at the fixed positions."""
    share = chance.choice((0.2, 0.5, 1))

    def other(old):
        kind = chance.randrange(3)
        if chance.random() > share:
            return old
        return chance.choice(EDGES) if kind == 0 else chance.randrange(-9, 10) if kind == 1 else chance.randrange(-(2**63), 2**63)

    return [old if n in fixed else other(old) for n, old in enumerate(numbers)]


def answered(tool, numbers):
    """The positions that the answer fixes where it speaks of every input, and what kind of answer it is."""
    tool.lay("own", written(numbers))
    out, err = tool.says("settle", "program.c", "--input", "own", "--every", "--json")
    said = json.loads(out) if out else {"reply": err.decode()}
    if said["reply"].startswith(LIMITS):
        return None, "left out: a limit"
    if "every" not in said:
        return None, "of this input alone"
    fixed = {it[0] for it in said["every"]["fixed"]}
    return fixed, "depend on none" if not fixed else "depend on all" if len(fixed) == len(numbers) else "depend on some"


def compare(tool, chance, numbers, pairs, seen):
    """Tries so many alike inputs of the program that lies in the room; whether one differs."""
    fixed, kind = answered(tool, numbers)
    seen[kind] += 1
    if fixed is None or len(fixed) == len(numbers):
        return None
    events, verdict = tool.run_on("own")
    seen["faults" if isinstance(events, list) else "races" if b": refused" in verdict[0][0] else "settled"] += 1
    for _ in range(pairs):
        others = alike(chance, numbers, fixed)
        tool.lay("other", written(others))
        seen["pairs"] += 1
        if tool.run_on("other") != (events, verdict):
            seen["pairs that differ"] += 1
            return others
    return None


def main():
    known = argparse.ArgumentParser(description=__doc__, formatter_class=argparse.RawDescriptionHelpFormatter)
    known.add_argument("first", type=int)
    known.add_argument("end", type=int)
    known.add_argument("programs", nargs="*")
    known.add_argument("--cilk", default=f"{TOP}/cilk")
    known.add_argument("--keep", default=".")
    known.add_argument("--pairs", type=int, default=20)
    words = known.parse_intermixed_args()
    seen = collections.Counter()

    def differs(name, text, numbers, others):
        with open(f"{words.keep}/differs_{name}", "w", encoding="ascii") as it:
            it.write(f"{text}// {written(numbers)}\n// {written(others)}\n")
        print(f"{name}: differs on {written(others)}", flush=True)

    with tempfile.TemporaryDirectory(prefix="inputs-") as room:
        tool = Tool(words.cilk, room)
        for path in words.programs:
            text, own = (open(it, encoding="ascii").read() for it in (path, f"{path.removesuffix('.c')}.in"))
            tool.lay("program.c", text)
            numbers = [int(it) for it in own.split()]
            others = compare(tool, random.Random(f"{path} {words.first}"), numbers, words.end - words.first, seen)
            if others:
                differs(os.path.basename(path), text, numbers, others)
        for seed in () if words.programs else range(words.first, words.end):
            chance, text = random.Random(f"input {seed}"), Reader(seed).program()
            tool.lay("program.c", text)
            numbers = [chance.randrange(-9, 10) for _ in range(COUNT)]
            others = compare(tool, chance, numbers, words.pairs, seen)
            if others:
                differs(f"{seed}.c", text, numbers, others)
    print("; ".join(f"{kind}: {count}" for kind, count in sorted(seen.items())))
    return 1 if seen["pairs that differ"] else 0


if __name__ == "__main__":
    sys.exit(main())
