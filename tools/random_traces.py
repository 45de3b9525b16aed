#!/usr/bin/env python3
"""Makes traces by chance, and compares what a program says of them with recorder/tests/oracle.py.

random_traces.py COUNT [--seed N] [--program WORDS] [--jobs N] [--broken SHARE] [--binary] [--keep FOLDER]

The program is called with the file of a trace as its last word; `./cilk judge` where none is given. It has to answer as
`cilk judge` does: `race-free`, or `refused 311 P Q` or `refused 312 P Q` with status 4, with both positions of the
first race. A share of the texts (0.1 if none is given) is broken: cut off, or with a line or byte changed. For those
`trace 301 at LINE` or `trace 302 at LINE` on the error stream is wanted with status 2, or a verdict where they are
still traces. With --binary traces are written in the binary form. A trace that differs is kept in the folder (the present one where none is given). The last line is
`N differences`, and the status is 1 if N isn't 0.
"""

import argparse
import collections
import io
import multiprocessing
import os
import random
import subprocess
import sys
import tempfile

sys.dont_write_bytecode = True
TOP = os.path.dirname(os.path.dirname(os.path.realpath(__file__)))
sys.path[:0] = [f"{TOP}/recorder", f"{TOP}/recorder/tests"]
import cilktrace  # noqa: E402
import oracle  # noqa: E402

REFUSALS = {"race": 311, "view-read race": 312}
BATCH = 200


class Writer:
    """Writes the lines of a trace."""

    def __init__(self, seed):
        self.chance = random.Random(seed)
        self.lines = ["cilktrace 1"]
        self.left = self.chance.choice([4, 8, 15, 15, 30, 30, 60, 120, 300])
        self.deepest = self.chance.choice([1, 2, 3, 5, 9, 30])
        self.cells = self.chance.choice([1, 2, 4, 8, 16, 64, 300, 20000])
        self.base = self.chance.choice([0, 0, 0, 4090, 70000])
        self.sizes = self.chance.choice([[1], [4], [1, 2, 4, 8], [1, 3, 5, 16], [1, 8, 100, 4096]])
        self.clears = self.chance.choice([0, 0.05, 0.3])
        self.writes = self.chance.choice([0.05, 0.3, 0.8])
        self.reducers = self.chance.choice([0, 0, 1, 2, 3])
        self.accesses = self.chance.choice([0, 0.4, 0.6, 0.8])
        self.spawned = self.chance.choice([0.2, 0.5, 0.8, 1])
        self.unseen = self.chance.choice([0, 0, 0.05, 0.3])
        self.alive = set()

    def access(self):
        """A read, a write, a clear, or a call that isn't recorded."""
        if self.chance.random() < self.unseen:
            return f"unseen {self.chance.randrange(9)}"
        count = self.chance.choice(self.sizes)
        cell = self.base + self.chance.randrange(self.cells)
        if self.chance.random() < 0.6:
            cell -= cell % count
        if self.chance.random() < self.clears:
            return f"clear {cell} {count}"
        word = "write" if self.chance.random() < self.writes else "read"
        return f"{word} {cell} {count} {self.chance.randrange(9)}"

    def reducer(self):
        """A line of a reducer, of those that may come here."""
        number = self.chance.randrange(self.reducers)
        word = "create"
        if number in self.alive:
            word = self.chance.choice(["update", "update", "update", "value", "value", "retire"])
        (self.alive.add if word == "create" else self.alive.discard if word == "retire" else bool)(number)
        return f"{word} {number} {self.chance.randrange(9)}"

    def frame(self, depth):
        """A frame's lines."""
        for _ in range(self.chance.randrange(9)):
            if self.left <= 0:
                return
            self.left -= 1
            kind = self.chance.random()
            if kind < self.accesses:
                self.lines.append(self.access())
            elif self.reducers and kind < self.accesses + 0.15:
                self.lines.append(self.reducer())
            elif self.chance.random() < 0.3:
                self.lines.append("sync")
            elif depth < self.deepest:
                self.lines.append(f"enter {self.chance.randrange(9)}")
                self.frame(depth + 1)
                self.lines.append("spawned" if self.chance.random() < self.spawned else "called")

    def text(self):
        """The whole text."""
        while self.left > 0:
            self.frame(0)
        return "\n".join(self.lines + ["end", ""]).encode()


def broken(text, chance):
    """A text with one thing changed."""
    lines, kind = text.split(b"\n")[:-1], chance.randrange(7)
    at, place = chance.randrange(len(lines)), chance.randrange(len(text))
    if kind == 0:
        return text[:place]
    if kind == 1:
        return text[:place] + chance.choice([b"\n", b" ", b"0", b"1", b"x", b"\r", b""]) + text[place + 1 :]
    if kind == 2:
        return text[:place] + chance.choice([b"\n", b" ", b"0", b"9", b"s", b"\0", b"\xff"]) + text[place:]
    if kind == 3:
        return text + chance.choice([b"\n", b"x", b"end\n", b"sync\n", b"sync"])
    if kind == 4:
        del lines[at]
    elif kind == 5:
        lines.insert(at, chance.choice(lines))
    else:
        lines[at] = chance.choice([
            b"end", b"called", b"spawned", b"", b"read 1 0 1", b"read 1 4097 1", b"write 4294967295 2 1", b"retire 7 1",
            b"clear 4294967291 5", b"enter 4294967296", b"sync".ljust(65), b"enter 1".rjust(8), b"write  1 1 1",
            b"read 4294967295 1 4294967295", b"enter " + b"9" * 58, b"enter " + b"9" * 59, b"update 1 1",
            b"create 2 1"])
    return b"\n".join(lines + [b""])


def binary(text):
    """A text in the binary form."""
    out = io.BytesIO()
    cilktrace.write_binary(cilktrace.events(io.BytesIO(text)), out)
    return out.getvalue()


def broken_binary(data, chance):
    """A binary form with one thing changed: cut off, or with a byte changed, put in, left out or added."""
    kind, place = chance.randrange(5), chance.randrange(len(data))
    if chance.random() < 0.9:
        place = max(place, min(len(cilktrace.BINARY_HEADER), len(data) - 1))
    byte = bytes([chance.choice([0, 1, 2, 3, 4, 5, 6, 7, 8, 9, 10, 127, 128, 255, chance.randrange(256)])])
    if kind == 0:
        return data[:place]
    if kind == 1:
        return data[:place] + byte + data[place + 1 :]
    if kind == 2:
        return data[:place] + byte + data[place:]
    return data + byte if kind == 3 else data[:place] + data[place + 1 :]


def expected(text):
    """What is wanted of a trace: standard output, the error stream, the status."""
    try:
        trace = list(cilktrace.events(io.BytesIO(text)))
    except cilktrace.Malformed as e:
        return "", f"trace {302 if e.cut else 301} at {e.position}\n", 2
    word, *pair = oracle.verdict(trace)
    return (f"race-free{oracle.left_out(trace)}\n", "", 0) if not pair else (f"refused {REFUSALS[word]} {pair[0]} {pair[1]}\n", "", 4)


def compare(words, path, seed):
    """The kind of a trace, and what the program and the oracle say where they differ."""
    chance, text = random.Random(~seed), Writer(seed).text()
    text = binary(text) if words.binary else text
    if chance.random() < words.broken:
        text = (broken_binary if words.binary else broken)(text, chance)
    want = expected(text)
    with open(path, "wb") as file:
        file.write(text)
    done = subprocess.run([*words.program.split(), path], capture_output=True, text=True, errors="replace", check=False)
    got = done.stdout, done.stderr, done.returncode
    kind = " ".join((want[0] or want[1]).split()[:2])
    return kind, None if got == want else f"seed {seed}: {got}, expected {want}", text


def batch(work):
    """What comes of some seeds in a row: how many of each kind, and what differs."""
    first, end, words = work
    seen = collections.Counter()
    with tempfile.TemporaryDirectory(prefix="traces-") as room:
        for seed in range(first, end):
            kind, wrong, text = compare(words, f"{room}/trace", seed)
            seen[kind] += 1
            if wrong:
                seen["differences"] += 1
                print(wrong, flush=True)
                with open(f"{words.keep}/differs_{seed}.trace", "wb") as file:
                    file.write(text)
    return seen


def main():
    """The command."""
    known = argparse.ArgumentParser(description=__doc__, formatter_class=argparse.RawDescriptionHelpFormatter)
    known.add_argument("count", type=int)
    known.add_argument("--seed", type=int, default=0)
    known.add_argument("--program", default=f"{TOP}/cilk judge")
    known.add_argument("--jobs", type=int, default=1)
    known.add_argument("--broken", type=float, default=0.1)
    known.add_argument("--binary", action="store_true")
    known.add_argument("--keep", default=".")
    words = known.parse_args()
    end, seen = words.seed + words.count, collections.Counter()
    batches = [(first, min(first + BATCH, end), words) for first in range(words.seed, end, BATCH)]
    with multiprocessing.Pool(words.jobs) as pool:
        for part in pool.imap_unordered(batch, batches):
            seen += part
    differences = seen.pop("differences", 0)
    print("; ".join(f"{kind}: {count}" for kind, count in sorted(seen.items())))
    print(f"{differences} differences")
    return differences > 0


if __name__ == "__main__":
    sys.exit(main())
