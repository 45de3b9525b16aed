#!/usr/bin/env python3
"""What each function and loop of a run takes, by a second reading of the program.

measured_rows.py PROGRAM [INPUT]                        rows as `cilk measure --csv` shows them
measured_rows.py --random FIRST END [--cilk COMMAND]    compares them for programs made by chance

The run is that of tools/second_opinion.py. Here all its events are kept, with what comes right before each; the span of a frame is
the longest chain between its first event and its last one, sought among all between them, and the work of a body is how many events
lie between the first and the last one of some frame of it. So both are slow, and meant for programs of some thousand events.
"""

import os
import subprocess
import sys
import tempfile
import threading

sys.dont_write_bytecode = True
import second_opinion

TOP = os.path.dirname(os.path.dirname(os.path.realpath(__file__)))
MOST_EVENTS = 3000


class Long(Exception):
    """A run that is too long for this reading."""


class Places(second_opinion.Parser):
    """Reads a text, and tells each loop by the token of its `cilk_for`."""

    def after_cilk_for(self):
        at = self.at
        return (*super().after_cilk_for(), at)


class Kept(second_opinion.Run):
    """The run, with its events: whose each is, and what comes right before it."""

    def __init__(self, text, inputs):
        super().__init__(text, inputs)
        self.opening, self.functions = Places(text).program()
        self.frame_of, self.before, self.starts = [], [], set()
        self.last_of, self.pending, self.body = {}, {}, {}
        self.parent = None

    def event(self, frame, *words):
        if self.events >= MOST_EVENTS:
            raise Long
        number, at = frame.number, len(self.frame_of)
        before = [self.last_of[number]] if number in self.last_of else []
        if words[0] == "begin" and self.parent is not None:
            before.append(self.last_of[self.parent])
        if words[0] == "sync":
            before += self.pending.pop(number, [])
        if words[0] in ("begin", "resume", "sync"):
            self.starts.add(at)
        self.frame_of.append(number)
        self.before.append(before)
        self.last_of[number] = at
        return super().event(frame, *words)

    def invoke(self, frame, is_spawn, body, cell=None):
        number, ended = frame.number, []

        def noted(child):
            self.parent = None
            result = body(child)
            ended.append(child.number)
            return result

        outer_event = self.event

        def event(its, *words):
            # after a child's last event: what follows a call comes after it, and what a sync ends waits for it
            if words[0] == "resume" and its.number == number:
                if is_spawn:
                    self.pending.setdefault(number, []).append(self.last_of[ended[-1]])
                else:
                    self.last_of[number] = self.last_of[ended[-1]]
            return outer_event(its, *words)

        self.parent = number
        self.event = event
        try:
            super().invoke(frame, is_spawn, noted, cell)
        finally:
            self.event = outer_event

    def function(self, frame, name, given):
        self.body[frame.number] = (0, list(self.functions).index(name), name)
        return super().function(frame, name, given)

    def turns(self, frame, scopes, part, first, end):
        self.body[frame.number] = (1, part[-1], "cilk_for")
        return super().turns(frame, scopes, part, first, end)


def longest(before, first, last):
    """The longest chain from one event to another."""
    length = {first: 1}
    for at in range(first + 1, last + 1):
        known = [length[it] for it in before[at] if it in length]
        if known:
            length[at] = max(known) + 1
    return length[last]


def rows(text, inputs):
    run = Kept(text, inputs)
    run.whole()
    made = {}
    for frame, body in run.body.items():
        own = [at for at, its in enumerate(run.frame_of) if its == frame]
        row = made.setdefault(body, [0, 0, 0, set(), 0])
        row[0] += 1
        row[1] += len(run.starts.intersection(own))
        row[2] += len(own)
        row[3].update(range(own[0], own[-1] + 1))
        row[4] = max(row[4], longest(run.before, own[0], own[-1]))
    lines = ["body,frames,strands,events,work,span"]
    for body in sorted(made):
        frames, strands, events, work, span = made[body]
        lines.append(f"{body[2]},{frames},{strands},{events},{len(work)},{span}")
    return lines


def show(path, inputs):
    numbers = []
    for it in inputs:
        with open(it, encoding="utf-8") as read:
            numbers = list(map(int, read.read().split()))
    with open(path, encoding="utf-8") as it:
        print("\n".join(rows(it.read(), numbers)))


def compare(first, end, command):
    import random_programs

    same = left = differ = 0
    with tempfile.TemporaryDirectory(prefix="rows-") as room:
        with open(f"{room}/input", "w", encoding="ascii") as it:
            it.write(" ".join(map(str, random_programs.INPUTS)))
        for seed in range(first, end):
            text = random_programs.Writer(seed).program()
            with open(f"{room}/program.c", "w", encoding="ascii") as it:
                it.write(text)
            try:
                wanted = rows(text, random_programs.INPUTS)
            except (Long, second_opinion.Fault):
                left += 1
                continue
            call = [*command.split(), "measure", f"{room}/program.c", "--csv", "--input", f"{room}/input"]
            shown = subprocess.run(call, capture_output=True, text=True, check=False).stdout
            found = [line.split(" at ")[0] + line[line.find(",") :] if " at " in line else line for line in shown.split("\n\n")[1].splitlines()]
            if found == wanted:
                same += 1
            else:
                differ += 1
                print(f"seed {seed}: {found} by the tool, {wanted} here", flush=True)
    print(f"same: {same}; left out: {left}; differ: {differ}")


def main():
    words = sys.argv[1:]
    if words[0] == "--random":
        command = words[4] if words[3:4] == ["--cilk"] else f"{TOP}/cilk"
        compare(int(words[1]), int(words[2]), command)
    else:
        show(words[0], words[1:])


if __name__ == "__main__":
    if len(sys.argv) < 2:
        sys.exit(__doc__)
    sys.setrecursionlimit(10**6)
    threading.stack_size(2**29)
    working = threading.Thread(target=main)
    working.start()
    working.join()
