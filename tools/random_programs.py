#!/usr/bin/env python3
"""Makes programs by chance, and compares what `run` and `settle` show of them with tools/second_opinion.py.

random_programs.py FIRST END [--cilk COMMAND] [--keep FOLDER]

Seeds go from FIRST up to END. Outcomes have to be equal, faults with their positions, and first races. A program that differs is
kept in the folder (the present one where none is given). Long runs, and faults of a limit, are left out and counted.
"""

import argparse
import collections
import os
import random
import subprocess
import sys
import tempfile
import threading

sys.dont_write_bytecode = True
import second_opinion

TOP = os.path.dirname(os.path.dirname(os.path.realpath(__file__)))
MONOIDS = ("add", "min", "max", "append", "affine")
INPUTS = [4, -9, 12]
MOST_EVENTS = 20000


class Long(Exception):
    """A run that is too long for the second reading."""


class Writer:
    """Writes a program. A scope has each name's kind: `written`, `read`, an array's length, or a reducer's monoid."""

    def __init__(self, seed):
        self.chance = random.Random(seed)
        self.made = 0
        self.functions = []  # name, `int` or `void`, and of each parameter its monoid or None

    def pick(self, *parts):
        return self.chance.choice(parts)

    def rarely(self, share):
        return self.chance.random() < share

    def new(self, letter):
        self.made += 1
        return f"{letter}{self.made}"

    def of_kind(self, scope, *kinds):
        return [name for name, kind in scope.items() if kind in kinds]

    def number(self):
        return self.pick("0", "1", "2", "3", "7", "9223372036854775807", str(self.chance.randrange(10**12)))

    def element(self, scope, depth):
        arrays = [(name, kind) for name, kind in scope.items() if isinstance(kind, int)]
        name, length = self.chance.choice(arrays)
        inside = str(self.chance.randrange(length))
        if self.rarely(0.3):
            inside = f"({self.expression(scope, depth + 2)}) % {length}"
        return f"{name}[{inside}]"

    def expression(self, scope, depth=0):
        kind = self.chance.randrange(12) if depth < 3 else self.chance.randrange(4)
        variables = self.of_kind(scope, "written", "read")
        reducers = self.of_kind(scope, *MONOIDS)
        if kind < 4:
            return self.chance.choice(variables) if variables and kind > 1 else self.number()
        if kind == 4:
            return self.element(scope, depth)
        if kind == 5:
            return f"{self.pick('-', '!', '- -', '!!')}({self.expression(scope, depth + 1)})"
        if kind == 6:
            return f"value({self.chance.choice(reducers)})" if reducers else "input_count()"
        if kind == 7 and self.rarely(0.3):
            return f"input({self.pick('0', '1', '2', self.expression(scope, depth + 2))})"
        left, right = self.expression(scope, depth + 1), self.expression(scope, depth + 1)
        mark = self.pick(*"+-*+-*/%<>", "<=", ">=", "==", "!=", "&&", "||")
        if mark in "/%" and self.rarely(0.85):
            right = self.pick("3", "7", "-2", "(1 + 2)", "-1")
        return f"({left} {mark} {right})" if self.rarely(0.6) else f"{left} {mark} {right}"

    def call(self, scope, kinds):
        """A call or spawn of a function of these kinds, or nothing where there is none that can be called."""
        fitting = [it for it in self.functions if it[1] in kinds]
        if not fitting:
            return ""
        name, _, parameters = self.chance.choice(fitting)
        given = []
        for monoid in parameters:
            reducers = self.of_kind(scope, monoid)
            if monoid and not reducers:
                return ""
            given.append(self.chance.choice(reducers) if monoid else self.expression(scope, 2))
        return f"{self.pick('', 'cilk_spawn ')}{name}({', '.join(given)})"

    def declaration(self, scope):
        right = self.call(scope, ["int"]) if self.rarely(0.4) else ""
        right = right or self.expression(scope, 1)
        name = self.new("v")
        scope[name] = "written"
        return f"int {name};" if self.rarely(0.3) else f"int {name} = {right};"

    def loop(self, scope, depth, place):
        name = self.new("i")
        body = self.block({**scope, name: "read"}, depth + 1, place)
        if self.rarely(0.5):
            return f"for (int {name} = 0; {name} < {self.chance.randrange(1, 4)}; {name}++) {body}"
        first = self.pick("0", "0", "1", "-2", f"{self.expression(scope, 2)} % 3")
        end = self.pick("1", "2", "3", "5", f"{self.expression(scope, 2)} % 4")
        body = self.block({**scope, name: "read"}, depth + 1, "turn")
        return f"cilk_for (int {name} = {first}; {name} < {end}; {name}++) {body}"

    def statement(self, scope, depth, place):
        """A statement of a function of this kind, or of a turn of a `cilk_for`."""
        kind = self.chance.randrange(16)
        written, reducers = self.of_kind(scope, "written"), self.of_kind(scope, *MONOIDS)
        if kind < 2:
            return self.declaration(scope)
        if kind < 5:
            return f"{self.chance.choice(written)} {self.pick('=', '+=', '-=', '*=')} {self.expression(scope)};"
        if kind == 5:
            name = self.chance.choice(written)
            return self.pick(f"{name}++;", f"--{name};")
        if kind < 8:
            return f"{self.element(scope, 0)} {self.pick('=', '=', '+=', '-=', '*=')} {self.expression(scope, 1)};"
        if kind == 8:
            return f"{self.call(scope, ['int', 'void'])};"
        if kind == 9:
            right = self.call(scope, ["int"])
            return f"{self.chance.choice(written)} = {right};" if right else ";"
        if kind == 10:
            return "cilk_sync;"
        if kind == 11:
            return f"print({self.expression(scope)});"
        if kind == 12 and reducers:
            action = self.pick("update", "update", "update", "set")
            return f"{action}({self.chance.choice(reducers)}, {self.expression(scope, 1)});"
        if kind == 13 and depth < 3:
            other = f" else {self.block(scope, depth + 1, place)}" if self.rarely(0.5) else ""
            return f"if ({self.expression(scope)}) {self.block(scope, depth + 1, place)}{other}"
        if kind == 14 and depth < 3:
            return self.loop(scope, depth, place)
        if kind == 15 and depth and place != "turn" and self.rarely(0.5):
            return f"return {self.expression(scope)};" if place == "int" else "return;"
        return ";"

    def block(self, scope, depth, place):
        scope = dict(scope)
        return "{ " + " ".join(self.statement(scope, depth, place) for _ in range(self.chance.randrange(1, 5))) + " }"

    def body(self, scope, place):
        parts = []
        if self.rarely(0.35):
            name, monoid = self.new("l"), self.pick(*MONOIDS)
            scope[name] = monoid
            parts.append(f"int cilk_reducer({monoid}) {name};")
        parts += [self.statement(scope, 0, place) for _ in range(self.chance.randrange(2, 8))]
        parts += [f"return {self.expression(scope)};"] if place == "int" else []
        return "{ " + " ".join(parts) + " }"

    def function(self, scope):
        name, kind = self.new("f"), self.pick("int", "int", "void")
        scope, heads, parameters = dict(scope), [], []
        for _ in range(self.chance.randrange(4)):
            parameter, monoid = self.new("p"), self.pick(*MONOIDS) if self.rarely(0.25) else None
            scope[parameter] = monoid or "written"
            heads.append(f"int cilk_reducer({monoid}) {parameter}" if monoid else f"int {parameter}")
            parameters.append(monoid)
        text = f"{kind} {name}({', '.join(heads)}) {self.body(scope, kind)}"
        self.functions.append((name, kind, parameters))
        return text

    def program(self):
        scope, lines = {}, []
        for _ in range(self.chance.randrange(1, 4)):
            name = self.new("g")
            scope[name] = "written"
            lines.append(f"int {name}{self.pick('', ' = 3', ' = -5')};")
        for _ in range(self.chance.randrange(1, 3)):
            name, length = self.new("a"), self.chance.randrange(1, 6)
            scope[name] = length
            lines.append(f"int {name}[{length}];")
        for _ in range(self.chance.randrange(4)):
            name, monoid = self.new("r"), self.pick(*MONOIDS)
            scope[name] = monoid
            lines.append(f"int cilk_reducer({monoid}) {name};")
        lines += [self.function(scope) for _ in range(self.chance.randrange(4))]
        return "\n".join([*lines, f"int main() {self.body(scope, 'int')}", ""])


class Counted(second_opinion.Run):
    def event(self, frame, *words):
        if self.events > MOST_EVENTS:
            raise Long
        return super().event(frame, *words)


def second(text):
    """What the second reading finds: what `run` shows, what `settle` shows, and the race if there is one."""
    run = Counted(text, INPUTS)
    try:
        lines = run.whole()
    except second_opinion.Fault as fault:
        return f"fault {fault} at {run.events + 1}\n", "", "a fault"
    shown = "".join(f"{line}\n" for line in lines)
    if run.race:
        return shown, "refused 311 {} {}\n".format(*run.race), "a race"
    if run.view_race:
        return shown, "refused 312 {} {}\n".format(*run.view_race), "a view-read race"
    return shown, f"settled\n{shown}", "no race"


def answer(words, command, room):
    """What a command shows of the program: standard output and standard error."""
    call = [*words.cilk.split(), command, f"{room}/program.c", "--input", f"{room}/input"]
    ran = subprocess.run(call, capture_output=True, text=True, check=False)
    return ran.stdout, ran.stderr


def compare(words, room, seed, seen):
    text = Writer(seed).program()
    with open(f"{room}/program.c", "w", encoding="ascii") as it:
        it.write(text)
    out, err = answer(words, "run", room)
    if err.startswith(("fault 204", "fault 205", "fault 206")):
        seen["left out: a limit"] += 1
        return
    try:
        shown, verdict, kind = second(text)
    except Long:
        seen["left out: long"] += 1
        return
    settled = answer(words, "settle", room)[0]
    if (shown, verdict) == (out + err, settled):
        seen[kind] += 1
        return
    seen["differ"] += 1
    with open(f"{words.keep}/differs_{seed}.c", "w", encoding="ascii") as it:
        it.write(text)
    tool = out + err
    print(f"seed {seed}: {tool[-80:]!r}, {settled!r} by the tool, {shown[-80:]!r}, {verdict!r} by the second reading", flush=True)


def main():
    known = argparse.ArgumentParser(description=__doc__, formatter_class=argparse.RawDescriptionHelpFormatter)
    known.add_argument("first", type=int)
    known.add_argument("end", type=int)
    known.add_argument("--cilk", default=f"{TOP}/cilk")
    known.add_argument("--keep", default=".")
    words = known.parse_args()
    seen = collections.Counter()
    with tempfile.TemporaryDirectory(prefix="random-") as room:
        with open(f"{room}/input", "w", encoding="ascii") as it:
            it.write(" ".join(map(str, INPUTS)))
        for seed in range(words.first, words.end):
            compare(words, room, seed, seen)
    print("; ".join(f"{kind}: {count}" for kind, count in sorted(seen.items())))


if __name__ == "__main__":
    sys.setrecursionlimit(10**6)
    threading.stack_size(2**29)
    working = threading.Thread(target=main)
    working.start()
    working.join()
