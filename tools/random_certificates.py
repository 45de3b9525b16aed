#!/usr/bin/env python3
"""Makes programs by chance, damages their certificates, and compares the tool with tools/second_certificate.py.

random_certificates.py FIRST END [--cilk COMMAND] [--keep FOLDER] [--damages N] [--every] [PROGRAM ..]

Seeds go from FIRST up to END. What `certify` writes has to be the second reading's certificate, byte for byte; what
`check` answers of it, also by two helpers, has to be the second reading's verdict, in both versions of the format, and the same of N damaged
certificates of each program. Programs that are named are compared in place of the ones made by chance, with as many
damages as there are seeds; their input is NAME.in where there is one. With `--every` each damage of one byte or one
line is made in place of those by chance: for certificates of some hundred bytes. What differs is kept in the folder.
Long runs, and faults of a limit, are left out.
"""

import argparse
import collections
import os
import random
import re
import subprocess
import sys
import tempfile
import threading

sys.dont_write_bytecode = True
import random_programs
import second_certificate
from random_programs import INPUTS, MONOIDS, TOP, Long

MOST_COUNTED = 5000  # events of a run that isn't too long
EDGES = ("0", "1", "-1", "00", "01", "-0", "+1", "4294967295", "4294967296", "9223372036854775807", "65536", "65537")
EDGES += ("9223372036854775808", "-9223372036854775808", "-9223372036854775809", "1000000", "1000001", "", "x", "1\r")
OTHERS = [bytes([byte]) for byte in b"0123456789 \n\r\t-+ae\0\xff"]


class Apart(random_programs.Writer):
    """Programs whose frames share reducers and hardly a cell, so that a race is rare."""

    def own(self, scope):
        return {name: kind for name, kind in scope.items() if kind in MONOIDS}

    def element(self, scope, depth):
        if any(isinstance(kind, int) for kind in scope.values()):
            return super().element(scope, depth)
        return self.chance.choice(self.of_kind(scope, "written"))

    def call(self, scope, kinds):
        made = super().call(scope, kinds)
        return made if "void" in kinds else made.replace("cilk_spawn ", "")

    def block(self, scope, depth, place):
        if place != "turn":
            return super().block(scope, depth, place)
        name = self.new("v")
        return "{ " + f"int {name} = 2; " + super().block({**self.own(scope), name: "written"}, depth, place)[2:]

    def function(self, scope):
        name, kind, own = self.new("f"), self.pick("int", "int", "void"), self.own(scope)
        first, heads, parameters = self.new("p"), [], [None]
        heads.append(f"int {first}")
        own[first] = "written"
        for _ in range(self.chance.randrange(3)):
            parameter, monoid = self.new("p"), self.pick(*MONOIDS)
            own[parameter] = monoid
            heads.append(f"int cilk_reducer({monoid}) {parameter}")
            parameters.append(monoid)
        text = f"{kind} {name}({', '.join(heads)}) {self.body(own, kind)}"
        self.functions.append((name, kind, parameters))
        return text

    def program(self):
        text = super().program()
        if self.rarely(0.4):
            text = re.sub(r"value\(\w+\)", "input_count()", text).replace("set(", "update(")
        return text


class Shapes:
    """Programs of many strands: spawns, calls, syncs and loops, and among them now and then an event that may race."""

    def __init__(self, seed):
        self.chance = random.Random(seed)
        self.rare = self.chance.choice((0, 0.05, 0.15, 0.3))  # how often a cell is written, or a view made or read

    def act(self):
        cell, reducer = self.chance.choice("ab"), self.chance.choice("rs")
        if self.chance.random() > self.rare:
            return self.chance.choice((f"update({reducer}, 2);", "print(3);", f"print({cell});", f"print({cell});"))
        return self.chance.choice((f"{cell} = 4;", f"{cell}++;", f"set({reducer}, 5);", f"print(value({reducer}));"))

    def statement(self, below, depth=0):
        kind = self.chance.randrange(9)
        called = f"f{self.chance.randrange(below)}()" if below else "print(6)"
        if kind < 2 or kind < 5 and not below:
            return self.act()
        if kind < 5:
            return f"{self.chance.choice(('cilk_spawn ', 'cilk_spawn ', ''))}{called};"
        if kind == 5:
            return "cilk_sync;"
        if kind == 6 and depth < 2:
            body = " ".join(self.statement(below, depth + 1) for _ in range(self.chance.randrange(1, 3)))
            return f"cilk_for (int i{depth} = 0; i{depth} < {self.chance.randrange(1, 4)}; i{depth}++) {{ {body} }}"
        return ";"

    def body(self, below):
        return " ".join(self.statement(below) for _ in range(self.chance.randrange(1, 6)))

    def program(self):
        heads = "int a; int b = 1;\nint cilk_reducer(add) r;\nint cilk_reducer(append) s;\n"
        count = self.chance.randrange(1, 5)
        functions = "".join(f"void f{k}() {{ {self.body(k)} }}\n" for k in range(count))
        return f"{heads}{functions}int main() {{ {self.body(count)} {self.body(count)} }}\n"


class Counted(second_certificate.Recorded):
    def event(self, frame, *words):
        if self.events > MOST_COUNTED:
            raise Long
        return super().event(frame, *words)


class Damage:
    """Damages a certificate by chance, as a text or by its columns."""

    def __init__(self, seed):
        self.chance = random.Random(seed)

    def place(self, lines):
        """A line, as often one near the head, of the frames and strands or at the end as any."""
        near = self.chance.choice((3, 9, 30, len(lines), len(lines), len(lines)))
        at = self.chance.randrange(min(near, len(lines)))
        return len(lines) - 1 - at if self.chance.random() < 0.2 else at

    def number(self, lines):
        at = self.place(lines)
        words = lines[at].split(" ")
        which = self.chance.randrange(len(words))
        old = words[which]
        if re.fullmatch(r"-?\d+", old) and self.chance.random() < 0.6:
            words[which] = str(int(old) + self.chance.choice((-2, -1, 1, 2, 5)))
        elif self.chance.random() < 0.5:
            words[which] = self.chance.choice(self.chance.choice(lines).split(" "))
        else:
            words[which] = self.chance.choice(EDGES)
        lines[at] = " ".join(words)

    def double(self, lines):
        at = self.place(lines)
        lines.insert(at, lines[at])

    def delete(self, lines):
        del lines[self.place(lines)]

    def exchange(self, lines):
        one, other = self.place(lines), self.place(lines)
        lines[one], lines[other] = lines[other], lines[one]

    def copy(self, lines):
        lines[self.place(lines)] = lines[self.place(lines)]

    def spaces(self, lines):
        at = self.place(lines)
        forms = (" {}", "{} ", "{}\r", "{}\n", "{} 0", "{}" + " " * 96, "{}" + "0" * 90)
        lines[at] = self.chance.choice(forms).format(lines[at])

    def of_text(self, text):
        lines = text.decode().split("\n")[:-1]
        kinds = [self.number] * 3 + [self.double, self.delete, self.exchange, self.copy, self.spaces]
        for _ in range(self.chance.choice((1, 1, 1, 2, 3))):
            if lines:
                self.chance.choice(kinds)(lines)
        text = "".join(f"{line}\n" for line in lines).encode()
        kind = self.chance.randrange(20)
        if kind == 0:
            return text[: self.chance.randrange(len(text) + 1)]
        if kind == 1:
            return text + self.chance.choice((b"\n", b"end\n", b" ", b"\0", b"x" * 97, b"x" * 96))
        if kind == 2 and text:
            at = self.chance.randrange(len(text))
            return text[:at] + bytes([self.chance.randrange(256)]) + text[at + self.chance.randrange(2) :]
        return text

    def column(self, column):
        """An item doubled, deleted, put elsewhere or exchanged with another; the sizes of the text follow."""
        kind = self.chance.randrange(5)
        if not column:
            return
        one, other = self.chance.randrange(len(column)), self.chance.randrange(len(column))
        if kind == 0:
            column.insert(one, column[other])
        elif kind == 1:
            del column[one]
        elif kind == 2:
            del column[self.chance.randrange(len(column)) :]
        elif kind == 3:
            column.append(column[one])
        else:
            column[one], column[other] = column[other], column[one]

    def strand(self, strands):
        """One field of a strand is another's."""
        one, other = self.chance.choice(range(len(strands))), self.chance.choice(strands)
        which = self.chance.randrange(3)
        strands[one] = tuple(other[k] if k == which else it for k, it in enumerate(strands[one]))

    def source(self, events):
        reads = [k for k, words in enumerate(events) if words[0] == "read"]
        if reads:
            at = self.chance.choice(reads)
            events[at] = (*events[at][:3], max(events[at][3] + self.chance.choice((-1, 1, 3, -events[at][3])), 0))

    def of_columns(self, right):
        made = second_certificate.Certificate(right.version)
        made.frames, made.strands, made.events = list(right.frames), list(right.strands), list(right.events)
        made.result = right.result
        for _ in range(self.chance.choice((1, 1, 2))):
            kind = self.chance.randrange(8)
            if kind < 3:
                self.column((made.frames, made.strands, made.events)[kind])
            elif kind < 5 and made.strands:
                self.strand(made.strands)
            elif kind < 7:
                self.source(made.events)
            else:
                made.result = self.chance.choice((made.result + 1, -made.result, 0)) % 2**62
        return made.text()

    def damaged(self, run):
        right = run.right(self.chance.choice((1, 2, 2, 2)))
        return self.of_columns(right) if self.chance.random() < 0.5 else self.of_text(right.text())


def every(text):
    """The text with one byte changed, put in or deleted, cut, or with a line doubled, deleted or put for another."""
    for k in range(len(text) + 1):
        yield text[:k]
        yield text[:k] + text[k + 1 :]
        for byte in OTHERS:
            yield text[:k] + byte + text[k:]
            yield text[:k] + byte + text[k + 1 :]
    lines = text.splitlines(keepends=True)
    for k, line in enumerate(lines):
        yield b"".join(lines[:k] + lines[k + 1 :])
        for other in range(len(lines)):
            yield b"".join(lines[:other] + [line] + lines[other:])
            yield b"".join(lines[:other] + [line] + lines[other + 1 :])


class Comparison:
    """Compares one program after the other."""

    def __init__(self, words, room):
        self.words, self.room, self.seen = words, room, collections.Counter()
        self.input = f"{room}/input"

    def show(self, name, content):
        with open(f"{self.room}/{name}", "wb") as it:
            it.write(content)

    def call(self, *words):
        call = [*self.words.cilk.split(), words[0], f"{self.room}/program.c", *words[1:], "--input", self.input]
        return subprocess.run(call, capture_output=True, check=False)

    def check(self, certificate):
        self.show("certificate", certificate)
        ran = self.call("check", f"{self.room}/certificate")
        answer = ran.stdout.decode()
        helped = self.call("check", f"{self.room}/certificate", "--helpers", "2")
        if (helped.stdout, helped.stderr, helped.returncode) != (ran.stdout, ran.stderr, ran.returncode):
            return f"{answer!r}, and by two helpers {helped.stdout!r} and {helped.stderr!r} with status {helped.returncode}"
        if ran.stderr or not answer.endswith("\n") or ran.returncode != (0 if answer == "accepted\n" else 4):
            return f"{answer!r} and {ran.stderr!r} with status {ran.returncode}"
        return answer[:-1]

    def differs(self, seed, what, tool, second, certificate=b""):
        self.seen["differ"] += 1
        print(f"{seed}: {what}: {tool!r} by the tool, {second!r} by the second reading", flush=True)
        for name, content in (("c", self.text.encode()), ("cert", certificate)):
            with open(f"{self.words.keep}/differs_{seed}.{name}", "wb") as it:
                it.write(content)

    def expect(self, seed, what, tool, second, certificate=b""):
        if tool != second:
            self.differs(seed, what, tool, second, certificate)
        self.seen[f"{what}: {' '.join(second.split()[:2])}"] += 1

    def whole(self, run):
        """The verdict by SP-bags."""
        number, pair = (311, run.race) if run.race else (312, run.view_race)
        return f"refused {number} {pair[0]} {pair[1]}" if pair else "accepted"

    def compare(self, seed, run, damages):
        self.text = run.text
        self.show("program.c", run.text.encode())
        self.show("input", " ".join(map(str, run.inputs)).encode())
        made = self.call("certify")
        if made.stderr.startswith((b"fault 204", b"fault 205", b"fault 206")):
            self.seen["left out: a limit"] += 1
            return
        try:
            run.made()
        except Long:
            self.seen["left out: long"] += 1
            return
        if run.fault:
            self.expect(seed, "certify", made.stderr.decode().strip(), f"fault {run.fault} at {len(run.log) + 1}")
            if made.returncode != 3 or made.stdout:
                self.differs(seed, "certify", made.returncode, 3)
        else:
            if made.stdout != run.right(2).text():
                self.differs(seed, "certify", "another certificate", "its own", made.stdout)
            for version in (1, 2):
                certificate = run.right(version).text()
                verdict = second_certificate.judged(run, certificate)
                self.expect(seed, "certificate", self.check(certificate), verdict, certificate)
                if verdict != self.whole(run):
                    self.differs(seed, "two second readings", self.whole(run), verdict)
        if self.words.every:
            damaged = (it for version in (1, 2) for it in every(run.right(version).text()))
        else:
            damaged = (Damage(f"{seed} {k}").damaged(run) for k in range(damages))
        for k, certificate in enumerate(damaged):
            verdict = second_certificate.judged(run, certificate)
            self.expect(f"{seed}_{k}", "damaged", self.check(certificate), verdict, certificate)


def given(path):
    """A program's text, and its input: the file NAME.in, or the numbers that all others get."""
    with open(path, encoding="utf-8") as it:
        text = it.read()
    known = f"{os.path.splitext(path)[0]}.in"
    if not os.path.exists(known):
        return text, INPUTS
    with open(known, encoding="ascii") as it:
        return text, list(map(int, it.read().split()))


def main():
    known = argparse.ArgumentParser(description=__doc__, formatter_class=argparse.RawDescriptionHelpFormatter)
    known.add_argument("first", type=int)
    known.add_argument("end", type=int)
    known.add_argument("programs", nargs="*")
    known.add_argument("--cilk", default=f"{TOP}/cilk")
    known.add_argument("--keep", default=".")
    known.add_argument("--damages", type=int, default=5)
    known.add_argument("--every", action="store_true")
    words = known.parse_intermixed_args()
    with tempfile.TemporaryDirectory(prefix="random-") as room:
        comparison = Comparison(words, room)
        for path in words.programs:
            run = second_certificate.Recorded(*given(path))
            comparison.compare(os.path.basename(path), run, words.end - words.first)
        for seed in range(words.first, words.end) if not words.programs else []:
            writer = (random_programs.Writer, Apart, Shapes)[seed % 3](seed)
            comparison.compare(seed, Counted(writer.program(), INPUTS), words.damages)
    for kind, count in sorted(comparison.seen.items()):
        print(f"{kind}: {count}")


if __name__ == "__main__":
    sys.setrecursionlimit(10**6)
    threading.stack_size(2**29)
    working = threading.Thread(target=main)
    working.start()
    working.join()
