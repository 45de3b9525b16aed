#!/usr/bin/env python3
"""Random programs that are both C or C++ and the small language of docs/LANGUAGE.md: the verdict on their recording
against another reading of the text. Whether they race is compared, and how (accesses, or views of reducers in C++).

fuzz.py FIRST END [COMPILER..] [--judge WORDS] [--check COMMAND] [--jobs N] [--batch N] [--keep FOLDER]

Seeds FIRST .. END - 1, by g++ and clang++ where no compiler is named. Traces are judged by tests/oracle.py, or by
`WORDS TRACE` with --judge "./cilk judge". The other reading is tools/second_opinion.py, or `COMMAND check` with --check
./cilk. N programs (25) are compiled as one. A program that differs is kept in the folder. The last line counts
differences, and the status is 1 if there are any, or if no program was compared.
"""

import argparse
import collections
import multiprocessing
import os
import random
import re
import subprocess
import sys
import tempfile

HERE = os.path.dirname(os.path.realpath(__file__))
TOP = os.path.dirname(os.path.dirname(HERE))
sys.path[:0] = [HERE, os.path.join(HERE, ".."), os.path.join(TOP, "tools")]
import parts  # noqa: E402
import random_programs  # noqa: E402

READINGS = {"no race": "race-free", "a race": "race", "a view-read race": "view-read race"}
ANSWERS = {"accepted": "race-free", "race-free": "race-free", "refused 311": "race", "refused 312": "view-read race"}
REDUCERS = """#include <cilk/opadd_reducer.h>
#define update(r, x) ((r) += (x))
#define set(r, x) ((r).set_value(x))
#define value(r) ((r).get_value())
"""


class Program:
    """One random text. Its names begin with `sSEED_`, so that several are one text of C."""

    def __init__(self, seed, is_cxx):
        self.r, self.functions, self.own = random.Random(seed), [], f"s{seed}_"
        self.cells = self.r.choice([2, 4, 8, 16])
        self.reducers = [f"{self.own}r{k}" for k in range(self.r.choice([0, 0, 1, 2]) if is_cxx else 0)]
        g = ", ".join(f"{self.own}g{k}" for k in range(3))
        lines = [f"int {g}, {self.own}a[{self.cells}];"] + [f"int cilk_reducer(add) {r};" for r in self.reducers]
        for f in range(self.r.randint(1, 4)):
            names = [f"p{i}" for i in range(self.r.randint(0, 2))]
            lines += [f"int {self.own}f{f}({', '.join('int ' + p for p in names)}) {{", *self.body(names)]
            self.functions.append((f"{self.own}f{f}", len(names)))
        lines += ["int main() {", *self.body([])]
        self.text = "\n".join(lines) + "\n"

    def body(self, names):
        """A function's lines."""
        reducers, lines = self.reducers, []
        if reducers and self.r.random() < 0.3:
            self.reducers = reducers + ["own"]
            lines = ["  int cilk_reducer(add) own;"]
        lines += self.statements(names, 0, 1) + self.statements(names, 0, 1) + [f"  return {self.value(names)};", "}"]
        self.reducers = reducers
        return lines

    def compiled_text(self):
        """The same in C or C++: words are `long`, and reducers those of `cilk/opadd_reducer.h`."""
        text = self.text.replace("int main()", f"int {self.own}main()").replace("int cilk_reducer(add)", "@")
        return re.sub(r"\bint\b", "long", text).replace("@", "cilk::opadd_reducer<long>")

    def value(self, names, depth=0):
        """An expression without calls."""
        k = self.r.random()
        if k < 0.3:
            return str(self.r.randint(0, 9))
        if k < 0.6 and names:
            return self.r.choice(names)
        if k < 0.7:
            return f"{self.own}g{self.r.randrange(3)}"
        if k < 0.8:
            return f"{self.own}a[{self.r.randrange(self.cells)}]"
        if k < 0.83 and self.reducers:
            return f"value({self.r.choice(self.reducers)})"
        return f"({self.value(names, depth + 1)} + {self.value(names, depth + 1)})" if depth < 2 else "1"

    def call(self, names, pad):
        """A call, spawned or not, with or without a result."""
        f, n = self.r.choice(self.functions)
        call = f"{f}({', '.join(self.value(names) for _ in range(n))})"
        call = ("cilk_spawn " if self.r.random() < 0.7 else "") + call
        writable, k = [v for v in names if v[0] in "xp"], self.r.random()
        if k < 0.4 and writable:
            return f"{pad}{self.r.choice(writable)} = {call};"
        if k < 0.6:
            names.append(f"x{self.r.randrange(100000)}")
            return f"{pad}int {names[-1]} = {call};"
        return f"{pad}{call};"

    def loop(self, names, depth, indent, word):
        """A loop of up to three turns."""
        pad, v = "  " * indent, f"i{self.r.randrange(100000)}"
        # A loop of one turn spawns it in a trace and calls it in the language, which tells for views.
        turns = self.r.choice([0, 2, 3]) if self.reducers else self.r.randint(0, 3)
        lines = [f"{pad}{word} (int {v} = 0; {v} < {turns}; {v}++) {{"]
        lines += self.statements(names + [v], depth + 1, indent + 1)
        if self.r.random() < 0.5:
            lines.append(f"{pad}  {self.own}a[{v} % {self.cells}] = {self.value(names)};")
        return lines + [pad + "}"]

    def statements(self, names, depth, indent):
        """One to four statements."""
        lines, names, pad = [], list(names), "  " * indent
        for _ in range(self.r.randint(1, 4)):
            k = self.r.random()
            if self.reducers and self.r.random() < 0.25:
                word, reducer = self.r.choice(["update"] * 9 + ["set"]), self.r.choice(self.reducers)
                lines.append(f"{pad}{word}({reducer}, {self.value(names)});")
            elif k < 0.12:
                lines.append(f"{pad}{self.own}g{self.r.randrange(3)} = {self.value(names)};")
            elif k < 0.36:
                lines.append(f"{pad}{self.own}a[{self.r.randrange(self.cells)}] = {self.value(names)};")
            elif k < 0.46:
                value = self.value(names)
                names.append(f"x{self.r.randrange(100000)}")
                lines.append(f"{pad}int {names[-1]} = {value};")
            elif k < 0.74 and self.functions:
                lines.append(self.call(names, pad))
            elif k < 0.88:
                lines.append(f"{pad}cilk_sync;")
            elif depth < 3:
                lines += self.loop(names, depth, indent, "cilk_for" if k < 0.94 else "for")
        return lines


def whole_text(programs, is_cxx):
    """One text of several programs; its first argument says which of them runs."""
    reducers = REDUCERS if is_cxx and any(p.reducers or "cilk_reducer" in p.text for p in programs) else ""
    calls = [f"  if (which == {k}) {p.own}main();" for k, p in enumerate(programs)]
    return "\n".join(["#include <cilk/cilk.h>", "#include <stdlib.h>", reducers, *(p.compiled_text() for p in programs),
                      "int main(int n, char **w) {", "  int which = atoi(w[1]);", *calls, "  return 0;", "}", ""])


def shown(command, folder):
    """The first two words on standard output, and what is on the error stream."""
    done = subprocess.run(command, cwd=folder, capture_output=True, text=True, check=False)
    return " ".join(done.stdout.split()[:2]), done.stderr


def read(text, words, folder):
    """What the other reading says, or None where the run is long or has a fault."""
    if not words.check:
        try:
            return READINGS.get(random_programs.second(text)[2])
        except random_programs.Long:
            return None
    with open(f"{folder}/p.c", "w", encoding="utf-8") as f:
        f.write(text)
    with open(f"{folder}/p.cert", "w", encoding="utf-8") as f:
        if subprocess.run([*parts.absolute(words.check), "certify", "p.c"], cwd=folder, stdout=f, check=False).returncode:
            return None
    answer = shown([*parts.absolute(words.check), "check", "p.c", "p.cert"], folder)[0]
    return ANSWERS.get(answer, answer)


def judged(words, folder, k):
    """The verdict on the recording of a program by its place."""
    if not words.judge:
        return parts.recorded(folder, ["./prog", str(k)])[0]
    parts.call(["./prog", str(k)], folder, CILK_TRACE="trace")
    answer, wrong = shown([*parts.absolute(words.judge), "trace"], folder)
    return ANSWERS.get(answer, answer + wrong)


def batch(work):
    """What comes of some seeds in a row: how many verdicts of each kind, and what differs."""
    first, end, words = work
    seen = collections.Counter()
    for compiler in words.compilers:
        is_cxx = compiler.endswith("++")
        programs = [Program(seed, is_cxx) for seed in range(first, end)]
        with tempfile.TemporaryDirectory(prefix="fuzz-") as folder:
            name = "q.cpp" if is_cxx else "q.c"
            with open(f"{folder}/{name}", "w", encoding="utf-8") as f:
                f.write(whole_text(programs, is_cxx))
            wrong = parts.compiled(folder, compiler, name, "-o", "prog")
            for k, program in enumerate(programs):
                want = read(program.text, words, folder)
                got = None if want is None else wrong or judged(words, folder, k)
                seen["left out" if want is None else want if want == got else "differences"] += 1
                if want != got:
                    print(f"seed {first + k} {compiler}: {got}, expected {want}", flush=True)
                    with open(f"{words.keep}/differs_{first + k}.c", "w", encoding="utf-8") as f:
                        f.write(program.text)
    return seen


def main():
    """The command."""
    known = argparse.ArgumentParser(description=__doc__, formatter_class=argparse.RawDescriptionHelpFormatter)
    known.add_argument("first", type=int)
    known.add_argument("end", type=int)
    known.add_argument("compilers", nargs="*", default=["g++", "clang++"])
    known.add_argument("--judge")
    known.add_argument("--check")
    known.add_argument("--jobs", type=int, default=1)
    known.add_argument("--batch", type=int, default=25)
    known.add_argument("--keep", default=".")
    words, seen = known.parse_args(), collections.Counter()
    starts = range(words.first, words.end, words.batch)
    with multiprocessing.Pool(words.jobs) as pool:
        for part in pool.imap_unordered(batch, [(s, min(s + words.batch, words.end), words) for s in starts]):
            seen += part
    differences = seen.pop("differences", 0)
    print("; ".join(f"{kind}: {count}" for kind, count in sorted(seen.items())))
    print(f"{differences} differences")
    if differences + sum(n for kind, n in seen.items() if kind != "left out") == 0:
        sys.exit("fuzz.py: nothing was compared")
    return differences > 0


if __name__ == "__main__":
    sys.exit(main())
