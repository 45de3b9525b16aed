#!/usr/bin/env python3
"""Records the programs of this folder by recorder/cilkrec, each as it is and with -DRACY, judges the traces, and
compares with the table of README.md: the verdict, and file and line of both accesses. What `judge` explains of a race
is compared with explanations.txt, where gcc or g++ compiled the program; numbers of cells and of lines of a trace differ
by the machine, and are left out.

verdicts.py [PROGRAM] [--show] [--threads RUNS]

PROGRAM judge TRACE judges, with the answers of `cilk judge`; where no program is given, recorder/tests/oracle.py does.
Programs in C are compiled by gcc and clang, those in C++ by g++ and clang++; one that gcc can't record without its
headers for plugins isn't tried there. --show prints each verdict with its places. --threads runs the programs of
threads/ so often under ThreadSanitizer of g++ instead, and compares whether races are reported. The last line is
`N passed, M failed`.
"""

import argparse
import glob
import os
import re
import shutil
import subprocess
import sys
import tempfile

HERE = os.path.dirname(os.path.realpath(__file__))
TOP = os.path.dirname(os.path.dirname(HERE))
CILKREC = os.path.join(TOP, "recorder", "cilkrec")
ORACLE = os.path.join(TOP, "recorder", "tests", "oracle.py")
EXPLAINED = os.path.join(HERE, "explanations.txt")
ROW = re.compile(r"\| `(\w+\.\w+)` \| `refused (\d+)` \| (\w+) at (\S+) \| (\w+) at (\S+) \|")

UNTRIED = "isn't recorded without gcc's plugin"


def wanted():
    """Each program's verdict with -DRACY by the table: the refusal's number, and both accesses."""
    with open(os.path.join(HERE, "README.md"), encoding="utf-8") as f:
        rows = [found.groups() for found in map(ROW.match, f) if found]
    return {name: (f"refused {number}", f"{p} at {at}", f"{q} at {to}") for name, number, p, at, q, to in rows}


def explanations():
    """Each program's explanation with -DRACY by explanations.txt: a title, and the lines up to the next one."""
    with open(EXPLAINED, encoding="utf-8") as f:
        parts = re.split(r"^== (\S+)\n", f.read(), flags=re.M)
    return dict(zip(parts[1::2], parts[2::2]))


def without_numbers(text):
    """An explanation without its folder and without the numbers of cells and of a trace's lines."""
    text = re.sub(r"^\S*/", "", text, flags=re.M)
    text = re.sub(r"cells? \d+( to \d+)?( and \d+( to \d+)?)?", "cells N", text)
    return re.sub(r"\bline \d+", "line N", text)


def run(words, folder, **extra):
    """A finished process, with its texts."""
    env = dict(os.environ, CILKREC_QUIET="1", **extra)
    return subprocess.run(words, cwd=folder, env=env, capture_output=True, text=True, errors="replace", check=False)


def answer(program, trace, folder):
    """The words of the verdict: `race-free`, or `refused` with the number and both positions; or what went wrong. And
    the explanation, where a program judges."""
    if program:
        done = run([*program.split(), "judge", trace, "--sites", "sites"], folder)
        return done.stdout.split() or [f"status {done.returncode}: {done.stderr}"], done.stderr
    done = run([sys.executable, ORACLE, trace], folder)
    first = done.stdout.split("\n")[0] or done.stderr
    return first.replace("view-read race", "refused 312").replace("race ", "refused 311 ").split(), ""


def access(folder, position):
    """The access at a position of the trace: its kind, and file and line by the table of sites."""
    with open(os.path.join(folder, "trace"), encoding="ascii") as f:
        line = next(line for k, line in enumerate(f, 1) if k == position).split()
    with open(os.path.join(folder, "sites"), encoding="utf-8", errors="replace") as f:
        sites = dict(row.split()[:2] for row in f if len(row.split()) > 2)
    return f"{line[0]} at {os.path.basename(sites.get(line[-1], '?'))}"


def verdict(compiler, path, options, program):
    """What is said of a program's run: the verdict, of a race both accesses, and by gcc and g++ the explanation."""
    with tempfile.TemporaryDirectory(prefix="verdicts-") as folder:
        done = run([CILKREC, compiler, *options, path, "-o", "prog", "-lm"], folder)
        if done.returncode:
            return (done.stderr,)
        run(["./prog"], folder, CILK_TRACE="trace", CILK_TRACE_FORM="text", CILK_SITES="sites", CILKREC_ALL="1")
        words, text = answer(program, "trace", folder)
        if len(words) != 4:
            return (" ".join(words),)
        places = (access(folder, int(position)) for position in words[2:])
        return (" ".join(words[:2]), *places, *([without_numbers(text)] if text and compiler[0] == "g" else []))


def recorded(words):
    """Of each program, compiler and variant: its name, what is wanted, and what is said."""
    table, texts = wanted(), explanations()
    for path in sorted(glob.glob(f"{HERE}/*.c") + glob.glob(f"{HERE}/*.cpp")):
        name = os.path.basename(path)
        for compiler in ("gcc", "clang") if name.endswith(".c") else ("g++", "clang++"):
            if not shutil.which(compiler):
                print(f"{name}: {compiler} isn't here", flush=True)
                continue
            said = verdict(compiler, path, [], words.program)
            if UNTRIED in said[0]:
                print(f"{name}: not tried by {compiler}, whose headers for plugins aren't here", flush=True)
                continue
            yield f"{name} {compiler}", ("race-free",), said
            want = table.get(name, ()) + ((texts.get(name),) if words.program and compiler[0] == "g" else ())
            yield f"{name} -DRACY {compiler}", want, verdict(compiler, path, ["-DRACY"], words.program)


def in_threads(words):
    """The same of the programs of threads/: whether ThreadSanitizer reports a race."""
    for path in sorted(glob.glob(f"{HERE}/threads/*.cpp")):
        for option, want in (("-URACY", "none"), ("-DRACY", "some")):
            with tempfile.TemporaryDirectory(prefix="verdicts-") as folder:
                run(["g++", "-O1", "-g", "-pthread", "-fsanitize=thread", option, path, "-o", "prog"], folder)
                races = sum("data race" in run(["./prog"], folder).stderr for _ in range(words.threads))
            print(f"{os.path.basename(path)} {option}: reported in {races} of {words.threads} runs", flush=True)
            yield f"{os.path.basename(path)} {option}", want, "some" if races else "none"


def main():
    """The command."""
    known = argparse.ArgumentParser(description=__doc__, formatter_class=argparse.RawDescriptionHelpFormatter)
    known.add_argument("program", nargs="?")
    known.add_argument("--show", action="store_true")
    known.add_argument("--threads", type=int, default=0)
    words, passed, failed = known.parse_args(), 0, 0
    if words.program and os.path.exists(words.program.split()[0]):
        words.program = os.path.abspath(words.program)
    for name, want, got in (in_threads if words.threads else recorded)(words):
        passed, failed = passed + (want == got), failed + (want != got)
        if want != got:
            print(f"FAILED {name}: {got}, expected {want}", flush=True)
        elif words.show:
            print(f"{name}: {'; '.join(got)}", flush=True)
    print(f"{passed} passed, {failed} failed")
    return failed > 0


if __name__ == "__main__":
    sys.exit(main())
