#!/usr/bin/env python3
"""Lists the rows of the tables of hints and cures, and tells which are shown by no case.

tools/hints_shown.py          prints a line for each row that no case's `err` shows, and `N passed, M failed`; status 1 where M isn't 0
tools/hints_shown.py --all    prints a line for each row, with the first case that shows it

A row is a line `WORDS => HINT` of a text in crates/cilk_messages/src, or `NAME: WORDS` of
crates/cilk_races/src/texts.rt.
A hint is all that follows a `: ` on a line; a cure is a part of a hint. Gaps stand for any bytes, so a cure
that is a gap alone counts as shown. Rows with the same hint can't be distinguished: one case shows them all.
"""

import glob
import os
import re
import sys

sys.dont_write_bytecode = True
import case_files

TOP = os.path.dirname(os.path.dirname(os.path.realpath(__file__)))
MESSAGES = f"{TOP}/crates/cilk_messages/src"
CURES = f"{TOP}/crates/cilk_races/src/texts.rt"
CASES = f"{TOP}/crates/cilk_rows/data"
TEXT = re.compile(r'const (\w+): &str =\s*"((?:[^"\\]|\\.)*)"', re.S)
GAP = re.compile(r"\{\w?\}")
ESCAPES = {"n": "\n", "t": "\t", "0": "\0"}
MEANT = "ALIASES"  # its right sides are words that may be meant, and no hints
HELP = "SHARED"  # its right sides are lines of help


def read(path):
    """The text of a file."""
    with open(path, encoding="utf-8", errors="replace") as file:
        return file.read()


def unescaped(text):
    """What a string literal stands for."""
    text = re.sub(r"\\\n\s*", "", text)
    text = re.sub(r"\\u\{(\w+)\}", lambda found: chr(int(found[1], 16)), text)
    return re.sub(r"\\(.)", lambda found: ESCAPES.get(found[1], found[1]), text)


def tables(path):
    """The texts of a source by name."""
    return {name: unescaped(text) for name, text in TEXT.findall(read(path))}


def rows_of(path, mark):
    """The rows of a source's tables: the table, what is left of the mark, and what is right of it."""
    for name, text in tables(path).items():
        for line in text.split("\n"):
            left, found, right = line.partition(mark)
            if found:
                yield name, left, right


def form_of(hint):
    """A form that finds a hint, whatever its gaps are filled with."""
    return ".*".join(map(re.escape, GAP.split(hint)))


def rows():
    """All rows: the source, the table, the left side, and the form of a line that shows it.

    A hint of one word is none: the code asks for it, as for `yes`."""
    meant = re.search(r'pub fn meant.*?say\("(.*?)"\)', read(f"{MESSAGES}/hints.rt"), re.S)[1]
    named = {left: right for _, left, right in rows_of(f"{MESSAGES}/sentences.rt", " => ")}
    for path in sorted(glob.glob(f"{MESSAGES}/*.rt")):
        for table, left, right in rows_of(path, " => "):
            if table == HELP:
                continue
            if table == MEANT or not re.fullmatch(r"[a-z]+", right):
                hint = GAP.sub(right, meant) if table == MEANT else named.get(right, right)
                yield os.path.basename(path), table, left, f": {form_of(hint)}$"
    for table, left, right in rows_of(CURES, ": "):
        yield os.path.basename(CURES), table, left, f"^hint: .*{form_of(right)}"


def shown():
    """The lines that cases want on standard error, each with the first case that has it."""
    lines = {}
    for path in sorted(glob.glob(f"{CASES}/*{case_files.ENDING}")):
        for line in case_files.read(path).get("err", b"").decode(errors="replace").split("\n"):
            lines.setdefault(line, os.path.basename(path)[: -len(case_files.ENDING)])
    return lines


def main():
    """Prints the rows; the answer is the status."""
    lines = shown()
    cases, missing, count = {}, 0, 0
    for source, table, left, form in rows():
        count += 1
        if form not in cases:
            cases[form] = next((case for line, case in lines.items() if re.search(form, line)), None)
        missing += cases[form] is None
        if cases[form] is None or "--all" in sys.argv:
            print(f"{source} {table}: {left}: {cases[form] or 'no case'}")
    print(f"{count - missing} passed, {missing} failed")
    return 1 if missing else 0


if __name__ == "__main__":
    sys.exit(main())
