#!/usr/bin/env python3
"""The documents have the counts of cases, wrong bodies and examples that are there.

tested_counts.py            prints each count that differs; its status is 0 where none does
tested_counts.py --write    writes them
"""

import glob
import os
import re
import sys

TOP = os.path.dirname(os.path.dirname(os.path.realpath(__file__)))

CASES = "crates/cilk_rows/data/*.case"


def files(*patterns):
    """How many files these patterns have."""
    return sum(len(glob.glob(f"{TOP}/{it}")) for it in patterns)


def heads(pattern, name=r"[\w\-]+"):
    """How many texts with such a name the files of a pattern have, each below a line `-- NAME --`."""
    count = 0
    for path in glob.glob(f"{TOP}/{pattern}"):
        with open(path, encoding="utf-8") as file:
            count += len(re.findall(rf"(?m)^-- {name}(?:, .*)? --$", file.read()))
    return count


ALL_CASES = files(CASES)
BY_PROGRAM = ALL_CASES - heads(CASES, "unread")  # the program itself has no file that fails at will
IN_GATE = files("crates/*/must-fail/*.edit")
BESIDE_GATE = heads("crates/*/edits.txt")
PROGRAMS = files("examples/*.c", "examples/gallery/*.c")

# a document, the words round a count there (`N`), and that count
COUNTS = [
    ("README.md", "# N stored calls", BY_PROGRAM),
    ("CHANGELOG.md", "are cases (N)", ALL_CASES),
    ("CHANGELOG.md", "that are promised (N)", IN_GATE),
    ("CHANGELOG.md", "`tools/edits` the N others", BESIDE_GATE),
    ("docs/GATE.md", "serves the N cases", ALL_CASES),
    ("docs/GATE.md", "tries the N that aren't in `must-fail/`", BESIDE_GATE),
    ("docs/TESTED.md", "`tools/cases.py` | N cases |", ALL_CASES),
    ("docs/TESTED.md", "`crates/*/must-fail` | N edits |", IN_GATE),
    ("docs/TESTED.md", "`tools/edits`: N wrong bodies", BESIDE_GATE),
    ("docs/TESTED.md", "`cilk_base_tests` | N programs |", PROGRAMS),
]


def corrected(text, document, says):
    """The document's text with the counts as they are; `says` is called where one differs."""
    for name, words, number in COUNTS:
        if name != document:
            continue
        count = f"{number:,}"
        before, after = [re.escape(it).replace(r"\ ", r"\s+") for it in words.split("N")]
        found = re.findall(rf"{before}([\d,]+){after}", text)
        if len(found) != 1:
            says(f"{document} has no `{words}`" if not found else f"{document} has `{words}` more than once")
        elif found[0] != count:
            says(f"{document} has {found[0]} in `{words}`, and it is {count}")
            text = re.sub(rf"({before})[\d,]+({after})", rf"\g<1>{count}\g<2>", text)
    return text


def main():
    differ = []
    for document in dict.fromkeys(name for name, _, _ in COUNTS):
        with open(f"{TOP}/{document}", encoding="utf-8") as file:
            text = file.read()
        if sys.argv[1:] == ["--write"]:
            text = corrected(text, document, lambda _: None)
            with open(f"{TOP}/{document}", "w", encoding="utf-8") as file:
                file.write(text)
        corrected(text, document, differ.append)
    for it in differ:
        print(it)
    return 1 if differ else 0


if __name__ == "__main__":
    sys.exit(main())
