#!/usr/bin/env python3
"""Looks whether tests run every program of examples/, word by word, and expect of the gallery what is written beside it.

tools/tested_examples.py     lists each program of examples/ and examples/gallery, and the text of a test that is it

A program's text in a test has no comments, no `#` lines, and one space for each run of blanks; it has to be used by
`settled.rt` of crates/cilk_base_tests, the tests that play it. A program of the gallery has to be used by
the cases `gallery-NAME-run`, `-check` and `-measure` of crates/cilk_rows too, word by word, which want the text of its
`.out` file, and of `check` and `measure` what its row in examples/gallery/README.md has. The texts of examples/opencilk are in another language. Run manually when an example
changes or comes.
"""

import glob
import os
import re
import sys

sys.dont_write_bytecode = True
import case_files

TOP = os.path.dirname(os.path.dirname(os.path.realpath(__file__)))
CRATES = f"{TOP}/crates"
GALLERY = f"{TOP}/examples/gallery"


def read(path):
    with open(path, encoding="utf-8") as it:
        return it.read()


def words(text):
    text = re.sub(r"/\*.*?\*/", " ", text, flags=re.S)
    return " ".join(re.sub(r"(?m)//.*$|^\s*#.*$", " ", text).split())


def literal(text):
    """What a literal of a test spells."""
    return re.sub(r"\\\n\s*", "", text).replace("\\n", "\n")


def texts_of_tests():
    """The names of the programs' texts, by these texts."""
    texts = {}
    for path in glob.glob(f"{CRATES}/cilk_base_tests/src/*.rt") + [f"{CRATES}/cilk_base_tests/src/gallery.rt"]:
        for name, text in re.findall(r'const (\w+): &str =\s*"([^"]*)"', read(path)):
            texts[literal(text)] = name
    return texts


def wanted_of_gallery(name, text, numbers):
    """What the cases want of a program: what is shown, the verdict, work, span and parallelism; none where a case has another text."""
    paths = [f"{CRATES}/cilk_rows/data/gallery-{name.replace('_', '-')}-{command}" for command in ("run", "check", "measure")]
    cases = [{each: it.decode() for each, it in case_files.read(f"{path}{case_files.ENDING}").items()} for path in paths]
    if any(words(case["program.c"]) != text or numbers and case["input"] != numbers for case in cases):
        return None
    shown, verdict, totals = [case["out"] for case in cases]
    total = dict(line.split() for line in totals.split("<..>")[0].split("\n") if line)
    return (shown, verdict.strip(), total["work"], total["span"], total["parallelism"])


def stands_in_gallery(name):
    """The row and the answer of a program of the gallery, in the same form."""
    shown = read(f"{GALLERY}/{name}.out")
    row = re.search(rf"(?m)^\| `{name}\.c` \|(.*)\|$", read(f"{GALLERY}/README.md"))[1]
    _, _, answer, work, span, parallelism, verdict = [cell.strip() for cell in row.split("|")]
    if answer.strip("`") != shown.splitlines()[-1]:
        return None
    return (shown, verdict, work.replace(",", ""), span.replace(",", ""), parallelism)


def main():
    texts = texts_of_tests()
    used = set(re.findall(r"\w+", read(f"{CRATES}/cilk_base_tests/src/settled.rt").split("fn is_settled")[1]))
    missing = 0
    for path in sorted(glob.glob(f"{TOP}/examples/*.c") + glob.glob(f"{GALLERY}/*.c")):
        name = texts.get(words(read(path)))
        told = name if name in used else "NOT PLAYED"
        given, plain = f"{path[:-2]}.in", os.path.basename(path)[:-2]
        numbers = read(given) if os.path.exists(given) else ""
        if path.startswith(GALLERY) and wanted_of_gallery(plain, words(read(path)), numbers) != stands_in_gallery(plain):
            told = "NOT AS WANTED"
        if os.path.exists(given) and texts.get(words(read(given))) != f"{name}_INPUT":
            told = "NOT ON ITS INPUT"
        missing += told != name
        print(f"{os.path.relpath(path, TOP)}: {told}")
    print(f"{missing} not so")
    return 1 if missing else 0


if __name__ == "__main__":
    sys.exit(main())
