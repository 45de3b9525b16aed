#!/usr/bin/env python3
"""Prints how large the house is: lines of sources, definitions, proofs and answers, what explaining takes, pages, files.

house.py [--crates]    with a line for each crate, too

Answers are the files of goals that the prover can't find by itself (`Answers.antt`), a part of the proofs. Explaining is what makes
texts for people: messages, findings, races, profiles, reports. Pages by hand are those of docs/ but for the generated ones, and for the
generated list of wrong bodies.
"""

import collections
import os
import subprocess
import sys

TOP = os.path.dirname(os.path.dirname(os.path.realpath(__file__)))
EXPLAINING = ("cilk_messages", "cilk_findings", "cilk_depends", "cilk_races", "cilk_profile", "cilk_report")
GENERATED = ("docs/INDEX.md", "docs/INDEX-PROOFS.md")
LIST = b"\n## All of them\n"  # (from here on tools/wrong_bodies.py writes docs/WRONG-BODIES.md)
TESTS = ("cilk_base_tests", "cilk_text_tests", "cilk_thread_tests", "cilk_worker_tests", "cilk_rows", "cilk_served")


def files():
    """The files of the repository that are there."""
    listed = subprocess.check_output(["git", "ls-files", "-co", "--exclude-standard"], cwd=TOP, text=True).splitlines()
    return [it for it in listed if os.path.isfile(f"{TOP}/{it}")]


def length(path):
    """The number of lines of a file, without a generated list."""
    with open(f"{TOP}/{path}", "rb") as it:
        text = it.read()
    return (text.partition(LIST)[0] if path == "docs/WRONG-BODIES.md" else text).count(b"\n")


def main():
    count, by_crate = collections.Counter(), collections.defaultdict(collections.Counter)
    everything = files()
    for path in everything:
        parts = path.split("/")
        if parts[0] == "crates" and len(parts) > 3 and parts[2] in ("src", "specs", "proofs"):
            lines = length(path)
            by_crate[parts[1]][parts[2]] += lines
            count[parts[2]] += lines
            count["answers"] += lines if parts[-1] == "Answers.antt" else 0
            count["product"] += lines if parts[2] == "src" and parts[1] not in TESTS else 0
            count["explaining"] += lines if parts[2] == "src" and parts[1] in EXPLAINING else 0
        if path.startswith("docs/") and path.endswith(".md") and path not in GENERATED:
            count["pages"] += length(path)
    if "--crates" in sys.argv[1:]:
        for crate, it in sorted(by_crate.items()):
            print(f"{crate}: src {it['src']:,}, specs {it['specs']:,}, proofs {it['proofs']:,}")
    whole = count["src"] + count["specs"] + count["proofs"]
    print(f"src, specs and proofs: {whole:,} lines ({count['src']:,}, {count['specs']:,}, {count['proofs']:,})")
    print(f"answers: {count['answers']:,} lines")
    print(f"explaining: {count['explaining']:,} of the product's {count['product']:,} lines of code, {100 * count['explaining'] / count['product']:.1f} %")
    print(f"pages by hand: {count['pages']:,} lines")
    print(f"files: {len(everything):,}")


if __name__ == "__main__":
    main()
