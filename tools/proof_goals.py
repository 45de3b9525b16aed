#!/usr/bin/env python3
"""The functions whose proofs have most to show, by goals, drops, returns and clauses: no proof is run.

proof_goals.py CRATE .. [--top N]    functions of these crates (all that are built, without a name), those with most first

A crate's library (crates/CRATE/out/rlib, which `rt check` leaves there) lists the goals of each function. Most of them are
found by the prover itself, and cost time nevertheless: a goal some 0.14 seconds, and a value that is dropped on the way out
0.45 more, since each field of each value that a function owns is dropped at each of its returns. tools/proof_costs.py
measures the seconds instead.
"""

import argparse
import json
import os
import re
import sys

TOP = os.path.dirname(os.path.dirname(os.path.realpath(__file__)))
SECONDS_A_GOAL, SECONDS_A_DROP = 0.14, 0.45


def values_of(path):
    """The JSON values of a file that has one after another; lines that are none are passed over."""
    with open(path, encoding="utf-8") as file:
        text = file.read()
    decoder, at, found = json.JSONDecoder(), 0, []
    while at < len(text):
        if text[at].isspace():
            at += 1
            continue
        try:
            value, at = decoder.raw_decode(text, at)
        except ValueError:
            at = text.find("\n", at) + 1 or len(text)
            continue
        found.append(value)
    return found


def needs_in(value):
    """The goals that a function's proof lists, wherever they lie in it."""
    if isinstance(value, dict):
        for key, inner in value.items():
            if key == "needs" and isinstance(inner, list):
                yield from inner
            else:
                yield from needs_in(inner)
    elif isinstance(value, list):
        for inner in value:
            yield from needs_in(inner)


def counts_of(proof):
    """How many goals, drops, returns and clauses a function's proof has."""
    names = [str(need.get("name", "")).replace("Need-", "") for need in needs_in(proof)]
    returns = [name for name in names if name.startswith("returns")]
    clauses = {found[1] for name in returns if (found := re.search(r"-clause-(\w+)", name))}
    drops = [name for name in names if re.match(r"drop\b", name) or "+drop" in name or "-drop-" in name]
    return len(names), len(drops), len({re.sub(r"-clause-\w+", "", name) for name in returns}), max(1, len(clauses))


def proofs_of(crate):
    """The proofs of a built crate's functions, by name."""
    path = f"{TOP}/crates/{crate}/out/rlib/{crate}.rlib/lang/antt/made.json"
    if not os.path.isfile(path):
        return None
    found = {}
    for value in values_of(path):
        if isinstance(value, dict) and "MadeProof" in value:
            proof = value["MadeProof"]
            found[str(proof.get("symbol"))] = counts_of(proof)
    return found


def main():
    asked = argparse.ArgumentParser(description=__doc__.splitlines()[0])
    asked.add_argument("crates", nargs="*", metavar="CRATE")
    asked.add_argument("--top", type=int, default=30, metavar="N", help="how many functions are shown")
    words = asked.parse_args()
    rows = []
    for crate in words.crates or sorted(os.listdir(f"{TOP}/crates")):
        found = proofs_of(crate)
        if found is None:
            if words.crates:
                print(f"{crate}: no library is built: run `rt check` in crates/{crate}", file=sys.stderr)
            continue
        for name, (goals, drops, returns, clauses) in found.items():
            rows.append((goals * SECONDS_A_GOAL + drops * SECONDS_A_DROP, goals, drops, returns, clauses, name))
    print(f"{'seconds':>8} {'goals':>6} {'drops':>6} {'returns':>8} {'clauses':>8}  function")
    for seconds, goals, drops, returns, clauses, name in sorted(rows, reverse=True)[: words.top]:
        print(f"{seconds:8.1f} {goals:6} {drops:6} {returns:8} {clauses:8}  {name}")
    print(f"{sum(row[0] for row in rows):8.1f} {sum(row[1] for row in rows):6} {sum(row[2] for row in rows):6}  in all")
    return 0


if __name__ == "__main__":
    sys.exit(main())
