#!/usr/bin/env python3
"""Has `rt check` in a checkout begin with the libraries that `rt ci` proved on this machine.

take_kept.py [TOP]    the checkout at TOP, or this one

`rt ci` keeps the library of each crate that it proved, but `rt check` doesn't look there: in a new checkout it would prove all
crates below first. This lays each kept library of the same text, by hard links, where `rt check` looks for it. It reads how
`rt` names what it keeps from `rt` itself (kit 13f); where that fails, nothing is taken. The verdict stays that of `rt ci`.
"""

import importlib.machinery
import importlib.util
import json
import os
import shutil
import sys

sys.dont_write_bytecode = True


def kit():
    """The module that `rt` is, from the command on the path."""
    path = os.path.realpath(shutil.which("rt") or sys.exit("the command `rt` isn't on the path"))
    loader = importlib.machinery.SourceFileLoader("rt_of_kit", path)
    module = importlib.util.module_from_spec(importlib.util.spec_from_loader("rt_of_kit", loader))
    loader.exec_module(module)
    return module


def lower_first(crates):
    """These crates, each after those that it stands on."""
    order = {}

    def visit(crate):
        for below in crate.deps:
            visit(below)
        order.setdefault(crate.name, crate)

    for crate in crates:
        visit(crate)
    return list(order.values())


def lay(crate, at):
    """Gives the crate the library that is kept in this folder."""
    out = f"{crate.folder}/out"
    shutil.rmtree(f"{out}/rlib", ignore_errors=True)
    with open(f"{at}/made.json", encoding="utf-8") as it:
        files = json.load(it)["files"]
    for number, (path, _) in enumerate(files):
        os.makedirs(os.path.dirname(f"{out}/{path}"), exist_ok=True)
        os.link(f"{at}/{number}", f"{out}/{path}")


def main(words):
    top = os.path.realpath(words[0] if words else f"{os.path.dirname(os.path.realpath(__file__))}/..")
    rt = kit()
    rt.Crate.allowed = rt.handles_of(top)
    with open(f"{top}/crates.txt", encoding="utf-8") as listed:
        names = [line.split(":")[0].split()[0] for line in listed if ":" in line.split("#")[0]]
    crates = [rt.Crate(f"{top}/crates/{name}", top, {}) for name in names]
    kept = rt.Kept([])
    taken = 0
    for crate in lower_first(crates):
        if crate.is_program or any(below.name not in kept.rlibs for below in crate.below()):
            continue
        at = kept.place(crate, False, kept.key(crate))
        if os.path.isdir(at):
            lay(crate, at)
            kept.is_built(crate)
            with open(f"{crate.folder}/out/rlib/stamp", "w", encoding="utf-8") as it:
                it.write(crate.stamp())
            taken += 1
    print(f"{taken} of {len(crates)} crates have the library that was kept")
    return 0


if __name__ == "__main__":
    sys.exit(main(sys.argv[1:]))
