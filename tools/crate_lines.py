#!/usr/bin/env python3
"""Says where a line of crates.txt lists a crate that no file of that crate names, or lacks one that a file names.

A file names a crate by a path of code (`cilk_types::event`), or by a path of a clause, a definition or a proof (`Rattle.cilk_types.specs`).
Its last line is `N passed, M failed`, by lines; the status is 1 if one doesn't. With --write it writes the lines as they should be."""

import os
import re
import sys

TOP = os.path.dirname(os.path.dirname(os.path.realpath(__file__)))
GHOST = re.compile(r"\bRattle\.(\w+)\.")
CODE = re.compile(r"(?<![\w:.])(\w+)::")
COMMENT = re.compile(r"//[^\n]*")
REMARK = re.compile(r"--[^\n]*")
STRING = re.compile(r'"(?:[^"\\]|\\.)*"', re.DOTALL)


def lines():
    """The lines of crates.txt: each as it stands, with its head, and the crates that it lists, or None for another line."""
    with open(f"{TOP}/crates.txt", encoding="utf-8") as listed:
        for line in listed.read().splitlines():
            head, colon, tail = line.partition(":")
            yield (line, head, tail.split()) if colon and not line.startswith("#") else (line, None, None)


def named_by(crate):
    """The words before `::` in code and after `Rattle.` elsewhere, in all files of a crate."""
    found = set()
    for part in ("src", "specs", "proofs"):
        for at, _, files in os.walk(f"{TOP}/crates/{crate}/{part}"):
            for name in files:
                with open(f"{at}/{name}", encoding="utf-8") as file:
                    text = file.read()
                if name.endswith(".rt"):
                    text = COMMENT.sub("", text)
                    found.update(CODE.findall(STRING.sub("", text)))
                elif name.endswith(".antt"):
                    text = REMARK.sub("", text)
                found.update(GHOST.findall(text))
    return found


def main(words):
    rows = list(lines())
    order = [head.split()[0] for _, head, _ in rows if head]
    agree = differ = 0
    out = []
    for line, head, listed in rows:
        if not head:
            out.append(line)
            continue
        crate = head.split()[0]
        named = named_by(crate)
        own = [it for it in order if it in named and it != crate]
        kit = [it for it in listed if it not in order]
        too_many = [it for it in listed if it in order and it not in own]
        unnamed = [it for it in kit if it not in named]
        too_few = [it for it in own if it not in listed]
        if too_many or too_few or unnamed:
            differ += 1
            if too_many or unnamed:
                print(f"{crate} lists and doesn't name: {' '.join(too_many + unnamed)}")
            if too_few:
                print(f"{crate} names and doesn't list: {' '.join(too_few)}")
        else:
            agree += 1
        wanted = own + [it for it in kit if it in named]
        out.append(f"{head}:" + "".join(f" {it}" for it in wanted))
    if "--write" in words:
        with open(f"{TOP}/crates.txt", "w", encoding="utf-8") as file:
            file.write("\n".join(out) + "\n")
    print(f"{agree} passed, {differ} failed")
    return 1 if differ else 0


if __name__ == "__main__":
    sys.exit(main(sys.argv[1:]))
