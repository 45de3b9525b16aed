#!/usr/bin/env python3
"""The list of all wrong bodies in docs/WRONG-BODIES.md, from the names of the edits and the functions that they change.

wrong_bodies.py            compares the list with the edits, and looks for each edit that the page names above it; its last line is
                           `N passed, M failed`, by edits and names, and the status is 1 if one fails
wrong_bodies.py --check    the same
wrong_bodies.py --write    writes the list anew, below the line `## All of them`; the text above it is written manually
wrong_bodies.py --weak     lists the names that tell a reader little, or don't begin with the file that they change
wrong_bodies.py --bare     lists the public functions of src/ in which no edit changes anything; laws, with an empty body, aren't listed

An edit's name is its claim: `number-min_with_unit_zero` says of number.rt: min with unit zero. A first line `# CLAIM` of an edit
says more. The function is the one of the changed texts that the claim begins with, else that of the first one in src/. Edits in
bold are tried by the gate (must-fail/), the others by tools/edits (edits.txt). Items above the list name crates, and edits of these,
with a star those of edits.txt.
"""

import importlib.machinery
import importlib.util
import os
import re
import sys

sys.dont_write_bytecode = True
TOP = os.environ.get("TOP") or os.path.dirname(os.path.dirname(os.path.realpath(__file__)))
PAGE = f"{TOP}/docs/WRONG-BODIES.md"
HEAD = "## All of them"
INTRO = ("A line a function, with the edits that change it; in bold those that the gate tries, the others by `tools/edits CRATE NAME`. Written by\n"
         "`tools/wrong_bodies.py --write`.\n")
FUNCTION = re.compile(r"^(\s*)(?:pub(?:\([^)]*\))? )?(?:const |unsafe )*fn (\w+)", re.MULTILINE)
PUBLIC = re.compile(r"^( *)pub (?:const )?fn (\w+)", re.MULTILINE)
OWNER = re.compile(r"^(?:unsafe )?(?:impl|(?:pub )?trait)\b(?:<[^{]*?>)?\s*([^{\n]*)", re.MULTILINE)
CONSTANT = re.compile(r"^(?:pub )?(?:const|static) (\w+)", re.MULTILINE)
BEGIN = re.compile(r"(;|\{ *\}|\{)$", re.MULTILINE)


def of_edits():
    """The module tools/edits, whose file has no ending."""
    loader = importlib.machinery.SourceFileLoader("edits", f"{os.path.dirname(os.path.realpath(__file__))}/edits")
    module = importlib.util.module_from_spec(importlib.util.spec_from_loader("edits", loader))
    loader.exec_module(module)
    return module


EDITS = of_edits()


def read(path):
    with open(path, encoding="utf-8") as file:
        return file.read()


def changes(edit):
    """The first line's claim or none, and each changed file with its old texts."""
    claim, file, found = None, None, []
    for number, line in enumerate(edit.split("\n")):
        if number == 0 and line.startswith("# "):
            claim = line[2:].strip()
        elif line.startswith("file: "):
            file = line[6:].strip()
        elif line.startswith("old: ") and file:
            found.append((file, line[5:]))
    return claim, found


def owner_of(text, at):
    """The type that an indented function belongs to, without its parameters."""
    found = list(OWNER.finditer(text, 0, at))
    if not found:
        return ""
    name = found[-1][1].split(" where ")[0].strip()
    name = name.rpartition(" for ")[2] if " for " in name else name
    return re.sub(r"<.*", "", name).strip() + "::"


def place(crate, found, claim):
    """The file and the function that an edit changes: the one that its claim begins with, else the first in src/."""
    places = [place_of(crate, *it) for it in found if it[0].startswith("src/")] or [place_of(crate, *found[0])]
    known = [it for it in places if it[1] != "?"]
    named = [it for it in known if claim.startswith(it[1].rpartition("::")[2].replace("_", " ") + " ")]
    return (named or known or places)[0]


def place_of(crate, file, old):
    """The file and the function that has a text."""
    text = read(f"{TOP}/crates/{crate}/{file}")
    at = text.find(old)
    if at < 0:
        return file, "?"
    begin = at + len(old) - len(old.lstrip()) + 1
    heads = [it for it in FUNCTION.finditer(text, 0, begin + len(old)) if it.start() <= begin]
    constants = [it for it in CONSTANT.finditer(text, 0, begin + len(old)) if it.start() <= begin]
    if constants and (not heads or constants[-1].start() > heads[-1].start()):
        return file, constants[-1][1]
    if not heads:
        return file, "?"
    last = heads[-1]
    return file, (owner_of(text, last.start()) if last[1] else "") + last[2]


def claim_of(name):
    """An edit's claim in words, from its name."""
    words = name.partition("-")[2] or name
    return re.sub(r" s (?=\w)", "'s ", words.replace("_", " "))


def all_edits():
    """Each edit: its crate, whether the gate tries it, its name, its file and function, its claim."""
    for crate in EDITS.crates():
        for where in (EDITS.GATE, EDITS.BESIDE):
            for name, edit in sorted(EDITS.edits_in(crate, where).items()):
                claim, found = changes(edit)
                claim = claim or claim_of(name)
                yield crate, where == EDITS.GATE, name, *place(crate, found, claim), claim


def listed(edits):
    """The list as it should be."""
    lines = [HEAD, "", INTRO]
    by_crate = {}
    for crate, gate, name, file, function, claim in edits:
        rows = by_crate.setdefault(crate, {})
        said = f"**`{name}`**" if gate else f"`{name}`"
        rows.setdefault((os.path.basename(file), function), []).append(said if claim == claim_of(name) else f"{said} ({claim})")
    for crate, rows in by_crate.items():
        lines.append(f"### `{crate}`\n")
        lines += [f"- `{file}: {function}`: {', '.join(sorted(claims, key=lambda it: (it[0] != '*', it)))}"
                  for (file, function), claims in sorted(rows.items())]
        lines.append("")
    return "\n".join(lines)


def named(text):
    """Each edit that the text above the list names: the crates that its item names, its name, and whether it has a star."""
    for item in re.findall(r"^- .*(?:\n  .*)*", text, re.MULTILINE):
        crates = set(re.findall(r"`(cilk_\w+)`", item))
        yield from ((crates, name, star == "*") for name, star in re.findall(r"`([a-z]\w*-\w+)`(\*?)", item))


def weaknesses(edits):
    """Names that tell little, with why."""
    for crate, _gate, name, file, function, claim in edits:
        stem = os.path.splitext(os.path.basename(file))[0]
        if function == "?":
            yield crate, name, "its text isn't in a function"
        if not name.startswith(f"{stem}-"):
            yield crate, name, f"changes {file}, which its name doesn't begin with"
        if len(claim.split()) < 2:
            yield crate, name, "one word"
        elif re.search(r"\b(wrong|bad|other|another|something|nothing at all|changed)$", claim):
            yield crate, name, "doesn't say what the body does"


def bare(edits):
    """The public functions without an edit."""
    known = {(crate, file, function) for crate, _gate, _name, file, function, _claim in edits}
    for crate in EDITS.crates():
        for at, _folders, names in os.walk(f"{TOP}/crates/{crate}/src"):
            for name in sorted(names):
                file = os.path.relpath(f"{at}/{name}", f"{TOP}/crates/{crate}")
                text = read(f"{at}/{name}")
                for head in PUBLIC.finditer(text):
                    function = (owner_of(text, head.start()) if head[1] else "") + head[2]
                    body = BEGIN.search(text, head.end())
                    if body and body[1] == "{" and (crate, file, function) not in known:
                        yield crate, os.path.basename(file), function


def main(words):
    edits = list(all_edits())
    if words == ["--bare"]:
        for it in bare(edits):
            print("{}/{}: {}".format(*it))
        return 0
    if words == ["--weak"]:
        for crate, name, why in weaknesses(edits):
            print(f"{crate}/{name}: {why}")
        return 0
    page, wanted = read(PAGE), listed(edits)
    head = page.partition(f"\n{HEAD}\n")[0].rstrip("\n") + "\n\n"
    if words == ["--write"]:
        with open(PAGE, "w", encoding="utf-8") as file:
            file.write(head + wanted)
        return 0
    if words not in ([], ["--check"]):
        print(__doc__, file=sys.stderr)
        return 2
    failed = [f"{crate}/{name}: its text isn't in a function" for crate, _, name, _, function, _ in edits if function == "?"]
    there, wants = {(it[0], it[2], not it[1]) for it in edits}, list(named(head))
    failed += [f"docs/WRONG-BODIES.md: {'edits.txt' if star else 'must-fail'} of {', '.join(sorted(some))} has no {name}"
               for some, name, star in wants if not any((crate, name, star) in there for crate in some)]
    if page != head + wanted:
        failed.append("docs/WRONG-BODIES.md: its list differs from the edits; tools/wrong_bodies.py --write")
    print("\n".join([*failed, f"{len(edits) + len(wants) + 1 - len(failed)} passed, {len(failed)} failed"]))
    return 1 if failed else 0


if __name__ == "__main__":
    sys.exit(main(sys.argv[1:]))
