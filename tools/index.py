#!/usr/bin/env python3
"""docs/INDEX.md, docs/INDEX-PROOFS.md and the README of tools/ and of bench/: a line a file, from the first sentence of its first comment.

index.py            compares the pages with the files; its last line is `N passed, M failed`, by files, and the status is 1 if one fails
index.py --check    the same
index.py --write    writes the pages anew
index.py --weak     lists the first sentences that tell a reader little, each with what is wrong with it

INDEX.md has each crate of crates.txt in its order, with the files of src/ and specs/, and then the other folders of the repository;
INDEX-PROOFS.md has the lemma files that stand right in each proofs/. tools/README.md has the tools in three lists: those that are
steps of the gate (.ci/steps.py), others that are called, and modules that aren't. A file's name isn't repeated: `lib.rt` gives the crate's own
sentence, `Lib.antt` is a list of modules and is left out. A file without a first comment, or whose first sentence is longer than 200
characters, fails; where such a sentence names lemmas after a colon, it ends before the colon.
"""

import ast
import os
import re
import sys

TOP = os.environ.get("TOP") or os.path.dirname(os.path.dirname(os.path.realpath(__file__)))
PAGES = ("docs/INDEX.md", "docs/INDEX-PROOFS.md")
LONGEST = 200
HEADS = {
    PAGES[0]: "# Index\n\nEach file in one sentence, by crate, lower crates first. Written by `tools/index.py --write`; change a file's first"
              " comment, not this page.\nLemma files are in [INDEX-PROOFS.md](INDEX-PROOFS.md); where a question is answered, in "
              "[WHERE.md](WHERE.md).\n",
    PAGES[1]: "# Index of proofs\n\nLemma files in one sentence, by crate. Written by `tools/index.py --write`. What is written of the proof of"
              " one function lies in\n`proofs/MODULE/FUNCTION/`, and has no line here.\n",
}
READMES = {
    "bench": "# Benchmarks\n\nNo step of the gate runs them. [RESULTS.md](RESULTS.md) has results; each first comment says how to call it.\n",
    "tools": "# Tools\n\nEach docstring says how to call its tool.\n",
}
WRITTEN = "Written by `tools/index.py --write` from the files' first comments.\n"
GATE, CALLED, MODULES = "Steps of the gate", "Called manually, or by another tool", "Modules of these"
# folders beside crates/, each with the endings whose files are listed
OTHERS = [(".ci", ("", ".py")), ("recorder", ("", ".py", ".c", ".h"))]
SKIPPED = re.compile(r"^(recorder/tests|recorder/include)/|/README\.md$|/crate\.txt$|\.antt\.txt$")
# a sentence ends at a full stop before a blank or the end; not within a word as `a.b`, nor after these
END = re.compile(r"(?<![.])(?<!\be\.g)(?<!\bi\.e)[.?](?=\s|$)")
LINK = re.compile(r"\[(`[^`]+`)\](?:\([^)]*\))?")
LIST = re.compile(r"^\s*(?:[-*] |`[^`]+`(?:, `[^`]+`)*:?\s{2,}|\d+\. )")


def marked(text, mark):
    """The comment's lines with this mark at the head of a text, a license or `#!` line before it passed over."""
    lines = text.split("\n")
    while lines and (lines[0].startswith("#!") or not lines[0].strip()):
        lines.pop(0)
    found = []
    for line in lines:
        if not line.startswith(mark):
            break
        found.append(line[len(mark):].strip())
    return found


def block(text):
    """The lines of a C comment at the head of a text."""
    found = re.match(r"\s*/\*+(.*?)\*/", text, re.DOTALL)
    if found:
        return [line.strip().lstrip("*").strip() for line in found[1].strip().split("\n")]
    return marked(text, "//")


def docstring(text):
    """The lines of a Python file's docstring."""
    try:
        return (ast.get_docstring(ast.parse(text)) or "").split("\n")
    except SyntaxError:
        return []


def comment(path):
    """The lines of a file's first comment."""
    with open(f"{TOP}/{path}", encoding="utf-8") as file:
        text = file.read()
    if path.endswith((".rt", ".rt.txt", ".rs")):
        return marked(text, "//!") or marked(text, "//")
    if path.endswith(".antt"):
        return marked(text, "--")
    if path.endswith((".c", ".h", ".cpp")):
        return block(text)
    if text.startswith("#!") and "python" in text.split("\n", 1)[0] or path.endswith(".py"):
        return docstring(text)
    return marked(text, "#")


def sentence(lines):
    """The first sentence of a comment's first paragraph; a list's items aren't of it."""
    words = []
    for line in lines:
        if not line and words or LIST.match(line):
            break
        words.append(line)
    paragraph = " ".join(" ".join(words).split())
    found = END.search(paragraph)
    said = LINK.sub(r"\1", paragraph[:found.start()] if found else paragraph).rstrip(" .:")
    head, colon, _names = said.partition(": `")
    return head if colon and len(said) > LONGEST else said


def crates():
    """The names of crates.txt, in its order."""
    with open(f"{TOP}/crates.txt", encoding="utf-8") as listed:
        return [line.split(":")[0].split()[0] for line in listed if ":" in line.split("#")[0]]


def files(folder, ending, deep=True):
    """The files of a folder with this ending, by name."""
    found = []
    for at, folders, names in os.walk(f"{TOP}/{folder}"):
        folders[:] = sorted(f for f in folders if f not in ("out", "__pycache__")) if deep else []
        found += [os.path.relpath(f"{at}/{name}", TOP) for name in sorted(names) if name.endswith(ending)]
    return found


def rows(found, folder, said):
    """A line a file; what each says is put into `said`."""
    lines = []
    for path in found:
        said[path] = sentence(comment(path))
        name = os.path.relpath(path, f"{TOP}/{folder}") if os.path.isabs(path) else os.path.relpath(path, folder)
        name = name[:-5] if name.endswith(".antt") else name
        lines.append(f"- `{name}`: {said[path] or '?'}")
    return lines


def listed(folder, endings):
    """The files of a folder beside crates/ that a page lists."""
    return [path for path in files(folder, "") if os.path.splitext(path)[1] in endings and not SKIPPED.search(path)
            and "__pycache__" not in path and not os.path.islink(f"{TOP}/{path}")]


def group_of(path, steps):
    """The list of tools/README.md that has this tool."""
    if f'"{path}"' in steps:
        return GATE
    with open(f"{TOP}/{path}", encoding="utf-8") as file:
        return CALLED if "__main__" in file.read() else MODULES


def readmes(said):
    """The README of each folder of tools and benchmarks."""
    with open(f"{TOP}/.ci/steps.py", encoding="utf-8") as file:
        steps = file.read()
    tools = listed("tools", ("", ".py"))
    lists = {it: [path for path in tools if group_of(path, steps) == it] for it in (GATE, CALLED, MODULES)}
    found = {"bench": rows(listed("bench", ("", ".py", ".rs", ".c", ".cpp", ".txt")), "bench", said), "tools": []}
    for head, some in lists.items():
        found["tools"] += [f"## {head}\n", *rows(some, "tools", said), ""]
    return {f"{it}/README.md": f"{READMES[it]}{WRITTEN}\n" + "\n".join(lines).rstrip("\n") + "\n" for it, lines in found.items()}


def pages():
    """The pages as they should be, and each file's sentence."""
    said, texts, proofs = {}, [HEADS[PAGES[0]]], [HEADS[PAGES[1]]]
    for crate in crates():
        home = f"crates/{crate}"
        source = files(f"{home}/src", ".rt")
        root = next(path for path in source if path.endswith(("src/lib.rt", "src/main.rt")))
        said[root] = sentence(comment(root))
        texts.append(f"## `{crate}`: {said[root] or '?'}\n")
        own = rows([path for path in source if path != root], f"{home}/src", said)
        meant = rows([path for path in files(f"{home}/specs", ".antt") if not path.endswith("/Lib.antt")], f"{home}/specs", said)
        if own:
            texts += ["`src`\n", "\n".join(own) + "\n"]
        if meant:
            texts += ["`specs`\n", "\n".join(meant) + "\n"]
        lemmas = [path for path in files(f"{home}/proofs", ".antt", deep=False) if not path.endswith("/Lib.antt")]
        if lemmas:
            proofs += [f"## `{crate}`\n", "\n".join(rows(lemmas, f"{home}/proofs", said)) + "\n"]
    for folder, endings in OTHERS:
        texts += [f"## `{folder}/`\n", "\n".join(rows(listed(folder, endings), folder, said)) + "\n"]
    texts += ["## `bench/`, `tools/`\n", "[bench/README.md](../bench/README.md), [tools/README.md](../tools/README.md)\n"]
    return {PAGES[0]: "\n".join(texts), PAGES[1]: "\n".join(proofs), **readmes(said)}, said


FILLER = re.compile(r"^(?:What|The (?:effect|state|meaning|parts?|rest|laws?|lemmas?)|Laws?|Lemmas?|Facts?|Helpers?|More|Further|Some|Things?|Parts?)\b")
WORDS = re.compile(r"[A-Za-z][a-z]+")


def weaknesses(said):
    """Each file whose sentence tells little, with why."""
    times = {}
    for path, text in said.items():
        times.setdefault(text, []).append(path)
    for path, text in said.items():
        name = os.path.splitext(os.path.basename(path))[0]
        own = {word.lower() for word in re.findall(r"[A-Z]?[a-z]+", name)}
        words = [word.lower() for word in WORDS.findall(text)]
        new = [word for word in words if word not in own and word.rstrip("s") not in {it.rstrip("s") for it in own}
               and word not in ("the", "of", "and", "in", "to", "its", "it", "that", "by", "for", "is", "are", "an", "with", "their", "on")]
        if not text:
            yield path, text, "none"
        elif len(text) > LONGEST:
            yield path, text, f"{len(text)} characters"
        elif len(times[text]) > 1:
            yield path, text, f"also that of {', '.join(it for it in times[text] if it != path)}"
        elif len(new) < 2:
            yield path, text, "says no more than the name"
        elif FILLER.match(text) and len(words) < 7:
            yield path, text, "begins by a filler, and is short"
        elif len(words) < 4:
            yield path, text, "three words or fewer"


def main(words):
    texts, said = pages()
    if words == ["--weak"]:
        for path, text, why in weaknesses(said):
            print(f"{path}: {text!r}: {why}")
        return 0
    if words == ["--write"]:
        for page, text in texts.items():
            with open(f"{TOP}/{page}", "w", encoding="utf-8") as file:
                file.write(text)
        return 0
    if words not in ([], ["--check"]):
        print(__doc__, file=sys.stderr)
        return 2
    failed = 0
    for path, text in said.items():
        if not text or len(text) > LONGEST:
            failed += 1
            print(f"{path}: {'no first comment' if not text else f'a first sentence of {len(text)} characters'}")
    for page, text in texts.items():
        try:
            with open(f"{TOP}/{page}", encoding="utf-8") as file:
                same = file.read() == text
        except FileNotFoundError:
            same = False
        if not same:
            failed += 1
            print(f"{page}: differs from the files; tools/index.py --write")
    print(f"{len(said) + len(texts) - failed} passed, {failed} failed")
    return 1 if failed else 0


if __name__ == "__main__":
    sys.exit(main(sys.argv[1:]))
