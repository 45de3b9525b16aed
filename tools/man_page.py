#!/usr/bin/env python3
"""Makes docs/man/cilk.1 of the help that the program writes (crates/cilk_messages/src/help.rt).

man_page.py            says whether the page is that of the help; its status is 0 where it is
man_page.py --write    writes it
"""

import os
import re
import sys
import textwrap

TOP = os.path.dirname(os.path.dirname(os.path.realpath(__file__)))
SOURCE = f"{TOP}/crates/cilk_messages/src/help.rt"
PAGE = f"{TOP}/docs/man/cilk.1"
FORMATTED = ("Status", "Limits of a run")
TEXT = r'"((?:[^"\\]|\\.)*)"'


def unescaped(text):
    text = re.sub(r"\\\n\s*", "", text)
    return re.sub(r"\\(.)", r"\1", text)


def roff(text):
    return re.sub(r"^([.'])", r"\\&\1", text.replace("\\", "\\e").replace("-", "\\-"), flags=re.M)


def filled(text):
    """The lines of a paragraph, which the page's reader fills anew."""
    return [roff(it) for it in textwrap.wrap(text, 136, break_long_words=False, break_on_hyphens=False)]


def items(lines):
    """The names at the left of a list, each with its description."""
    found = []
    for line in lines:
        name, *text = re.split(r" {2,}", line.strip(), maxsplit=1)
        if re.match(r"  \S", line):
            found.append([name, *text])
        else:
            found[-1].append(line.strip())
    return [(name, " ".join(texts)) for name, *texts in found]


def section(title, lines):
    out = [f".SH {title.upper()}"]
    if title in FORMATTED:
        return [*out, ".nf", *(roff(it.strip()) for it in lines), ".fi"]
    for name, text in items(lines):
        out += [".TP", f".B {roff(name)}", *filled(text)]
    return out


def made(source):
    text = unescaped(re.search(rf"pub const HELP: &str = {TEXT};", source, re.S)[1])
    version = re.search(rf"pub const VERSION: &str = {TEXT};", source)[1].split()[1]
    about, *blocks = text.strip("\n").split("\n\n")
    out = [
        '.\\" Made by tools/man_page.py of the help of the program.',
        f'.TH CILK 1 "" "cilk {version}" "Ruqwabi"',
        ".SH NAME",
        "cilk \\- " + roff(about[0].lower() + about[1:].rstrip(".")),
        ".SH SYNOPSIS",
        ".nf",
        *(f".B {roff(it)}" for it in re.findall(r"\nUsage: (cilk [a-z]+ [^\n]*)\n", source)),
        ".fi",
    ]
    for block in blocks:
        title, *lines = block.split("\n")
        if title.endswith(":"):
            out += section(title[:-1], lines)
        elif not title.startswith("Usage"):
            out += [".SH SEE ALSO", *filled(" ".join([title, *lines]))]
    return "\n".join(out) + "\n"


def main():
    with open(SOURCE, encoding="utf-8") as file:
        page = made(file.read())
    if sys.argv[1:] == ["--write"]:
        os.makedirs(os.path.dirname(PAGE), exist_ok=True)
        with open(PAGE, "w", encoding="utf-8") as file:
            file.write(page)
        return 0
    if os.path.exists(PAGE):
        with open(PAGE, encoding="utf-8") as file:
            if file.read() == page:
                return 0
    print("docs/man/cilk.1 isn't that of the help: tools/man_page.py --write makes it")
    return 1


if __name__ == "__main__":
    sys.exit(main())
