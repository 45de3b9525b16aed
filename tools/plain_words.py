#!/usr/bin/env python3
"""Finds words in documents and comments that a reader has to translate, each with what to say in place of it.

plain_words.py [FILE ..]    these files; by default README.md, docs/*.md, and the comments of all crates

Each finding is a line `FILE:LINE: word -> what to say`; the last line has their number. The status is 0: a person judges, since a word may
be right where it stands (quoted output, a place behind a wall)."""

import glob
import os
import re
import sys

TOP = os.path.dirname(os.path.dirname(os.path.realpath(__file__)))
WORDS = [
    (r"\bbehind\b", "after, following"),
    (r"\bahead of\b", "before"),
    (r"\bso many\b", "n, count"),
    (r"\bat hand\b", "current, given"),
    (r"(?:^|[.:] )What (?:is|stands|lies)\b", "the noun itself"),
    (r"\bgo(?:es)? (?:on|along)\b", "continues, follows"),
    (r"\bis told\b", "receives, is reported"),
    (r"\bwant of memory\b", "out of memory"),
    (r"\bby hand\b", "manually"),
    (r"\btells? (?:apart|of)\b", "distinguish, describe"),
    (r"\bof which\b", "two sentences"),
]
COMMENT = {".rt": re.compile(r"//[/!]?(.*)$"), ".antt": re.compile(r"(?:^|\s)--\s(.*)$")}


def text_of(path):
    """The lines of a document, or of a file's comments, with their numbers; quoted pieces are blank."""
    comment = COMMENT.get(os.path.splitext(path)[1])
    with open(path, encoding="utf-8") as file:
        for number, line in enumerate(file, 1):
            found = comment.search(line.rstrip("\n")) if comment else None
            if comment is None or found:
                yield number, re.sub(r"`[^`]*`", "` `", found[1] if found else line).strip()


def default_files():
    documents = [f"{TOP}/README.md", *sorted(glob.glob(f"{TOP}/docs/*.md"))]
    parts = [f"{TOP}/crates/*/{part}/**/*{end}" for part, end in (("src", ".rt"), ("specs", ".antt"), ("proofs", ".antt"))]
    return documents + [path for part in parts for path in sorted(glob.glob(part, recursive=True))]


def main(words):
    count = 0
    for path in words or default_files():
        for number, text in text_of(path):
            for pattern, say in WORDS:
                for found in re.findall(pattern, text):
                    count += 1
                    print(f"{os.path.relpath(path, TOP)}:{number}: {found.strip(' .:')} -> {say}")
    print(f"{count} found")


if __name__ == "__main__":
    main(sys.argv[1:])
