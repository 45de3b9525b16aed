#!/usr/bin/env python3
"""The file of a case of crates/cilk_rows/data: all its texts by name, in a form like that of Go's txtar.

A case's file is UTF-8 without NUL, CR or another control character but tab and LF. Lines before the first head tell its
reader what the case is for (`about`). A head is a line `-- NAME --` or `-- NAME, FORM --`, and the lines after it, up to
the next head or the end, are the text of that name, each with its LF. An empty text has a head and no line. The forms:

  no LF             the text's last line has none
  escaped           `\\xNN` is the byte NN, and `\\\\` a backslash; all other bytes stand for themselves
  escaped, no LF    both

A text is escaped where it isn't UTF-8, has a control character, or has a line that looks like a head (whose first `-` is
then `\\x2d`). This is a module of the tools that read cases; crates/cilk_rows/src/texts.rt reads the same form.
"""

import re

HEAD = re.compile(r"-- ([^\s,]+)(?:, (no LF|escaped|escaped, no LF))? --")
LOOKS = re.compile(r"^-- .* --$", re.MULTILINE)
ODD = re.compile("[\x00-\x08\x0b-\x1f\x7f\udc80-\udcff]")
ESCAPE = re.compile(r"\\(?:x([0-9a-f]{2})|(\\))")
FIRST = ("words", "makes", "fills", "unread")
LAST = ("stdin", "reads", "status", "out", "err")
ENDING = ".case"


class Malformed(Exception):
    """A case's file that can't be read."""


def escaped(text):
    """A text, decoded with what isn't UTF-8 as surrogates, with its odd bytes as escapes."""
    text = ODD.sub(lambda found: f"\\x{ord(found[0]) & 0xff:02x}", text.replace("\\", "\\\\"))
    return LOOKS.sub(lambda found: "\\x2d" + found[0][1:], text)


def unescaped(text):
    """The bytes of an escaped text."""
    found, at = [], 0
    for escape in ESCAPE.finditer(text):
        found += [text[at : escape.start()], escape]
        at = escape.end()
    found.append(text[at:])
    if any("\\" in it for it in found[::2]):
        raise Malformed("a backslash that begins no escape")
    spelled = [bytes.fromhex(it[1]) if it[1] else b"\\" for it in found[1::2]] + [b""]
    return b"".join(plain.encode() + byte for plain, byte in zip(found[::2], spelled))


def order(name, words):
    """Where a text of a case stands in its file: files are in the middle, in the order of the words that name them."""
    if name in FIRST:
        return 0, FIRST.index(name), name
    if name in LAST:
        return 2, LAST.index(name), name
    return 1, words.index(name) if name in words else len(words), name


def with_head(name, text):
    """A text below its head."""
    if not HEAD.fullmatch(f"-- {name} --"):
        raise Malformed(f"a name that no head can have: {name}")
    text = text.decode("utf-8", "surrogateescape")
    forms = []
    if ODD.search(text) or LOOKS.search(text):
        text = escaped(text)
        forms.append("escaped")
    if text and not text.endswith("\n"):
        text += "\n"
        forms.append("no LF")
    return f"-- {', '.join([name, *forms])} --\n{text}"


def packed(texts):
    """A case's file, as bytes, from the case's texts by name."""
    words = texts.get("words", b"").decode("utf-8", "replace").split("\n")
    about = texts.get("about", b"").decode("utf-8", "surrogateescape")
    is_plain = about.endswith("\n") and not ODD.search(about) and not LOOKS.search(about)
    names = sorted((it for it in texts if not (is_plain and it == "about")), key=lambda it: order(it, words))
    return ((about if is_plain else "") + "".join(with_head(it, texts[it]) for it in names)).encode()


def body_of(name, form, lines):
    """The bytes of a text, from its lines and the form that its head says."""
    text = "".join(f"{line}\n" for line in lines)
    if form.endswith("no LF"):
        if not text:
            raise Malformed(f"no last line to have no LF: {name}")
        text = text[:-1]
    return unescaped(text) if form.startswith("escaped") else text.encode()


def unpacked(whole):
    """A case's texts by name, from the bytes of its file."""
    text = whole.decode()
    if ODD.search(text):
        raise Malformed("a control character")
    if text and not text.endswith("\n"):
        raise Malformed("its last line has no LF")
    parts = [("about", "", [])]
    for line in text.split("\n")[:-1]:
        head = HEAD.fullmatch(line)
        if head:
            parts.append((head[1], head[2] or "", []))
        elif LOOKS.fullmatch(line):
            raise Malformed(f"no head: {line}")
        else:
            parts[-1][2].append(line)
    parts = parts if parts[0][2] else parts[1:]
    texts = {name: body_of(name, form, lines) for name, form, lines in parts}
    if len(texts) < len(parts):
        raise Malformed("two texts of one name")
    return texts


def read(path):
    """A case's texts by name."""
    with open(path, "rb") as file:
        try:
            return unpacked(file.read())
        except (Malformed, UnicodeDecodeError) as fault:
            raise Malformed(f"{path}: {fault}") from fault


def write(path, texts):
    """Writes a case's file, from its texts by name."""
    whole = packed(texts)
    with open(path, "wb") as file:
        file.write(whole)
