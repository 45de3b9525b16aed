"""Reads and writes traces, as docs/TRACES.md says. Used by trace2text and by the tests.

An event is a tuple of its word and its numbers, as ("read", cell, count, site). The position of an event is its line of
the text form, from 1; the first event has position 2.
"""

import re

TEXT_HEADER, BINARY_HEADER = b"cilktrace 1\n", b"cilktrace-bin 1\n"
NUMBERS = {
    "enter": 1, "spawned": 0, "called": 0, "sync": 0, "end": 0, "read": 3, "write": 3, "clear": 2,
    "create": 2, "update": 2, "value": 2, "retire": 2, "unseen": 1,
}  # fmt: skip
LINE = re.compile(rb"([a-z]+)(?: (0|[1-9]\d*))?(?: (0|[1-9]\d*))?(?: (0|[1-9]\d*))?\n")
MARKS, KINDS, REDUCERS = ("spawned", "called", "sync", "end"), ("read", "write", "clear"), (
    "create", "update", "value", "retire")  # fmt: skip
LONGEST, MOST_CELLS, MOST, MOST_KINDS = 64, 4096, 2**32, 2**24
OVER = "a number of 2^32 or more"


class Malformed(Exception):
    """A trace with a fault: its position and what is wrong. `cut` where it only ends too early."""

    def __init__(self, position, why, cut=False):
        super().__init__(f"line {position}: {why}")
        self.position, self.cut = position, cut


class Rules:
    """What is more than a line's form: nesting, reducers that are alive, limits."""

    def __init__(self):
        self.depth, self.alive, self.position = 0, set(), 1

    def check(self, event):
        """Raises Malformed where an event can't follow those before it."""
        self.position += 1
        word = event[0]
        if self.position >= MOST - 1:
            raise Malformed(self.position, "too many lines")
        if word == "enter":
            self.depth += 1
        elif word in ("spawned", "called"):
            if self.depth == 0:
                raise Malformed(self.position, f"`{word}` in the root")
            self.depth -= 1
        elif word == "end" and self.depth:
            raise Malformed(self.position, "`end` where frames are open")
        elif word in KINDS and not (1 <= event[2] <= MOST_CELLS and event[1] + event[2] <= MOST):
            raise Malformed(self.position, "cells out of range")
        elif word == "create":
            if event[1] in self.alive:
                raise Malformed(self.position, "a reducer that is alive is created")
            self.alive.add(event[1])
        elif word in REDUCERS and event[1] not in self.alive:
            raise Malformed(self.position, "a reducer that isn't alive")
        elif word == "retire":
            self.alive.discard(event[1])
        if word in NUMBERS and any(n >= MOST for n in event[1:]):
            raise Malformed(self.position, OVER)


def text_events(stream):
    """The events of a text whose header was read."""
    position, word = 1, None
    for line in stream:
        position += 1
        if word == "end":
            raise Malformed(position, "bytes after the end")
        found = LINE.fullmatch(line)
        if not line.endswith(b"\n") and len(line) <= LONGEST:
            raise Malformed(position, "no line feed at the end of the file", cut=True)
        if not found or len(line) > LONGEST + 1:
            raise Malformed(position, "no line of a trace")
        word, numbers = found[1].decode(), [int(n) for n in found.groups()[1:] if n is not None]
        if NUMBERS.get(word) != len(numbers):
            raise Malformed(position, "no line of a trace")
        yield (word, *numbers)


class Bytes:
    """A binary form's bytes, by numbers in LEB128."""

    def __init__(self, stream):
        self.stream, self.block, self.at = stream, b"", 0

    def byte(self):
        """The next byte, or -1."""
        if self.at == len(self.block):
            self.block, self.at = self.stream.read(1 << 16), 0
            if not self.block:
                return -1
        self.at += 1
        return self.block[self.at - 1]

    def number(self, position):
        """The next number; in its shortest form, of five bytes at most."""
        value = shift = 0
        while True:
            byte = self.byte()
            if byte < 0:
                raise Malformed(position, "the file ends in an event", cut=True)
            value |= (byte & 127) << shift
            shift += 7
            if byte < 128:
                if byte == 0 and shift > 7:
                    raise Malformed(position, "a number with needless bytes")
                return value
            if shift == 35:
                raise Malformed(position, "a number of more than five bytes")


def binary_events(stream):
    """The events of a binary form whose header was read. Each number is judged as it is read."""
    data, kinds, last_cell, position = Bytes(stream), [], 0, 1

    def below(limit, why):
        number = data.number(position)
        if number >= limit:
            raise Malformed(position, why)
        return number

    while True:
        position += 1
        tag = data.number(position)
        while tag == 0:  # a kind of line: kind, count, site, next cell
            word = below(len(KINDS), "an unknown kind of line")
            kinds.append([word, *(below(MOST, OVER) for _ in range(2)), last_cell])
            if len(kinds) > MOST_KINDS:
                raise Malformed(position, "too many kinds of lines")
            tag = data.number(position)
        if tag == 1:
            yield ("enter", below(MOST, OVER))
        elif tag < 6:
            yield (MARKS[tag - 2],)
            if tag == 5 and data.byte() < 0:
                return
            if tag == 5:
                raise Malformed(position + 1, "bytes after the end")
        elif tag == 6:
            kind = below(len(REDUCERS), "an unknown event of a reducer")
            yield (REDUCERS[kind], *(below(MOST, OVER) for _ in range(2)))
        elif tag == 7:
            yield ("unseen", below(MOST, OVER))
        elif tag - 8 >= len(kinds):
            raise Malformed(position, "an undeclared line")
        else:
            kind = kinds[tag - 8]
            moved = data.number(position)
            cell = kind[3] + (moved >> 1 ^ -(moved & 1))
            if not 0 <= cell < MOST:
                raise Malformed(position, "cells out of range")
            count = kind[1] or below(MOST, OVER)
            kind[3], last_cell = cell + count, cell
            yield (KINDS[kind[0]], cell, count) + ((kind[2],) if kind[0] < 2 else ())


def events(stream):
    """The events of a trace of either form, with `end` as the last; raises Malformed."""
    header = stream.readline(LONGEST + 1)
    if header not in (TEXT_HEADER, BINARY_HEADER):
        is_cut = not header.endswith(b"\n") and len(header) <= LONGEST
        raise Malformed(1, "no header of a trace", cut=is_cut)
    rules, ended = Rules(), False
    for event in text_events(stream) if header == TEXT_HEADER else binary_events(stream):
        rules.check(event)
        ended = event[0] == "end"
        yield event
    if not ended:
        raise Malformed(rules.position + 1, "the trace ends without `end`", cut=True)


def write_text(trace, out):
    """Writes events as text."""
    out.write(TEXT_HEADER)
    for event in trace:
        out.write((" ".join(map(str, event)) + "\n").encode())


def leb128(value):
    """A number's bytes."""
    out = bytearray()
    while value >= 128:
        out.append(value & 127 | 128)
        value >>= 7
    out.append(value)
    return out


def write_binary(trace, out):
    """Writes events as binary, as the recorder does: a count up to 16 is part of a line's declaration."""
    out.write(BINARY_HEADER)
    kinds, last_cell = {}, 0
    for event in trace:
        word = event[0]
        if word in KINDS:
            cell, count, site = event[1], event[2], event[3] if len(event) > 3 else 0
            fixed = count if count <= 16 else 0
            key, data = (word, fixed, site), b""
            if key not in kinds:
                data = b"\0" + leb128(KINDS.index(word)) + leb128(fixed) + leb128(site)
                kinds[key] = [len(kinds), last_cell]
            moved = cell - kinds[key][1]
            data += leb128(8 + kinds[key][0]) + leb128(moved << 1 if moved >= 0 else (-moved << 1) - 1)
            out.write(data + (b"" if fixed else leb128(count)))
            kinds[key][1], last_cell = cell + count, cell
        elif word == "enter":
            out.write(b"\1" + leb128(event[1]))
        elif word == "unseen":
            out.write(b"\7" + leb128(event[1]))
        elif word in MARKS:
            out.write(bytes([2 + MARKS.index(word)]))
        else:
            out.write(b"\6" + leb128(REDUCERS.index(word)) + leb128(event[1]) + leb128(event[2]))
