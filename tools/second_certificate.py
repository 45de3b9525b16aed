#!/usr/bin/env python3
"""Writes a program's certificate, or judges one, by a second reading of docs/CERTIFICATES.md.

second_certificate.py write PROGRAM [INPUT]
second_certificate.py judge PROGRAM CERTIFICATE [INPUT]

`write` shows what `cilk certify` shows, `judge` what `cilk check` answers (docs/CHECKER.md), of programs and inputs
whose texts have no fault. Hebrew numbers and peer classes come from the run's tree, races from all pairs of positions:
it is slow, and meant for small runs. It shares no text with the tool.
"""

import re
import sys
import threading

sys.dont_write_bytecode = True
import second_opinion

NUMBER = re.compile(rb"0|[1-9][0-9]{0,9}")
VALUE = re.compile(rb"0|-?[1-9][0-9]{0,18}")
MOST = {"events": 1000000, "frames": 65536, "strands": 1000000}
# the fields after an event's word: numbers, values, reducers
FORMS = {
    "begin": "n", "spawn": "n", "call": "n", "resume": "n", "sync": "", "end": "", "read": "nvn", "write": "nv",
    "create": "r", "update": "rv", "set": "rv", "value": "rv", "print": "v",
}  # fmt: skip


def declared(part):
    """The declarations in a statement by text order, but for those in the body of a `cilk_for`."""
    if not isinstance(part, (tuple, list)) or part and part[0] == "cilk_for":
        return []
    if part and part[0] == "declare":
        return [part[3]]
    return [it for inner in part for it in declared(inner)]


class Recorded(second_opinion.Run):
    """A run that keeps its events, each as words in which cells have numbers, and what was found of it."""

    def __init__(self, text, inputs):
        super().__init__(text, inputs)
        self.text = text
        self.log, self.places, self.fault = [], {}, None
        self.rights, self.found = {}, None
        for kind, what, name in self.opening:
            if kind != "reducer":
                self.number([(name, i) for i in range(what)] if kind == "array" else [name])

    def number(self, cells):
        for cell in cells:
            self.places[cell] = len(self.places)

    def event(self, frame, *words):
        if words[0] in ("read", "write"):
            words = (words[0], self.places[words[1]], *words[2:])
        elif words[0] in ("create", "update", "set", "value"):
            words = (words[0], words[1].name, *words[2:])
        self.log.append(words)
        return super().event(frame)

    def function(self, frame, name, given):
        parameters, body = self.functions[name]
        own = [parameter for monoid, parameter in parameters if not monoid] + declared(body)
        self.number([(frame, it) for it in own])
        return super().function(frame, name, given)

    def turns(self, frame, scopes, part, first, end):
        if end - first == 1:
            self.number([(frame, it) for it in [part[1], *declared(part[4])]])
        super().turns(frame, scopes, part, first, end)

    def made(self):
        """The run, with its result where no fault stops it."""
        try:
            self.result = int(self.whole()[-1].split()[1])
        except second_opinion.Fault as fault:
            self.fault = fault.args[0]
        else:
            self.tree = Tree(self.log)
        return self

    def right(self, version):
        """The right certificate; of a run that a fault stops, its events alone."""
        if version not in self.rights:
            made = self.rights[version] = Certificate(version)
            made.events = listed(self.log, version)
            if not self.fault:
                tree = self.tree
                made.frames, made.result = tree.frames, self.result
                made.strands = [(it, tree.hebrews[k], tree.classes[k]) for k, it in enumerate(tree.owners, 1)]
        return self.rights[version]

    def race_found(self):
        """The first race with its number; empty where there is none."""
        if self.found is None:
            pair, other = first_race(self.log, self.tree), first_view_race(self.log, self.tree)
            self.found = (311, *pair) if pair else (312, *other) if other else ()
        return self.found


class Tree:
    """The tree of a run's strands, by descent over its events; a strand is its number, from 1."""

    def __init__(self, log):
        self.log, self.at = log, 0
        self.frames, self.owners = [], []
        self.whole = self.frame(0, 0)
        self.hebrews, self.classes = {}, {}
        self.mark(self.whole, 1, 0)
        self.strands = []
        for words in log:
            begins = words[0] in ("begin", "resume", "sync")
            self.strands.append((self.strands[-1] if self.strands else 0) + begins)

    def frame(self, parent, ordinal):
        self.frames.append((parent, ordinal))
        me, made = len(self.frames), [0]
        tree = self.block(me, made)
        while self.log[self.at][0] == "sync":
            tree = join("series", tree, self.block(me, made))
        self.at += 1
        return tree

    def block(self, me, made):
        self.owners.append(me)
        strand = ("strand", 1, len(self.owners), None)
        self.at += 1
        while self.log[self.at][0] not in ("spawn", "call", "sync", "end"):
            self.at += 1
        kind = self.log[self.at][0]
        if kind in ("sync", "end"):
            return strand
        self.at += 1
        made[0] += 1
        child = self.frame(me, made[0])
        rest = self.block(me, made)
        return join("series", strand, join("parallel" if kind == "spawn" else "series", child, rest))

    def mark(self, tree, hebrew, peers):
        """Gives a tree's strands their Hebrew numbers from this on, and their classes, where these are the peers."""
        kind, _, one, other = tree
        if kind == "strand":
            self.hebrews[one], self.classes[one] = hebrew, peers
        elif kind == "series":
            self.mark(one, hebrew, peers)
            self.mark(other, hebrew + one[1], peers)
        else:
            self.mark(one, hebrew + other[1], first_strand(one))
            self.mark(other, hebrew, first_strand(other))

    def hebrew(self, position):
        return self.hebrews[self.strands[position - 1]]

    def peers(self, position):
        return self.classes[self.strands[position - 1]]


def join(kind, one, other):
    return kind, one[1] + other[1], one, other


def first_strand(tree):
    while tree[0] != "strand":
        tree = tree[2]
    return tree[2]


def first_race(log, tree):
    """The least position that an earlier access races with; of those the one of greatest Hebrew number, then first."""
    accesses = {}
    for q, words in enumerate(log, 1):
        if words[0] not in ("read", "write"):
            continue
        before = accesses.setdefault(words[1], [])
        racing = [p for p, kind in before if "write" in (kind, words[0]) and tree.hebrew(p) > tree.hebrew(q)]
        if racing:
            return min(racing, key=lambda p: (-tree.hebrew(p), p)), q
        before.append((q, words[0]))
    return None


def first_view_race(log, tree):
    created = {}
    for q, words in enumerate(log, 1):
        if words[0] == "create":
            created[words[1]] = q
        elif words[0] in ("set", "value") and tree.peers(created[words[1]]) != tree.peers(q):
            return created[words[1]], q
    return None


class Certificate:
    """What a certificate says: its version, events, frames, strands and result."""

    def __init__(self, version):
        self.version, self.frames, self.strands, self.events, self.result = version, [], [], [], 0

    def text(self):
        lines = [f"cilkcert {self.version}", f"size {len(self.events)} {len(self.frames)} {len(self.strands)}"]
        lines += [f"frame {k} {parent} {ordinal}" for k, (parent, ordinal) in enumerate(self.frames, 1)]
        lines += ["strand " + " ".join(map(str, (k, *strand))) for k, strand in enumerate(self.strands, 1)]
        for event in self.events:
            words = []
            for word in event:
                words += word if isinstance(word, tuple) else [word]
            lines.append(" ".join(map(str, words)))
        lines += [f"result {self.result}", "end"]
        return "".join(f"{line}\n" for line in lines).encode()


def listed(log, version):
    """The events with the source of each read, and reducers by the version's names."""
    last, made, events = {}, {}, []
    for at, words in enumerate(log, 1):
        if words[0] == "read":
            words = (*words, last.get(words[1], 0))
        elif words[0] == "write":
            last[words[1]] = at
        elif words[0] == "create":
            made[words[1]] = (len(made) + 1,)
        if version == 1 and words[0] in ("create", "update", "set", "value"):
            words = (words[0], made[words[1]], *words[2:])
        events.append(words)
    return events


class Refused(Exception):
    """A refusal, by number and places."""


class Reader:
    """Reads a text, line by line."""

    def __init__(self, text):
        self.text, self.at, self.line = text, 0, 0

    def words(self):
        self.line += 1
        end = self.text.find(b"\n", self.at)
        if (len(self.text) if end < 0 else end) - self.at >= 97:
            raise Refused(301, self.line)
        if end < 0:
            raise Refused(302, self.line)
        words = self.text[self.at : end].split(b" ")
        self.at = end + 1
        return words

    def need(self, holds):
        if not holds:
            raise Refused(301, self.line)

    def number(self, word):
        self.need(NUMBER.fullmatch(word) and int(word) < 2**32)
        return int(word)

    def value(self, word):
        self.need(VALUE.fullmatch(word) and -(2**63) <= int(word) < 2**63)
        return int(word)

    def numbered(self, name, count):
        """The numbers of a line after its word."""
        words = self.words()
        self.need(words[0] == name and len(words) == count + 1)
        return [self.number(word) for word in words[1:]]

    def event(self, version):
        words = self.words()
        form = FORMS.get(words[0].decode("latin-1"))
        self.need(form is not None)
        kinds = list(form.replace("r", "n" if version == 1 else "nn"))
        self.need(len(words) == len(kinds) + 1)
        read = [self.value(word) if kind == "v" else self.number(word) for word, kind in zip(words[1:], kinds)]
        if form.startswith("r"):
            read = [tuple(read[:version]), *read[version:]]
        return (words[0].decode(), *read)

    def certificate(self):
        words = self.words()
        self.need(words in ([b"cilkcert", b"1"], [b"cilkcert", b"2"]))
        made = Certificate(int(words[1]))
        events, frames, strands = self.numbered(b"size", 3)
        self.need(events <= MOST["events"] and frames <= MOST["frames"] and strands <= MOST["strands"])
        for name, count, width, column in ((b"frame", frames, 3, made.frames), (b"strand", strands, 4, made.strands)):
            for k in range(1, count + 1):
                number, *rest = self.numbered(name, width)
                self.need(number == k)
                column.append(tuple(rest))
        made.events = [self.event(made.version) for _ in range(events)]
        words = self.words()
        self.need(words[0] == b"result" and len(words) == 2)
        made.result = self.value(words[1])
        self.need(self.words() == [b"end"])
        if self.at < len(self.text):
            raise Refused(301, self.line + 1)
        return made


def first_wrong(number, given, wanted, until=None):
    """Refuses by the least place, from 1, at which two columns differ or only one has an item."""
    longer = max(len(given), len(wanted)) if until is None else until
    for k in range(longer):
        if k >= len(given) or k >= len(wanted) or given[k] != wanted[k]:
            raise Refused(number, k + 1)


def events_of(certificate):
    """The events without sources."""
    return [words[:3] if words[0] == "read" else words for words in certificate.events]


def compare(run, text):
    """Raises the first refusal, if there is one."""
    given = Reader(text).certificate()
    wanted = run.right(given.version)
    first_wrong(303, events_of(given), events_of(wanted), len(run.log) if run.fault else None)
    if run.fault:
        raise Refused(310, len(run.log) + 1)
    first_wrong(304, given.frames, wanted.frames)
    first_wrong(305, [it[0] for it in given.strands], [it[0] for it in wanted.strands])
    first_wrong(306, [it[1] for it in given.strands], [it[1] for it in wanted.strands])
    first_wrong(307, [it[2] for it in given.strands], [it[2] for it in wanted.strands])
    first_wrong(308, given.events, wanted.events)
    if given.result != wanted.result:
        raise Refused(309)
    if run.race_found():
        raise Refused(*run.race_found())


def judged(run, text):
    """What the check of a text answers."""
    try:
        compare(run, text)
    except Refused as it:
        return " ".join(map(str, ("refused", *it.args)))
    return "accepted"


def main(words):
    with open(words[1], encoding="utf-8", errors="replace") as it:
        text = it.read()
    rest, inputs = words[2 + (words[0] == "judge") :], []
    for path in rest:
        with open(path, encoding="utf-8") as it:
            inputs = list(map(int, it.read().split()))
    run = Recorded(text, inputs).made()
    if words[0] == "judge":
        with open(words[2], "rb") as it:
            print(judged(run, it.read()))
    elif run.fault:
        print(f"fault {run.fault} at {len(run.log) + 1}", file=sys.stderr)
    else:
        sys.stdout.buffer.write(run.right(2).text())
        sys.stdout.flush()


if __name__ == "__main__":
    if len(sys.argv) < 3 or sys.argv[1] not in ("write", "judge"):
        sys.exit(__doc__)
    sys.setrecursionlimit(10**6)
    threading.stack_size(2**29)
    working = threading.Thread(target=main, args=[sys.argv[1:]])
    working.start()
    working.join()
