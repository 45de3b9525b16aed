#!/usr/bin/env python3
"""The reference oracle: says by the definitions alone whether a trace has a race. For small traces.

oracle.py TRACE [SITES], or TRACE [--sites SITES] [--explain]

`race-free`, or with `, but N calls weren't recorded`; or `race P Q`: Q is the least position of an access that an
earlier one races with. Of all that race with Q on the least of its cells with a race, P is of the strand that comes
last where parallel strands are taken in reverse (of greatest Hebrew number), and there the first. Or `view-read race
P Q` of a reducer, where there is no race of accesses. With a table of sites both are shown by file, line and function.
It compares each access with all earlier ones of its cells, by the place at which the paths of their strands part, so
it is quadratic.

The path of a strand has for each open frame its number, its block (how many syncs it has made) and the item in the
block. A strand that comes later in the run is parallel to an earlier one where their paths part in one block, and the
earlier one goes on there into a spawned child.
"""

import bisect
import os
import sys

sys.path.insert(0, os.path.join(os.path.dirname(os.path.realpath(__file__)), ".."))
import cilktrace  # noqa: E402


class Strands:
    """The strands of a trace, by their paths."""

    def __init__(self, trace):
        self.paths, self.of = [], []  # of: the strand of each event
        self.spawned, stack, frames, path = set(), [], 0, [(0, 0, 0)]
        self.known = {}
        self.paths.append(tuple(path))
        for event in trace:
            word = event[0]
            if word == "enter":
                frames += 1
                frame, block, item = path[-1]
                path[-1] = (frame, block, item + 1)
                path.append((frames, 0, 0))
                stack.append(frames)
            elif word in ("spawned", "called"):
                path.pop()
                frame, block, item = path[-1]
                path[-1] = (frame, block, item + 1)
                child = stack.pop()
                if word == "spawned":
                    self.spawned.add(child)
            elif word == "sync":
                frame, block, item = path[-1]
                path[-1] = (frame, block + 1, 0)
            if word in ("enter", "spawned", "called", "sync"):
                self.paths.append(tuple(path))
            self.of.append(len(self.paths) - 1)

    def parallel(self, s, t):
        """Whether two strands, s before t in the run, are parallel."""
        key = (s, t)
        if key not in self.known:
            p, q = self.paths[s], self.paths[t]
            k = 0
            while k < min(len(p), len(q)) and p[k] == q[k]:
                k += 1
            # Strands of one frame part in its last element; a child's path is longer there.
            self.known[key] = (
                k < len(p) and k < len(q) and p[k][:2] == q[k][:2] and len(p) > k + 1 and p[k + 1][0] in self.spawned
            )
        return self.known[key]

    def last_of(self, accesses):
        """The position among (strand, position) that is the first of the last strand in the reversed order."""
        last = None
        for strand, position in sorted(accesses):
            if last is None or strand != last[0] and not self.parallel(last[0], strand):
                last = strand, position
        return last[1]

    def peers(self, s):
        """All strands parallel to s."""
        return frozenset(t for t in range(len(self.paths)) if self.parallel(min(s, t), max(s, t)))


def segments(trace):
    """The cells at which an access begins or ends: those between two of them have one history."""
    cuts = set()
    for event in trace:
        if event[0] in cilktrace.KINDS:
            cuts.update((event[1], event[1] + event[2]))
    return sorted(cuts)


def race_of_accesses(trace, strands):
    """(P, Q) of the first race of two accesses, or None."""
    cuts, history = segments(trace), {}
    for k, event in enumerate(trace):
        if event[0] not in cilktrace.KINDS:
            continue
        first, last = bisect.bisect_left(cuts, event[1]), bisect.bisect_left(cuts, event[1] + event[2])
        here, writes, racing = strands.of[k], event[0] == "write", []
        for segment in range(first, last):
            if event[0] == "clear":
                history.pop(segment, None)
                continue
            earlier = history.setdefault(segment, {})
            for (strand, wrote), position in earlier.items():
                if (writes or wrote) and strand != here and strands.parallel(strand, here):
                    racing.append((strand, position))
            if racing:
                return strands.last_of(racing), k + 2
            earlier.setdefault((here, writes), k + 2)
    return None


def race_of_views(trace, strands):
    """(P, Q) of the first two reads of a reducer's view in strands with other peers, or None. Creating it is a read."""
    reads = {}
    for k, event in enumerate(trace):
        if event[0] == "create":
            reads[event[1]] = []
        if event[0] in ("create", "value"):
            here = strands.of[k]
            for position, strand in reads[event[1]]:
                if strand != here and strands.peers(strand) != strands.peers(here):
                    return position, k + 2
            reads[event[1]].append((k + 2, here))
    return None


def verdict(trace):
    """`race-free`, `race` or `view-read race`, and the two positions."""
    strands = Strands(trace)
    found = race_of_accesses(trace, strands)
    if found:
        return ("race", *found)
    found = race_of_views(trace, strands)
    return ("view-read race", *found) if found else ("race-free",)


def left_out(trace):
    """What follows `race-free` of a trace with lines `unseen`."""
    n = sum(event[0] == "unseen" for event in trace)
    return f", but {n} call{'s' * (n != 1)} {'wasn' if n == 1 else 'weren'}'t recorded" if n else ""


def sites(path):
    """A table of sites: file:line and function by number."""
    with open(path, encoding="utf-8", errors="replace") as f:
        lines = f.read().split("\n")
    if lines[0] != "cilksites 1" or lines[-2:] != ["end", ""]:
        sys.exit(f"oracle.py: {path}: no table of sites")
    return {int(n): rest for n, rest in (line.split(" ", 1) for line in lines[1:-2])}


def main(words):
    """The command."""
    words = [w for w in words if w not in ("--sites", "--explain")]
    if not 1 <= len(words) <= 2:
        sys.exit(__doc__)
    with open(words[0], "rb") as f:
        try:
            trace = list(cilktrace.events(f))
        except cilktrace.Malformed as e:
            sys.exit(f"oracle.py: {'cut off' if e.cut else 'malformed'}: {e}")
    found = verdict(trace)
    print(" ".join(map(str, found)) + (left_out(trace) if len(found) == 1 else ""))
    places = sites(words[1]) if len(words) == 2 else {}
    for position in found[1:]:
        event = trace[position - 2]
        print(f"  {event[0]} at {places.get(event[-1], f'site {event[-1]}')}")
    return len(found) > 1


if __name__ == "__main__":
    sys.exit(main(sys.argv[1:]))
