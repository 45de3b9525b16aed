"""Lines of a right certificate doubled, exchanged, or changed: the answers are those of the form's rules, by hand."""

import sys

sys.dont_write_bytecode = True
from hostile import rows
from hostile.room import Shown

DOUBLED = ["301 2", "301 3", "301 4", "301 5", "301 6", "301 9", "301 9", "301 9", "301 10", "301 11"]
EXCHANGED = ["301 1", "301 2", "301 3", "301 4", "301 5", "303 1", "303 2", "301 8", "301 9"]
SIZES = {
    "size 1000001 1 2": "301 2", "size 1000000 1 2": "301 9", "size 2 1 2": "301 8", "size 3 1 3": "301 6",
    "size 3 0 2": "301 3",
}  # fmt: skip
# the line as it is, as it is changed, and the answer
OF_A_RACE = [
    ("frame 2 1 1", "frame 2 1 2", "304 2"), ("strand 4 1 2 4", "strand 4 2 2 4", "305 4"),
    ("strand 4 1 2 4", "strand 4 1 2 3", "307 4"), ("write 0 1", "write 0 2", "303 7"),
    ("read 0 1 7", "read 0 0 7", "303 10"),
]  # fmt: skip


def refused(answer):
    return Shown(4, f"refused {answer}\n".encode(), b"")


def by_both(room, found, name, lines, answer, told):
    """Lines of a changed certificate: `check` and `threads` refuse it with this answer."""
    room.put("cert", "".join(f"{line}\n" for line in lines))
    for command in ("check", "threads"):
        found.expect(room.run(command, f"{name}.c", "cert"), refused(answer), f"{told}: {command}")


def of_each_version(room, name):
    """The lines of a program's certificate in each version."""
    rows.lay(room, name)
    for version in (1, 2):
        yield version, rows.certificate(name, version).decode().splitlines()


def doubled(room, found):
    """Each line of the smallest certificate twice."""
    for version, lines in of_each_version(room, "first"):
        for k, answer in enumerate(DOUBLED):
            by_both(room, found, "first", lines[: k + 1] + lines[k:], answer, f"version {version}, line {k + 1} twice")


def exchanged(room, found):
    """Each line of the smallest certificate exchanged with the next."""
    for version, lines in of_each_version(room, "first"):
        for k, answer in enumerate(EXCHANGED):
            other = lines[:k] + [lines[k + 1], lines[k]] + lines[k + 2 :]
            by_both(room, found, "first", other, answer, f"version {version}, line {k + 1} after the next")


def sizes(room, found):
    """Size lines of the smallest certificate that aren't its size."""
    for version, lines in of_each_version(room, "first"):
        for size, answer in SIZES.items():
            by_both(room, found, "first", [lines[0], size, *lines[2:]], answer, f"version {version}, {size}")


def of_a_race(room, found):
    """Lines of the certificate of a race that say something else than the run, each ahead of the race."""
    for version, lines in of_each_version(room, "one"):
        for line, other, answer in OF_A_RACE:
            found.must(lines.count(line) == 1, f"{line} stands once")
            changed = [other if it == line else it for it in lines]
            by_both(room, found, "one", changed, answer, f"version {version}, {other}")
        shorter = ["size 14 2 6" if it == "size 15 2 6" else it for it in lines[:-3] + lines[-2:]]
        by_both(room, found, "one", shorter, "303 15", f"version {version}, without its last event")


CASES = {
    "lines: doubled": doubled,
    "lines: exchanged": exchanged,
    "lines: size": sizes,
    "lines: of a race": of_a_race,
}
