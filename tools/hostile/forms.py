"""The forms of words of each command, as `cilk help COMMAND` lists them, by the kind of text that they are tried with."""

import json
import random
import re
import sys

sys.dont_write_bytecode = True
from hostile.room import NO_MEMORY

# Letters stand for files: P a program, C a certificate, S a script, A one with `all` alone, O an input of `--on`, T a trace,
# L a table of sites; N is a number of workers, or a line. `--input FILE` goes behind them where a program takes an input.
# `< P` is a program on standard input, `< T` a trace there.
FORMS = {
    "traces": (
        "judge T", "judge T --explain", "judge T --sites L", "judge T --sites L --explain", "judge T --explain --color",
        "judge - < T", "judge - --explain < T", "judge - --sites L < T",
    ),
    "certificates": (
        "check P C --explain", "check P C --helpers 2", "check P C --helpers 16", "check P C --helpers 2 --explain",
        "threads P C", "threads P C --explain", "threads P C --workers 3 --stats", "threads P C --on O",
        "schedule P C", "schedule P C --explain",
    ),
    "scripts": (
        "play P S --workers N", "play P S --workers N --trace", "play P S --workers N --explain",
        "play P S --workers N --trace --explain", "play P S --workers N --explain --color",
        "play P S --workers N --strict", "play P S --workers N --strict --explain",
    ),
    "programs": (
        "< P", "run P --explain", "certify P --explain", "settle P", "settle P --color", "settle P --why N", "settle P --short",
        "settle P --short --explain", "settle P --json", "settle P P", "settle P --every --short", "settle P --every --json",
        "settle P --every --fix 0,2..5 --short", "check P C", "check P C --explain --color",
        "check P C --helpers 2", "check P C --helpers 16", "check P C --helpers 2 --explain", "threads P C --workers 1",
        "threads P C --workers 3", "threads P C --workers 64 --stats", "threads P C --explain", "threads P C --on O",
        "play P A", "play P A --workers 1", "play P A --workers 3 --trace", "play P A --workers 64 --explain",
        "play P A --workers 64 --trace", "schedule P C", "schedule P C --explain", "measure P", "measure P --csv",
        "measure P --svg", "measure P --dot", "measure P --explain", "measure P --svg --explain",
    ),
}  # fmt: skip
ADDS = ("--explain", "--trace", "--stats", "--sites", "--why")  # options behind whose answer a text may follow on err
LISTS = (  # forms that answer with a list
    "settle P P", "settle P --short", "settle P --short --explain", "settle P --json", "settle P --every --short",
    "settle P --every --json", "settle P --every --fix 0,2..5 --short",
)  # fmt: skip
USAGE = re.compile(rb"^Usage: cilk (\w+)(.*)", re.M)
OPTION = re.compile(r"--[a-z]+")


def words_of(form, names):
    """The words of a form, with these names in place of its letters."""
    return [names.get(word, word) for word in form.partition("<")[0].split()]


def given(form):
    """The letter of the text that a form has on standard input; none where that is empty."""
    return form.partition("<")[2].strip()


def deal(kind, seed):
    """The forms for texts of a kind, without end: all in turn, each time in another order."""
    chance = random.Random(f"{kind} {seed}")
    while True:
        yield from chance.sample(FORMS[kind], len(FORMS[kind]))


def adds(form):
    """Whether these words may add a text on err, behind the answer."""
    return form.startswith(("settle", "schedule")) or not set(ADDS).isdisjoint(form.split())


def fair(form, *answers):
    """What a form may show, where its command answers one of these: that, with a text behind it if it adds one, or `no memory`."""

    def is_fair(seen):
        told = [it for it in answers if adds(form) and seen.err.startswith(it.err)]
        return seen in (*answers, NO_MEMORY) or any(seen == it._replace(err=seen.err) for it in told)

    return is_fair


def is_list(seen):
    """Whether this is a list of answers: lines or, as JSON, objects, of which one tells the status."""
    lines = seen.out.splitlines()
    if lines and lines[0].startswith(b"{"):
        return [json.loads(it)["status"] for it in lines] == [seen.status]
    return seen == NO_MEMORY or seen.status in (0, 2, 3, 4) and lines != []


def all_tried(room, found):
    """Each form was tried, and each option that the program's help lists is in one of its command's forms."""
    every = [form for forms in FORMS.values() for form in forms]
    for form in every:
        found.must(found.kinds[form] > 0, f"never tried: {form}")
    for command in {form.split()[0] for form in every if not form.startswith("<")}:
        usage = USAGE.search(room.run("help", command).err)
        found.must(usage, f"no help on {command}")
        listed = set(OPTION.findall(usage[2].decode())) if usage else set()
        known = {word for form in every for word in form.split() if form.split()[0] == command}
        found.expect(sorted(listed - known - {"--input"}), [], f"options of {command} that no form has")
