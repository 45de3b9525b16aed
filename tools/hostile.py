#!/usr/bin/env python3
"""Uses the built program with hostile intent, and looks at what it answers.

tools/hostile.py PROGRAM [--seconds N] [--seed S] [--only NAME] [--list] [--programs N] [--texts N]
tools/hostile.py --self-test PROGRAM [--seed S] [--only NAME] [--slower N]

Memory is refused, devices fail, limits are met, files are odd or change, and texts, certificates, scripts and programs
are damaged or made by chance (docs/TESTED.md). Each case has a line that says how much it tried; the last line is
`N passed, M failed`, of cases. The cases that are known go first; those by chance continue until the time is over, or,
with no --seconds, until that number of texts was damaged and of programs made. A case that no time was left for is named
as left out, and not counted. Needs a C compiler for the library that refuses.

With --self-test the cases are tried on programs that are wrong in one answer each: they have to be caught. Each case is
told, with how many of its wrong programs it caught; the last line counts cases. With --slower each run may take N times as
long before it is called a hang: an unproved program takes minutes at a limit.
"""

import argparse
import concurrent.futures
import itertools
import os
import sys
import tempfile
import threading
import time
import traceback

sys.dont_write_bytecode = True
sys.path.insert(0, os.path.dirname(os.path.realpath(__file__)))
from hostile import chance, edges, failing, files, lines, narrow, wrong
from hostile.room import SLOWER, Found, OutOfTime, Room, prepare

CASES = {**failing.CASES, **edges.CASES, **files.CASES, **lines.CASES, **narrow.CASES}
BY_CHANCE = {**chance.CASES, **narrow.BY_CHANCE}
WORKERS = 2
MARGIN = 4.0  # seconds that are kept for what is under way at the end
STACK = 2**29  # of a thread that runs a second reading
ROOM = []


def begin(program, folder, end, wrapped):
    """Makes the room of a process that tries cases."""
    own = tempfile.mkdtemp(prefix="room-", dir=folder)
    ROOM[:] = [Room(program, own, f"{folder}/fails.so", end, wrapped)]
    sys.setrecursionlimit(10**6)
    threading.stack_size(STACK)


def on_large_stack(work):
    """Runs this in a thread of its own, with a stack that a second reading needs."""
    answer = []
    thread = threading.Thread(target=lambda: answer.append(work()))
    thread.start()
    thread.join()
    return answer[0]


def tried(case, *more):
    """What one case, or a part of one by chance, has found; whether its time was over; how long it took."""
    found, over, before = Found(), False, time.monotonic()
    try:
        ROOM[0].left()
        case(ROOM[0], found, *more)
    except OutOfTime:
        over = True
    except Exception:  # (a case that can't continue has failed)
        found.must(False, "the case itself failed", traceback.format_exc()[-600:])
    return found, over, time.monotonic() - before


def known(name):
    """Tries a case that is known."""
    return on_large_stack(lambda: tried(CASES[name]))


def by_chance(name, seed, first, end):
    """Tries a part of a case by chance: these numbers."""
    return on_large_stack(lambda: tried(BY_CHANCE[name], seed, range(first, end)))


def tell(name, found, over, took):
    """Tells of a case; 1 where it passed, 0 where it failed, None where no time was left for it."""
    kinds = "".join(f"; {kind}: {count}" for kind, count in sorted(found.kinds.items()))
    done = "FAILED" if found.wrong else "left out for want of time" if over else "passed"
    print(f"{name}: {done}, {found.tried} tried, {found.wrong} wrong, {took:.1f} s{kinds}", flush=True)
    for it in found.told:
        print(f"    {it}", flush=True)
    return 0 if found.wrong else None if over else 1


def add(total, part):
    """Adds what a part of a case has found."""
    total.tried, total.wrong = total.tried + part.tried, total.wrong + part.wrong
    total.told = (total.told + part.told)[:10]
    total.kinds.update(part.kinds)


def all_known(pool, names, told):
    """Tries the cases that are known."""
    waiting = {pool.submit(known, name): name for name in names}
    for it in concurrent.futures.as_completed(waiting):
        told.append(tell(waiting[it], *it.result()))


def all_by_chance(pool, names, counts, seed, end, told):
    """Tries the cases by chance in turn, a part at a time, up to their counts or until the time is over."""
    totals = {name: (Found(), [0.0]) for name in names}
    parts = {name: iter(range(0, counts[name], chance.PART)) for name in names}

    def submitted():
        for name in itertools.cycle(names):
            if not parts or end and time.monotonic() > end:
                return
            first = next(parts.get(name, iter(())), None)
            if first is None:
                parts.pop(name, None)
                continue
            yield name, pool.submit(by_chance, name, seed, first, min(first + chance.PART, counts[name]))

    source, running = submitted(), {}
    while True:
        for name, it in itertools.islice(source, WORKERS + 1 - len(running)):
            running[it] = name
        if not running:
            break
        done, _ = concurrent.futures.wait(running, return_when=concurrent.futures.FIRST_COMPLETED)
        for it in done:
            (found, _, took), total = it.result(), totals[running.pop(it)]
            add(total[0], found)
            total[1][0] += took
    for name in names:
        found, took = totals[name]
        told.append(tell(name, found, found.tried == 0, took[0]))


def caught(number, program, folder, seed):
    """Whether a wrong program was wrong and is caught by its case, and the line that says so."""
    _, name, alteration = wrong.WRONG[number]
    ROOM[0].program, ROOM[0].wrapped = wrong.wrapper(program, folder, number, alteration), True
    found = wrong.Sharp()

    def work():
        try:
            if name in CASES:
                CASES[name](ROOM[0], found)
            else:
                BY_CHANCE[name](ROOM[0], found, seed, range(600))
        except wrong.Caught:
            return wrong.was_wrong(ROOM[0].program)
        return False

    return on_large_stack(work), found


def self_test(words, folder, names):
    """Tries the cases on wrong programs; how many cases caught all of theirs, and how many didn't or have none."""
    program, answers = os.path.realpath(words.program), {name: [] for name in (*CASES, *BY_CHANCE) if name in names}
    with concurrent.futures.ProcessPoolExecutor(
        WORKERS, initializer=begin, initargs=(program, folder, None, True)
    ) as pool:
        numbers = [k for k, it in enumerate(wrong.WRONG) if it[1] in names]
        waiting = {pool.submit(caught, k, program, folder, words.seed): k for k in numbers}
        for it in concurrent.futures.as_completed(waiting):
            (is_caught, found), (what, name, _) = it.result(), wrong.WRONG[waiting[it]]
            print(
                f"{what}: {'caught' if is_caught else 'NOT CAUGHT'} by `{name}` after {found.tried} checks", flush=True
            )
            for told in found.told:
                print(f"    {told}", flush=True)
            answers[name].append(is_caught)
    for name, seen in answers.items():
        print(f"`{name}`: {'seen to fail' if seen and all(seen) else 'NOT SEEN TO FAIL'}, {sum(seen)} of {len(seen)}")
    is_seen = [bool(seen) and all(seen) for seen in answers.values()]
    return is_seen.count(True), is_seen.count(False)


def sweep(words, folder, names):
    """Tries these cases; how many passed, and how many failed."""
    end = time.monotonic() + words.seconds - MARGIN if words.seconds else None
    told = []
    given = (os.path.realpath(words.program), folder, end, False)
    with concurrent.futures.ProcessPoolExecutor(WORKERS, initializer=begin, initargs=given) as pool:
        try:
            all_known(pool, [it for it in CASES if it in names], told)
            counts = {it: words.programs if it in chance.OF_PROGRAMS else words.texts for it in BY_CHANCE}
            all_by_chance(pool, [it for it in BY_CHANCE if it in names], counts, words.seed, end, told)
        except concurrent.futures.process.BrokenProcessPool:
            print("a process that tries cases died", flush=True)
            told.append(0)
    return told.count(1), told.count(0)


def main():
    known_words = argparse.ArgumentParser(description=__doc__, formatter_class=argparse.RawDescriptionHelpFormatter)
    known_words.add_argument("program", nargs="?")
    known_words.add_argument("--seconds", type=float)
    known_words.add_argument("--seed", type=int, default=1)
    known_words.add_argument("--only", action="append", help="a case, or the beginning of its name")
    known_words.add_argument("--list", action="store_true")
    known_words.add_argument("--programs", type=int, default=20_000)
    known_words.add_argument("--texts", type=int, default=100_000)
    known_words.add_argument("--self-test", action="store_true")
    known_words.add_argument("--slower", type=float, default=1.0)
    words = known_words.parse_args()
    SLOWER[0] = words.slower
    names = [it for it in (*CASES, *BY_CHANCE) if not words.only or it.startswith(tuple(words.only))]
    if words.list:
        print("\n".join(names))
        return 0
    if not words.program or not os.access(words.program, os.X_OK):
        known_words.error("a program that can be run has to be named")
    with tempfile.TemporaryDirectory(prefix="hostile-") as folder:
        if not prepare(folder):
            print("no C compiler makes the library that refuses: nothing was tried\n0 passed, 0 failed")
            return 0
        if words.self_test:
            passed, failed = self_test(words, folder, set(names))
        else:
            passed, failed = sweep(words, folder, set(names))
    print(f"{passed} passed, {failed} failed")
    return 1 if failed else 0


if __name__ == "__main__":
    sys.exit(main())
