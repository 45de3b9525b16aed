#!/usr/bin/env python3
"""Sees each case of crates/cilk_rows/data fail: what a case wants is changed, and then the case must not pass.

tools/seen_to_fail.py PROGRAM [REGEX] [--jobs N] [--light] [--rows ROWS]

Each case whose name REGEX finds is run once by PROGRAM, as it stands: it has to pass. Then its status, and the wanted text
of each stream, are changed in a copy of its texts, one at a time: of each piece between gaps `<..>` the first byte, the
middle one and the last; where there is no gap also a byte more at each end, the last one cut off, and a line's end of two
bytes. The runner of tools/cases.py has to find each of them. A text of gaps alone wants nothing, so it counts as one that
wasn't found; so does a file that a case has and nothing reads, and a case that isn't listed.
With --rows, ROWS (the built program of crates/cilk_rows, which the gate runs) serves these cases three times, with all
statuses changed, then all outputs, then all errors, and no case may pass.
What wasn't found is printed. The last line is `N seen to fail, M not`, of cases; status 1 where any wasn't. Run manually.
"""

import argparse
import concurrent.futures
import os
import re
import shutil
import subprocess
import sys
import tempfile

sys.dont_write_bytecode = True
import cases


def with_byte(piece, at):
    """A piece with another byte at a place."""
    return piece[:at] + (b"y" if piece[at : at + 1] == b"x" else b"x") + piece[at + 1 :]


def changes(text):
    """Texts that want something else than this one does."""
    pieces = text.split(cases.GAP)
    if len(pieces) == 1:
        yield from (text + b"x", text + b"\n")
        if text:
            yield from (b"x" + text, text[:-1], text.replace(b"\n", b"\r\n", 1) if b"\n" in text else text[1:])
    for k, piece in enumerate(pieces):
        for at in sorted({0, len(piece) // 2, len(piece) - 1}) if piece else ():
            yield cases.GAP.join(pieces[:k] + [with_byte(piece, at)] + pieces[k + 1 :])


def changed(texts, stream):
    """What a case with these texts may want of a stream, or as its status, that is wrong."""
    wanted = texts.get(stream, b"")
    if stream == "status":
        return [b"%d\n" % ((int(wanted or b"0") + 1) % 256)]
    return list(changes(wanted))


def unread(texts):
    """Files of a case with these texts that neither its words nor the runner read."""
    words, makes, fills = (cases.lines(texts.get(each, b"")) for each in ("words", "makes", "fills"))
    named = words + makes + [line.split(b" ")[0] for line in fills]
    return sorted(each for each in texts if each not in cases.OWN and each.encode() not in named)


def found(program, name, limit):
    """How many changes of a case were tried, and a line for each that the runner didn't find."""
    texts = cases.read(name)
    shown = cases.answer(program, texts, limit)
    told = [f"{name}: nothing reads its file `{each}`" for each in unread(texts)]
    told += cases.differences(name, texts, *shown)
    tried = 0
    for stream in cases.WANTED:
        others = changed(texts, stream)
        told += [] if others else [f"{name}: {stream} wants nothing"]
        for other in others:
            tried += 1
            if not cases.differences(name, {**texts, stream: other}, *shown):
                told.append(f"{name}: {stream} may be {other[:60]!r} too")
    return tried, told


def passed_by_rows(rows, names):
    """Lines that tell of cases that pass by the gate's program though a wanted text is changed."""
    told, kept = [], {name: cases.read(name) for name in names}
    with open(f"{cases.DATA}/cases", "w", encoding="utf-8") as file:
        file.writelines(f"{name}\n" for name in names)
    for stream in cases.WANTED:
        for name, texts in kept.items():
            cases.case_files.write(cases.path_of(name), {**texts, stream: changed(texts, stream)[0]})
        ended = subprocess.run([rows], cwd=cases.DATA, stdout=subprocess.PIPE, check=False)
        lines = ended.stdout.decode(errors="replace").splitlines()
        failed = {line.split(":")[0] for line in lines if ": " in line}
        told += [f"{name}: passes by {rows} with another {stream}" for name in names if name not in failed]
        print(f"with another {stream} each, by {os.path.basename(rows)}: {lines[-1] if lines else ended}", flush=True)
    return told


def all_found(given, names):
    """The lines of all that wasn't found."""
    told, tried = [], 0
    with concurrent.futures.ThreadPoolExecutor(given.jobs) as pool:
        for count, more in pool.map(lambda name: found(given.program, name, given.limit), names):
            tried += count
            told += more
            print("".join(f"{line}\n" for line in more), end="", flush=True)
    print(f"{tried} changes of what {len(names)} cases want")
    if given.rows:
        more = passed_by_rows(os.path.abspath(given.rows), names)
        print("".join(f"{line}\n" for line in more), end="", flush=True)
        told += more
    return told


def main():
    parser = argparse.ArgumentParser(description=__doc__, formatter_class=argparse.RawDescriptionHelpFormatter)
    parser.add_argument("program")
    parser.add_argument("form", nargs="?", default="")
    parser.add_argument("--jobs", type=int, default=1)
    parser.add_argument("--limit", type=int, default=300, help="seconds of a case")
    parser.add_argument("--rows")
    parser.add_argument("--light", action="store_true", help="leaves out what tools/cases.py does with this word")
    given = parser.parse_args()
    there = {*cases.files_with(cases.case_files.ENDING), *cases.folders()}
    with tempfile.TemporaryDirectory(prefix="seen-to-fail-") as room:
        cases.DATA = shutil.copytree(cases.DATA, f"{room}/data")
        slow = cases.names("slow") if given.light else ()
        names = [name for name in cases.names() if re.search(given.form, name) and name not in slow]
        names = [name for name in names if "unread" not in cases.read(name)]
        told = [f"{name}: isn't listed, so it isn't run" for name in sorted(there.difference(cases.names()))]
        print("".join(f"{line}\n" for line in told), end="")
        told += all_found(given, names)
    missed = len({line.split(":")[0] for line in told})
    print(f"{len(names) - missed} seen to fail, {missed} not")
    return 1 if missed else 0


if __name__ == "__main__":
    sys.exit(main())
