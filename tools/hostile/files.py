"""Files that are odd, or that change while they are read, and certificates that were cut off."""

import os
import random
import subprocess
import sys
import threading
import time

sys.dont_write_bytecode = True
from hostile import rows
from hostile.edges import MAX_FILE, script_at, sparse, wrong_text
from hostile.room import LONG, Shown, cannot_read

NOT_ENDED = Shown(0, b"not ended\n", b"")
ABSENT = Shown(4, b"refused 302 1\n", b"")


def places(room):
    """Each place of a command where a file stands: words with {} for it, and what comes of an empty file."""
    program, cert, _ = rows.lay(room, "first")
    whole = rows.OUTCOMES["first"]
    no_main = wrong_text(115, 0)
    return [
        (["run", "{}"], no_main), (["certify", "{}"], no_main), (["check", "{}", cert], no_main), (
            ["play", "{}", "all"], no_main
        ),
        (["threads", "{}", cert], no_main), (["measure", "{}"], no_main), (["judge", "{}"], Shown(2, b"", b"trace 302 at 1\n")),
        (["run", program, "--input", "{}"], whole), (
            ["certify", program, "--input", "{}"], Shown(0, rows.certificate("first"), b"")
        ),
        (["check", program, cert, "--input", "{}"], rows.ACCEPTED), (["play", program, "all", "--input", "{}"], whole),
        (["threads", program, cert, "--input", "{}"], whole), (["threads", program, cert, "--on", "{}"], whole),
        (["check", program, "{}"], ABSENT), (["threads", program, "{}"], ABSENT), (["play", program, "{}"], NOT_ENDED),
    ]  # fmt: skip


def odd(room, found):
    """Directories, files that aren't there, empty ones, devices, and paths of all sorts."""
    os.makedirs(f"{room.folder}/folder", exist_ok=True)
    room.put("empty", "")
    long_name = "n" * 300
    for words, empty in places(room):
        for name in (
            "folder", "absent", "absent/absent", "all/absent", ".", "/", "", long_name, "a b\tc", "\u00e9", "-"
        ):
            given = [it.format(name) for it in words]
            wanted = empty if given == ["judge", "-"] else cannot_read(name)  # (`-` is standard input, which is empty)
            found.expect(room.run(*given), wanted, " ".join(given))
        for name in ("empty", "/dev/null"):
            given = [it.format(name) for it in words]
            found.expect(room.run(*given), empty, " ".join(given))
    os.chmod(f"{room.folder}/empty", 0)
    if os.geteuid():
        found.expect(room.run("run", "empty"), cannot_read("empty"), "a file that may not be read")
    os.chmod(f"{room.folder}/empty", 0o600)


def endless(room, found):
    """Devices that give bytes without end can't be read; as a certificate their first line may be refused instead."""
    program, cert, _ = rows.lay(room, "first")
    for device in ("/dev/zero", "/dev/full"):
        for words in (["run", device], ["run", program, "--input", device], ["play", program, device]):
            found.expect(room.run(*words, patience=LONG), cannot_read(device), " ".join(words))
        seen = room.run("check", program, device, patience=LONG, helpers=False)
        found.must(seen in (cannot_read(device), Shown(4, b"refused 301 1\n", b"")), f"check {program} {device}", seen)
    with open("/dev/zero", "rb") as zeros:
        found.expect(room.run(stdin=zeros), wrong_text(106, 262_144), "zeros without end on standard input")
    found.must(os.path.exists(f"{room.folder}/{cert}"), "the certificate is still there")


def not_text(room, found):
    """Words that aren't UTF-8."""
    program, cert, _ = rows.lay(room, "first")
    with open(f"{room.folder}/".encode() + b"\xff.c", "wb") as it:
        it.write(rows.FIRST.encode())
    for words in (
        [b"run", b"\xff.c"],
        [b"\xff"],
        [b"check", b"\xc3\x28", cert],
        [b"run", program, b"--input", b"\xed\xa0\x80"],
        [b"run", b"\xf5\x80\x80\x80"],
    ):
        seen = room.run(*words)
        found.expect(seen, Shown(2, b"", b"error: an argument is not text\n"), f"{words}")


def feed(path, parts, pause):
    """Writes a fifo part by part; ends by itself where nobody reads it."""
    try:
        with open(path, "wb", buffering=0) as it:
            for part in parts:
                it.write(part)
                time.sleep(pause)
    except OSError:
        pass


def fifos(room, found):
    """Fifos that are fed slowly: they are read whole, a certificate or a trace from its beginning to its end."""
    program, cert, _ = rows.lay(room, "turns")
    numbers, path = "turns.in", f"{room.folder}/fifo"
    contents = {
        "program": rows.TURNS.encode(), "input": b"7", "script": b"all\n", "certificate": rows.certificate("turns"),
        "trace": rows.TRACES["spawned"].encode(),
    }
    outcome = rows.OUTCOMES["turns"]
    for which, words, wanted in (
        ("program", ["run", "fifo", "--input", numbers], outcome), (
            "input", ["run", program, "--input", "fifo"], outcome
        ),
        ("script", ["play", program, "fifo", "--input", numbers], outcome),
        ("program", ["check", "fifo", cert, "--input", numbers], rows.ACCEPTED),
        ("input", ["threads", program, cert, "--input", "fifo"], outcome),
        ("input", ["threads", program, cert, "--input", numbers, "--on", "fifo"], outcome),
        ("certificate", ["check", program, "fifo", "--input", numbers], rows.ACCEPTED),
        ("certificate", ["threads", program, "fifo", "--input", numbers], outcome),
        ("trace", ["judge", "fifo"], rows.JUDGED["spawned"]),
    ):  # fmt: skip
        os.mkfifo(path)
        text = contents[which]
        feeder = threading.Thread(
            target=feed, args=(path, [text[k : k + 7] for k in range(0, len(text), 7)], 0.001), daemon=True
        )
        feeder.start()
        seen = room.run(*words, helpers=False)
        found.expect(seen, wanted, f"{' '.join(words)} with a fifo")
        os.remove(path)
    room.put("fifo", "")


def twice(room, found):
    """The same path given twice, and an option given twice."""
    program, cert, _ = rows.lay(room, "first")
    bad_input = wrong_text(121, 0, "input")
    for words, wanted in (
        (["check", program, program], ABSENT), (["threads", program, program], ABSENT),
        (["play", program, program], script_at(1)), (["run", program, "--input", program], bad_input),
        (["check", cert, cert], wrong_text(103, 0)), (["check", program, cert, "--input", cert], bad_input),
        (["play", "all", "all"], wrong_text(103, 0)), (["threads", program, cert, "--on", cert], bad_input),
    ):  # fmt: skip
        found.expect(room.run(*words), wanted, " ".join(words))
    for words in (
        ["run", program, program],
        ["run", program, "--input", "all", "--input", "all"],
        ["run"],
        ["check", program],
        ["play"],
        ["RUN", program],
        ["run", program, "--nothing"],
        ["run", program, "--input"],
    ):
        seen = room.run(*words)
        found.must(seen.status == 2 and not seen.out and seen.err, " ".join(words), seen)


def cut_certificates(room, found):
    """`certify > FILE` cut off: `check` answers 302 at one more than the line feeds that are left, whatever the place.

    (A line of a right certificate has less than 97 bytes, so a cut one is never 301: it has no line feed.)
    """
    chance = random.Random(7)
    for name, version in (("first", 1), ("first", 2), ("one", 1), ("one", 2), ("put", 2), ("fib", 2)):
        program, _, more = rows.lay(room, name)
        text = rows.certificate(name, version)
        for n in range(len(text)) if len(text) < 300 else sorted(chance.sample(range(len(text)), 120)):
            room.put("cut", text[:n])
            wanted = Shown(4, b"refused 302 %d\n" % (text[:n].count(b"\n") + 1), b"")
            found.expect(
                room.run("check", program, "cut", *more),
                wanted,
                f"the certificate of {name}, version {version}, cut at {n}",
            )
        room.put("cut", text)
        found.expect(
            room.run("check", program, "cut", *more),
            rows.verdict(name),
            f"the whole certificate of {name}, version {version}",
        )


def changing(room, found):
    """A certificate that is cut and written again while it is checked is accepted, or refused as a text."""
    program, _, _ = rows.lay(room, "fib")
    text, stop, chance = rows.certificate("fib"), threading.Event(), random.Random(3)
    lines = [b"refused 302 %d\n" % n for n in range(1, text.count(b"\n") + 1)]

    def change():
        while not stop.is_set():
            with open(f"{room.folder}/moving", "r+b") as it:
                it.truncate(chance.choice((0, 40_000, chance.randrange(len(text)))))
                it.seek(0)
                it.write(text)
            time.sleep(chance.choice((0, 0.002, 0.02)))

    room.put("moving", text)
    worker = threading.Thread(target=change, daemon=True)
    worker.start()
    try:
        for _ in range(60):
            seen = room.run("check", program, "moving", helpers=False)
            found.count(f"a certificate that changes: {'accepted' if seen == rows.ACCEPTED else 'refused'}")
            # (between the two a part that isn't written yet is read as zeros, or a line begins in the middle)
            fair = seen == rows.ACCEPTED or seen.status == 4 and not seen.err and (
                seen.out in lines or seen.out.startswith(b"refused 301 ")
            )
            found.must(fair, "a certificate that changes", seen)
    finally:
        stop.set()
        worker.join()


def exchanged(room, found):
    """A trace that becomes another one while it is read is judged as one of the two."""
    stop, answers = threading.Event(), {shown: kind for kind, shown in rows.JUDGED.items()}

    def exchange():
        while not stop.is_set():
            for kind, text in rows.TRACES.items():
                os.replace(f"{room.folder}/{room.put(f'{kind}.next', text)}", f"{room.folder}/moving")

    room.put("moving", rows.TRACES["called"])
    worker, seen = threading.Thread(target=exchange, daemon=True), set()
    worker.start()
    try:
        for _ in range(400):
            shown = room.run("judge", "moving")
            found.must(shown in answers, "a trace that changes", shown)
            seen.add(answers.get(shown))
            found.count(f"a trace that changes: {answers.get(shown)}")
    finally:
        stop.set()
        worker.join()
    found.must(len(seen) > 1, "the trace never changed")


def growing(room, found):
    """A program that grows past the limit of a file while it is read, as a fifo, can't be read."""
    path = f"{room.folder}/fifo"
    if os.path.exists(path):
        os.remove(path)
    os.mkfifo(path)
    block = b" " * 1_048_576
    parts = (block for _ in range(MAX_FILE // len(block) + 1))
    feeder = threading.Thread(target=feed, args=(path, parts, 0), daemon=True)
    feeder.start()
    # (what is fed can't be fed again to a second run: standard input of this sort says so)
    seen = room.run("run", "fifo", stdin=subprocess.DEVNULL, patience=4 * LONG)
    found.expect(seen, cannot_read("fifo"), "a fifo of more than 268,435,456 bytes")
    os.remove(path)
    sparse(room, "hole", 262_145)
    found.expect(room.run("run", "hole"), wrong_text(106, 262_144), "a file of holes")


CASES = {
    "files: odd ones": odd,
    "files: without end": endless,
    "files: names that aren't text": not_text,
    "files: fifos": fifos,
    "files: given twice": twice,
    "files: certificates cut off": cut_certificates,
    "files: one that changes": changing,
    "files: a trace that changes": exchanged,
    "files: one that grows": growing,
}
