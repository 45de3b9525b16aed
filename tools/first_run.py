#!/usr/bin/env python3
"""What ./cilk does beside running the program: it proves and builds it, tests it, and makes an unproved one.

first_run.py build [--plan]   proves and builds crates/cilk and all that it stands on; the log is crates/cilk/out/build.log
first_run.py test             runs the golden cases over the program
first_run.py answers SEEN     shows which program answers, a line each: proved or unproved, the sum of the sources, the path (tools/answers.py);
                              after `proved` an unproved one doesn't, else it is built first if need be (tools/unproved.py)
first_run.py once WORD ..     runs the unproved program on these words by `rt try`, where it can't be kept
"""

import ctypes
import fcntl
import glob
import hashlib
import json
import os
import queue
import re
import shutil
import signal
import subprocess
import sys
import tempfile
import threading
import time

sys.dont_write_bytecode = True

import answers
import build_plan
import unproved
from answers import PROGRAM
from unproved import OUT, TOP, tell

LOG = f"{OUT}/build.log"
RECORD = f"{OUT}/build.json"  # what builds here proved, of which sources, and how slow the machine was
EVERY = 60  # seconds between two lines where the terminal can't be written over
CASES = f"{TOP}/tools/cases.py"

BUILD_HELP = """./cilk build [--plan]

Proves the program and all that it stands on, and builds it. It shows how many crates are proved, the minutes since it
began, and about how many are left. Where the kit keeps proofs (13f does, 13b doesn't), the next call after a stop, by
Ctrl-C or otherwise, continues from there. Then ./cilk runs the proved program, until the sources change. The log is
crates/cilk/out/build.log.

--plan    shows how long that takes, and does nothing

The kit keeps them in `rattle-kept` beside itself, if that folder can be made and 5 GB of disk are free; else the
log says so, and a build begins anew. As many crates are proved side by side as there are processors, and 4.5 GB of
memory for each; RT_JOBS gives another number.

Status: 0 built, also before    1 a proof failed, or another build is at work    2 something that it needs isn't here
        128 and more: a signal stopped it"""

TEST_HELP = """./cilk test

Runs the program on each case of crates/cilk_rows/data, and compares its output, its errors and its status with what is
wanted: the proved program where it is of these sources, else the unproved one, which is built first (about two minutes)
and runs all but the cases that go to a limit of a run.
The last line is `N passed, M failed`.

Status: 0 all passed    1 some failed    2 something that it needs isn't here"""


def named():
    """The crates that the program stands on, and the program, lower ones first, each with those that it names."""
    with open(f"{TOP}/crates.txt", encoding="utf-8") as listed:
        return build_plan.needed(build_plan.crates_of(listed.read()), "cilk")


def lines_of_crate(name):
    """How many lines of code a crate has: `rt ci` orders crates by them."""
    count = 0
    for at, _, files in os.walk(f"{TOP}/crates/{name}/src"):
        for file in files:
            with open(f"{at}/{file}", "rb") as it:
                count += it.read().count(b"\n")
    return count


def minutes(crates, lines):
    """The minutes of each crate's proof by the table of docs/GATE.md, or by its lines."""
    try:
        with open(f"{TOP}/docs/GATE.md", encoding="utf-8") as it:
            table = it.read()
    except OSError:
        table = ""
    return build_plan.minutes_of(table, crates, lines)


def sums(crates):
    """A checksum of the sources of each crate and of those below it, its proofs too."""
    found, kit = {}, unproved.sum_of_kit()
    for name, below in crates.items():
        own = unproved.sum_of_crate(name, ("src", "specs", "proofs"))
        text = " ".join([kit, name, own, *[f"{it} {found[it]}" for it in below]])
        found[name] = hashlib.sha256(text.encode()).hexdigest()[:16]
    return found


def record():
    """What earlier builds here left: the sums of what they proved, and how slow this machine was."""
    try:
        with open(RECORD, encoding="utf-8") as it:
            found = json.load(it)
        words = {it: str(found.get(it, "")) for it in ("built", "sources", "file")}
        return {"proved": dict(found["proved"]), "slower": float(found["slower"]), **words}
    except (OSError, ValueError, KeyError, TypeError, AttributeError):
        return {"proved": {}, "slower": build_plan.USUAL, "built": "", "sources": "", "file": ""}


def write_record(found):
    """Keeps the record, whole or not at all."""
    with open(f"{RECORD}.new", "w", encoding="utf-8") as it:
        json.dump(found, it)
    os.replace(f"{RECORD}.new", RECORD)


def note_proved(found, crates, sources):
    """Records that the program that is here is proved, of sources with this sum; not where they have changed since."""
    if os.access(PROGRAM, os.X_OK) and answers.sum_of_sources(crates) == sources:
        found.update(built=sums(crates)["cilk"], sources=sources, file=answers.sum_of_file(PROGRAM))
        write_record(found)


def estimate_of(crates, slower, kept):
    """The estimate of a build of these crates here, some of which are proved."""
    lines = {name: lines_of_crate(name) for name in crates}
    return build_plan.Estimate(crates, minutes(crates, lines), build_plan.processors(), slower, kept, lines)


class Progress:
    """How far `rt ci` is, by its lines."""

    def __init__(self, crates, known):
        self.sums, self.record = sums(crates), known
        kept = {it for it in crates if known["proved"].get(it) == self.sums[it]}
        self.estimate = estimate_of(crates, known["slower"], kept)
        self.began = time.monotonic()
        self.shown = 0.0

    def now(self):
        """The minutes since it began."""
        return (time.monotonic() - self.began) / 60

    def read(self, line):
        """Takes a line of `rt ci`; a crate that it says is proved goes into the record."""
        said = build_plan.read_line(line)
        if said and said[0] in self.sums:
            self.estimate.proved(said[0], self.now(), said[1])
            self.record["proved"][said[0]] = self.sums[said[0]]
            self.record["slower"] = self.estimate.slowness(self.now())
            write_record(self.record)

    def text(self):
        """The line that is shown."""
        done, of = len(self.estimate.done), len(self.sums)
        left = self.estimate.left(self.now())
        if not done and not self.record["proved"]:  # (nothing is known of this machine, nor of what the kit keeps)
            return f"0 of {of} crates proved; about {left:.0f} min by a first guess"
        about = f"about {left:.0f} min" if left >= 1 else "less than a minute"
        return f"{done} of {of} crates proved, {self.now():.0f} min; {about} left"

    def show(self, at_once=False):
        """Shows the line, where the terminal allows in place of the one before."""
        if sys.stderr.isatty():
            width = shutil.get_terminal_size().columns
            sys.stderr.write(f"\r\033[K{('cilk: ' + self.text())[: width - 1]}")
            sys.stderr.flush()
        elif at_once or time.monotonic() - self.shown >= EVERY:
            self.shown = time.monotonic()
            tell(self.text())


def copy_of(order, room):
    """A repository of these crates alone, without the edits of them that the prover must refuse, in an empty folder."""
    for name in order:
        aside = shutil.ignore_patterns("out", "must-fail")
        shutil.copytree(f"{TOP}/crates/{name}", f"{room}/crates/{name}", ignore=aside)
    with open(f"{TOP}/crates.txt", encoding="utf-8") as listed, open(f"{room}/crates.txt", "w", encoding="utf-8") as it:
        it.writelines(line for line in listed if line.split(":")[0].split()[:1] in [[name] for name in order])
    shutil.copyfile(f"{TOP}/HANDLES", f"{room}/HANDLES")
    os.mkdir(f"{room}/.git")  # (so that `rt` takes it for the top of a repository)


def lines_of(stream):
    """The lines of a stream as they come, and an empty one for each second without a line."""
    heard = queue.SimpleQueue()

    def listen():
        for line in stream:
            heard.put(line)
        heard.put(None)

    threading.Thread(target=listen, daemon=True).start()
    while True:
        try:
            line = heard.get(timeout=1.0)
        except queue.Empty:
            line = ""
        if line is None:
            return
        yield line


def end_with_parent():
    """Has the kernel end this process when the one that started it is killed."""
    ctypes.CDLL(None).prctl(1, signal.SIGTERM)


def rt_ci(room, log, progress):
    """Runs `rt ci` in this folder, and shows how far it is; its status. It is ended where this process is."""
    how = {"cwd": room, "stdin": subprocess.DEVNULL, "stdout": subprocess.PIPE, "stderr": subprocess.STDOUT}
    how.update(text=True, errors="replace", start_new_session=True, preexec_fn=end_with_parent)
    # (by its own measure of memory `rt ci` proves one of the upper crates at a time)
    how["env"] = {"RT_JOBS": str(build_plan.processors()), **os.environ}
    with subprocess.Popen(["rt", "ci"], **how) as work:
        try:
            for line in lines_of(work.stdout):
                if line:
                    log.write(line)
                    log.flush()
                    progress.read(line)
                progress.show()
        except SystemExit:
            os.killpg(work.pid, signal.SIGTERM)
            try:
                work.wait(timeout=30)
            except subprocess.TimeoutExpired:
                os.killpg(work.pid, signal.SIGKILL)
            raise
    return work.returncode


def remove_rooms():
    """Removes what builds that were killed left in the folder for temporary files."""
    for room in glob.glob(f"{tempfile.gettempdir()}/cilk-build-*"):
        pid = re.search(r"cilk-build-(\d+)-", room)
        if pid and not os.path.exists(f"/proc/{pid[1]}"):
            shutil.rmtree(room, ignore_errors=True)


def prove_and_build(crates, progress):
    """Has `rt ci` prove these crates and build the program, and takes that: whether it is there."""
    remove_rooms()
    sources = answers.sum_of_sources(crates)
    with tempfile.TemporaryDirectory(prefix=f"cilk-build-{os.getpid()}-") as room:
        copy_of(list(crates), room)
        with open(LOG, "w", encoding="utf-8") as log:
            status = rt_ci(room, log, progress)
        made = f"{room}/crates/cilk/out/cilk"
        if status or not os.access(made, os.X_OK):
            return False
        shutil.copy(made, f"{PROGRAM}.new")
        os.replace(f"{PROGRAM}.new", PROGRAM)
    note_proved(progress.record, crates, sources)
    return True


def build():
    """Proves and builds the program: the status of ./cilk build."""
    if not unproved.has_rt() or not unproved.can_keep():
        return 2
    with open(f"{OUT}/build.lock", "w", encoding="ascii") as lock:
        try:
            fcntl.flock(lock, fcntl.LOCK_EX | fcntl.LOCK_NB)
        except OSError:
            tell(f"another ./cilk build is at work here; its log is {LOG}")
            return 1
        crates, known = named(), record()
        progress = Progress(crates, known)
        if known["built"] == progress.sums["cilk"] and answers.is_proved(known, answers.sum_of_sources(crates)):
            tell("the program is proved and built from these sources already")
            return 0
        tell(f"proving and building the program; the log is {LOG}")
        progress.show(at_once=True)
        try:
            is_built = prove_and_build(crates, progress)
        except SystemExit:
            if sys.stderr.isatty():
                print(file=sys.stderr)
            tell("stopped; where the kit keeps proofs, the next ./cilk build continues from there")
            raise
    if sys.stderr.isatty():
        print(file=sys.stderr)
    if is_built:
        tell(f"the program is proved and built, in {progress.now():.0f} min")
        if not answers.is_proved(progress.record, answers.sum_of_sources(crates)):
            tell("the sources have changed since it began, so it isn't of these")
        return 0
    tell("the program isn't built; the log ends so:")
    with open(LOG, encoding="utf-8", errors="replace") as log:
        sys.stderr.writelines(log.readlines()[-20:])
    return 1


def plan():
    """Shows how long a build takes, and does nothing."""
    crates, known = named(), record()
    is_known = shutil.which("rt") and known["proved"]
    kept = {it for it, sum in (sums(crates) if is_known else {}).items() if known["proved"].get(it) == sum}
    here, table = (estimate_of(crates, slower, kept) for slower in (known["slower"], 1.0))
    work, chain = sum(here.minutes.values()), max(build_plan.chains(crates, here.minutes).values())
    print(f"{len(crates)} crates, {len(kept)} of them proved here; {work:.0f} processor minutes in all,")
    print(f"the longest chain {chain:.0f}; {here.lanes} side by side (docs/GATE.md has the table)")
    by = "as in earlier builds here" if known["proved"] else "a guess, until a build has begun"
    print(f"about {max(1, round(here.left(0.0)))} min: {max(1, round(table.left(0.0)))} by the table, {known['slower']:.1f} times as long here ({by})")
    return 0


def test():
    """Runs the golden cases over the program: the status of ./cilk test."""
    if not os.path.isfile(CASES):
        tell(f"{CASES} isn't here, which runs the cases")
        return 2
    kind, sources, program = answers.answering(named(), record())
    if sources is None:
        if program == 1:
            tell("no program can be kept here that isn't proved: ./cilk build comes first")
        return 2
    flags = [] if kind == "proved" else ["--light"]
    work = subprocess.run([sys.executable, CASES, "run", program, *flags], stdin=subprocess.DEVNULL, stdout=subprocess.PIPE, check=False)
    said = work.stdout.decode(errors="replace")
    sys.stdout.write(said)
    sys.stdout.flush()
    last = re.search(r"(?m)^(\d+) passed, (\d+) failed\n?\Z", said)
    if last is None:
        tell("the cases weren't run to their end")
        return 1
    return 0 if work.returncode == 0 and int(last[1]) and not int(last[2]) else 1


def ended(number, _):
    """A signal ends this process once what was begun is put away."""
    sys.exit(128 + number)


def main(words):
    """Does what the first word says."""
    for it in (signal.SIGINT, signal.SIGTERM, signal.SIGHUP):
        if signal.getsignal(it) is not signal.SIG_IGN:  # (`nohup` has one ignored)
            signal.signal(it, ended)
    name, rest = (words or [""])[0], words[1:]
    if name in ("build", "test") and rest in (["--help"], ["-h"]):
        print(BUILD_HELP if name == "build" else TEST_HELP)
        return 0
    if name == "build" and rest in ([], ["--plan"]):
        return plan() if rest else build()
    if name == "test" and not rest:
        return test()
    if name in ("build", "test"):
        tell(f"./cilk {name} takes no such words; ./cilk {name} --help says what it does")
        return 2
    if name == "once":
        return unproved.once(rest) if unproved.has_rt() else 2
    if name != "answers":
        sys.exit(__doc__)
    kind, sources, found = answers.answering(named(), record(), (rest or [""])[0], "proved" in rest[1:])
    if sources is None:
        return found
    print(f"{kind}\n{sources}\n{found}")
    return 0


if __name__ == "__main__":
    sys.exit(main(sys.argv[1:]))
