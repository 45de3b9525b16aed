"""Runs the program in a folder of its own, and keeps what was found wrong."""

import collections
import functools
import os
import re
import signal
import subprocess
import sys
import time

sys.dont_write_bytecode = True
TOOLS = os.path.dirname(os.path.dirname(os.path.realpath(__file__)))
sys.path.insert(0, TOOLS)
import each_failure

Shown = collections.namedtuple("Shown", "status out err")
HANGS = Shown("a hang", b"", b"")
NO_MEMORY = Shown(5, b"", b"no memory\n")
PATIENCE = 10.0  # seconds after which a run is called a hang, where a second one takes longer than that too
LONG = 60.0  # seconds of a run at a limit
SLOWER = [1.0]  # how many times as long each run may take
FOREVER = 1e6
MOST_TOLD = 5  # of what was found wrong in one case
# runs a program in so many bytes of address space, and writes its status (that of a signal with a minus), its peak of
# memory in kilobytes and its processor milliseconds into a file. A process that is forked by Python would have its peak.
WITHIN = r"""
#include <stdio.h>
#include <stdlib.h>
#include <sys/resource.h>
#include <sys/wait.h>
#include <unistd.h>
int main(int count, char **words) {
    rlim_t bytes = strtoull(words[1], 0, 10);
    struct rlimit most = {bytes, bytes};
    struct rusage used;
    int ended;
    pid_t child = fork();
    if (child == 0) {
        setrlimit(RLIMIT_AS, &most);
        execv(words[3], words + 3);
        _exit(127);
    }
    if (child < 0 || wait4(child, &ended, 0, &used) != child) return 1;
    FILE *report = fopen(words[2], "w");
    if (!report) return 1;
    long spent = (used.ru_utime.tv_sec + used.ru_stime.tv_sec) * 1000 + (used.ru_utime.tv_usec + used.ru_stime.tv_usec) / 1000;
    fprintf(report, "%d %ld %ld\n", WIFSIGNALED(ended) ? -WTERMSIG(ended) : WEXITSTATUS(ended), used.ru_maxrss, spent);
    return fclose(report) != 0;
}
"""


class OutOfTime(Exception):
    """The time that was granted is over."""


def cannot_read(path):
    """What is shown where a file can't be read."""
    return Shown(2, b"", b"cannot read %s\n" % path.encode())


def prepare(folder):
    """Makes the library that counts calls and fails them, and what bounds a run; whether there is a C compiler that does."""
    try:
        each_failure.make_library(folder)
        with open(f"{folder}/within.c", "w", encoding="ascii") as it:
            it.write(WITHIN)
        cc = os.environ.get("CC") or "cc"
        subprocess.run([cc, "-O1", "-o", f"{folder}/within", f"{folder}/within.c"], check=True)
    except (OSError, subprocess.CalledProcessError):
        return False
    return True


class Room:
    """A folder, and the program run in it. A `wrapped` program gets the library by another name, and hands it on."""

    def __init__(self, program, folder, library, end=None, wrapped=False):
        self.program, self.folder, self.library, self.end, self.wrapped = program, folder, library, end, wrapped
        self.counted, self.failed = [0, 0, 0, 0], ["none", -1, ""]

    def put(self, name, content):
        """Writes a file, and gives its name back."""
        with open(f"{self.folder}/{name}", "wb") as it:
            it.write(content if isinstance(content, bytes) else content.encode())
        return name

    def get(self, name):
        """The content of a file."""
        with open(f"{self.folder}/{name}", "rb") as it:
            return it.read()

    def left(self):
        """How many seconds are left; there is an end to them."""
        left = FOREVER if self.end is None else self.end - time.monotonic()
        if left <= 0:
            raise OutOfTime
        return left

    def environment(self, settings):
        """The environment of a run: the library and what it is to fail, where that is anything."""
        env = {"PATH": os.environ.get("PATH", "/usr/bin:/bin")}
        if settings:
            self.put("counts", b"")
            preload = "LATER_PRELOAD" if self.wrapped else "LD_PRELOAD"
            env.update({preload: self.library, "COUNTS": f"{self.folder}/counts"})
            env.update({name: str(value) for name, value in settings.items()})
        return env

    def once(self, words, stdin, out, err, env, patience, close, front=()):
        """One run, killed with all that it started where it takes too long. Words in front call the program in turn."""
        given = subprocess.PIPE if isinstance(stdin, bytes) else stdin
        with subprocess.Popen(
            [
                *front, self.program, *words
            ], cwd=self.folder, env=env, stdin=given, stdout=out, stderr=err, start_new_session=True,
            preexec_fn=(lambda: [os.close(it) for it in close]) if close else None,
        ) as work:  # fmt: skip
            try:
                shown = work.communicate(stdin if isinstance(stdin, bytes) else None, timeout=patience)
            except subprocess.TimeoutExpired:
                os.killpg(work.pid, signal.SIGKILL)
                work.communicate()
                return HANGS
        return Shown(work.returncode, shown[0] or b"", shown[1] or b"")

    def run(
        self, *words, stdin=b"", out=subprocess.PIPE, err=subprocess.PIPE, patience=PATIENCE, close=(), helpers=True, **settings
    ):
        """What the program shows of these words; settings are the library's.

        A `check` without settings is made by two helpers too, if that may be: where they answer otherwise, theirs is the answer.
        """
        env, patience = self.environment(settings), min(patience * SLOWER[0], self.left() + 1)
        shown = self.once(words, stdin, out, err, env, patience, close)
        if shown == HANGS:
            patience = min(patience, self.left() + 1)
            if isinstance(stdin, bytes):
                shown = self.once(words, stdin, out, err, env, patience, close)
        if settings:
            self.read_counts()
        elif helpers and words[:1] == ("check",) and "--helpers" not in words and shown != HANGS:
            patience = min(3 * patience, self.left() + 1)
            again = self.once([*words, "--helpers", "2"], stdin, out, err, env, patience, close)
            if again == HANGS:
                self.left()  # (where no time is left, nothing is known)
            shown = again if again == shown else again._replace(err=again.err + b"(by two helpers)")
        return without_explanation(shown) if words[:1] == ("measure",) else shown

    def within(self, size, *words, stdin=b"", patience=PATIENCE):
        """What the program shows of these words in so many bytes of address space, its peak of memory in kilobytes, and its processor
        seconds. (A program with a sanitizer can't be bounded so; it gets the bound by its own setting.)"""
        env = {**self.environment({}), "ASAN_OPTIONS": f"allocator_may_return_null=1:quarantine_size_mb=1:max_allocation_size_mb={size >> 20}"}
        report = f"{self.folder}/report"
        front = [f"{os.path.dirname(self.library)}/within", str(size if self.is_bounded else -1), report]
        shown = HANGS
        for _ in range(2):
            if shown == HANGS:
                self.put("report", b"")
                most = min(patience * SLOWER[0], self.left() + 1)
                shown = self.once(words, stdin, subprocess.PIPE, subprocess.PIPE, env, most, (), front)
        self.left()  # (where no time is left, nothing is known)
        with open(report, encoding="ascii") as it:
            told = it.read().split()
        if shown == HANGS or len(told) != 3:
            return HANGS, 0, 0.0
        shown = shown._replace(err=re.sub(rb"==\d+==WARNING: .*\n", b"", shown.err))
        return shown._replace(status=int(told[0])), int(told[1]) if self.is_bounded else 0, int(told[2]) / 1000 / SLOWER[0]

    @functools.cached_property
    def is_bounded(self):
        """Whether the program runs in a gigabyte of address space."""
        words = [f"{os.path.dirname(self.library)}/within", str(2**30), f"{self.folder}/report", self.program, "--version"]
        subprocess.run(words, stdout=subprocess.DEVNULL, stderr=subprocess.DEVNULL, check=False)
        with open(f"{self.folder}/report", encoding="ascii") as it:
            return not it.read().startswith("-")

    def read_counts(self):
        """Reads how many allocations, calls, moves and threads there were, and which call failed."""
        with open(f"{self.folder}/counts", encoding="utf-8", errors="replace") as it:
            lines = it.read().split("\n")
        self.counted, self.failed = [0, 0, 0, 0], ["none", -1, ""]
        if len(lines) > 1:
            self.counted = [int(word) for word in lines[0].split()]
            call, file, name = lines[1].split(" ", 2)
            self.failed = [call, int(file), name]


def without_explanation(shown):
    """What is shown, without the explanation after a failure's line."""
    if not isinstance(shown, Shown) or not shown.status or not shown.err:
        return shown
    return shown._replace(err=shown.err[: shown.err.find(b"\n") + 1 or None])


class Found:
    """What one case has tried, and what was wrong."""

    def __init__(self):
        self.tried, self.wrong, self.told = 0, 0, []
        self.kinds = collections.Counter()

    def count(self, kind):
        """Counts one of a kind that is told at the end."""
        self.kinds[kind] += 1

    def must(self, holds, what, seen=""):
        """Notes one check."""
        self.tried += 1
        if not holds:
            self.wrong += 1
            if len(self.told) < MOST_TOLD:
                self.told.append(f"{what}: {shortened(seen)}" if seen != "" else what)

    def expect(self, seen, wanted, what):
        """Notes one check that two things are equal."""
        self.must(seen == wanted, what, seen if seen == wanted else f"{shortened(seen)}, not {shortened(wanted)}")


def shortened(seen):
    """A value in a line that can be read."""
    if isinstance(seen, Shown):
        return f"status {seen.status}, out {shortened(seen.out)}, err {shortened(seen.err)}"
    if isinstance(seen, str):
        return seen
    text = repr(seen)
    return text if len(text) <= 200 else f"{text[:120]} .. {text[-60:]}"
