#!/usr/bin/env python3
"""Tests of what ./cilk does beside running the program; without `rt`. Run manually: python3 tools/test_first_run.py"""

import heapq
import json
import os
import random
import shutil
import subprocess
import sys
import tempfile
import unittest

sys.dont_write_bytecode = True

import answers
import build_plan
import first_run
import unproved

# What a build took that was watched: processor seconds of its dearest crates, with others by a law of its own (0.65 times
# the table), on four processors, with other work beside it; 46 minutes by the clock.
WATCHED = {
    "cilk_findings": 981, "cilk_messages": 500, "cilk_commands": 398, "cilk_threads": 309, "cilk_names": 373,
    "cilk_schedule": 368, "cilk_report": 385, "cilk_plan": 163, "cilk_checker": 218, "cilk_tool": 210,
}  # fmt: skip
WATCHED_CLOCK = 46.1


def log_of(named, lines, took, lanes, kept=()):
    """A log of `rt ci` with times: each crate takes what `took` says, and the longest chain of lines comes first."""
    longest, order = {}, list(named)
    for name in reversed(order):
        longest[name] = lines[name] + max((longest[it] for it in order if name in named[it]), default=0)
    log, under_way, done, now = [], [], set(), 0.0
    while len(done) < len(order):
        begun = done | {name for _, name in under_way}
        ready = [it for it in order if it not in begun and all(low in done for low in named[it])]
        for name in sorted(ready, key=lambda it: -longest[it])[: lanes - len(under_way)]:
            heapq.heappush(under_way, (now + (0.02 if name in kept else took[name]), name))
        now, name = heapq.heappop(under_way)
        done.add(name)
        ending = " is kept: an earlier run on this machine proved the same files over the same libraries"
        log.append((now, f"rt: {name}{ending if name in kept else ' proved'}\n"))
    return log


def replay(estimate, log):
    """What was estimated at each line of a log: the minutes since the beginning, and those left."""
    found = [(0.0, estimate.left(0.0))]
    for now, line in log:
        estimate.proved(*((said := build_plan.read_line(line))[0], now, said[1]))
        found.append((now, estimate.left(now)))
    return found


class Plan(unittest.TestCase):
    def test_crates(self):
        found = build_plan.crates_of("# low\na may_wait=1: thiserror\nb: a\n\nc: a b clap # top\nd: a\n")
        self.assertEqual(found, {"a": [], "b": ["a"], "c": ["a", "b"], "d": ["a"]})
        self.assertEqual(list(build_plan.needed(found, "c")), ["a", "b", "c"])

    def test_minutes(self):
        table = "| Crate | Proof | Tests | Edits | Crate | Proof | Tests | Edits |\n| `a` | 0.6 |  | 4.8 (31) | `b` | 12 |  |  |\n"
        self.assertEqual(build_plan.minutes_of(table, ["a", "b", "c"], {"c": 500}), {"a": 0.6, "b": 12.0, "c": 2.1})

    def test_longest_chain_first(self):
        named = {"a": [], "x": [], "y": [], "b": ["a"], "c": ["b"]}
        minutes = {"a": 2.0, "x": 2.0, "y": 2.0, "b": 2.0, "c": 2.0}
        self.assertEqual(build_plan.simulate(named, minutes, 2), {"a": 2.0, "x": 2.0, "b": 4.0, "y": 4.0, "c": 6.0})
        self.assertEqual(max(build_plan.simulate(named, minutes, 1).values()), 10.0)

    def test_what_is_done_waits_for_nothing(self):
        named = {"a": [], "b": ["a"], "c": ["b"]}
        self.assertEqual(build_plan.simulate(named, {"b": 1.0, "c": 2.0}, 4), {"b": 1.0, "c": 3.0})
        self.assertEqual(build_plan.simulate(named, {}, 4), {})

    def test_lines_of_rt(self):
        self.assertEqual(build_plan.read_line("rt: cilk_types proved\n"), ("cilk_types", False))
        self.assertEqual(build_plan.read_line("rt: cilk_types is kept: an earlier run\n"), ("cilk_types", True))
        for line in ("rt: cilk_types NOT PROVED\n", "fn cilk_syntax::of: proved\n", "rt: cilk_a: its tests are proved\n", ""):
            self.assertIsNone(build_plan.read_line(line))


class Replays(unittest.TestCase):
    def setUp(self):
        self.named = first_run.named()
        self.lines = {name: first_run.lines_of_crate(name) for name in self.named}
        self.minutes = first_run.minutes(self.named, self.lines)

    def replayed(self, took, lanes=4, kept=(), presumed=(), usual=build_plan.USUAL):
        """The estimates in a build whose crates take so long, where these are kept and those are presumed to be."""
        estimate = build_plan.Estimate(self.named, self.minutes, lanes, usual, presumed, self.lines)
        return replay(estimate, log_of(self.named, self.lines, took, lanes, kept))

    def assert_within_a_third(self, found, after=0.0):
        end = found[-1][0] + 1.0
        for now, left in found:
            if after * end <= now <= 0.95 * end:
                self.assertLess(abs(now + left - end), end / 3, f"at {now:.1f} of {end:.1f} minutes: {left:.1f}")

    def test_the_watched_build(self):
        took = {it: WATCHED[it] / 60 if it in WATCHED else 0.65 * self.minutes[it] for it in self.named}
        slower = WATCHED_CLOCK / log_of(self.named, self.lines, took, 4)[-1][0]
        self.assert_within_a_third(self.replayed({name: slower * it for name, it in took.items()}))

    def test_slow_and_busy_machines(self):
        for seed in range(10):
            chance = random.Random(seed)
            slower, lanes = chance.uniform(0.36, 2.4), chance.choice([1, 2, 4, 8])
            took = {name: slower * it * chance.uniform(0.7, 1.6) for name, it in self.minutes.items()}
            self.assert_within_a_third(self.replayed(took, lanes), after=0.2)

    def test_what_is_kept(self):
        chance, order = random.Random(7), list(self.named)
        for count in (10, 20, 30):
            kept = set(order[:count])
            took = {name: 1.2 * it * chance.uniform(0.8, 1.4) for name, it in self.minutes.items()}
            self.assert_within_a_third(self.replayed(took, 4, kept, kept, usual=1.26), after=0.25)

    def test_what_was_kept_and_is_gone(self):
        self.assert_within_a_third(self.replayed(self.minutes, presumed=self.named, usual=1.0)[2:])

    def test_one_that_takes_far_longer(self):
        estimate = build_plan.Estimate(self.named, self.minutes, 4)
        self.assertGreater(estimate.left(60.0), 100.0)


class Words(unittest.TestCase):
    def test_names(self):
        for word, name in (("a.c", "a.c"), ("./x/a.c", "x/a.c"), ("../a.c", "file-1.c"), ("/tmp/a.c", "file-1.c"), ("stdin", "file-1")):
            self.assertEqual(unproved.name_of(word, {}), name)
        self.assertEqual(unproved.name_of("a.c", {"a.c"}), "file-2.c")

    def test_mapped(self):
        with tempfile.TemporaryDirectory() as room:
            path = f"{room}/a b.c"
            with open(path, "w", encoding="utf-8"):
                pass
            flags, seen, names = unproved.mapped(["run", path, "--input=" + path, "none.c", "--explain"])
        self.assertEqual(flags, ["--data", f"file-1.c={path}", "--data", f"file-2.c={path}"])
        self.assertEqual(seen, ["run", "file-1.c", "--input=file-2.c", "none.c", "--explain"])
        self.assertEqual(names, {"file-1.c": path, "file-2.c": path})

    def test_own_part(self):
        rt = b"checked: ended status=2\nraces: not looked for, since a kit has no ThreadSanitizer\nrun=ended status=2 runners=1 proved=no\n"
        self.assertEqual(unproved.own_part(b"file-1.c:1: error\n" + rt, {"file-1.c": "/x/a.c"}), b"/x/a.c:1: error\n")
        self.assertEqual(unproved.own_part(rt, {}), b"")
        self.assertEqual(unproved.own_part(b"checked: fault\nrun=fault\n", {}), b"checked: fault\nrun=fault\n")


class Sums(unittest.TestCase):
    def test_a_changed_source_has_another_sum(self):
        with tempfile.TemporaryDirectory() as room:
            top, unproved.TOP = unproved.TOP, room
            try:
                os.makedirs(f"{room}/crates/a/src")
                sums = set()
                for text in ("fn a() {}", "fn a() { }", "fn a() {}"):
                    with open(f"{room}/crates/a/src/lib.rt", "w", encoding="utf-8") as it:
                        it.write(text)
                    sums.add(unproved.sum_of_crate("a", ("src",)))
                self.assertEqual(len(sums), 2)
            finally:
                unproved.TOP = top


class Launcher(unittest.TestCase):
    """./cilk in a repository of one crate, whose program is a script, on a machine without `rt`."""

    def setUp(self):
        room = tempfile.TemporaryDirectory()
        self.addCleanup(room.cleanup)
        self.top, self.source = room.name, f"{room.name}/crates/cilk/src/main.rt"
        for folder in ("bin", "crates/cilk/src", "crates/cilk/out", "tools"):
            os.makedirs(f"{self.top}/{folder}")
        for tool in ("sh", "find", "cksum", "dirname", "readlink", "python3", "cat", "wc", "head", "tr"):
            os.symlink(shutil.which(tool), f"{self.top}/bin/{tool}")
        for path in ("cilk", "tools/first_run.py", "tools/answers.py", "tools/build_plan.py", "tools/unproved.py"):
            shutil.copy(f"{unproved.TOP}/{path}", f"{self.top}/{path}")
        self.write(f"{self.top}/crates.txt", "cilk:\n")
        self.write(self.source, "fn main() {}\n")
        self.program("cilk", "proved")
        self.prove()

    def write(self, path, text):
        with open(path, "w", encoding="utf-8") as it:
            it.write(text)

    def program(self, name, says):
        """A program that says this and its words."""
        path = f"{self.top}/crates/cilk/out/{name}"
        self.write(path, f'#!/bin/sh\necho {says} "$@"\n')
        os.chmod(path, 0o755)
        return path

    def sum(self):
        """The sum of the sources, by a process of its own, since the repository's place is known when modules are read."""
        reads = "import answers, first_run; print(answers.sum_of_sources(first_run.named()))"
        return subprocess.check_output([sys.executable, "-c", reads], cwd=f"{self.top}/tools", text=True).strip()

    def prove(self):
        """Records that the program is proved of these sources, as a build does."""
        file = answers.sum_of_file(f"{self.top}/crates/cilk/out/cilk")
        self.write(f"{self.top}/crates/cilk/out/build.json", json.dumps(
            {"proved": {}, "slower": 1.0, "built": "", "sources": self.sum(), "file": file}
        ))  # fmt: skip

    def call(self, *words):
        """The status of a call, its output, and its lines of standard error."""
        ran = subprocess.run([f"{self.top}/cilk", *words], env={"PATH": f"{self.top}/bin"}, capture_output=True, text=True, check=False)
        return ran.returncode, ran.stdout, ran.stderr.splitlines()

    def test_the_proved_program_answers(self):
        for _ in range(2):
            self.assertEqual(self.call("run", "a b"), (0, "proved run a b\n", []))
            self.assertEqual(self.call("--proved", "run"), (0, "proved run\n", []))
        self.assertEqual(self.call("--version"), (0, f"proved --version\nsources {self.sum()}, proved\n", []))

    def test_a_time_alone_changes_nothing(self):
        self.call("run")
        os.utime(self.source, (1, 1))
        self.assertEqual(self.call("run"), (0, "proved run\n", []))

    def test_changed_sources(self):
        self.call("run")
        self.write(self.source, "fn main() { }\n")
        status, out, err = self.call("--proved", "run")
        self.assertEqual((status, out, len(err)), (2, "", 1))
        status, out, err = self.call("run")
        self.assertEqual((status, out), (2, ""))
        self.assertIn("isn't run", err[0])
        self.assertIn("`rt` isn't on the path", err[1])
        self.write(self.source, "fn main() {}\n")
        self.assertEqual(self.call("run"), (0, "proved run\n", []))

    def test_as_long_and_as_old(self):
        self.call("run")
        found = os.stat(self.source)
        self.write(self.source, "fn maim() {}\n")
        os.utime(self.source, ns=(found.st_atime_ns, found.st_mtime_ns + 1000))
        self.assertEqual(self.call("--proved", "run")[0], 2)

    def test_another_program_in_its_place(self):
        self.call("run")
        self.program("cilk", "other")
        self.assertEqual(self.call("run")[:2], (2, ""))

    def test_an_unproved_program_is_told_once(self):
        os.remove(f"{self.top}/crates/cilk/out/cilk")
        self.program("unproved-1", "unproved")
        self.write(f"{self.top}/crates/cilk/out/answers", f"0\nunproved\n{self.sum()}\nunproved-1\n")
        for _ in range(2):
            self.assertEqual(self.call("run"), (0, "unproved run\n", []))
        self.assertEqual(self.call("--version")[1], f"unproved --version\nsources {self.sum()}, unproved\n")
        self.assertEqual(self.call("--proved", "run")[0], 2)
        for text, size, told in ((b"cilktrace 1", 154_000_000, "9 min"), (b"cilktrace-bin 1", 15_400_000, "8 min"), (b"", 300, "")):
            with open(f"{self.top}/trace", "wb") as trace:
                trace.write(text)
                trace.truncate(size)
            status, out, err = self.call("judge", f"{self.top}/trace")
            self.assertEqual((status, out, len(err)), (0, f"unproved judge {self.top}/trace\n", len(told[:1])))
            self.assertIn(told, "".join(err))
        self.program("unproved-1", "unproved; exit 134; echo")
        limited = ["/bin/sh", "-c", f"ulimit -v 4000000; {self.top}/cilk run"]
        ran = subprocess.run(limited, env={"PATH": f"{self.top}/bin"}, capture_output=True, text=True, check=False)
        self.assertEqual((ran.returncode, ran.stdout, ran.stderr.count("\n")), (2, "", 1))
        self.assertIn("ulimit -v", ran.stderr)


if __name__ == "__main__":
    unittest.main()
