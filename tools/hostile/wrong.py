"""Programs that are wrong in one answer, made of the right one by a script, and the case that has to catch each.

A script notes, in a file beside it, that it gave another answer than the right program did: a case that fails round a
program that never did so has caught nothing.
"""

import os
import sys

sys.dont_write_bytecode = True
from hostile.room import Found

SCRIPT = """#!{python} -ISE
import os, signal, subprocess, sys, time
env, words = dict(os.environ), sys.argv[1:]
if "LATER_PRELOAD" in env:
    env["LD_PRELOAD"] = env.pop("LATER_PRELOAD")
both = dict(stdout=subprocess.PIPE, stderr=subprocess.PIPE)
ran = subprocess.run([{program!r}, *map(os.fsencode, words)], env=env, **both)
status, out, err = right = ran.returncode, ran.stdout, ran.stderr
def note():
    with open({noted!r}, "w"):
        pass
def crash(number):
    note()
    os.kill(os.getpid(), number)
def hang():
    note()
    time.sleep(100)
{alteration}
if (status, out, err) != right:
    note()
for file, text in ((1, out), (2, err)):
    try:
        os.write(file, text)
    except OSError:
        pass
os._exit(status)
"""
# a program whose streams are the script's own, wrong in its status alone
OF_STATUS = """#!/bin/sh
if [ -n "$LATER_PRELOAD" ]; then LD_PRELOAD=$LATER_PRELOAD {program} "$@"; else {program} "$@"; fi
status=$?
right=$status
{alteration}
[ $status = $right ] || : > {noted}
exit $status
"""
WITHIN_SH = "sh: "
ACCEPTS = 'status, out = 0, b"accepted\\n"'
WITHOUT_LAST = 'out = out[: out.rfind(b"\\n", 0, -1) + 1]'
TAKES = 'taken = b"x" * 200_000_000; note()'
RUNS = 'status, out, err = 0, b"result 0\\n", b""'

# what is wrong with the program, the case, and the alteration as Python, or in shell
WRONG = [
    ("a want of memory ends with status 0", "memory: check race", "status = 0 if status == 5 else status"),
    ("a want of memory isn't told", "memory: check fib", 'err = b"" if status == 5 else err'),
    (
        "a part of the outcome goes out before a want of memory",
        "memory: play list",
        'out = b"reducer l" if status == 5 else out',
    ),
    (
        "helpers accept what there was no memory for",
        "memory: check turns by helpers",
        f'if status == 5: {ACCEPTS}; err = b""',
    ),
    (
        "helpers lose a race for want of memory",
        "memory: check race by helpers",
        f'if status == 5: {ACCEPTS}; err = b""',
    ),
    ("a refused allocation makes another answer", "memory: play local", f'if status == 5: {RUNS}'),
    (
        "a refused allocation ends in an abort",
        "memory: threads gets",
        "if status == 5: crash(signal.SIGABRT)",
    ),
    (
        "an outcome lacks its last line",
        "memory: threads prints",
        f'if words[0] == "threads" and not status: {WITHOUT_LAST}',
    ),
    (
        "memory is never refused",
        "memory: threads list",
        'if status == 5: status, out, err = 0, b"reducer l 0 1 2 3 4\\nresult 5\\n", b""',
    ),
    (
        "no script is found where memory is refused",
        "memory: schedule one",
        'if status == 5: status, out, err = 4, b"refused 311 7 10\\n", b"hint: no script of two workers shows this\\n"',
    ),
    (
        "what isn't read for want of memory is settled",
        "memory: settle list",
        'if status == 5: status, out, err = 0, b"settled\\nresult 5\\n", b""',
    ),
    (
        "a race is lost for want of memory",
        "memory: judge",
        'if status == 5: status, out, err = 0, b"race-free\\n", b""',
    ),
    (
        "a race of a trace that changes is one of views",
        "files: a trace that changes",
        'out = out.replace(b"refused 311", b"refused 312")',
    ),
    (
        "a table is cut short for want of memory",
        "memory: measure",
        'if status == 5: status, out, err = 0, b"events 1\\n", b""',
    ),
    (
        "an explanation is left out in silence",
        "memory: explanations",
        'err = err.replace(b"explanation: no memory\\n", b"")',
    ),
    (
        "an explanation comes after a want of memory",
        "memory: explanations",
        'if status == 5: err = err + b"one.c:1:1: error 311\\n"',
    ),
    ("a script leaves the races' order", "scripts that show a race", 'out = out.replace(b"result 0", b"result 1")'),
    (
        "a thread that can't start makes another answer",
        "memory: threads that can't be started",
        f"if status == 5: {RUNS}",
    ),
    (
        "another file is blamed",
        "devices: each call of each command",
        'if err.startswith(b"cannot read"): err = b"cannot read it\\n"',
    ),
    ("a file that fails is empty", "devices: each call of each command", f'if err.startswith(b"cannot read"): {RUNS}'),
    ("standard input that fails has ended", "devices: standard input", f'if err == b"cannot read -\\n": {RUNS}'),
    (
        "a short read is the end",
        "devices: reads and writes of one byte",
        'if words[0] == "check" and "ALL_SHORT" in env: status, out = 4, b"refused 302 1\\n"',
    ),
    (
        "a failed write ends with status 0",
        "writes: out cut at each byte",
        'status = 0 if err == b"cannot write\\n" else status',
    ),
    (
        "more goes out after a failed write",
        "writes: out cut at each byte",
        'out = out + b"x" if err == b"cannot write\\n" else out',
    ),
    ("a failed write isn't told", "writes: out cut at each byte", 'err = b"" if err == b"cannot write\\n" else err'),
    (
        "a fault of err changes the status",
        "writes: err cut at each byte",
        'status = 1 if env.get("OUT_FILE") == "2" else status',
    ),
    (
        "a closed stream isn't seen",
        "writes: streams full or closed",
        f"{WITHIN_SH}[ $status != 2 ] || status=0",
    ),
    (
        "one byte more of a text",
        "limits: bytes of a text",
        f'if err == b"program 106 at 262144\\n" and words[:1] == ["run"]: {RUNS}',
    ),
    ("the place of a nesting is one off", "limits: nesting", 'err = err.replace(b"104 at 83", b"104 at 82")'),
    ("one operator more", "limits: operators", f'if b"104 at 531" in err and words[0] == "play": {RUNS}'),
    ("a limit of declarations at another place", "limits: declarations", 'err = err.replace(b"119 at", b"119 at 1")'),
    ("too many inputs are a bad one", "limits: input numbers", 'err = err.replace(b"122", b"121")'),
    ("one event more", "limits: events", 'err = err.replace(b"1000001", b"1000002")'),
    (
        "one tick less",
        "limits: ticks",
        'if words[0] == "play" and out: status, out, err = 3, b"", b"fault 204 in r:1\\n"',
    ),
    ("frames are called cells", "limits: frames", 'err = err.replace(b"fault 205 in", b"fault 206 in")'),
    ("one cell more", "limits: cells", f'if err.startswith(b"fault 206 in"): {RUNS}'),
    (
        "65 workers are taken",
        "limits: workers",
        'if words[0] == "threads" and status == 2: status, out, err = 0, b"result 16\\n", b""',
    ),
    ("one choice more", "limits: scripts", f'if err == b"script at 17\\n": {RUNS}'),
    (
        "a file past the limit is read",
        "limits: large files",
        'if err == b"cannot read over\\n": status, out, err = 4, b"refused 301 1\\n", b""',
    ),
    ("a line of 97 bytes is cut short", "limits: lines of a certificate", 'out = out.replace(b"301 10", b"302 10")'),
    (
        "a directory is an empty file",
        "files: odd ones",
        'if err == b"cannot read folder\\n": err = b"program 115 at 0\\n"',
    ),
    (
        "a device without end is read as a text",
        "files: without end",
        'if err == b"cannot read /dev/full\\n": err = b"program 106 at 262144\\n"',
    ),
    (
        "words that aren't text have another status",
        "files: names that aren't text",
        "status = 1 if status == 2 else status",
    ),
    ("a fifo is read once", "files: fifos", f'if "fifo" in words and words[0] == "play": {RUNS}'),
    ("the program is its own certificate", "files: given twice", f'if words[0] == "check" and status == 4: {ACCEPTS}'),
    (
        "a certificate that is cut is accepted",
        "files: certificates cut off",
        f'if out.startswith(b"refused 302 13"): {ACCEPTS}',
    ),
    ("a file that changes ends in a crash", "files: one that changes", "crash(signal.SIGSEGV)"),
    (
        "a file that grows is a text",
        "files: one that grows",
        'if err == b"cannot read fifo\\n": err = b"program 106 at 262144\\n"',
    ),
    (
        "a damaged text ends in a crash",
        "chance: damaged texts",
        "if status == 2: crash(signal.SIGSEGV)",
    ),
    ("a damaged text is never answered", "chance: damaged texts", "if status == 2: hang()"),
    ("a damaged text has a status of its own", "chance: damaged texts", "status = 7 if status == 2 else status"),
    (
        "a damaged text has another fault in one command",
        "chance: damaged texts",
        'if status == 2 and words[0] != "run": err = b"program 103 at 0\\n"',
    ),
    ("a damaged certificate is accepted", "chance: damaged certificates", f'if b"refused 30" in out: {ACCEPTS}'),
    ("a wrong source is accepted", "chance: damaged certificates", f'if b"refused 308" in out: {ACCEPTS}'),
    (
        "a damaged script is played",
        "chance: damaged scripts",
        'if err.startswith(b"script at"): status, out, err = 0, b"not ended\\n", b""',
    ),
    (
        "the line of a damaged script is one off",
        "chance: damaged scripts",
        'if err.startswith(b"script at"): err = b"script at %d\\n" % (int(err[10:]) + 1)',
    ),
    ("workers leave another outcome", "chance: programs", f'if words[0] == "threads" and not status: {WITHOUT_LAST}'),
    ("a script leaves another outcome", "chance: programs", f'if words[0] == "play" and not status: {WITHOUT_LAST}'),
    ("a race isn't seen", "chance: programs", f'if words[0] == "check" and b"refused 311" in out: {ACCEPTS}'),
    (
        "a view-read race isn't seen",
        "chance: programs",
        f'if words[0] == "check" and b"refused 312" in out: {ACCEPTS}',
    ),
    ("another pair of a race", "chance: programs", 'if b"refused 311" in out: out = out.replace(b"311 ", b"311 1")'),
    ("a division is another fault", "chance: programs", 'err = err.replace(b"fault 201", b"fault 202")'),
]  # fmt: skip


class Caught(Exception):
    """The case has seen what is wrong."""


class Sharp(Found):
    """Ends a case at the first thing that is wrong."""

    def must(self, holds, what, seen=""):
        super().must(holds, what, seen)
        if not holds:
            raise Caught


def of_commands(what, case, commands, alteration):
    """A wrong program for each of these commands: the alteration, made of its answers alone."""
    return [(f"{command}: {what}", case, f'if words[0] == "{command}": {alteration}') for command in commands]


def wrapper(program, folder, number, alteration):
    """Writes the script of a wrong program, and gives its path."""
    path = f"{folder}/wrong_{number}"
    with open(path, "w", encoding="utf-8") as it:
        form = OF_STATUS if alteration.startswith(WITHIN_SH) else SCRIPT
        alteration, noted = alteration.removeprefix(WITHIN_SH), f"{path}.noted"
        it.write(form.format(python=sys.executable, program=program, alteration=alteration, noted=noted))
    os.chmod(path, 0o700)
    return path


def was_wrong(path):
    """Whether the program of this script gave another answer than the right one at all."""
    return os.path.exists(f"{path}.noted")


# of rows that stand in one case with others
WRONG += [
    ("a want of memory is another outcome", "memory: threads prints", f"if status == 5: {RUNS}"),
    ("the end of a text is one off", "limits: bytes of a text", 'err = err.replace(b"115 at 262144", b"115 at 262145")'),
    ("the place of a brace too many is one off", "limits: nesting", 'err = err.replace(b"104 at 76", b"104 at 77")'),
    (
        "65 braces are too many",
        "limits: nesting",
        'if words[0] == "run" and open("p.c").read(77) == "int main(){" + "{" * 65 + "}": status = 2',
    ),
    ("a number past the greatest is taken", "limits: input numbers", f'if err == b"input 121 at 0\\n": {RUNS}'),
    ("65,536 inputs are too many", "limits: input numbers", 'if out == b"result 65536\\n": status, out = 2, b""'),
    ("the limits are one less", "limits: events", 'if words[0] == "play" and not status: status, out = 3, b""'),
    ("the limits are one less", "limits: frames", 'if words[0] == "threads" and not status: status, out = 5, b""'),
    ("the limits are one less", "limits: cells", 'if words[0] == "check" and not status: status, out = 4, b""'),
    ("an empty certificate is accepted", "files: certificates cut off", f'if out == b"refused 302 1\\n": {ACCEPTS}'),
    ("a line twice is one line", "lines: doubled", f'if out == b"refused 301 9\\n": {ACCEPTS}'),
    ("lines come in any order", "lines: exchanged", f'if out == b"refused 303 2\\n": {ACCEPTS}'),
    ("a size past the limit is found later", "lines: size", 'out = out.replace(b"301 2", b"301 9")'),
    ("a size isn't looked at", "lines: size", f'if out == b"refused 301 6\\n": {ACCEPTS}'),
]
WRONG += [
    (f"{number} at {line} is a race", "lines: of a race", f'out = out.replace(b"{number} {line}\\n", b"311 7 10\\n")')
    for number, line in ((304, 2), (305, 4), (307, 4), (303, 7), (303, 10), (303, 15))
]
COMMANDS = ("run", "certify", "check", "play", "threads", "measure")
WRONG += of_commands(
    "a file that fails is empty",
    "devices: each call of each command",
    COMMANDS,
    'status, err = (0, b"") if err.startswith(b"cannot read") else (status, err)',
)
WRONG += of_commands(
    "a failed write ends with status 0",
    "writes: out cut at each byte",
    COMMANDS,
    'status = 0 if err == b"cannot write\\n" else status',
)
# of great numbers, and of memory
WRONG += [
    (
        "a far cell calls for all below",
        "little memory: far cells",
        'if words[0] == "judge" and not status: status, out, err = 5, b"", b"no memory\\n"',
    ),
    (
        "a range that isn't cleared is",
        "little memory: wide clears",
        'if b"refused 311 10 " in out: status, out = 0, b"race-free\\n"',
    ),
    ("many kinds are malformed", "little memory: kinds of lines", 'status, out, err = 2, b"", b"trace 301 at 2\\n"'),
    ("a depth ends in a crash", "little memory: depth of a trace", "if status == 2: crash(signal.SIGSEGV)"),
    ("hints of helpers take memory", "little memory: line feeds", f'if "--helpers" in words: {TAKES}'),
    ("a small text takes memory", "little memory: small texts", f'if out == b"race-free\\n": {TAKES}'),
    ("a picture takes memory", "little memory: small texts", f'if "--svg" in words and not status: {TAKES}'),
    ("an object tells another status", "little memory: small texts", 'if "--json" in words: status = 1'),
    ("an explanation ends in a crash", "little memory: small texts", 'if "--sites" in words and status: crash(signal.SIGSEGV)'),
    ("a new option is in the help", "little memory: small texts", 'err = err.replace(b"--csv |", b"--csv | --xml |")'),
    ("a trace takes memory", "chance: far cells", f'if out == b"race-free\\n": {TAKES}'),
    ("a far cell is malformed", "chance: far cells", 'if out == b"race-free\\n": status, out, err = 2, b"", b"trace 301 at 2\\n"'),
    ("a size takes memory", "chance: great numbers of certificates", f'if b"refused 301 2" in out: {TAKES}'),
    (
        "helpers answer otherwise",
        "chance: great numbers of certificates",
        f'if "--helpers" in words and b"refused 303" in out: {ACCEPTS}',
    ),
    (
        "a number past the limit ends in a crash",
        "chance: great numbers of scripts",
        'if err.startswith(b"script at"): crash(signal.SIGABRT)',
    ),
    ("an index ends in a crash", "chance: great numbers of programs", 'if b"fault 202" in err: crash(signal.SIGSEGV)'),
    ("a length takes memory", "chance: great numbers of programs", f'if err.startswith(b"program 119"): {TAKES}'),
]
