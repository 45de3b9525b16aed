"""Limits at their edge: the last that passes and the first that is refused, by the language's rules."""

import sys

sys.dont_write_bytecode = True
from hostile import rows
from hostile.room import LONG, Shown, cannot_read
from hostile.rows import ACCEPTED, said

MAX_FILE = 268_435_456
HEAD = "int main(){return "


def wrong_text(number, place, which="program"):
    """What is shown of a text with a fault."""
    return Shown(2, b"", f"{which} {number} at {place}\n".encode())


def faulty(number, place):
    return Shown(3, b"", f"fault {number} at {place}\n".encode())


def by_all(room, found, told, text, outcome, inputs=None, cert=None):
    """A program that passes, by each command; its certificate is what `certify` writes, where none is given."""
    room.put("p.c", text)
    room.put("all", "all\n")
    more = ["--input", room.put("p.in", inputs)] if inputs is not None else []
    found.expect(room.run("run", "p.c", *more, patience=LONG), outcome, f"{told}: run")
    made = room.run("certify", "p.c", *more, patience=LONG)
    found.must(made.status == 0 and made.err == b"", f"{told}: certify", made)
    if cert is not None:
        found.expect(made.out, cert, f"{told}: certify")
    room.put("p.cert", made.out)
    found.expect(room.run("check", "p.c", "p.cert", *more, patience=LONG), ACCEPTED, f"{told}: check")
    found.expect(room.run("play", "p.c", "all", *more, patience=LONG), outcome, f"{told}: play")
    found.expect(room.run("threads", "p.c", "p.cert", *more, patience=LONG), outcome, f"{told}: threads")
    seen = room.run("measure", "p.c", *more, patience=LONG)
    found.must(seen.status == 0 and seen.err == b"", f"{told}: measure", seen)
    return made.out


def refused_by_all(room, found, told, text, wanted, inputs=None):
    """A program or an input with a fault, by each command; the certificate and the script aren't looked at."""
    room.put("p.c", text)
    more = ["--input", room.put("p.in", inputs)] if inputs is not None else []
    for words in (
        ["run", "p.c"],
        ["certify", "p.c"],
        ["check", "p.c", "absent"],
        ["play", "p.c", "absent"],
        ["threads", "p.c", "absent"],
        ["measure", "p.c"],
    ):
        found.expect(room.run(*words, *more, patience=LONG), wanted, f"{told}: {words[0]}")


def text_bytes(room, found):
    """262,144 bytes of a program."""
    text = rows.FIRST.ljust(262_144)
    by_all(room, found, "a text of 262,144 bytes", text, said("result 0"), cert=rows.certificate("first"))
    refused_by_all(room, found, "a text of 262,145 bytes", text + " ", wrong_text(106, 262_144))
    refused_by_all(room, found, "262,144 spaces", " " * 262_144, wrong_text(115, 262_144))
    found.expect(room.run(stdin=text.encode()), said("result 0"), "262,144 bytes on standard input")
    found.expect(room.run(stdin=text.encode() + b" "), wrong_text(106, 262_144), "262,145 bytes on standard input")
    found.expect(room.run(stdin=b"\xff" * 300_000), wrong_text(106, 262_144), "300,000 bytes on standard input")


def nesting(room, found):
    """Statements and expressions 64 deep, and 65."""
    for k in (64, 65):
        text = "int main(){" + "{" * k + "}" * (k + 1)
        by_all(room, found, f"{k} braces", text, said("result 0"), cert=rows.certificate("first"))
    refused_by_all(room, found, "66 braces", "int main(){" + "{" * 66, wrong_text(104, 76))
    for k in (64, 65, 66):
        for opening, closing in (("(", ")"), ("- ", ""), ("!", "")):
            text = HEAD + opening * k + "1" + closing * k + ";}"
            if k == 64:
                by_all(room, found, f"{k} times {opening}", text, said("result 1"))
            else:
                refused_by_all(room, found, f"{k} times {opening}", text, wrong_text(104, 18 + 65 * len(opening)))


def operators(room, found):
    """256 operators of one expression, and 257."""
    by_all(room, found, "256 operators", HEAD + "+".join(["1"] * 257) + ";}", said("result 257"))
    refused_by_all(
        room, found, "257 operators", HEAD + "+".join(["1"] * 258) + ";}", wrong_text(104, 18 + 1 + 2 * 256)
    )


def declarations(room, found):
    """Functions, parameters, cells of a function, reducers, and lengths of arrays."""
    main = "int main(){return 0;}"
    functions = [f"void f{k}(){{}}" for k in range(1024)]
    # (`main` is a function too, so it is the 1,024th or the 1,025th)
    by_all(room, found, "1,024 functions", "".join(functions[:1023]) + main, said("result 0"))
    text = "".join(functions) + main
    refused_by_all(room, found, "1,025 functions", text, wrong_text(119, text.index("main")))
    for k in (16, 17):
        text = "void f(" + ",".join(f"int p{n}" for n in range(k)) + "){}" + main
        if k == 16:
            by_all(room, found, "16 parameters", text, said("result 0"))
        else:
            refused_by_all(room, found, "17 parameters", text, wrong_text(119, text.index("p16")))
    for k in (256, 257):
        text = "int main(){int " + ",".join(f"v{n}" for n in range(k)) + ";return 0;}"
        if k == 256:
            by_all(room, found, "256 cells", text, said("result 0"))
        else:
            refused_by_all(room, found, "257 cells", text, wrong_text(119, text.index("v256")))
    for k in (64, 65):
        text = "".join(f"int cilk_reducer(add) r{n};" for n in range(k)) + main
        if k == 64:
            outcome = said(*(f"reducer r{n} 0" for n in range(64)), "result 0")
            by_all(room, found, "64 reducers", text, outcome)
        else:
            refused_by_all(room, found, "65 reducers", text, wrong_text(119, text.index("r64")))
    by_all(room, found, "an array of 1,000,000", "int a[1000000];" + main, said("result 0"))
    refused_by_all(room, found, "an array of 1,000,001", "int a[1000001];" + main, wrong_text(119, 4))
    refused_by_all(room, found, "an array of 0", "int a[0];" + main, wrong_text(119, 4))
    by_all(room, found, "1,000,000 global cells", "int g;int a[999999];" + main, said("result 0"))
    refused_by_all(room, found, "1,000,001 global cells", "int a[1000000];int g;" + main, wrong_text(119, 19))


def inputs(room, found):
    """65,536 numbers of an input, and 65,537; the least and the greatest number."""
    text = "int main(){return input_count();}"
    by_all(room, found, "65,536 inputs", text, said("result 65536"), inputs="0 " * 65_536)
    refused_by_all(room, found, "65,537 inputs", text, wrong_text(122, 131_072, "input"), inputs="0 " * 65_537)
    room.put("on", "0 " * 65_536)
    room.put("over", "0 " * 65_537)
    cert = room.run("certify", "p.c").out
    room.put("p.cert", cert)
    found.expect(
        room.run("threads", "p.c", "p.cert", "--on", "on"), said("result 65536"), "65,536 inputs: threads --on"
    )
    seen = room.run("threads", "p.c", "p.cert", "--on", "over")
    found.expect(seen, wrong_text(122, 131_072, "input"), "65,537 inputs: threads --on")
    text = HEAD + "input(0);}"
    for number in (2**63 - 1, -(2**63)):
        by_all(room, found, f"the input {number}", text, said(f"result {number}"), inputs=str(number))
    for number in ("9223372036854775808", "-9223372036854775809", "x", "+", "-", "1x", "\0", "1,2"):
        refused_by_all(room, found, f"the input {number!r}", text, wrong_text(121, 0, "input"), inputs=number)


def events_text(prints):
    """999,998 events and these prints: begin, a declaration, 333,331 turns of three, the last test, sync, end."""
    turns = "while (i < 333331) i = i + 1;"
    return f"int main() {{ int i; {turns} {'print(1); ' * prints}return 0; }}"


def events(room, found):
    """1,000,000 events, and one more."""
    outcome = said("1", "1", "result 0")
    cert = by_all(room, found, "1,000,000 events", events_text(2), outcome)
    found.must(cert.split(b"\n")[1] == b"size 1000000 1 2", "1,000,000 events: the size line", cert[:40])
    for more, strand in ((3, 2), (4, 1)):
        told = f"{999_998 + more} events"
        room.put("p.c", events_text(more))
        for command in ("run", "certify", "measure"):
            found.expect(room.run(command, "p.c", patience=LONG), faulty(204, 1_000_001), f"{told}: {command}")
        stop = Shown(3, b"", f"fault 204 in r:{strand}\n".encode())
        found.expect(room.run("play", "p.c", "all", patience=LONG), stop, f"{told}: play")
        for command in ("check", "threads"):
            seen = room.run(command, "p.c", "p.cert", patience=LONG)
            found.expect(
                seen, Shown(4, b"refused 303 999999\n", b""), f"{told}: {command} by the shorter run's certificate"
            )


def ticks_text(more):
    """A run of 15,999,624 ticks and these: 30,592 turns of 523, and 8; of 91,779 events ahead of the last number."""
    wide = "+".join(["1"] * 257)
    return f"int main() {{ int i = 0; while (i < 30592) {{ i = i + 1; if ({wide}) ; }} {';' * more} return 0; }}"


def ticks(room, found):
    """16,000,000 ticks, and one more."""
    by_all(room, found, "16,000,000 ticks", ticks_text(376), said("result 0"))
    for more in (377, 400):
        room.put("p.c", ticks_text(more))
        told = f"{15_999_624 + more} ticks"
        for command in ("run", "certify", "measure"):
            found.expect(room.run(command, "p.c", patience=LONG), faulty(204, 91_780), f"{told}: {command}")
        stop = Shown(3, b"", b"fault 204 in r:1\n")
        found.expect(room.run("play", "p.c", "all", patience=LONG), stop, f"{told}: play")
        refused_at(room, found, told, 91_780)


def refused_at(room, found, told, at, *more):
    """A certificate that agrees with a run up to the event at which that stops by a fault."""
    for command in ("check", "threads"):
        seen = room.run(command, "p.c", "p.cert", *more, patience=LONG)
        found.expect(seen, Shown(4, b"refused 310 %d\n" % at, b""), f"{told}: {command} by the shorter run's certificate")


def one_deeper(room, found, told, text, at):
    """A recursion that goes one call deeper on the input -1 than on 0, to a limit that the call at an event passes."""
    made = by_all(room, found, told, text, said("result 0"), inputs="0")
    room.put("deeper.in", "-1")
    refused_at(room, found, f"past {told}", at, "--input", "deeper.in")
    return made


def frames(room, found):
    """65,536 frames, and one more."""
    text = "int g; void f(int n) {{ if (n > input(0)) {0}f(n - 1); else g = n; }} int main() {{ {0}f({1}); return g; }}"
    for spawn in ("", "cilk_spawn "):
        kind, at = spawn.strip() or "call", 7 + 5 * 65_534
        told = f"65,536 frames by {kind}"
        # (`main` reads what the last frame writes, so it waits for a child first)
        whole = text.replace("return g", "cilk_sync; return g") if spawn else text
        cert = one_deeper(room, found, told, whole.format(spawn, 65_534), at)
        found.must(cert.split(b"\n")[1].split()[2] == b"65536", f"{told}: the size line", cert[:40])
        for command in ("run", "certify", "measure"):
            seen = room.run(command, "p.c", "--input", "deeper.in", patience=LONG)
            found.expect(seen, faulty(205, at), f"past {told}: {command}")
        room.put("one.script", "run 1 1000000\n")
        stop = Shown(3, b"", b"fault 205 in r" + b".1" * 65_535 + b":1\n")
        seen = room.run("play", "p.c", "one.script", "--input", "deeper.in", patience=LONG)
        found.expect(seen, stop, f"past {told}: play")
    room.put("p.c", "void f() { f(); } int main() { f(); return 0; }")
    found.expect(room.run("run", "p.c", patience=LONG), faulty(205, 131_072), "a recursion without end")


def cells(room, found):
    """1,048,576 cells, and two more."""
    text = "int g; int a[999999]; void f(int n) { int y; if (n > input(0)) f(n - 1); else g = n; } "
    told, at = "1,048,576 cells", 8 + 6 * 24_287
    one_deeper(room, found, told, text + "int main() { f(24287); return g; }", at)
    for command in ("run", "certify", "measure"):
        seen = room.run(command, "p.c", "--input", "deeper.in", patience=LONG)
        found.expect(seen, faulty(206, at), f"past {told}: {command}")
    stop = Shown(3, b"", b"fault 206 in r" + b".1" * 24_288 + b":1\n")
    seen = room.run("play", "p.c", "all", "--workers", "1", "--input", "deeper.in", patience=LONG)
    found.expect(seen, stop, f"past {told}: play")


def workers(room, found):
    """1 and 64 workers; 0, 65 and what is no number."""
    program, cert, _ = rows.lay(room, "local")
    for command, words in (("play", [program, "all"]), ("threads", [program, cert])):
        for count in ("1", "2", "63", "64"):
            seen = room.run(command, *words, "--workers", count)
            found.expect(seen, rows.OUTCOMES["local"], f"{command} with {count} workers")
        for count in ("0", "65", "-1", "", "x", "1x", "18446744073709551617", "4294967297"):
            seen = room.run(command, *words, "--workers", count)
            found.must(seen.status == 2 and not seen.out and seen.err, f"{command} with {count!r} workers", seen)


def script_at(line):
    return Shown(2, b"", f"script at {line}\n".encode())


def scripts(room, found):
    """1,048,576 bytes of a script, 16,000,000 choices, and numbers at their edge."""
    room.put("first.c", rows.FIRST)
    full, most = "all\n" + "#" * 1_048_572, "run 1 1000000\n"
    ends = "all\n" + "#" * 1_048_571 + "\n"
    cases = [
        (full, said("result 0")), (full + "#", script_at(2)), (full + "\n", script_at(2)), (ends, said("result 0")),
        (ends + "x", script_at(3)), (ends + "\n", script_at(3)), ("\n" * 1_048_577, script_at(1_048_577)),
        (most * 16, said("result 0")), (most * 16 + "all\n", said("result 0")), (most * 16 + "run 1\n", script_at(17)),
        (most * 16 + "steal 1 0\n", script_at(17)), (most * 15 + "run 1 999999\nrun 2\n", said("result 0")),
        (most * 15 + "run 1 999999\nrun 2 2\n", script_at(17)), ("run 1 1000001\n", script_at(1)),
        ("run 1 0\n", script_at(1)), ("run 0\n", script_at(1)), ("run 1000000\nall", said("result 0")),
        ("run 1000001\n", script_at(1)), ("steal 1000000 1000000\nall\n", said("result 0")),
        ("steal 1 1000001\n", script_at(1)), ("steal 0 0\n", script_at(1)), (
            "run 2\n" * 3, Shown(0, b"not ended\n", b"")
        ),
    ]  # fmt: skip
    for script, wanted in cases:
        room.put("script", script)
        seen = room.run("play", "first.c", "script", patience=LONG)
        found.expect(seen, wanted, f"a script of {len(script)} bytes, {script[:30]!r} .. {script[-12:]!r}")
    room.put("fault.c", rows.FAULT)
    room.put("script", most * 17)
    seen = room.run("play", "fault.c", "script", patience=LONG)
    found.expect(seen, Shown(3, b"", b"fault 201 in r.2:1\n"), "a stop ahead of the choice past the limit")


def sparse(room, name, size):
    """A file of so many zeros that takes no room."""
    with open(f"{room.folder}/{name}", "wb") as it:
        it.truncate(size)
    return name


def large_files(room, found):
    """A file of 268,435,456 bytes, and of one more."""
    program, cert, _ = rows.lay(room, "first")
    sparse(room, "most", MAX_FILE)
    sparse(room, "over", MAX_FILE + 1)
    for words, wanted in (
        (["run", "{}"], wrong_text(106, 262_144)),
        (["run", program, "--input", "{}"], wrong_text(121, 0, "input")),
        (["check", program, "{}"], Shown(4, b"refused 301 1\n", b"")),
        (["play", program, "{}"], script_at(1)),
        (["threads", program, cert, "--on", "{}"], wrong_text(121, 0, "input")),
    ):
        for name, answer in (("most", wanted), ("over", cannot_read("over"))):
            seen = room.run(*(it.format(name) for it in words), patience=LONG)
            found.expect(seen, answer, f"{' '.join(words)} with the file `{name}`")
    for name in ("most", "over"):
        seen = room.run("judge", name, patience=LONG)
        found.expect(seen, Shown(2, b"", b"trace 301 at 1\n"), f"judge, which has no limit, with the file `{name}`")


def long_lines(room, found):
    """Lines of a certificate of 96 and 97 bytes, each in turn, with and without a line feed."""
    room.put("first.c", rows.FIRST)
    lines = rows.certificate("first").split(b"\n")[:-1]
    for k in range(len(lines)):
        for size, ending, number in ((96, b"\n", 301), (97, b"\n", 301), (96, b"", 302), (97, b"", 301)):
            room.put("cert", b"".join(it + b"\n" for it in lines[:k]) + lines[k].ljust(size, b"0") + ending)
            seen = room.run("check", "first.c", "cert")
            found.expect(
                seen,
                Shown(4, f"refused {number} {k + 1}\n".encode(), b""),
                f"line {k + 1} of {size} bytes, ended by {ending}",
            )
    for more, number in ((b"x", 301), (b"\n", 301), (b"x" * 96, 301), (b"x" * 97, 301)):
        room.put("cert", rows.certificate("first") + more)
        found.expect(
            room.run("check", "first.c", "cert"),
            Shown(4, f"refused {number} 11\n".encode(), b""),
            f"{more[:4]} behind",
        )


CASES = {
    "limits: bytes of a text": text_bytes,
    "limits: nesting": nesting,
    "limits: operators": operators,
    "limits: declarations": declarations,
    "limits: input numbers": inputs,
    "limits: events": events,
    "limits: ticks": ticks,
    "limits: frames": frames,
    "limits: cells": cells,
    "limits: workers": workers,
    "limits: scripts": scripts,
    "limits: large files": large_files,
    "limits: lines of a certificate": long_lines,
}
