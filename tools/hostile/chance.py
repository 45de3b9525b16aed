"""Texts, certificates and scripts damaged by chance, and programs made by chance."""

import random
import re
import sys

sys.dont_write_bytecode = True
import random_certificates
import random_programs
import random_schedules
import random_threads
import second_certificate
from hostile import rows
from hostile.room import LONG, Shown

PART = 20  # numbers that are tried at once
LIMITS = (b"fault 204", b"fault 205", b"fault 206")
STRAND = re.compile(rb"fault 20[1-6] in r(\.\d+)*:\d+\n")
NONE = re.compile(rb"")
OUTCOME = re.compile(rb"(-?\d+\n)*(reducer \w+( -?\d+)*\n)*result -?\d+\n")
TOKENS = "( ) { } [ ] ; , = + - * / % < > ! <= == != && || += ++ -- /* */ // # \\ ' . & | ? @ \x00 \x7f".split()
TOKENS += "int void if else while for return cilk_spawn cilk_sync cilk_for cilk_reducer print update set value".split()
TOKENS += "input input_count main x 0 1 007 9223372036854775807 9223372036854775808 1x _ #include".split()
TOKENS += ["\n", "\r", "\t", "\v", "\f", '"']
WORDS = [
    "run",
    "steal",
    "all",
    "run 1",
    "run 2 5",
    "steal 2 0",
    "steal 1 1",
    "#",
    "",
    "\r",
    "0",
    "1000000",
    "1000001",
    "-1",
    "01",
    "RUN",
    "\t",
    "x",
    "é",
]
FORMS = re.compile(rb"run +(\d+)(?: +(\d+))?|steal +(\d+) +(\d+)|all")


def right_status(seen, *ways):
    """Whether this is one of the answers that a command may give: a status with what stands on out and err."""
    return any(
        seen.status == status and out.fullmatch(seen.out) and err.fullmatch(seen.err) for status, out, err in ways
    )

BAD_TEXT = (2, NONE, re.compile(rb"(program|input) \d+ at \d+\n"))
BAD_RUN = (3, NONE, re.compile(rb"fault 20[1-6] at \d+\n"))


def exchanged(chance, parts):
    """Parts doubled, cut out, exchanged, or put elsewhere."""
    parts = list(parts)
    for _ in range(chance.choice((1, 1, 2, 3))):
        if not parts:
            return parts
        one, other = chance.randrange(len(parts)), chance.randrange(len(parts))
        kind = chance.randrange(5)
        if kind == 0:
            parts.insert(one, parts[other])
        elif kind == 1:
            del parts[one]
        elif kind == 2:
            parts[one], parts[other] = parts[other], parts[one]
        elif kind == 3:
            parts[one] = parts[other]
        else:
            del parts[min(one, other) : max(one, other)]
    return parts


def alike(chance, parts):
    """Some numbers and names exchanged for others of the text: what is left can often still be read."""
    numbers = [k for k, it in enumerate(parts) if it.isdigit()]
    names = [k for k, it in enumerate(parts) if it[:1].isalpha() and it.decode("latin-1") not in TOKENS]
    for _ in range(chance.choice((1, 2, 3))):
        places = chance.choice((numbers, names))
        if places:
            parts[chance.choice(places)] = parts[chance.choice(places)]
    return parts


def damaged_text(chance, text, tokens):
    """A text whose bytes, tokens or lines are damaged, or that is cut."""
    kind = chance.randrange(9)
    if kind == 0:
        return text[: chance.randrange(len(text) + 1)]
    if kind == 1:
        lines = text.splitlines(keepends=True)
        return b"".join(exchanged(chance, lines))
    if kind == 2:
        raw = bytearray(text)
        for _ in range(chance.choice((1, 1, 2, 5))):
            at = chance.randrange(len(raw) + 1)
            raw[at : at + chance.randrange(2)] = bytes([chance.randrange(256)])
        return bytes(raw)
    parts = re.findall(rb"\w+|\s+|[^\w\s]", text)
    if kind == 3:
        for _ in range(chance.choice((1, 2, 4))):
            parts.insert(chance.randrange(len(parts) + 1), chance.choice(tokens).encode() + chance.choice((b" ", b"")))
        return b"".join(parts)
    return b"".join((alike if kind > 5 else exchanged)(chance, parts))


def program_text(seed):
    """A program by chance."""
    kind = seed % 4
    if kind == 3:
        return random_threads.text_of(seed)
    return (random_programs.Writer, random_certificates.Apart, random_certificates.Shapes)[kind](seed).program()


def texts(room, found, seed, numbers):
    """Damaged programs and inputs: each command shows the same fault of the text, or answers as of a right one."""
    for k in numbers:
        chance = random.Random(f"texts {seed} {k}")
        text = damaged_text(chance, program_text(chance.randrange(10**6)).encode(), TOKENS)
        given = b"4 -9 12"
        if chance.random() < 0.2:
            given = damaged_text(chance, given, ["0", "-", "+", "9223372036854775808", "x", "\n", "+5", "00"])
        room.put("p.c", text)
        more = ["--input", room.put("p.in", given)]
        room.put("any", b"all\n")
        told = f"damaged text {k} of seed {seed}"
        ran = room.run("run", "p.c", *more)
        found.must(right_status(ran, (0, OUTCOME, NONE), BAD_TEXT, BAD_RUN), f"{told}: run", ran)
        if ran.status != 2:
            made = room.run("certify", "p.c", *more)
            found.must((made.status, made.err) == (ran.status, ran.err), f"{told}: certify", made)
        found.count(
            {
                0: "texts that still run", 2: "texts with a fault", 3: "texts whose run has a fault"
            }.get(ran.status, "other")
        )
        command = [
            ["check", "p.c", "any"],
            ["play", "p.c", "any"],
            ["threads", "p.c", "any"],
            ["measure", "p.c"],
            ["certify", "p.c"],
        ][k % 5]
        seen = room.run(*command, *more)
        if ran.status == 2:
            found.expect(seen, ran, f"{told}: {command[0]}")
        elif command[0] in ("check", "threads"):
            found.expect(seen, Shown(4, b"refused 301 1\n", b""), f"{told}: {command[0]}")
        elif command[0] == "play":
            found.must(right_status(seen, (0, OUTCOME, NONE), (3, NONE, STRAND)), f"{told}: play", seen)


class Runs:
    """Programs by chance with their runs by the second reading, kept for some certificates each."""

    def __init__(self):
        self.seed, self.run = None, None

    def of(self, seed):
        """The run of a program, or nothing where it is too long or its certificate would be."""
        if self.seed != seed:
            self.seed, self.run = seed, None
            run = random_certificates.Counted(program_text(seed), random_programs.INPUTS)
            try:
                self.run = run.made()
            except random_programs.Long:
                pass
        return self.run


RUNS = Runs()


def certificates(room, found, seed, numbers):
    """Damaged certificates of both versions: `check` answers what the second reading does."""
    for k in numbers:
        run = RUNS.of(seed * 10**6 + k // PART)
        if run is None or run.fault in (204, 205, 206):
            found.count("left out: long")
            continue
        room.put("p.c", run.text)
        more = ["--input", room.put("p.in", " ".join(map(str, run.inputs)))]
        damage = random_certificates.Damage(f"{seed} {k}")
        text = damage.damaged(run)
        if damage.chance.random() < 0.2:
            text = damaged_text(damage.chance, text, random_certificates.EDGES)
        room.put("p.cert", text)
        wanted = second_certificate.judged(run, text)
        seen = room.run("check", "p.c", "p.cert", *more)
        answer = Shown(0 if wanted == "accepted" else 4, f"{wanted}\n".encode(), b"")
        found.expect(seen, answer, f"damaged certificate {k} of seed {seed}")
        found.count(f"certificates: {' '.join(wanted.split()[:2])}")
        if k % 4 == 0 and wanted != "accepted":
            found.expect(
                room.run("threads", "p.c", "p.cert", *more), answer, f"damaged certificate {k} of seed {seed}: threads"
            )


def first_bad_line(script):
    """The first line that is no order, by docs/SCRIPTS.md, or 0."""
    lines = script.split(b"\n")
    lines = lines if lines[-1] else lines[:-1]
    for number, line in enumerate(lines, 1):
        if number < len(lines) or script.endswith(b"\n"):
            line = line[:-1] if line.endswith(b"\r") else line
        if line == b"" or line.startswith(b"#"):
            continue
        fits = FORMS.fullmatch(line.strip(b" "))
        if not fits:
            return number
        worker, count, thief, place = (int(it) if it else None for it in fits.groups())
        largest = max((it for it in (worker, count, thief, place) if it is not None), default=1)
        if largest > 1_000_000 or 0 in (worker, count, thief):
            return number
    return 0


def scripts(room, found, seed, numbers):
    """Damaged scripts: `script at` the first line that is no order, and else an answer of the run."""
    for k in numbers:
        chance = random.Random(f"scripts {seed} {k}")
        name = chance.choice(("list", "local", "prints", "put", "gets", "one"))
        program, _, _ = rows.lay(room, name) if k % PART == 0 or not k % 3 else (
            room.put(f"{name}.c", rows.TEXTS[name]), None, None
        )
        workers = chance.randrange(1, 9)
        script = random_schedules.script(chance, workers, chance.choice((3, 20, 100))).encode()
        script = damaged_text(chance, script, [f"{it}\n" for it in WORDS] + WORDS)
        room.put("script", script)
        seen = room.run("play", program, "script", "--workers", str(workers))
        told = f"damaged script {k} of seed {seed}"
        bad = first_bad_line(script)
        if bad:
            found.count("scripts with a wrong line")
            found.expect(seen, Shown(2, b"", b"script at %d\n" % bad), told)
        elif name == "one":
            found.must(
                seen.out in (b"result 0\n", b"result 1\n", b"not ended\n") and not seen.status and not seen.err,
                told,
                seen,
            )
        else:
            found.count("scripts that are played")
            found.must(seen in (rows.OUTCOMES[name], Shown(0, b"not ended\n", b"")), told, seen)


def verdict_of(run):
    """What the second reading says of a run: its fault, its race, or nothing."""
    if run.fault:
        return f"fault {run.fault} at {len(run.log) + 1}"
    number, pair = (311, run.race) if run.race else (312, run.view_race)
    return f"refused {number} {pair[0]} {pair[1]}" if pair else "accepted"


def accepted(room, found, told, outcome, chance, more):
    """A program that was accepted has one outcome: by scripts, and by workers in threads."""
    for _ in range(2):
        workers = chance.randrange(1, 9)
        room.put("script", random_schedules.script(chance, workers, chance.choice((5, 50, 400))))
        seen = room.run("play", "p.c", "script", "--workers", str(workers), *more)
        found.expect(seen, outcome, f"{told}: play with {workers} workers")
    for workers in ("1", "2", chance.choice(("3", "8", "64"))):
        seen = room.run("threads", "p.c", "p.cert", "--workers", workers, *more)
        found.expect(seen, outcome, f"{told}: threads with {workers} workers")


def programs(room, found, seed, numbers):
    """Programs by chance: one answer by all commands where they are accepted, and else the second reading's refusal."""
    for k in numbers:
        chance, told = random.Random(f"programs {seed} {k}"), f"program {k} of seed {seed}"
        text = program_text(seed * 10**6 + k)
        room.put("p.c", text)
        more = ["--input", room.put("p.in", " ".join(map(str, random_programs.INPUTS)))]
        ran = room.run("run", "p.c", *more, patience=LONG)
        made = room.run("certify", "p.c", *more, patience=LONG)
        found.expect((made.status, made.err), (ran.status, ran.err), f"{told}: run and certify")
        run = random_certificates.Counted(text, random_programs.INPUTS)
        try:
            if made.err.startswith(LIMITS):
                raise random_programs.Long
            run.made()
        except random_programs.Long:
            found.count("left out: long, or a limit")
            continue
        verdict = verdict_of(run)
        found.count(f"programs: {' '.join(verdict.split()[:2])}")
        if run.fault:
            found.expect(made, Shown(3, b"", f"{verdict}\n".encode()), f"{told}: certify")
            continue
        outcome = Shown(0, "".join(f"{it}\n" for it in [*run.output, f"result {run.result}"]).encode(), b"")
        found.expect(ran, outcome, f"{told}: run")
        found.must(made.out == run.right(2).text(), f"{told}: certify")
        room.put("p.cert", made.out)
        answer = Shown(0 if verdict == "accepted" else 4, f"{verdict}\n".encode(), b"")
        found.expect(room.run("check", "p.c", "p.cert", *more), answer, f"{told}: check")
        if verdict == "accepted":
            accepted(room, found, told, outcome, chance, more)
        else:
            found.expect(room.run("threads", "p.c", "p.cert", *more), answer, f"{told}: threads")


CASES = {
    "chance: damaged texts": texts,
    "chance: damaged certificates": certificates,
    "chance: damaged scripts": scripts,
    "chance: programs": programs,
}
OF_PROGRAMS = ("chance: programs",)
