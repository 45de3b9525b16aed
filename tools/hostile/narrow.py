"""Great numbers in small texts, and great texts, with little memory: an answer or `no memory`, and never more than the text calls for."""

import functools
import io
import random
import re
import sys

sys.dont_write_bytecode = True
import random_traces
import second_certificate
from hostile import chance as damage
from hostile import forms, rows
from hostile.room import LONG, NO_MEMORY, Shown

ROOM = 2**30  # bytes of address space
PEAK = 100_000  # kilobytes of memory that a small text may call for
SECONDS = 2.0  # of a processor
SMALL = 1000  # bytes of a text by chance
EDGES = (
    [0, 1, 2, 3, 7, 64, 65, 255, 256, 257, 4095, 4096, 4097, 65_535, 65_536, 65_537, 450_000_000, 16_000_000, 134_217_728]
    + [999_999, 1_000_000, 1_000_001, 1_048_575, 1_048_576, 1_048_577, 2**24, 2**31 - 1, 2**31, 2**32 - 4097]
    + [2**32 - 4096, 2**32 - 2, 2**32 - 1, 2**32, 2**63 - 1, 2**63, 2**64 - 1, 2**64, 10**40]
)
MOST_EVENTS, MOST_FRAMES, MOST_CELLS = 1_000_000, 65_536, 1_048_576  # of a run
OF_AN_EVENT, OF_A_FRAME, OF_A_CELL = 180, 7_000, 60  # bytes that a run may take where these are more than PEAK
MICROSECONDS = 12.0  # of a processor for an event, where these are more than SECONDS
FREE, MALFORMED = rows.said("race-free"), Shown(4, b"refused 301 1\n", b"")


def judge(found, told, fair, ran, peak=PEAK, seconds=SECONDS):
    """Notes of a run in a gigabyte: its answer has to be fair, with so much memory and so many seconds at most."""
    seen, used, spent = ran
    found.must(fair(seen), told, seen)
    found.must(peak is None or used <= peak, f"{told}: {used} KB")
    found.must(seconds is None or spent <= seconds, f"{told}: {spent:.1f} s")
    return seen


def bounded(room, found, told, fair, *words, stdin=b"", **bounds):
    """Runs the program in a gigabyte, and judges that run."""
    seconds = bounds.get("seconds", SECONDS)
    ran = room.within(ROOM, *words, stdin=stdin, patience=LONG if seconds is None else 5 * seconds)
    return judge(found, told, fair, ran, **bounds)


def formed(room, found, told, form, fair, names, more=(), **bounds):
    """Tries a form of words, with the names of files for its letters."""
    words, letter = forms.words_of(form, names), forms.given(form)
    stdin = room.get(names[letter]) if letter else b""
    words += more if words else []
    return bounded(room, found, f"{told}: {form}", fair, *words, stdin=stdin, **bounds)


def is_answer(seen):
    """Whether this is an answer of any command."""
    if seen.status in (0, 4):
        return seen.out != b""
    return seen.status in (2, 3, 5) and not seen.out and seen.err.endswith(b"\n")


def one_of(*answers):
    return lambda seen: seen in answers


def text_of(*lines):
    """The text of a trace."""
    return "\n".join(("cilktrace 1", *lines, "end", "")).encode()


def oracle(trace):
    """What `judge` answers to a trace, by the definitions."""
    out, err, status = random_traces.expected(trace)
    return Shown(status, out.encode(), err.encode())


def both_forms(trace):
    """A trace as text, and in the binary form where it has one."""
    yield trace
    try:
        yield random_traces.binary(trace)
    except random_traces.cilktrace.Malformed:
        pass


def far_cells(room, found):
    """Cells near the greatest: a few lines take a few pages, not a word for each number below."""
    top, wide = 2**32 - 1, 2**32 - 4096
    traces = [
        text_of("write 450000000 1 0"), text_of(f"write {top} 1 0"), text_of(f"write {wide} 4096 1"), text_of(f"write {wide + 1} 4096 1"),
        text_of("enter 1", f"write {top} 1 2", "spawned", f"read {top} 1 3"), text_of(f"clear {wide} 4096"),
        text_of("enter 1", f"write {wide} 4096 2", "spawned", f"clear {top} 1", f"write {top} 1 3"),
        text_of("enter 1", "write 0 1 2", f"write {wide} 4096 2", "spawned", f"read {wide + 77} 9 3"),
    ]  # fmt: skip
    found.expect(oracle(traces[0]), FREE, "one write")
    for trace in traces:
        for form in both_forms(trace):
            bounded(room, found, f"{trace}", one_of(oracle(trace)), "judge", room.put("far", form))


def wide_clears(room, found):
    """Ranges of 4,096 cells far apart, all cleared between two parallel writes, and all but one."""
    cells = [k << 27 for k in range(32)]
    for left in (None, 0, 7, 31):
        clears = [f"clear {it} 4096" for k, it in enumerate(cells) if k != left]
        writes = [f"write {it} 4096 1" for it in cells]
        trace = text_of("enter 1", *writes, "spawned", *clears, *writes)
        wanted = FREE if left is None else Shown(4, b"refused 311 %d %d\n" % (3 + left, 67 + left), b"")
        found.expect(oracle(trace), wanted, f"all cleared but {left}, by the definitions")
        for form in both_forms(trace):
            bounded(room, found, f"all cleared but {left}", one_of(wanted), "judge", room.put("clears", form))


def many_kinds(room, found):
    """4,096 kinds of lines with 4,096 cells each, far apart, used twice."""
    number, out = random_traces.cilktrace.leb128, io.BytesIO()
    out.write(random_traces.cilktrace.BINARY_HEADER + (b"\0\1" + number(4096) + b"\0") * 4096)
    for use in (lambda k: 2 * (k << 20), lambda k: 2 * 4096 - 1):
        for k in range(4096):
            out.write(number(8 + k) + number(use(k)))
    out.write(b"\5")
    room.put("kinds", out.getvalue())
    bounded(room, found, "4,096 kinds of 4,096 cells", one_of(FREE, NO_MEMORY), "judge", "kinds", peak=None, seconds=None)


def deep(room, found):
    """Frames 1,000,000 and 10,000,000 deep."""
    for depth, fair, peak in ((10**6, one_of(FREE), 250_000), (10**7, one_of(FREE, NO_MEMORY), None)):
        front = random_traces.cilktrace.BINARY_HEADER + b"\1\1" * depth
        cut = Shown(2, b"", b"trace 302 at %d\n" % (depth + 2))
        seen = (cut,) if depth == 10**6 else (cut, NO_MEMORY)
        bounded(room, found, f"{depth} deep, cut", one_of(*seen), "judge", room.put("deep", front), peak=peak, seconds=None)
        whole = room.put("deep", front + b"\3" * depth + b"\5")
        bounded(room, found, f"{depth} deep", fair, "judge", whole, peak=peak, seconds=None)


def line_feeds(room, found):
    """A first line that lists a frame, and 20,000,000 empty ones, which helpers take for hints of events."""
    program, _, _ = rows.lay(room, "first")
    feeds = room.put("feeds", b"begin 1\n" + b"\n" * 20_000_000)
    for words, peak in (([], 10_000), (["--helpers", "2"], 200_000)):
        bounded(room, found, f"line feeds {words}", one_of(MALFORMED), "check", program, feeds, *words, peak=peak)


# A race whose other orders run for long: a chain of frames with reducers of all kinds, and long turns deep in frames.
KINDS = {"a": "add", "b": "min", "c": "max", "d": "append", "e": "affine"}
CHAIN = (
    "int x; void s() { x = 1; } void f(int n, " + ", ".join(f"int cilk_reducer({kind}) {it}" for it, kind in KINDS.items())
    + ") { if (n > 0) { cilk_spawn f(n - 1,a,b,c,d,e); " + "".join(f"update({it},n); " for it in KINDS) + "} } int main() { "
    + "".join(f"int cilk_reducer({kind}) {it}; " for it, kind in KINDS.items())
    + "cilk_spawn s(); int t = x; if (t == 0) f(50000,a,b,c,d,e); return 0; }"
)  # fmt: skip
TURNS = (
    "int x; void g() { int z; for (int i = 0; i < 5; i++) z = 1; x = 1; z = 2; z = 3; } void f(int n) { if (n > 0) cilk_spawn f(n - 1); "
    "else { int k = 0; int y; cilk_spawn g(); int t = x; while (t == 0 && k < 18000) { k = k + 1; if (" + "1+" * 249 + "1); } "
    "for (int i = 0; i < 5; i++) y = 2; } } int main() { cilk_spawn f(17); return 0; }"
)


def long_orders(room, found):
    """Races of short runs, of which other orders run for long: the search for a script that shows them is bounded."""
    for text in (CHAIN, TURNS):
        program = room.put("long.c", text)
        raced = bounded(room, found, "a long order", is_answer, "settle", program)
        found.must(raced.status == 4, "a race", raced)
        made = room.put("long.cert", room.run("certify", program).out)
        for words in (["check", program, made, "--explain"], ["schedule", program, made], ["settle", program, "--every"]):
            bounded(room, found, f"a long order by {words[0]}", is_answer, *words)


def number(chance):
    """A great number, one at a limit, or beside one."""
    kind = chance.randrange(4)
    if kind == 0:
        return chance.randrange(2 ** chance.randrange(1, 66))
    return max(0, chance.choice(EDGES) + (chance.randrange(-2, 3) if kind == 1 else 0))


class Far(random_traces.Writer):
    """A trace whose cells are far apart, of at most so many bytes."""

    def __init__(self, seed):
        super().__init__(seed)
        self.places = [min(number(self.chance), 2**32 - 4096) for _ in range(3)]
        self.cells = self.chance.choice([1, 2, 8])
        self.sizes = self.chance.choice([[1], [4, 8], [1, 4096], [4096]])

    def access(self):
        self.base = self.chance.choice(self.places)
        return super().access()


def with_numbers(chance, text, times):
    """Some numbers of a text exchanged for great ones."""
    parts = re.split(rb"(\d+)", text)
    for _ in range(times):
        if len(parts) > 1:
            parts[chance.randrange(1, len(parts), 2)] = str(number(chance)).encode()
    return b"".join(parts)


def trace_by_chance(chance):
    """A trace of at most 1,000 bytes, in either form, whole or not."""
    text = Far(chance.random()).text()
    is_binary, kind = chance.random() < 0.5, chance.randrange(5)
    if kind == 0:
        text = with_numbers(chance, text, chance.choice((1, 2)))
    if kind == 1 and not is_binary:
        text = random_traces.broken(text, chance)
    if is_binary:
        text = list(both_forms(text))[-1]
    if kind == 1 and is_binary:
        text = random_traces.broken_binary(text, chance)
    return text[:SMALL]


def sites_by_chance(chance):
    """A table of sites with great numbers, or long names."""
    places = ("?:0 ?", "a.c:1 f", f"a.c:{number(chance)} f", "/long" * 90 + ":1 f")
    count = chance.choice((0, 3, 12))
    sites = [f"{chance.choice((chance.randrange(9), number(chance)))} {chance.choice(places)}" for _ in range(count)]
    return "\n".join(("cilksites 1", *sites, chance.choice(("end\n", "end", "")))).encode()[:SMALL]


def traces(room, found, seed, numbers):
    """Traces with far cells: the answer is the one by the definitions."""
    for k, form in zip(numbers, forms.deal("traces", f"{seed} {numbers}")):
        chance = random.Random(f"far {seed} {k}")
        trace = trace_by_chance(chance)
        told, wanted = f"trace {k} of seed {seed}", oracle(trace)
        names = {"T": room.put("far", trace), "L": room.put("sites", sites_by_chance(chance))}
        seen = formed(room, found, told, form, forms.fair(form, wanted), names)
        found.count(form)
        found.count(f"traces: {' '.join((seen.out or seen.err).decode().split()[:2])}")


run_of = functools.lru_cache(maxsize=None)(rows.run_of)


def certificate_by_chance(chance, right):
    """A certificate of at most 1,000 bytes: the right one, or with great numbers, lines again and again, or cut."""
    if chance.random() < 0.2:
        return right[:SMALL]
    lines = right.splitlines(keepends=True)
    if chance.random() < 0.3:
        at = chance.randrange(len(lines))
        lines[at:at] = [chance.choice(lines)] * chance.choice((1, 2, 20))
    text = with_numbers(chance, b"".join(lines), chance.choice((1, 1, 2, 5)))
    return text[:SMALL] if chance.random() < 0.8 else text[: chance.randrange(len(text) + 1)]


def fair_of_certificate(form, name, answer):
    """What a form may show of a certificate, by the answer of `check`."""
    if form.endswith("--on O"):
        return is_answer
    if form.startswith("threads") and answer == rows.ACCEPTED:
        return forms.fair(form, rows.OUTCOMES[name])
    is_race = form.startswith("schedule") and answer == rows.REFUSED.get(name)
    return forms.fair(form, rows.SCRIPTS[name] if is_race else answer)


def certificates(room, found, seed, numbers):
    """Certificates with great numbers: `check` answers what the second reading does, and so do the other forms."""
    dealt = forms.deal("certificates", f"{seed} {numbers}")
    for k in numbers:
        chance, told = random.Random(f"great {seed} {k}"), f"certificate {k} of seed {seed}"
        name = chance.choice(("first", "one", "list", "put", "local", "turns"))
        program, _, more = rows.lay(room, name)
        text = certificate_by_chance(chance, rows.certificate(name, chance.choice((1, 2))))
        verdict = second_certificate.judged(run_of(name), text)
        answer = Shown(0 if verdict == "accepted" else 4, f"{verdict}\n".encode(), b"")
        found.count(f"certificates: {' '.join(verdict.split()[:2])}")
        names = {"P": program, "C": room.put("cert", text), "O": room.put("on", inputs_by_chance(chance))}
        for form in ("check P C", next(dealt), next(dealt)):
            found.count(form)
            formed(room, found, told, form, fair_of_certificate(form, name, answer), names, more)


def script_by_chance(chance):
    """A script with great numbers."""
    lines = (chance.choice((
        f"run {number(chance)}", f"run {chance.randrange(1, 9)} {number(chance)}", "all",
        f"steal {chance.randrange(9)} {number(chance)}", f"steal {number(chance)} 0",
    )) for _ in range(chance.choice((1, 3, 40))))  # fmt: skip
    return "\n".join(lines).encode()[:SMALL]


def fair_of_script(form, name, script, workers):
    """What a form may show of a script. (How many choices a script may make is a limit too: only its line is known.)"""
    bad = damage.first_bad_line(script)
    if not 1 <= int(workers) <= 64:
        return lambda seen: seen.status == 2 and is_answer(seen)
    if bad:
        return forms.fair(form, Shown(2, b"", b"script at %d\n" % bad))
    fair = forms.fair(form, rows.OUTCOMES[name], Shown(0, b"not ended\n", b""))
    unmade = (3, b"choice at ") if "--strict" in form else None
    return lambda seen: fair(seen) or seen.status == 2 and seen.err.startswith(b"script at ") or (seen.status, seen.err[:10]) == unmade


def scripts(room, found, seed, numbers):
    """Scripts with great numbers, by any number of workers."""
    for k, form in zip(numbers, forms.deal("scripts", f"{seed} {numbers}")):
        chance, told = random.Random(f"great script {seed} {k}"), f"script {k} of seed {seed}"
        name = chance.choice(("list", "local", "prints", "put", "gets"))
        script, workers = script_by_chance(chance), chance.choice(("1", "2", "64", str(number(chance))))
        names = {"P": room.put("p.c", rows.TEXTS[name]), "S": room.put("script", script), "N": workers}
        found.count(form)
        formed(room, found, told, form, fair_of_script(form, name, script, workers), names)


def program_by_chance(chance):
    """A program with great numbers, beside which some are small: lengths, places, bounds, depths, operands."""
    a, b, c = (chance.choice((number(chance), chance.randrange(1, 9))) for _ in range(3))
    deep, spawn = chance.choice((1, 16, 64, 65, 66, 300)), chance.choice(("", "cilk_spawn "))
    kind = chance.choice(("add", "min", "max", "append", "affine"))
    return chance.choice((
        f"int a[{a}]; int main() {{ a[{b}] = 1; return a[{c}]; }}",
        f"int g; void f(int n) {{ if (n > 0) {spawn}f(n - 1); }} int main() {{ f({a}); return g; }}",
        f"void f(int n) {{ if (n > 0) {{ {spawn}f(n - 1); f(n - 2); }} }} int main() {{ f({chance.choice((1, 5, 12, a))}); return 0; }}",
        f"int main() {{ int s = 0; for (int i = {min(a, b)}; i < {max(a, b)}; i++) {{ s = s + i * {c}; }} return s; }}",
        f"int cilk_reducer({kind}) r; int main() {{ cilk_for (int i = {min(a, b)}; i < {max(a, b)}; i++) {{ update(r, i); }} return value(r); }}",
        f"int a[{a}]; int main() {{ cilk_for (int i = 0; i < {b}; i++) {{ a[i] = {c}; }} return a[0]; }}",
        f"int main() {{ int i = 0; while (i < {a}) {{ print(i * {b}); i = i + 1; }} return {c} / {a} % {b}; }}",
        "int main() {" + "{" * deep + "}" * deep + f" return {a}; }}",
        "int main() { return " + "(" * deep + f"{a} * {b}" + ")" * deep + "; }",
        "int main() { return " + f"{a} + " * deep + f"{b}; }}",
        "".join(f"int a{k}[{number(chance)}]; " for k in range(chance.choice((2, 20)))) + "int main() { return 0; }",
        "".join(f"int cilk_reducer({kind}) r{k}; " for k in range(chance.choice((2, 20)))) + f"int main() {{ update(r1, {a}); return value(r0); }}",
        f"int main() {{ return input({a}) + input({b}) * input_count(); }}",
        f"int a[4]; int main() {{ cilk_for (int i = 0; i < input(0); i++) {{ a[i % 4] = input(1); }} return a[1]; }}",
        f"int x; void s() {{ x = 1; }} void f(int n) {{ if (n > 0) {{ {spawn}f(n - 1); }} }}"
        f" int main() {{ cilk_spawn s(); int t = x; if (t == 0) f({a}); return 0; }}",
        f"int x; void s() {{ x = 1; }} int main() {{ int k = 0; cilk_spawn s(); int t = x; while (t == 0 && k < {a}) k++; return 0; }}",
    ))[:SMALL]  # fmt: skip


def inputs_by_chance(chance):
    """An input with great numbers."""
    return " ".join(str(chance.choice((1, -1)) * number(chance)) for _ in range(chance.choice((0, 1, 2, 60))))[:SMALL]


def bounds_of(made, text):
    """What a command may take of a run, by its sizes or its fault: any time where it goes to the limit of events or ticks."""
    told = re.match(rb"cilkcert 2\nsize (\d+) (\d+)|fault \d+ at (\d+)", made.out or made.err)
    events, frames = (int(told[1] or told[3]), int(told[2] or told[3])) if told else (0, 0)
    is_cut = made.err.startswith(b"fault 204 ")
    if is_cut:
        events = frames = MOST_EVENTS
    cells = sum(int(it) for it in re.findall(r"int \w+\[(\d+)\]", text) if int(it) <= MOST_CELLS)
    taken = events * OF_AN_EVENT + min(frames, MOST_FRAMES) * OF_A_FRAME + min(cells, MOST_CELLS) * OF_A_CELL
    return {"peak": max(PEAK, taken // 1000), "seconds": None if is_cut else max(SECONDS, events * MICROSECONDS / 1e6)}


def fair_of_program(form, ran, made):
    """What a form may show of a program, by the answers of `run` and `certify`."""
    if form.startswith(("run", "certify")):
        return forms.fair(form, ran if form.startswith("run") else made)
    return forms.is_list if form in forms.LISTS else is_answer


def programs(room, found, seed, numbers):
    """Programs and inputs with great numbers: by seven forms each that runs to its end, by one each other."""
    for_right, for_wrong = (forms.deal("programs", f"{seed} {numbers} {it}") for it in ("right", "wrong"))
    for k in numbers:
        chance, told = random.Random(f"great program {seed} {k}"), f"program {k} of seed {seed}"
        program = program_by_chance(chance)
        names = {"P": room.put("p.c", program), "A": room.put("all", b"all\n"), "N": str(number(chance))}
        more = ["--input", room.put("p.in", inputs_by_chance(chance))]
        names["O"] = room.put("p.on", inputs_by_chance(chance))
        first = [(it, room.within(ROOM, it, "p.c", *more, patience=LONG)) for it in ("run", "certify")]
        ran, made = (seen for _, (seen, _, _) in first)
        bounds = bounds_of(made, program)
        kind = ["long"] if bounds["peak"] > PEAK else (ran.err or ran.out).decode().split()[:1]
        found.count(f"programs: {' '.join(kind)}")
        for command, it in first:
            judge(found, f"{told}: {command}", is_answer, it, **bounds)
        names["C"] = room.put("p.cert", made.out or b"x\n")
        tried = [next(for_right) for _ in range(7)] if made.status == 0 else [next(for_wrong)]
        found.kinds.update(tried if made.status == 0 else [])
        for form in tried:
            formed(room, found, told, form, fair_of_program(form, ran, made), names, more, **bounds)


def some_by_chance(room, found):
    """Twenty texts of each kind, however little time there is for those by chance: each form of words is among them,
    with programs that run."""
    for case in BY_CHANCE.values():
        case(room, found, 0, range(20))
    forms.all_tried(room, found)


CASES = {
    "little memory: small texts": some_by_chance,
    "little memory: far cells": far_cells,
    "little memory: wide clears": wide_clears,
    "little memory: kinds of lines": many_kinds,
    "little memory: depth of a trace": deep,
    "little memory: line feeds": line_feeds,
    "little memory: orders that run for long": long_orders,
}
BY_CHANCE = {
    "chance: far cells": traces,
    "chance: great numbers of certificates": certificates,
    "chance: great numbers of scripts": scripts,
    "chance: great numbers of programs": programs,
}
