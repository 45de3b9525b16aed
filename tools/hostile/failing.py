"""Memory that is refused, devices that fail, and writes that don't go out."""

import sys

sys.dont_write_bytecode = True
from hostile import rows
from hostile.room import NO_MEMORY, Shown, cannot_read

CANNOT_WRITE = b"cannot write\n"
UNTOLD = b"explanation: no memory\n"
OUT_WAYS = ("short", "whole", "zero")


def refusals(room, found, words, wanted, again, setting="FAIL_ALLOC", which=0, short=None):
    """Refuses each allocation, or each thread, in turn, until a run meets no refusal.

    `short` is what else may be answered: the answer, and that memory is refused for its explanation.
    """
    n, met, stopped = 0, 0, 0
    while met >= n:
        n += 1
        seen = room.run(*words, **{setting: n})
        met = room.counted[which] if seen.status in (0, 4, 5, wanted.status) else n
        if seen in (NO_MEMORY, short):
            stopped += 1
        found.must(seen in (wanted, NO_MEMORY, short), f"{' '.join(words)} with {setting}={n}", seen)
        if again and seen != wanted:
            found.expect(room.run(*words), wanted, f"{' '.join(words)} with ample memory after {setting}={n}")
        if seen.status not in (wanted.status, 5) and found.wrong > 20:
            break
    found.must(stopped > 0, f"{' '.join(words)}: no refusal of {setting} was met")
    found.kinds[f"{setting} refused"] += stopped


def memory(name, command):
    """A case: each allocation of a command refused, by itself and with all that come after it."""

    def case(room, found):
        program, cert, more = rows.lay(room, name)
        words = {
            "check": ["check", program, cert],
            "check by helpers": ["check", program, cert, "--helpers", "2"],
            "play": ["play", program, "all", "--workers", "2"],
            "threads": ["threads", program, cert, "--workers", "2"],
            "schedule": ["schedule", program, cert],
            "settle": ["settle", program],
        }[command] + more
        wanted = {
            "check": rows.verdict(name), "check by helpers": rows.verdict(name), "schedule": rows.SCRIPTS.get(name),
            "settle": rows.settled(name),
        }.get(command, rows.OUTCOMES[name])  # fmt: skip
        again = command in ("play", "threads")
        found.expect(room.run(*words), wanted, " ".join(words))
        for setting in ("FAIL_ALLOC", "FAIL_FROM"):
            refusals(room, found, words, wanted, again and setting == "FAIL_ALLOC", setting)

    return case


def judged(room, found):
    """Each allocation of `judge` refused, of a trace without a race and of one with a race."""
    for kind, text in rows.TRACES.items():
        words = ["judge", room.put(f"{kind}.trace", text)]
        found.expect(room.run(*words), rows.JUDGED[kind], " ".join(words))
        for setting in ("FAIL_ALLOC", "FAIL_FROM"):
            refusals(room, found, words, rows.JUDGED[kind], False, setting)


def measured(room, found):
    """Each allocation of `measure` refused: its table is whole, or there is none."""
    program, _, more = rows.lay(room, "turns")
    for form in ([], ["--svg"]):
        words = ["measure", program, *more, *form]
        wanted = room.run(*words)
        found.must(wanted.status == 0 and wanted.out and not wanted.err, " ".join(words), wanted)
        refusals(room, found, words, wanted, False)


def explanations(room):
    """Words that ask for explanations, with the answer that each begins with."""
    racy, racy_cert, _ = rows.lay(room, "one")
    room.put("fault.c", rows.FAULT)
    room.put("bad.c", "int main(){return x + ;}")
    room.put("cut.cert", rows.certificate("one")[:90])
    return [
        (["check", racy, racy_cert, "--explain"], rows.REFUSED["one"]),
        (["settle", racy], rows.REFUSED["one"]),
        (["settle", "fault.c"], Shown(3, b"", b"fault 201 at 16\n")),
        (["settle", "bad.c"], Shown(2, b"", b"program 103 at 22\n")),
        (["check", racy, "cut.cert", "--explain"], room.run("check", racy, "cut.cert")),
        (["run", "fault.c", "--explain"], Shown(3, b"", b"fault 201 at 16\n")),
        (["run", "bad.c", "--explain"], Shown(2, b"", b"program 103 at 22\n")),
    ]


def explained(room, found):
    """Each allocation of an explanation refused: it comes whole, or it is said that it doesn't."""
    race = ["judge", room.put("spawned.trace", rows.TRACES["spawned"]), "--explain"]
    for words, answer in [*explanations(room), (race, rows.JUDGED["spawned"])]:
        told, wanted = " ".join(words), room.run(*words)
        begins = wanted._replace(err=wanted.err[: len(answer.err)]) == answer and len(wanted.err) > len(answer.err)
        found.must(begins, f"{told}: the answer, and an explanation", wanted)
        short = answer._replace(err=answer.err + UNTOLD)
        refusals(room, found, words, wanted, False, short=short)


def scripts(room, found):
    """The script of a race, played, leaves what its two accesses leave in the other order."""
    for name, script in rows.SCRIPTS.items():
        program, _, _ = rows.lay(room, name)
        room.put("exchanged", script.out)
        found.expect(room.run("play", program, "exchanged"), rows.EXCHANGED[name], f"play {program} by its script")


def no_thread(room, found):
    """Each thread of a run by workers is refused in turn."""
    for name in ("gets", "list", "prints"):
        program, cert, _ = rows.lay(room, name)
        for workers in ("2", "3", "8"):
            words = ["threads", program, cert, "--workers", workers]
            refusals(room, found, words, rows.OUTCOMES[name], True, "FAIL_THREAD", 3)


def answers(room):
    """Commands that between them read each sort of file, with the answer of each."""
    made = []
    for name in ("turns", "one", "prints"):
        program, cert, more = rows.lay(room, name)
        accepted = name not in rows.REFUSED
        outcome = rows.OUTCOMES[name]
        made += [
            (["run", program, *more], outcome),
            (["certify", program, *more], Shown(0, rows.certificate(name), b"")),
            (["check", program, cert, *more], rows.verdict(name)),
            (["play", program, "all", "--workers", "1", *more], outcome),
            *([(["settle", program, *more], rows.settled(name))] if accepted else []),
            (["threads", program, cert, *more], outcome if accepted else rows.verdict(name)),
        ]
    more = rows.lay(room, "turns")[2]
    room.put("on", "7")
    made.append((["threads", "turns.c", "turns.cert", *more, "--on", "on"], rows.OUTCOMES["turns"]))
    for words in (["measure", "turns.c", *more], *(words for words, _ in explanations(room))):
        made.append((words, room.run(*words)))
    made += [(["judge", room.put(f"{kind}.trace", text)], rows.JUDGED[kind]) for kind, text in rows.TRACES.items()]
    made += [(["schedule", f"{name}.c", f"{name}.cert"], script) for name, script in rows.SCRIPTS.items()]
    rows.lay(room, "race")
    return made


def fair_after(failed, words, whole, seen):
    """Whether an answer is the right one after this call failed."""
    call, file, name = failed
    explains = "--explain" in words or words[0] == "settle"
    if explains and call != "write":  # (a hint comes after the line)
        seen = seen if seen == whole else seen._replace(err=seen.err.partition(b"\n")[0] + b"\n")
    if call == "write" and file == 1:
        err = seen.err[: len(CANNOT_WRITE)] if explains else seen.err
        return seen.status == 2 and err == CANNOT_WRITE and whole.out.startswith(seen.out) and seen.out != whole.out
    if call == "write" and file == 2:
        return seen.status == whole.status and seen.out == whole.out and whole.err.startswith(seen.err)
    if name in words:
        return seen == cannot_read(name)
    return seen == whole


def devices(room, found):
    """Each open, look, seek, read and write of each command fails in turn."""
    for words, whole in answers(room):
        told = " ".join(words)
        found.expect(room.run(*words, SHORT_MOVE=0), whole, told)
        calls = room.counted[1]
        for n in range(1, calls + 1):
            seen = room.run(*words, FAIL_CALL=n)
            failed = room.failed
            found.count(f"failed {failed[0]}")
            found.must(fair_after(failed, words, whole, seen), f"{told} with FAIL_CALL={n} ({failed})", seen)
        found.must(calls > 3, f"{told}: no call was seen")


def standard(room, found):
    """Standard input fails at each read, comes in pieces, or is none."""
    text = (rows.FIRST + " " * 100_000).encode()
    whole = rows.OUTCOMES["first"]
    found.expect(room.run(stdin=text, SHORT_MOVE=0), whole, "a program on standard input")
    for n in range(1, room.counted[1] + 1):
        seen = room.run(stdin=text, FAIL_CALL=n)
        call, file, _ = room.failed
        wanted = (whole,)
        if file == 0:
            wanted = (cannot_read("-"),) if call == "read" else (cannot_read("-"), whole)
        if file == 1:
            wanted = (Shown(2, b"", CANNOT_WRITE),)
        found.must(seen in wanted, f"standard input with FAIL_CALL={n} ({room.failed})", seen)
    found.expect(room.run(stdin=text[:3000], ALL_SHORT=1), whole, "standard input, a byte at a time")
    with open("/dev/null", "rb") as it:
        found.expect(room.run(stdin=it), Shown(2, b"", b"program 115 at 0\n"), "no bytes on standard input")
    found.expect(room.run(stdin=None, close=(0,)), cannot_read("-"), "standard input that is closed")


def short_moves(room, found):
    """Reads and writes that move one byte of several, each in turn and all of them."""
    for words, whole in answers(room):
        told = " ".join(words)
        found.expect(room.run(*words, ALL_SHORT=1), whole, f"{told} with ALL_SHORT=1")
        for n in range(1, room.run(*words, SHORT_MOVE=0) and room.counted[2] + 1):
            found.expect(room.run(*words, SHORT_MOVE=n), whole, f"{told} with SHORT_MOVE={n}")


def written(room):
    """The commands whose writes are cut at each byte."""
    program, cert, _ = rows.lay(room, "prints")
    racy, racy_cert, _ = rows.lay(room, "one")
    return [
        ["run", program], ["certify", program], ["play", program, "all"], ["threads", program, cert],
        ["check", racy, racy_cert], ["check", program, cert], ["threads", racy, racy_cert], ["measure", program],
        ["settle", program], ["judge", room.put("called.trace", rows.TRACES["called"])],
    ]  # fmt: skip


def out_cut(room, found):
    """One failing write at each byte of `out`, in three ways."""
    for words in written(room):
        whole, told = room.run(*words), " ".join(words)
        found.must(whole.out != b"", f"{told}: nothing on out", whole)
        for way, how in enumerate(OUT_WAYS):
            # (a write that fails as a whole, or takes nothing, differs by how much went out before, not byte for byte)
            for n in range(0, len(whole.out), 1 if way == 0 else 1 + len(whole.out) // 12):
                seen = room.run(*words, OUT_FILE=1, OUT_BYTES=n, OUT_WAY=way)
                right = seen.out == whole.out[:n] if way != 1 else whole.out[:n].startswith(seen.out)
                fair = right and seen.status == 2 and seen.err == CANNOT_WRITE
                found.must(fair, f"{told}, {how} write at byte {n} of out", seen)
            seen = room.run(*words, OUT_FILE=1, OUT_BYTES=len(whole.out), OUT_WAY=way)
            found.expect(seen, whole, f"{told}, {how} write after the last byte")


def err_cut(room, found):
    """An `err` that fails at each byte changes nothing else."""
    program, cert, _ = rows.lay(room, "first")
    room.put("fault.c", rows.FAULT)
    room.put("bad.c", "int main(){return x;}")
    room.put("bad.script", "run\n")
    known = [
        (["run", "fault.c"], Shown(3, b"", b"fault 201 at 16\n")),
        (["certify", "fault.c"], Shown(3, b"", b"fault 201 at 16\n")),
        (["play", "fault.c", "all", "--workers", "1"], Shown(3, b"", b"fault 201 in r.2:1\n")),
        (["check", "bad.c", cert], Shown(2, b"", b"program 111 at 18\n")),
        (["threads", program, "absent"], cannot_read("absent")),
        (["play", program, "bad.script"], Shown(2, b"", b"script at 1\n")),
    ]
    for words, whole in known:
        told = " ".join(words)
        found.expect(room.run(*words), whole, told)
        for way, how in enumerate(OUT_WAYS):
            for n in range(len(whole.err)):
                seen = room.run(*words, OUT_FILE=2, OUT_BYTES=n, OUT_WAY=way)
                fair = seen.status == whole.status and seen.out == b"" and whole.err.startswith(seen.err)
                found.must(fair, f"{told}, {how} write at byte {n} of err", seen)
    for words in (["run"], ["nothing"], ["play", program, "all", "--workers", "0"]):
        whole = room.run(*words)
        found.must(whole.status == 2 and not whole.out and whole.err, f"{' '.join(words)}", whole)
        seen = room.run(*words, OUT_FILE=2, OUT_BYTES=0)
        found.must(seen.status == 2 and not seen.out, f"{' '.join(words)} without err", seen)


def closed(room, found):
    """Standard streams that are full, or closed."""
    program, cert, _ = rows.lay(room, "prints")
    commands = [
        ["run", program],
        ["certify", program],
        ["check", program, cert],
        ["play", program, "all"],
        ["threads", program, cert],
    ]
    for words in commands:
        told, whole = " ".join(words), room.run(*words)
        with open("/dev/full", "wb") as full:
            found.expect(room.run(*words, out=full), Shown(2, b"", CANNOT_WRITE), f"{told} > /dev/full")
            found.expect(room.run(*words, err=full), whole._replace(err=b""), f"{told} 2> /dev/full")
            seen = room.run(*words, out=full, err=full)
            found.expect(seen, Shown(2, b"", b""), f"{told} > /dev/full 2> /dev/full")
        found.expect(room.run(*words, out=None, close=(1,)), Shown(2, b"", CANNOT_WRITE), f"{told} with out closed")
        found.expect(room.run(*words, err=None, close=(2,)), whole._replace(err=b""), f"{told} with err closed")
        found.expect(room.run(*words, stdin=None, close=(0,)), whole, f"{told} with standard input closed")


CASES = {f"memory: check {name}": memory(name, "check") for name in ("fib", "race")}
CASES.update({f"memory: check {name} by helpers": memory(name, "check by helpers") for name in ("turns", "race")})
CASES.update({f"memory: play {name}": memory(name, "play") for name in ("list", "local")})
CASES.update({f"memory: threads {name}": memory(name, "threads") for name in ("gets", "list", "prints")})
CASES.update({f"memory: schedule {name}": memory(name, "schedule") for name in ("one", "race")})
CASES.update({f"memory: settle {name}": memory(name, "settle") for name in ("fib", "list")})
CASES.update({
    "memory: judge": judged,
    "memory: measure": measured,
    "memory: explanations": explained,
    "memory: threads that can't be started": no_thread,
    "scripts that show a race": scripts,
    "devices: each call of each command": devices,
    "devices: standard input": standard,
    "devices: reads and writes of one byte": short_moves,
    "writes: out cut at each byte": out_cut,
    "writes: err cut at each byte": err_cut,
    "writes: streams full or closed": closed,
})  # fmt: skip
