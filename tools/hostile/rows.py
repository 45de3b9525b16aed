"""Programs whose answers are known from the language's rules, not from the program that is tried."""

import functools
import sys

sys.dont_write_bytecode = True
import each_failure
import second_certificate
from hostile.room import Shown

FIB, RACE, LIST, LOCAL = each_failure.FIB, each_failure.RACE, each_failure.LIST, each_failure.LOCAL
GETS, PRINTS = each_failure.GETS, each_failure.PRINTS
FIRST = "int main(){return 0;}"
ONE = "int one() { return 1; } int main() { int x; int y; x = cilk_spawn one(); y = x; cilk_sync; return y; }"
TURNS = "int a[7]; int main() { int n = input(0); cilk_for (int i = 0; i < n; i++) { a[i] = i; } return a[6]; }"
FAULT = """int d(int k) { return 6 / k; }
int main() { int x; int y; x = cilk_spawn d(2); y = cilk_spawn d(0); cilk_sync; return x + y; }"""
PUT = """void put(int cilk_reducer(append) l, int x) { update(l, x); }
int main() { int cilk_reducer(append) a; cilk_spawn put(a, 1); cilk_spawn put(a, 2); cilk_sync; return value(a); }"""
TEXTS = {
    "first": FIRST, "fib": FIB, "one": ONE, "race": RACE, "list": LIST, "local": LOCAL, "gets": GETS, "prints": PRINTS,
    "turns": TURNS, "put": PUT,
}  # fmt: skip
INPUTS = {"turns": [7]}


def said(*lines):
    """An outcome of these lines."""
    return Shown(0, "".join(f"{line}\n" for line in lines).encode(), b"")


OUTCOMES = {
    "first": said("result 0"), "fib": said("result 55"), "one": said("result 1"), "race": said(
        "reducer r 1", "result 1"
    ),
    "list": said("reducer l 0 1 2 3 4", "result 5"), "local": said("result 16"), "gets": said("result 14"),
    "prints": said("1", "2", "3", "result 0"), "turns": said("result 6"), "put": said("result 2"),
}  # fmt: skip
ACCEPTED = Shown(0, b"accepted\n", b"")
# Of a race the script that makes its two accesses in the other order: one worker comes to the spawn, another takes what
# follows it and reads first; and what it leaves, where the read sees what was there before.
SCRIPTS = {name: said("run 1 4", "steal 2 0", "run 2 2", "run 1 4", "all") for name in ("one", "race")}
EXCHANGED = {"one": said("result 0"), "race": said("reducer r 1", "result 0")}
REFUSED = {"one": Shown(4, b"refused 311 7 10\n", b""), "race": Shown(4, b"refused 312 2 10\n", b"")}
# A trace without a race, and one with a race of its lines 3 and 5; they differ in the end of the child, and are equally long.
TRACES = {
    kind: f"cilktrace 1\nenter {site}\nwrite 8 4 2\n{kind}\nread 8 4 3\nend\n"
    for kind, site in (("called", 10), ("spawned", 1))
}
JUDGED = {"called": said("race-free"), "spawned": Shown(4, b"refused 311 3 5\n", b"")}


def settled(name):
    """What `settle` answers: the outcome of every schedule, or a race."""
    outcome = OUTCOMES[name]
    return REFUSED.get(name, outcome._replace(out=b"settled\n" + outcome.out))


def run_of(name):
    """The run of a program by the second reading."""
    return second_certificate.Recorded(TEXTS[name], INPUTS.get(name, [])).made()


@functools.lru_cache(maxsize=None)
def certificate(name, version=2):
    """The right certificate of a program, by the second reading."""
    return run_of(name).right(version).text()


def lay(room, name):
    """Puts a program, its certificate and its input into the room, and gives the words that name the three."""
    room.put(f"{name}.c", TEXTS[name])
    room.put(f"{name}.cert", certificate(name))
    room.put("all", "all\n")
    if name not in INPUTS:
        return f"{name}.c", f"{name}.cert", []
    room.put(f"{name}.in", " ".join(map(str, INPUTS[name])))
    return f"{name}.c", f"{name}.cert", ["--input", f"{name}.in"]


def verdict(name):
    """What `check` answers of the right certificate."""
    return REFUSED.get(name, ACCEPTED)
