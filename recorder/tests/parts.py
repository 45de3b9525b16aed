"""The cases of recorder/test: each is a name, a function and its arguments. A function gets a folder of its own, and
gives what is wrong, or None."""

import functools
import glob
import json
import os
import re
import shutil
import subprocess
import tempfile
import threading

import cilktrace
import oracle

HERE = os.path.dirname(os.path.realpath(__file__))
TOP = os.path.dirname(os.path.dirname(HERE))
CILKREC = os.path.join(HERE, "..", "cilkrec")
PROBES_LOCK = threading.Lock()
JUDGE = []  # the words of a program that has to judge each trace as the oracle does
ANSWERS = {"race-free": "race-free", "race": "refused 311", "view-read race": "refused 312"}
WORDS = {"free": "race-free", "racy": "race", "view": "view-read race"}


def absolute(words):
    """The words of a command, that may be called in any folder."""
    return [os.path.abspath(word) if os.path.exists(word) else word for word in words.split()]


def call(words, folder, seconds=900, **extra):
    """A finished process, with its texts."""
    env = dict(os.environ, CILKREC_QUIET="1", **{"CILK_TRACE_FORM": "text", **extra})
    if not takes_unseen():
        env.setdefault("CILK_TRACE_UNSEEN", "0")
    return subprocess.run(words, cwd=folder, env=env, stdin=subprocess.DEVNULL, capture_output=True, text=True,
                          errors="replace", timeout=seconds)


@functools.lru_cache(maxsize=None)
def takes_unseen():
    """Whether the program that judges takes traces with lines `unseen`."""
    if not JUDGE:
        return True
    with tempfile.NamedTemporaryFile("w", suffix=".trace") as f:
        f.write("cilktrace 1\nunseen 3\nend\n")
        f.flush()
        done = subprocess.run([*JUDGE, f.name], capture_output=True, text=True, check=False)
    return done.stdout.startswith("race-free")


@functools.lru_cache(maxsize=None)
def has_headers(compiler):
    """Whether this gcc has its headers for plugins."""
    done = subprocess.run([compiler, "-print-file-name=plugin"], capture_output=True, text=True, check=False)
    return os.path.exists(os.path.join(done.stdout.strip(), "include", "gcc-plugin.h"))


def untried(wrong):
    """Why a case that went wrong couldn't be tried on this machine, or None."""
    found = re.search(r"\b((?:gcc|g\+\+|clang|clang\+\+)(?![\w+])): No such file or directory", wrong)
    if found and not shutil.which(found[1]):
        return f"no {found[1]}"
    if "isn't recorded without gcc's plugin" in wrong and not has_headers("gcc"):
        return "no headers for gcc's plugins"
    return None


def compiled(folder, compiler, *words):
    """What `cilkrec COMPILER WORDS` says where it fails, else None."""
    done = call([CILKREC, compiler, *words], folder)
    return None if done.returncode == 0 else f"{compiler} {words}: {done.stderr[:800]}"


def recorded(folder, program=("./prog",), form="text"):
    """The verdict on a run of a program, with the kinds of the racing accesses' places."""
    done = call(list(program), folder, CILK_TRACE="trace", CILK_TRACE_FORM=form, CILK_SITES="sites")
    with open(os.path.join(folder, "trace"), "rb") as f:
        try:
            trace = list(cilktrace.events(f))
        except cilktrace.Malformed as e:
            return f"{'cut off' if e.cut else 'malformed'} {e}; status {done.returncode} {done.stderr[:200]}", []
    found = oracle.verdict(trace)
    if JUDGE and form == "text":
        answer = call([*JUDGE, "trace"], folder)
        if answer.stdout.split(", but ")[0].strip() != " ".join([ANSWERS[found[0]], *map(str, found[1:])]):
            return f"{answer.stdout}{answer.stderr} by {JUDGE[0]}, {found} by the oracle", []
    places = oracle.sites(os.path.join(folder, "sites"))
    return found[0], [places.get(trace[p - 2][-1], "?") for p in found[1:]]


def judged(folder, compiler, want, *words):
    """Compiles, runs and judges."""
    wrong = compiled(folder, compiler, *words, "-o", "prog")
    if wrong:
        return wrong
    got, places = recorded(folder)
    return (None if got == want else f"{got} {places}, expected {want}") or unlike(folder, got)


def structure(folder, program=("./prog",), **extra):
    """The verdict on a trace, and its lines of structure."""
    call(list(program), folder, CILK_TRACE="structure", **extra)
    with open(os.path.join(folder, "structure"), "rb") as f:
        trace = list(cilktrace.events(f))
    return oracle.verdict(trace)[0], [event for event in trace if event[0] not in cilktrace.KINDS]


def unlike(folder, got, program=("./prog",)):
    """What differs where each access is written, and not only what a strand didn't do before."""
    few, all_written = structure(folder, program), structure(folder, program, CILKREC_ALL="1")
    if few[0] != got or all_written[0] != got:
        return f"{few[0]} with the filter, {all_written[0]} without"
    return None if few[1] == all_written[1] else "other lines of structure without the filter"


def features(folder_name, pattern, compilers):
    """A case for each program of a folder and compiler; the verdict is the end of its name."""
    for path in sorted(glob.glob(os.path.join(HERE, folder_name, pattern))):
        name = os.path.splitext(os.path.basename(path))[0]
        for compiler in compilers:
            want = WORDS[name.rsplit("_", 1)[1]]
            if not variants(path):
                yield f"{name} {compiler}", judged, (compiler, want, path)
            for case in range(variants(path)):
                yield f"{name} {case} {compiler}", judged_by_case, (compiler, want, path, case)


def variants(path):
    """How many programs a text is: it says `#ifndef WHICH` and has so many cases."""
    with open(path, encoding="utf-8") as f:
        text = f.read()
    return max(int(k) for k in re.findall(r"case (\d+):", text)) + 1 if "#ifndef WHICH" in text else 0


def judged_by_case(folder, compiler, want, path, case):
    """The same of one case of a text."""
    wrong = judged(folder, compiler, want, path, f"-DWHICH={case}", "-lm")
    return wrong and f"case {case}: {wrong}"


@functools.lru_cache(maxsize=None)
def probes_of(path, compiler):
    """The folder of a program of many probes, compiled once, and what went wrong."""
    with PROBES_LOCK:
        folder = tempfile.TemporaryDirectory(prefix="cilkrec-probes-")
        wrong = compiled(folder.name, compiler, path, "-lm", "-o", "prog", *(["-std=c++17"] if path.endswith("pp") else []))
        return folder, wrong


def probe(folder, compiler, path, case):
    """One probe: its racy way and its free one."""
    made, wrong = probes_of(path, compiler)
    for word, want in () if wrong else (("racy", "race"), ("free", "race-free")):
        program = os.path.join(made.name, "prog"), str(case), word
        got, places = recorded(folder, program)
        wrong = wrong or (None if got == want else f"{got} {places}, expected {want}") or unlike(folder, got, program)
    return wrong


def probes():
    """Kinds of accesses, features and containers: a race each and its free twin, by case of one program."""
    for path in sorted(glob.glob(os.path.join(HERE, "probes", "*"))):
        with open(path, encoding="utf-8") as f:
            count = len(re.findall(r"^PROBE\(", f.read(), re.M))
        for compiler in ("g++", "clang++") if path.endswith(".cpp") else ("gcc", "clang"):
            for case in range(count):
                yield f"{os.path.basename(path)} {case} {compiler}", probe, (compiler, path, case)


def feat():
    """Features of C++."""
    return features("feat", "*.cpp", ("g++", "clang++"))


def c_features():
    """Features of C."""
    return features("c", "*.c", ("gcc", "clang"))


def opencilk():
    """The programs of examples/opencilk; those that race are named in its README.md."""
    racy = {"bfs_racy.c", "anew/bfs.c", "anew/floyd.c", "anew/knapsack.c"}
    folder = os.path.join(TOP, "examples", "opencilk")
    for path in sorted(glob.glob(folder + "/*.c") + glob.glob(folder + "/anew/*.c")):
        name = os.path.relpath(path, folder)
        for compiler in ("gcc", "clang"):
            yield f"{name} {compiler}", judged, (compiler, "race" if name in racy else "race-free", path, "-lm")


def gallery():
    """The programs of examples/cilk, which race where RACY is defined."""
    folder = os.path.join(TOP, "examples", "cilk")
    for path in sorted(glob.glob(folder + "/*.c") + glob.glob(folder + "/*.cpp")):
        name = os.path.basename(path)
        for compiler in ("gcc", "clang") if name.endswith(".c") else ("g++", "clang++"):
            yield f"{name} {compiler}", judged, (compiler, "race-free", path, "-lm")
            yield f"{name} -DRACY {compiler}", judged, (compiler, "race", path, "-DRACY", "-lm")


def made(folder, compilers, spread, want):
    """A program by a Makefile: separate compilation, a static library, dependencies."""
    shutil.copytree(os.path.join(HERE, "build"), folder, dirs_exist_ok=True)
    done = call(["make", *(f"{name}={CILKREC} {compiler}" for name, compiler in zip(("CC", "CXX"), compilers)),
                 f"SPREAD={spread}"], folder)
    if done.returncode:
        return done.stderr[:800]
    with open(os.path.join(folder, "main.d"), encoding="utf-8") as f:
        if "main.o: " not in f.read():
            return "main.d doesn't tell what main.o depends on"
    got, places = recorded(folder)
    sources = {p.split("/")[-1].split(":")[0] for p in places}
    if want == "race" and sources != {"half.c"}:
        return f"the race is placed at {places}"
    return None if got == want else f"{got}, expected {want}"


def several(folder):
    """Several sources in one command, as with the compilers themselves."""
    sources = [os.path.join(HERE, "build", name) for name in ("main.c", "half.c", "sum.cpp")]
    return judged(folder, "g++", "race", "-x", "c", *sources[:2], "-x", "none", sources[2], "-DSPREAD=1") or compiled(
        folder, "gcc", "-c", *sources[:2]) or (
        None if {"main.o", "half.o"} <= set(os.listdir(folder)) else "no objects")


def foreign(folder):
    """An object that cilkrec didn't compile is refused, and with CILKREC_FOREIGN=1 taken."""
    main, plain = os.path.join(HERE, "build", "main.c"), os.path.join(folder, "plain.c")
    with open(plain, "w", encoding="utf-8") as f:
        f.write("void halve(long *a, int n) { for (int i = 0; i < n; i++) a[i] /= 2; }\n"
                "long sum(const long *a, int n) { return n ? a[0] : 0; }\n")
    call(["gcc", "-c", plain, "-o", "plain.o"], folder)
    words = [CILKREC, "gcc", main, "plain.o", "-o", "prog"]
    done = call(words, folder)
    if done.returncode != 1 or "plain.o wasn't compiled by cilkrec" not in done.stderr:
        return f"status {done.returncode}: {done.stderr}"
    done = call(words, folder, CILKREC_FOREIGN="1")
    return None if done.returncode == 0 else done.stderr


def unrecorded(folder):
    """Without CILK_TRACE a program runs as it would, and leaves nothing."""
    wrong = compiled(folder, "gcc", os.path.join(HERE, "c", "loops_free.c"), "-o", "prog")
    done = None if wrong else call(["./prog"], folder)
    return wrong or (None if done.returncode == 0 and os.listdir(folder) == ["prog"] else f"{os.listdir(folder)}")


def named(folder):
    """What a program uses and a trace can't tell is named as it is linked."""
    path = os.path.join(folder, "p.c")
    with open(path, "w", encoding="utf-8") as f:
        f.write("#include <pthread.h>\n#include <stdlib.h>\n#include <stdio.h>\npthread_mutex_t m;\n"
                'int main(void) { pthread_mutex_lock(&m); printf("%d", rand()); return 0; }\n')
    done = subprocess.run([CILKREC, "gcc", path, "-o", "prog"], cwd=folder, capture_output=True, text=True)
    wanted = ("locks order nothing in a trace", "read and write: rand\n")
    return None if all(w in done.stderr for w in wanted) else done.stderr


def run_by(folder, compiler, text, *options, name="p.c"):
    """Compiles a text, and runs it by `cilkrec run`: the finished process."""
    with open(os.path.join(folder, name), "w", encoding="utf-8") as f:
        f.write("#include <cilk/cilk.h>\n" + text)
    wrong = compiled(folder, compiler, name, "-o", "prog")
    if wrong:
        raise AssertionError(wrong)
    judge = " ".join(JUDGE) or os.path.join(HERE, "oracle.py")
    return call([CILKREC, "run", *options], folder, CILKREC_JUDGE=judge)


UNRECORDED = """#include <stdlib.h>
#include <stdio.h>
int g, own;
void f(void) { g = 1; }
int main(int n, char **v) {
  cilk_spawn f();
  own = rand();
  if (n > 1) g = 2;
  cilk_sync;
  puts("done");
  return n - 1;
}
"""
MEMORY = """#include <stdlib.h>
static int count, last, table[9]; int getchar(void);
struct pair { int x, y[3]; };
static void change(struct pair *p, int *own) {
  p->y[1] = 1;
  own[2] = 1;
  table[3]++;
  count++;
  last = count;
}
static struct pair *made(void) { return malloc(sizeof(struct pair)); }
int main(int argc, char **words) {
  int local[4] = {0}; if (argc > 1 && getchar() == '1') { cilk_spawn change(made(), local); cilk_sync; }
  struct pair *p = made();
  cilk_spawn change(p, local);
  int n = last;
  change(p, local);
  cilk_sync;
  return n;
}
"""


def one_command(folder, compiler):
    """`cilkrec run`: a race with both places, none, a call that isn't recorded, a program that isn't there."""
    free = run_by(folder, compiler, UNRECORDED, "./prog")
    if free.stdout != "done\n" or free.returncode or "race-free, but 1 call wasn't recorded: rand\n" not in free.stderr:
        return f"{free.returncode} {free.stdout} {free.stderr}"
    if not re.search("not recorded: rand at .*p.c:8\n", free.stderr):
        return free.stderr
    strict = run_by(folder, compiler, UNRECORDED, "--strict", "--json", "./prog")
    told = json.loads(strict.stderr)
    if strict.returncode != 4 or not re.fullmatch(r"refused 313 \d+", told["answer"]) or told["status"] or (
            [(call["name"], call["line"]) for call in told["unseen"]] != [("rand", 8)]):
        return f"{strict.returncode} {strict.stderr}"
    racy = run_by(folder, compiler, UNRECORDED, "--strict", "./prog", "x")
    if racy.stdout != "done\n" or racy.returncode != 1 or "cilkrec: r" not in racy.stderr:
        return f"{racy.returncode} {racy.stdout} {racy.stderr}"
    none = run_by(folder, compiler, UNRECORDED, "./no")
    return None if none.returncode == 1 and "No such file" in none.stderr else none.stderr


def told_races(folder, compiler):
    """`cilkrec run`: all races, by lines, with calls and whose memory it is; also as JSON, and by one run."""
    done = run_by(folder, compiler, MEMORY, "./prog")
    for text in ("earlier write at .*p.c:6, in change\n.* called at .*p.c:16, in main\n.*later write at .*p.c:6, in change\n"
                 ".* called at .*p.c:18, in main\n.*memory: a block of 24 bytes, from byte 8\n"
                 ".*allocated at .*p.c:12, in made\n.* called at .*p.c:15, in main\n",
                 "later write at .*p.c:7, in change\n.*p.c:18, in main\n.*memory: `local`, a local variable of main\n",
                 "memory: `table` of 36 bytes, from byte 12\n", "memory: `count` of 4 bytes\n",
                 "earlier write at .*p.c:10, in change\n.*\n.*later read at .*p.c:17, in main\n"):
        if not re.search(text, done.stderr):
            return f"{text}: {done.stderr}"
    done = run_by(folder, compiler, MEMORY, "--json", "./prog")
    found = json.loads(done.stderr.split("\n")[-2])
    lines = {(r["earlier"]["calls"][0]["line"], r["later"]["calls"][0]["line"]) for r in found["races"]}
    if not {(6, 6), (7, 7), (8, 8), (9, 9), (10, 17)} <= lines or not done.returncode:
        return done.stderr
    done = run_by(folder, compiler, MEMORY, "--once", "./prog")
    if "called at" in done.stderr or "p.c:6, in change" not in done.stderr:
        return done.stderr
    judge = " ".join(JUDGE) or os.path.join(HERE, "oracle.py")
    for program, is_shown in (("./prog", True), ("./prog x", False)):  # a pipe isn't read twice
        done = call(["sh", "-c", f"echo 1 | {CILKREC} run {program}"], folder, CILKREC_JUDGE=judge)
        if ("called at" in done.stderr) != is_shown or ("took another way" in done.stderr) == is_shown:
            return f"{program}: {done.stderr}"
    return None


def without_plugin(folder):
    """gcc without its plugin: what it would not tell is refused with file and line, other programs are taken."""
    env = {"CILKREC_PLUGIN": "0"}
    for name, case in (("structures_racy.c", 0), ("structures_racy.c", 4), ("builtins_racy.c", 0),
                       ("vector_loads_racy.c", 0)):
        path = os.path.join(HERE, "c", name)
        done = call([CILKREC, "gcc", path, f"-DWHICH={case}", "-o", "prog"], folder, **env)
        if done.returncode == 0 or "isn't recorded without gcc's plugin" not in done.stderr or (
                f"{name}:" not in done.stderr and "intrin.h:" not in done.stderr):
            return f"{name} {case}: {done.stderr}"
    with open(os.path.join(folder, "half.c"), "w", encoding="utf-8") as f:
        f.write("#include <immintrin.h>\nfloat f[4];\n"
                "int main(void) { _mm_storeh_pi((__m64 *)f, _mm_set1_ps(1)); return 0; }\n")
    done = call([CILKREC, "gcc", "half.c", "-o", "prog"], folder, **env)
    if done.returncode == 0 or "`__builtin_ia32_storehps` isn't recorded without gcc's plugin" not in done.stderr:
        return done.stderr
    for name in ("c/libc_free.c", "feat/vector_free.cpp"):
        done = call([CILKREC, "g++" if name.endswith("pp") else "gcc", os.path.join(HERE, name), "-o", "prog"], folder, **env)
        if done.returncode:
            return done.stderr
        got = recorded(folder)
        if got[0] != "race-free":
            return f"{name}: {got}"
    return None


def told_calls(folder, compiler):
    """Lines `unseen` for calls that no model records; not for others, nor in series, nor where they aren't wanted."""
    path = os.path.join(folder, "p.c")
    with open(path, "w", encoding="utf-8") as f:
        f.write("#include <cilk/cilk.h>\n#include <stdlib.h>\n#include <string.h>\nchar a[9];\nvoid f(void) { a[0] = 1; }\n"
                "int main(void) {\n  int n = rand();\n  cilk_spawn f();\n  memset(a + 1, 1, 3); srand(n);\n  n = rand();\n"
                "  cilk_spawn srand(3);\n  cilk_sync;\n  return n == rand();\n}\n")
    wrong = compiled(folder, compiler, "p.c", "-o", "prog")
    if wrong:
        return wrong
    for form in ("text", "binary"):
        done = call(["./prog"], folder, CILK_TRACE="trace", CILK_TRACE_FORM=form, CILK_TRACE_UNSEEN="1", CILK_SITES="sites")
        with open(os.path.join(folder, "trace"), "rb") as f:
            events = list(cilktrace.events(f))
        places = oracle.sites(os.path.join(folder, "sites"))
        got = [places.get(e[1], "?").split(" ")[0].rsplit(":", 1)[1] for e in events if e[0] == "unseen"]
        if got != ["9", "10", "11"] or unseen_names(folder) != ["srand", "rand", "srand"] or "srand (" not in done.stderr:
            return f"{form}: {got} {done.stderr}"
        if oracle.verdict(events)[0] != "race-free":
            return oracle.verdict(events)
    call(["./prog"], folder, CILK_TRACE="trace", CILK_TRACE_UNSEEN="0")
    with open(os.path.join(folder, "trace"), "rb") as f:
        return "unasked" if "unseen" in (e[0] for e in cilktrace.events(f)) else None


CLASSES = """#include <cxxabi.h>
#include <sstream>
#include <stdexcept>
int g, status;
void f() { g = 1; }
std::stringstream in("1 2"), out;
int main() {
  cilk_spawn f();
  std::runtime_error e(in.str());
  out << in.rdbuf();
  free(abi::__cxa_demangle("_Z1fv", 0, 0, &status));
  cilk_sync;
  return !out.good();
}
"""


def told_classes(folder, compiler):
    """Of libstdc++'s classes the functions that aren't followed are told, others not."""
    with open(os.path.join(folder, "p.cpp"), "w", encoding="utf-8") as f:
        f.write("#include <cilk/cilk.h>\n" + CLASSES)
    wrong = judged(folder, compiler, "race-free", "p.cpp")
    if wrong:
        return wrong
    done = call(["./prog"], folder, CILK_TRACE="trace", CILK_SITES="sites", CILK_TRACE_UNSEEN="1")
    names = [name.split("(")[0] for name in unseen_names(folder)]
    is_told = len(names) == 2 and names[1] == "__cxa_demangle" and "operator<<" in names[0]
    return None if is_told else f"{names} {done.stderr}"


VALUES = """static void zero(void *v) { *(int *)v = 0; }
static void plus(void *l, void *r) { *(int *)l += *(int *)r; }
int cilk_reducer(zero, plus) s, x;
void f(void) { s += 3; }
int main(void) {
  cilk_spawn f();
  s += 4, s = s + 1;
  x = 2;
  if (s > 100) return 1;
  cilk_sync;
  return s != 8;
}
"""


def told_values(folder, compiler):
    """A keyword reducer's value that is read beside a spawn is told; its updates, and reads after the sync, aren't."""
    done = run_by(folder, compiler, VALUES, "./prog")
    if done.returncode or not re.search("not recorded: the value of a reducer at .*p.c:10\n", done.stderr):
        return f"{done.returncode} {done.stderr}"
    got = structure(folder)
    count = [event[0] for event in got[1]].count("unseen")
    return None if count == takes_unseen() else f"{count} lines"


def stripped(folder):
    """A program without its symbols runs, but isn't recorded."""
    wrong = compiled(folder, "gcc", os.path.join(HERE, "c", "loops_free.c"), "-o", "prog")
    if wrong:
        return wrong
    call(["strip", "prog"], folder)
    done = call(["./prog"], folder, CILK_TRACE="trace")
    if done.returncode != 125 or "no table of symbols" not in done.stderr or os.path.exists(os.path.join(folder, "trace")):
        return f"{done.returncode} {done.stderr}"
    return None if call(["./prog"], folder).returncode == 0 else "it doesn't run"


def by_default(folder):
    """A trace is binary where no form is named."""
    wrong = compiled(folder, "gcc", os.path.join(HERE, "c", "loops_free.c"), "-o", "prog")
    if wrong:
        return wrong
    env = {name: value for name, value in os.environ.items() if name != "CILK_TRACE_FORM"}
    subprocess.run(["./prog"], cwd=folder, env=dict(env, CILK_TRACE="trace"), check=False)
    with open(os.path.join(folder, "trace"), "rb") as f:
        return None if f.readline() == b"cilktrace-bin 1\n" else "it isn't binary"


def build():
    """Ways to compile and link."""
    yield "stripped", stripped, ()
    yield "form by default", by_default, ()
    for compiler in ("gcc", "clang"):
        yield f"run {compiler}", one_command, (compiler,)
        yield f"races told {compiler}", told_races, (compiler,)
        yield f"values told {compiler}", told_values, (compiler,)
    yield "without gcc's plugin", without_plugin, ()
    for compiler in ("gcc", "clang"):
        yield f"calls {compiler}", told_calls, (compiler,)
        yield f"classes {compiler}", told_classes, (compiler.replace("gcc", "g++").replace("clang", "clang++"),)
    for compilers in (("gcc", "g++"), ("clang", "clang++"), ("gcc", "clang++")):
        for spread, want in ((0, "race-free"), (1, "race")):
            yield f"Makefile {'+'.join(compilers)} {want}", made, (compilers, spread, want)
    for compiler in ("gcc", "clang"):
        path = os.path.join(HERE, "c", "names_free.c")
        yield f"names in common {compiler}", judged, (compiler, "race-free", path, "-fcommon")
    yield "several sources", several, ()
    yield "foreign object", foreign, ()
    yield "no CILK_TRACE", unrecorded, ()
    yield "notes", named, ()


def is_refused(folder, compiler, path, want):
    """A text that doesn't compile or link, with the message in its first line."""
    done = call([CILKREC, compiler, path, "-o", "prog", "-pthread", "-fopenmp"], folder)
    if done.returncode == 0 or os.path.exists(os.path.join(folder, "prog")):
        return "it was taken"
    return None if want in done.stderr and "Traceback" not in done.stderr else f"{done.stderr[:600]}"


def refused():
    """What the recorder doesn't take."""
    for path in sorted(glob.glob(os.path.join(HERE, "refused", "*"))):
        with open(path, encoding="utf-8") as f:
            want = f.readline()[3:].strip().replace("cilkrec: ", "", 1)
        for compiler in ("g++", "clang++") if path.endswith(".cpp") else ("gcc", "clang"):
            if os.path.basename(path) == {"gcc": "spawned.c", "clang": "nested.c"}.get(compiler) or (
                    compiler == "clang" and "optimized" in path):
                continue  # gcc records such spawns; clang has no such functions, nor such attributes
            yield f"{os.path.basename(path)} {compiler}", is_refused, (compiler, path, want)


def unseen_names(folder):
    """What the lines `unseen` of a trace name by the table of sites."""
    places = oracle.sites(os.path.join(folder, "sites"))
    with open(os.path.join(folder, "trace"), "rb") as f:
        return [places.get(event[1], "? ?").split(" ", 1)[1] for event in cilktrace.events(f) if event[0] == "unseen"]


def is_late(folder, compiler, path):
    """A text whose trace has lines `unseen` with the name in its first line, or none where its own name says so."""
    wrong = judged(folder, compiler, "race-free", path)
    if wrong:
        return wrong
    done = call(["./prog"], folder, CILK_TRACE="trace", CILK_SITES="sites", CILK_TRACE_UNSEEN="1")
    with open(path, encoding="utf-8") as f:
        want = set() if "_free." in path else {f.readline().split(": ")[1].strip()}
    if set(unseen_names(folder)) != want or bool(want) != ("not recorded, while" in done.stderr):
        return f"{unseen_names(folder)} {done.stderr[:600]}"
    return None if done.returncode == call(["./prog"], folder).returncode == 0 else f"status {done.returncode}"


def late():
    """What a recording can't hold: not told where nothing is parallel, else a line `unseen` for each place."""
    with open("/proc/cpuinfo", encoding="ascii", errors="replace") as f:
        has_masks = " avx512f" in f.read()
    for path in sorted(glob.glob(os.path.join(HERE, "late", "*.c*"))):
        for compiler in ("g++", "clang++") if path.endswith(".cpp") else ("gcc", "clang"):
            name = os.path.basename(path)
            if name == "maskmove.c" and compiler == "gcc":
                continue  # it makes that of operations that are recorded
            if name.startswith("masks") and not has_masks:
                continue
            yield f"{name} {compiler}", is_late, (compiler, path)


def trace_of(folder, how, path="trace", **extra):
    """Runs tests/whole/ends.c in one way; its process, and what reading its trace says: `whole` or why not."""
    done = call(["./prog", how], folder, CILK_TRACE=path, **extra)
    with open(os.path.join(folder, path), "rb") as f:
        try:
            for _ in cilktrace.events(f):
                pass
            return done, "whole"
        except cilktrace.Malformed as e:
            return done, "cut off" if e.cut else f"malformed: {e}"


ENDS = {
    "return": ("whole", 0, ""), "exit": ("whole", 0, ""), "exit-in-call": ("whole", 4, ""),
    "exit-in-child": ("cut off", 3, "exit was called where spawned calls may still run"),
    "exit-before-sync": ("cut off", 5, "exit was called where spawned calls may still run"),
    "exit-in-turn": ("cut off", 6, "exit was called where spawned calls may still run"),
    "_exit": ("cut off", 0, ""), "abort": ("cut off", -6, ""), "crash-in-child": ("cut off", -11, ""),
    "kill": ("cut off", -9, ""), "jump": ("cut off", 0, "the program called longjmp"),
}  # fmt: skip


def ends(folder, compiler, form):
    """Each way to end, by what is left of the trace."""
    wrong = compiled(folder, compiler, os.path.join(HERE, "whole", "ends.c"), "-o", "prog")
    if wrong:
        return wrong
    for how, (want, status, message) in ENDS.items():
        done, got = trace_of(folder, how, CILK_TRACE_FORM=form)
        if got != want or done.returncode != status:
            return f"{how}: {got}, status {done.returncode}: {done.stderr[:300]}"
        if message not in done.stderr.replace("_longjmp", "longjmp") or not message and "isn't whole" in done.stderr:
            return f"{how}: {done.stderr[:300]}"
    return None


def through_pipe(folder):
    """A fifo, a pipe, one whose reader closes it early, a full device, a folder that isn't there."""
    wrong = compiled(folder, "gcc", os.path.join(HERE, "whole", "ends.c"), "-o", "prog")
    if wrong:
        return wrong
    os.mkfifo(os.path.join(folder, "fifo"))
    to_pipe = "./prog 3>&1 >/dev/null |"
    for line in ("cat fifo >got & CILK_TRACE=fifo ./prog && wait && tail -n 1 got",
                 f"CILK_TRACE=/dev/fd/3 {to_pipe} tail -n 1",
                 f"CILK_TRACE=/dev/fd/3 CILK_TRACE_FORM=binary {to_pipe} {HERE}/../trace2text | tail -n 1"):
        done = call(["sh", "-c", line], folder)
        if done.stdout != "end\n":
            return f"{line}: {done.stdout[-200:]} {done.stderr[:300]}"
    for line, message, status in (
        ("head -c 100 fifo >got & CILK_TRACE=fifo ./prog much", "its reader closed the pipe", 0),
        ("CILK_TRACE=/dev/full ./prog", "No space left on device", 0),
        ("CILK_TRACE=none/trace ./prog", "none/trace: No such file or directory", 125),
        ("CILK_TRACE=trace CILK_TRACE_FORM=blue ./prog", "neither text nor binary", 125),
    ):
        done = call(["sh", "-c", line], folder)
        if message not in done.stderr or done.returncode != status:
            return f"{line}: status {done.returncode}: {done.stderr[:300]}"
    return None


def whole():
    """Traces that say that they are whole, and those that mustn't."""
    for compiler, form in (("gcc", "text"), ("clang", "binary")):
        yield f"ends {compiler} {form}", ends, (compiler, form)
    yield "pipes", through_pipe, ()


def both_forms(folder, compiler):
    """One run as text and as binary is the same trace, and each form is turned into the other byte for byte."""
    wrong = compiled(folder, compiler, os.path.join(HERE, "c", "qsort_free.c"), "-o", "prog")
    if wrong:
        return wrong
    # The names' lengths make both environments equally long, so that the stack begins at one place.
    for path, form in (("xx.text", "text"), ("x.bin", "binary")):
        call(["setarch", "-R", "./prog"], folder, CILK_TRACE=path, CILK_TRACE_FORM=form)
    def turned(path, *words):
        return subprocess.run([f"{HERE}/../trace2text", *words, path], cwd=folder, capture_output=True).stdout
    with open(os.path.join(folder, "xx.text"), "rb") as f, open(os.path.join(folder, "x.bin"), "rb") as g:
        text, binary = f.read(), g.read()
    if turned("x.bin") != text:
        return "the binary form isn't the text's"
    if turned("xx.text", "--binary") != binary or turned("x.bin", "--binary") != binary or turned("xx.text") != text:
        return "a form changes as it is turned"
    return None


FAULTS = {
    b"": (2, "line 1"), b"cilktrace 1": (2, "line 1"), b"cilktrace 2\nend\n": (1, "line 1"),
    b"cilktrace 1\n": (2, "line 2"), b"cilktrace 1\nend": (2, "line 2"), b"cilktrace 1\nend\nsync\n": (1, "line 3"),
    b"cilktrace 1\nend\nsync": (1, "line 3"), b"cilktrace 1\nend\n\n": (1, "line 3"), b"cilktr": (2, "line 1"),
    b"other": (2, "line 1"), b"other\n": (1, "line 1"), b"x" * 65: (1, "line 1"), b"cilktrace 1\nrea": (2, "line 2"),
    b"cilktrace 1\nother": (2, "line 2"), b"cilktrace 1\n" + b"x" * 64: (2, "line 2"),
    b"cilktrace 1\n" + b"x" * 65: (1, "line 2"), b"cilktrace 1\nenter 1\nend\nx": (1, "line 3"),
    b"cilktrace 1\nsync \nend\n": (1, "line 2"), b"cilktrace 1\nread 1 2\nend\n": (1, "line 2"),
    b"cilktrace 1\nread 01 2 3\nend\n": (1, "line 2"), b"cilktrace 1\nread 1 0 3\nend\n": (1, "line 2"),
    b"cilktrace 1\nread 1 4097 3\nend\n": (1, "line 2"), b"cilktrace 1\nread 4294967295 2 3\nend\n": (1, "line 2"),
    b"cilktrace 1\ncalled\nend\n": (1, "line 2"), b"cilktrace 1\nenter 1\nend\n": (1, "line 3"),
    b"cilktrace 1\nupdate 1 1\nend\n": (1, "line 2"), b"cilktrace 1\ncreate 1 1\ncreate 1 1\nend\n": (1, "line 3"),
    b"cilktrace 1\nenter 4294967296\ncalled\nend\n": (1, "line 2"), b"cilktrace 1\nend\n": (0, ""),
    b"cilktrace-bin 1\n\5": (0, ""), b"cilktrace-bin 1\n": (2, "line 2"), b"cilktrace-bin 1\n\5\5": (1, "line 3"),
    b"cilktrace-bin 1\n\1\x80": (2, "line 2"), b"cilktrace-bin 1\n\1\x80\0\3\5": (1, "line 2"),
    b"cilktrace-bin 1\n\7": (2, "line 2"), b"cilktrace-bin 1\n\7\3\5": (0, ""), b"cilktrace 1\nunseen 3\nend\n": (0, ""),
    b"cilktrace 1\nunseen\nend\n": (1, "line 2"), b"cilktrace-bin 1\n\x08": (1, "line 2"),
    b"cilktrace-bin 1\n\0\3\4\1\x08\0\5": (1, "line 2"), b"cilktrace-bin 1\n\0\0\4\1\x08\1\5": (1, "line 2"),
    b"cilktrace-bin 1\n\0\0\4\1\x08\2\5": (0, ""),
}  # fmt: skip


def faults(folder):
    """Malformed and cut-off traces, each with its line."""
    for text, (status, place) in FAULTS.items():
        done = subprocess.run([f"{HERE}/../trace2text"], input=text, cwd=folder, capture_output=True)
        if done.returncode != status or place not in done.stderr.decode():
            return f"{text}: status {done.returncode}: {done.stderr}"
    return None


def worked_example(folder):
    """The example of docs/TRACES.md, and what the page says of it."""
    with open(os.path.join(TOP, "docs", "TRACES.md"), encoding="utf-8") as f:
        lines = f.read().split("\n")
    first = lines.index("    cilktrace 1")
    last = lines.index("    end", first)
    path = os.path.join(folder, "trace")
    with open(path, "w", encoding="utf-8") as f:
        f.write("".join(line.split("#")[0].strip() + "\n" for line in lines[first : last + 1]))
    done = call([f"{HERE}/oracle.py", path], folder)
    return None if done.stdout.startswith("race 4 6\n") else done.stdout + done.stderr


def forms():
    """Text and binary."""
    yield "both forms gcc", both_forms, ("gcc",)
    yield "both forms clang", both_forms, ("clang",)
    yield "faults", faults, ()
    yield "worked example", worked_example, ()


PARTS = {
    "feat": feat, "c": c_features, "probes": probes, "opencilk": opencilk, "gallery": gallery, "build": build,
    "refused": refused, "late": late, "whole": whole, "forms": forms,
}  # fmt: skip
