#!/usr/bin/env python3
"""Refuses each allocation, and fails each open, read and write, of the built program in turn, and looks at what it answers.

tools/each_failure.py [PROGRAM]             the program, by default crates/cilk/out/cilk
tools/each_failure.py --choices [TESTS]     the built tests of schedules, by default crates/cilk_base_tests/out/cilk_base_tests_tests
tools/each_failure.py --plan [TESTS]        the built tests of workers, by default crates/cilk_worker_tests/out/cilk_worker_tests_tests

The commands are `certify` and `check` of a chain of spawns (fib(10), accepted) and of a view-read race (refused), and `play` of three programs
with 2 workers and all rounds. `threads` of three programs with 2 workers, and `check` of fib(10) with 2 helpers, have their allocations alone
refused, up to a run that makes fewer, since two of their runs needn't make the same ones; after each run of `threads` one with ample memory
must give the outcome. Each run has one call that fails: the Nth allocation, or all from the Nth on; the Nth open, read, seek or
write; the Nth read or write that moves one byte of several. It must end with the answer of a run in which nothing fails, or say `no memory`, `cannot read FILE` or `cannot write`
with that one's status, where a beginning of the answer may have gone out. The calls are counted and failed by a small library that
`cc` makes and that the program is run with (LD_PRELOAD), so it needs a C compiler and glibc. Run manually but for --choices
and --plan, which are steps of the gate.

tools/hostile.py, a step of the gate, takes its library from here, and looks more closely at which call failed.

With `--choices` the test `refused::rows_by_two_workers` of `cilk_base_tests` is run instead, with each allocation refused in turn: the
list by a parallel loop and the local reducers, by rounds of 2 workers. It passes where each run ends with its result, or stops for want of
memory, three more choices give the same stop, and each frame that is shown then has the first events that it has in the serial run.
It says so where memory was refused before the choices or after them; any other end is wrong. `rt test` builds these tests.

With `--plan` the tests `refused` of `cilk_worker_tests` are run, with each allocation refused in turn, up to a run that makes fewer: two
spawned calls, a list by a parallel loop, and three spawned prints, each run twice by 2 workers in one process, on one plan. The first run
may find no memory; the second, which has it, leaves what the program leaves, and so does the first where it ends. A test that doesn't end
in a minute is wrong.
"""

import os
import subprocess
import sys
import tempfile

TOP = os.path.dirname(os.path.dirname(os.path.realpath(__file__)))
PROGRAM = f"{TOP}/crates/cilk/out/cilk"
TESTS = f"{TOP}/crates/cilk_base_tests/out/cilk_base_tests_tests"
WORKERS_TESTS = f"{TOP}/crates/cilk_worker_tests/out/cilk_worker_tests_tests"

LIBRARY = r"""
#define _GNU_SOURCE
#include <dlfcn.h>
#include <errno.h>
#include <fcntl.h>
#include <pthread.h>
#include <stdarg.h>
#include <stdio.h>
#include <stdlib.h>
#include <unistd.h>

extern void *__libc_malloc(size_t), *__libc_calloc(size_t, size_t), *__libc_realloc(void *, size_t), *__libc_memalign(size_t, size_t);
static long allocs, calls, moves, threads, fail_alloc, fail_from, fail_call, fail_thread, short_move, all_short;
static long out_file, out_bytes, out_way;
static const char *failed_call = "none";
static int failed_file = -1;
static char names[64][256], failed_name[256];

static long wanted(const char *name, long other) {
    const char *text = getenv(name);
    return text ? atol(text) : other;
}

__attribute__((constructor)) static void begin(void) {
    fail_alloc = wanted("FAIL_ALLOC", 0);
    fail_from = wanted("FAIL_FROM", 0);
    fail_call = wanted("FAIL_CALL", 0);
    fail_thread = wanted("FAIL_THREAD", 0);
    short_move = wanted("SHORT_MOVE", 0);
    all_short = wanted("ALL_SHORT", 0);
    out_file = wanted("OUT_FILE", -1);
    out_bytes = wanted("OUT_BYTES", 0);
    out_way = wanted("OUT_WAY", 0);
    allocs = calls = moves = threads = 0;
}

__attribute__((destructor)) static void end(void) {
    static int told;
    const char *path = told++ ? 0 : getenv("COUNTS");
    char line[600];
    int file = path ? ((int (*)(const char *, int))dlsym(RTLD_NEXT, "open"))(path, O_WRONLY) : -1;
    if (file < 0) return;
    int size = snprintf(line, sizeof line, "%ld %ld %ld %ld\n%s %d %s\n", allocs, calls, moves, threads, failed_call, failed_file, failed_name);
    ((ssize_t (*)(int, const void *, size_t))dlsym(RTLD_NEXT, "write"))(file, line, size);
}

/* A program that ends so runs no destructor. */
__attribute__((noreturn)) void _exit(int status) {
    end();
    ((void (*)(int))dlsym(RTLD_NEXT, "_exit"))(status);
    __builtin_unreachable();
}

static int refused(void) {
    long number = __atomic_add_fetch(&allocs, 1, __ATOMIC_SEQ_CST);
    return number == fail_alloc || (fail_from && number >= fail_from);
}

#define MEMORY(call) do { if (refused()) { errno = ENOMEM; return 0; } return call; } while (0)
void *malloc(size_t n) { MEMORY(__libc_malloc(n)); }
void *calloc(size_t n, size_t m) { MEMORY(__libc_calloc(n, m)); }
void *realloc(void *p, size_t n) { MEMORY(__libc_realloc(p, n)); }
void *aligned_alloc(size_t a, size_t n) { MEMORY(__libc_memalign(a, n)); }
int posix_memalign(void **p, size_t a, size_t n) {
    if (refused()) return ENOMEM;
    *p = __libc_memalign(a, n);
    return *p ? 0 : ENOMEM;
}

int pthread_create(pthread_t *made, const pthread_attr_t *how, void *(*start)(void *), void *given) {
    if (++threads == fail_thread) return EAGAIN;
    return ((int (*)(pthread_t *, const pthread_attr_t *, void *(*)(void *), void *))dlsym(RTLD_NEXT, "pthread_create"))(made, how, start, given);
}

static int fails(const char *call, int file, const char *name) {
    if (++calls != fail_call) return 0;
    failed_call = call;
    failed_file = file;
    snprintf(failed_name, sizeof failed_name, "%s", name ? name : file >= 0 && file < 64 ? names[file] : "");
    errno = EIO;
    return 1;
}

/* How many bytes one call moves. */
static size_t moved(size_t n) {
    return n > 1 && (++moves == short_move || all_short) ? 1 : n;
}

ssize_t read(int file, void *into, size_t n) {
    if (fails("read", file, 0)) return -1;
    return ((ssize_t (*)(int, void *, size_t))dlsym(RTLD_NEXT, "read"))(file, into, moved(n));
}

/* OUT_FILE takes OUT_BYTES bytes and then fails, or takes none of what doesn't fit (OUT_WAY 1), or takes 0 bytes (OUT_WAY 2). */
ssize_t write(int file, const void *from, size_t n) {
    if (fails("write", file, 0)) return -1;
    n = moved(n);
    if (file == out_file && (long)n > out_bytes) {
        if (!out_bytes && out_way == 2) return 0;
        if (!out_bytes || out_way == 1) { errno = ENOSPC; return -1; }
        n = out_bytes;
    }
    ssize_t went = ((ssize_t (*)(int, const void *, size_t))dlsym(RTLD_NEXT, "write"))(file, from, n);
    if (file == out_file && went > 0) out_bytes -= went;
    return went;
}
off_t lseek(int file, off_t at, int whence) {
    if (fails("lseek", file, 0)) return -1;
    return ((off_t (*)(int, off_t, int))dlsym(RTLD_NEXT, "lseek"))(file, at, whence);
}
int statx(int file, const char *path, int flags, unsigned mask, void *into) {
    if (fails("statx", file, path && *path ? path : 0)) return -1;
    return ((int (*)(int, const char *, int, unsigned, void *))dlsym(RTLD_NEXT, "statx"))(file, path, flags, mask, into);
}
int open(const char *path, int flags, ...) {
    va_list more;
    va_start(more, flags);
    int mode = va_arg(more, int);
    va_end(more);
    if (fails("open", -1, path)) return -1;
    int file = ((int (*)(const char *, int, ...))dlsym(RTLD_NEXT, "open"))(path, flags, mode);
    if (file >= 0 && file < 64) snprintf(names[file], sizeof names[file], "%s", path);
    return file;
}
int open64(const char *path, int flags, ...) __attribute__((alias("open")));
off_t lseek64(int file, off_t at, int whence) __attribute__((alias("lseek")));
"""

FIB = """#include <cilk/cilk.h>
int fib(int n) { if (n < 2) { return n; } int x; int y; x = cilk_spawn fib(n - 1); y = fib(n - 2); cilk_sync; return x + y; } int main() { int r; r = fib(10); return r; }"""

RACE = "int cilk_reducer(add) r; void f() { update(r, 1); } int main() { int x; cilk_spawn f(); x = value(r); cilk_sync; return x; }"

LIST = "int cilk_reducer(append) l; int main() { cilk_for (int i = 0; i < 5; i++) { update(l, i); } return value(l); }"

LOCAL = """int f(int n) { int cilk_reducer(add) s; cilk_for (int i = 0; i < n; i++) { update(s, i); } return value(s); }
int main() { int x; int y; x = cilk_spawn f(4); y = cilk_spawn f(5); cilk_sync; return x + y; }"""


GETS = "int g = 7; int get() { return g; } int main() { int x; int y; x = cilk_spawn get(); y = cilk_spawn get(); cilk_sync; return x + y; }"

PRINTS = "void p(int n) { print(n); } int main() { cilk_spawn p(1); cilk_spawn p(2); cilk_spawn p(3); cilk_sync; return 0; }"


def run(program, words, folder, **settings):
    """What the program shows: its status and the bytes on both streams; and how many calls of each sort it made."""
    counts = f"{folder}/counts"
    with open(counts, "w", encoding="ascii"):
        pass
    env = {"LD_PRELOAD": f"{folder}/fails.so", "COUNTS": counts, **{k: str(v) for k, v in settings.items()}}
    ended = subprocess.run([program, *words], cwd=folder, env=env, capture_output=True, timeout=60, check=False)
    with open(counts, encoding="ascii") as it:
        counted = [int(word) for word in it.readline().split()[:3]]
    return (ended.returncode, ended.stdout, ended.stderr), counted


def is_fair(seen, whole, words):
    """Whether this is the whole answer, or out of memory, or a failing device that is called so."""
    status, out, err = seen
    if seen == whole:
        return True
    if err == b"no memory\n":
        return status == 5 and out == b""
    if err in [b"cannot read %s\n" % word.encode() for word in words[1:]]:
        return status == 2 and out == b""
    if err == b"cannot write\n":
        return status == 2 and whole[1].startswith(out) and out != whole[1]
    return False


def turns(program, words, folder):
    """Fails each call of a command in turn, and gives how many answers weren't fair."""
    whole, (allocs, calls, moves) = run(program, words, folder)
    again, _ = run(program, words, folder)
    if again != whole:
        print(f"{' '.join(words)}: two runs differ")
        return 1
    wrong, kinds = 0, {}
    for setting, count in [("FAIL_ALLOC", allocs), ("FAIL_FROM", allocs), ("FAIL_CALL", calls), ("SHORT_MOVE", moves)]:
        for n in range(1, count + 1):
            seen, _ = run(program, words, folder, **{setting: n})
            kind = "its own" if seen == whole else seen[2].decode(errors="replace").strip() or "another"
            kinds.setdefault(setting, {}).setdefault(kind, 0)
            kinds[setting][kind] += 1
            if not is_fair(seen, whole, words):
                wrong += 1
                print(f"{' '.join(words)}: {setting}={n}: {seen[0]} {seen[1][:80]} {seen[2][:80]}")
    print(f"{' '.join(words)}: status {whole[0]}; {allocs} allocations, {calls} calls, {moves} moves; {kinds}; {wrong} wrong")
    return wrong


def by_threads(program, words, folder, is_repeated=True):
    """Refuses each allocation of a call that starts threads in turn, up to one that makes fewer, and gives how many answers weren't fair."""
    whole, _ = run(program, words, folder)
    wrong, stopped, made = 0, 0, 0
    for setting in ["FAIL_ALLOC", "FAIL_FROM"]:
        n, met = 0, 0
        while met >= n:
            n += 1
            seen, (met, _, _) = run(program, words, folder, **{setting: n})
            again = run(program, words, folder)[0] if is_repeated else whole
            is_stopped = seen == (5, b"", b"no memory\n")
            stopped, made = stopped + is_stopped, made + (seen == whole)
            if again != whole or not (is_stopped or seen == whole):
                wrong += 1
                print(f"{' '.join(words)}: {setting}={n}: {seen[0]} {seen[1][:80]} {seen[2][:80]}; with ample memory {again}")
    print(f"{' '.join(words)}: status {whole[0]}; {stopped} runs without memory, {made} with the outcome; {wrong} wrong")
    return wrong


def make_library(folder):
    """The library that counts calls and fails them."""
    with open(f"{folder}/fails.c", "w", encoding="ascii") as it:
        it.write(LIBRARY)
    cc = os.environ.get("CC") or "cc"
    subprocess.run([cc, "-O1", "-shared", "-fPIC", "-o", f"{folder}/fails.so", f"{folder}/fails.c", "-ldl"], check=True)


def commands(program, folder):
    """Fails each call of `certify`, `check`, `play` and `threads` in turn, and gives how many answers weren't fair."""
    wrong = 0
    for name, text in [("fib.c", FIB), ("race.c", RACE), ("list.c", LIST), ("local.c", LOCAL), ("gets.c", GETS), ("prints.c", PRINTS), ("all", "all\n")]:
        with open(f"{folder}/{name}", "w", encoding="ascii") as it:
            it.write(text)
    for name in ["fib", "race"]:
        made, _ = run(program, ["certify", f"{name}.c"], folder)
        with open(f"{folder}/{name}.cert", "wb") as it:
            it.write(made[1])
        wrong += turns(program, ["certify", f"{name}.c"], folder)
        wrong += turns(program, ["check", f"{name}.c", f"{name}.cert"], folder)
    wrong += by_threads(program, ["check", "fib.c", "fib.cert", "--helpers", "2"], folder, is_repeated=False)
    for name in ["fib", "list", "local"]:
        wrong += turns(program, ["play", f"{name}.c", "all", "--workers", "2"], folder)
    for name in ["gets", "list", "prints"]:
        made, _ = run(program, ["certify", f"{name}.c"], folder)
        with open(f"{folder}/{name}.cert", "wb") as it:
            it.write(made[1])
        wrong += by_threads(program, ["threads", f"{name}.c", f"{name}.cert", "--workers", "2"], folder)
    return wrong


def refused_in_turn(tests, name, folder, aside):
    """Runs a test with each allocation refused in turn, up to a run that makes fewer: how often it passed though one was refused, how
    often it ended with words of `aside`, by which it was refused elsewhere, and how often otherwise."""
    passed = outside = wrong = n = 0
    met = 1
    while met > n:
        n += 1
        try:
            (status, out, err), counted = run(tests, [name], folder, FAIL_ALLOC=n)
        except subprocess.TimeoutExpired:
            (status, out, err), counted = ("no end", b"", b""), []
        met = counted[0] + 1 if counted and status == 0 else n + 1  # (a test that is stopped counts nothing)
        if status == 0:
            passed += met > n
        elif any(words in out + err for words in aside):
            outside += 1
        else:
            wrong += 1
            print(f"{name}: FAIL_ALLOC={n}: {status} {out[-200:]} {err[-200:]}")
        if wrong == 20:
            break
    return passed, outside, wrong


def is_well(tests, name, folder):
    """Whether a test passes where no memory is refused."""
    seen, _ = run(tests, [name], folder)
    if seen[0] != 0:
        print(f"{name} with ample memory: {seen}")
    return seen[0] == 0


def choices(tests, folder):
    """Refuses each allocation of the test of refused choices in turn, and gives how often it ended otherwise than it may."""
    name = "refused::rows_by_two_workers"
    if not is_well(tests, name, folder):
        return 1
    passed, outside, wrong = refused_in_turn(tests, name, folder, [b"no memory ahead of the run, or to look at it"])
    print(f"{passed} refused in the choices, after which all was as it has to be, {outside} before them or after them, {wrong} wrong")
    return wrong + (not passed)


def same_plan(tests, folder):
    """Refuses each allocation of two runs on one plan in turn, and gives how often they ended otherwise than they may."""
    total = 0
    aside = [b"no memory ahead of the runs", b"no memory for the second run", b"no memory to look at the run"]
    for name in ["refused::two_calls", "refused::a_list", "refused::three_prints"]:
        if not is_well(tests, name, folder):
            return 1
        passed, outside, wrong = refused_in_turn(tests, name, folder, aside)
        print(f"{name}: {passed} refused in the first run, after which the second had the outcome, {outside} elsewhere, {wrong} wrong")
        total += wrong + (not passed)
    return total


def main():
    words = sys.argv[1:]
    with tempfile.TemporaryDirectory() as folder:
        make_library(folder)
        if words[:1] in (["--choices"], ["--plan"]):
            default, sweep = (TESTS, choices) if words[0] == "--choices" else (WORKERS_TESTS, same_plan)
            tests = os.path.realpath(words[1] if words[1:] else default)
            if not os.access(tests, os.X_OK):
                print(f"{tests} isn't built: not tried\n0 passed, 0 failed")
                return 0
            wrong = sweep(tests, folder)
        else:
            wrong = commands(os.path.realpath(words[0] if words else PROGRAM), folder)
    print(f"{wrong} wrong\n{int(not wrong)} passed, {int(wrong > 0)} failed")
    return 1 if wrong else 0


if __name__ == "__main__":
    sys.exit(main())
