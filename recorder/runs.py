"""`cilkrec run [--json] [--once] [--strict] PROGRAM ARGS..`: records a run, judges it, and says what is known of its races.

The program's streams and its status are its own. The answer comes last, on standard error: what the judge says, and for
each race both accesses with their calls, and whose memory it is. The status is the program's, or the judge's where that
is 0. The judge reads the trace by a pipe, beside the program; a copy is kept for further questions.

Further races are those that the judge finds when the accesses of a known one are left out of the trace: each is a race
of the same run; there may be others. Calls and memory come from a second run, whose output goes nowhere, and whose input
is the same file, or none. They aren't shown where that run took another way, and it isn't made with --once. Both runs are
made without random addresses.

What the recorder couldn't see is named after `race-free, but N calls weren't recorded`; with --strict that answer is
`refused 313 P`, with the position of the first such call, and the status 4.
"""

import collections
import ctypes
import json
import os
import re
import shlex
import shutil
import signal
import stat
import subprocess
import sys
import tempfile
import threading
import time

import cilktrace
import unseen

HERE = os.path.dirname(os.path.realpath(__file__))
MOST_RACES, MOST_QUESTIONS, SECONDS, MOST_NAMES = 10, 40, 60, 8
REFUSED = 4  # the status of a refusal, as `cilk judge` has it
OWN = re.compile(r"(^|/)recorder/runtime/|^\?\?")
LAMBDA = re.compile(r"\{lambda\(\)#\d+\}::operator\(\)$|::\$_\d+::operator\(\)$")

Access = collections.namedtuple("Access", "segment site address size kind")


class Fault(Exception):
    """What ends the command; its text is shown."""


def without_random_addresses():
    """In the child, before the program begins."""
    ctypes.CDLL(None).personality(0x0040000)


def without_interrupts():
    """In the judge, which reads to the trace's end, before it begins."""
    signal.signal(signal.SIGINT, signal.SIG_IGN)


class Places:
    """What addresses of a program's text and data are, by binutils."""

    def __init__(self, program, load_address):
        self.program, self.load_address, self.known, self.globals = program, load_address, {}, None

    def ask(self, sites):
        """Learns the places of some sites: [(file, line, function)] of each, inlined calls first."""
        new = [s for s in sites if s not in self.known]
        if not new:
            return
        text = "".join(f"{s:x}\n" for s in new)
        done = subprocess.run(["addr2line", "-e", self.program, "-a", "-i", "-f", "-C"], input=text, capture_output=True,
                              text=True, errors="replace", check=False)
        parts = [part.split("\n")[1:] for part in re.split(r"^(?=0x)", done.stdout, flags=re.M)[1:]]
        for site, lines in zip(new, parts + [[]] * len(new)):
            self.known[site] = []
            for function, place in zip(lines[::2] or ["??"], lines[1::2] or ["??:0"]):
                file, line = (place.split(" (")[0].rsplit(":", 1) + ["0"])[:2]
                self.known[site].append((os.path.normpath(file), int(line) if line.isdigit() else 0, shortened(function)))

    def stack(self, sites):
        """The program's own calls among some addresses, the innermost first."""
        self.ask(sites)
        return [row for s in sites for row in self.known[s] if not OWN.search(row[0])]

    def global_at(self, address):
        """(name, size, offset) of the variable with static storage at an address, or None."""
        if self.globals is None:
            done = subprocess.run(["nm", "-S", "--defined-only", self.program], capture_output=True, text=True, check=False)
            rows = [line.split() for line in done.stdout.split("\n")]
            self.globals = [(int(r[0], 16), int(r[1], 16), r[3]) for r in rows if len(r) == 4 and r[2] in "bBdDrRuVvGgSs"]
        for first, size, name in self.globals:
            if first <= address - self.load_address < first + size:
                return unseen.readable([name])[0].split(".")[0], size, address - self.load_address - first
        return None


def shortened(function):
    """A function's name without parameters and return type."""
    function = function.replace("(anonymous namespace)::", "").split(" [clone")[0]
    if "._omp_fn." in function or ".omp_" in function:
        return "a turn of a loop" if ".omp_" in function else function.split("._omp_fn")[0]
    depth, end = 0, len(function)
    for k, sign in enumerate(function):
        if function.startswith("operator", max(0, k - 8)) and k >= 8 and function[k - 8 : k] == "operator":
            continue
        depth += (sign in "<{") - (sign in ">}" and function[k - 1] != "-")
        if sign == "(" and depth == 0 and k and function[k - 8 : k] != "operator":
            end = k
            break
    name, depth = function[:end], 0
    for k in range(len(name) - 1, -1, -1):  # a template's name has its result's type before it
        depth += (name[k] in ">)}") - (name[k] in "<({")
        if name[k] == " " and depth == 0 and "operator" not in name[:k]:
            return name[k + 1 :]
    return name


class Run:
    """One program, its trace and the judge."""

    def __init__(self, words, work, judge):
        self.words, self.work, self.judge = words, work, judge
        self.trace, self.sites, self.calls, self.pages = (os.path.join(work, n) for n in ("trace", "sites", "calls", "pages"))
        self.look, self.copy = os.path.join(work, "look"), os.path.join(work, "copy")
        # The same in both runs, so that the stack begins at one place.
        self.env = dict(os.environ, CILK_TRACE=self.trace, CILK_TRACE_FORM="binary", CILK_SITES=self.sites,
                        CILK_CALLS=self.calls, CILK_PAGES=self.pages, CILK_TRACE_LOOK=self.look)
        self.offset, self.status = None, 0
        mode = os.fstat(0).st_mode if self.is_open(0) else 0
        if stat.S_ISREG(mode):
            self.offset = os.lseek(0, 0, os.SEEK_CUR)

    @staticmethod
    def is_open(fd):
        """Whether a file is open."""
        try:
            os.fstat(fd)
            return True
        except OSError:
            return False

    def record(self):
        """Makes the first run with the judge beside it, and keeps its status as the shell has it. The judge: a finished process."""
        os.mkfifo(self.trace)
        source = os.open(self.trace, os.O_RDONLY | os.O_NONBLOCK)
        writer = os.open(self.trace, os.O_WRONLY)  # so that there is one until the program's end
        os.set_blocking(source, True)
        try:
            judge = subprocess.Popen([*self.judge, "/dev/stdin"], stdin=subprocess.PIPE, stdout=subprocess.PIPE,
                                     stderr=subprocess.PIPE, text=True, errors="replace", preexec_fn=without_interrupts)
        except OSError as e:
            raise Fault(f"{self.judge[0]}: {e.strerror}") from None
        copier = threading.Thread(target=self.pass_on, args=(source, judge.stdin.fileno()))
        copier.start()
        try:
            with subprocess.Popen(self.words, env=self.env, preexec_fn=without_random_addresses) as program:
                keep = signal.signal(signal.SIGINT, signal.SIG_IGN)
                status = program.wait()
                signal.signal(signal.SIGINT, keep)
        except OSError as e:
            raise Fault(f"{self.words[0]}: {e.strerror}") from None
        finally:
            os.close(writer)
            copier.join()
            out, err = judge.communicate()
        if not os.path.getsize(self.copy):
            raise Fault(f"{self.words[0]} left no trace: was it compiled by cilkrec?")
        self.status = status if status >= 0 else 128 - status
        return subprocess.CompletedProcess(self.judge, judge.returncode, out, err)

    def pass_on(self, source, judge):
        """Copies the trace, and passes it on to the judge as long as that reads."""
        reads = True
        with open(source, "rb", buffering=0) as trace, open(self.copy, "wb", buffering=0) as copy:
            while part := trace.read(1 << 20):
                copy.write(part)
                while reads and part:
                    try:
                        part = part[os.write(judge, part) :]
                    except OSError:
                        reads = False

    def asked(self, trace, *options):
        """What the judge says of a trace: a finished process."""
        try:
            return subprocess.run([*self.judge, trace, *options], capture_output=True, text=True, errors="replace", check=False)
        except OSError as e:
            raise Fault(f"{self.judge[0]}: {e.strerror}") from None

    def repeat(self, accesses):
        """The second run: for each access, where it is told, its lines."""
        with open(self.look, "w", encoding="ascii") as f:
            f.writelines(f"{a.segment:x} {a.site:x} {a.address:x} {a.size:x}\n" for a in accesses)
        if self.offset is not None:
            os.lseek(0, self.offset, os.SEEK_SET)
        os.unlink(self.trace)
        os.symlink("/dev/null", self.trace)
        given = None if self.offset is not None else subprocess.DEVNULL
        subprocess.run(self.words, env=self.env, stdin=given, stdout=subprocess.DEVNULL, stderr=subprocess.DEVNULL,
                       preexec_fn=without_random_addresses, check=False)
        try:
            with open(self.look + ".told", encoding="ascii") as f:
                return f.read()
        except OSError:
            return ""


def tool(work):
    """The path of the compiled trace_parts.c, or None where there is no compiler."""
    source = os.path.join(HERE, "trace_parts.c")
    kept = os.path.join(HERE, "out", "trace_parts")
    try:
        if os.path.getmtime(kept) >= os.path.getmtime(source):
            return kept
    except OSError:
        pass
    made = os.path.join(work, "trace_parts")
    for compiler in ("cc", "gcc", "clang"):
        if shutil.which(compiler) and subprocess.run([compiler, "-O2", "-w", source, "-o", made], check=False).returncode == 0:
            try:
                os.makedirs(os.path.dirname(kept), exist_ok=True)
                shutil.copy(made, f"{kept}.{os.getpid()}")
                os.replace(f"{kept}.{os.getpid()}", kept)
                return kept
            except OSError:
                return made
    return None


class Races:
    """The races of a run, by the places of both accesses."""

    def __init__(self, run, parts, sites, pages):
        self.run, self.parts, self.sites, self.pages = run, parts, sites, pages
        self.found, self.began, self.count = {}, time.monotonic(), 0

    def accesses(self, trace, positions):
        """What a trace has at two positions."""
        done = subprocess.run([self.parts, trace, "find", *map(str, positions)], capture_output=True, text=True, check=False)
        found = []
        for line in done.stdout.split("\n")[:-1]:
            segment, site, cell, size, kind = map(int, line.split())
            found.append(Access(segment, site, (self.pages[cell >> 12] << 12) + (cell & 4095), size, kind))
        return found

    def place(self, access):
        """File and line of an access."""
        return self.sites.get(access.site, "?").split(" ")[0]

    def find(self, positions):
        """The race at these positions, and what is found when of each race the later accesses are left out, or the earlier
        ones: first all of a site, then those of one strand."""
        first = self.run.copy, positions
        for word in ("{1.site}", "{0.site}", "{1.site}@{1.segment}"):
            race, without = first, frozenset()
            while race and len(self.found) < MOST_RACES:
                pair = self.accesses(*race)
                if len(pair) != 2:
                    break
                self.found.setdefault(frozenset(map(self.place, pair)), pair)
                without |= {word.format(*pair)}
                race = self.ask(without)

    def ask(self, without):
        """The race of the trace without the accesses of some sites, or of one strand: that trace and positions, or None."""
        if self.count == MOST_QUESTIONS or time.monotonic() - self.began > SECONDS:
            return None
        self.count += 1
        out = os.path.join(self.run.work, f"trace.{self.count}")
        words = [self.parts, self.run.copy, "without", out, *without]
        if subprocess.run(words, check=False).returncode:
            return None
        answer = re.match(r"(?:refused 311|race) (\d+) (\d+)\b", self.run.asked(out).stdout)
        return (out, (int(answer[1]), int(answer[2]))) if answer else None


def read_told(text, races, places):
    """The second run's lines: for each access its calls, and for each race its memory."""
    stacks, memory, k, address = {}, {}, None, 0
    blocks = {}
    for line in text.split("\n")[:-1]:
        words = line.split()
        if words[0] == "access":
            k, address, block = int(words[1]), int(words[2], 16), None
        elif words[0] == "block":
            block = int(words[1], 16), int(words[2], 16)
        elif words[0] == "stack":
            pairs = [tuple(int(part, 16) for part in w.split(":")) for w in words[1:]]
            if block:
                blocks[k] = (*block, places.stack([at for at, _ in pairs]))
            else:
                stacks[k] = address, pairs
    for race in range(len(races)):
        for k in (2 * race + 1, 2 * race):
            if k in stacks and race not in memory:
                memory[race] = whose(stacks[k][0], stacks[k][1], blocks.get(k), places)
    return {k: places.stack([at for at, _ in pairs]) for k, (_, pairs) in stacks.items()}, memory


def whose(address, frames, block, places):
    """Whose memory an address is, as a dictionary."""
    known = places.global_at(address)
    if known:
        return {"variable": known[0], "size": known[1], "byte": known[2]}
    if block and block[0] <= address < block[0] + block[1]:
        return {"block": block[1], "byte": address - block[0], "allocated": block[2]}
    for at, base in frames:
        if address < base + 16:
            places.ask([at])
            name = local_at(places.program, at, address - base - 16)
            found = {"local": name, "function": places.known[at][-1][2]}
            return found if frames[0][1] - 65536 < address else {}
    return {}


DIE = re.compile(r"^ *<([0-9a-f]+)><[0-9a-f]+>: Abbrev Number: \d+(?: \((DW_TAG_\w+)\))?")


def local_at(program, pc, offset):
    """The name of the local variable of the function at `pc` that lies at or next below an offset from its frame's end."""
    if os.path.getsize(program) > 1 << 24:
        return None
    best, inside, level, tag, low, name, shift = None, False, 0, None, None, None, 0
    with subprocess.Popen(["readelf", "--debug-dump=info", program], stdout=subprocess.PIPE, stderr=subprocess.DEVNULL,
                          text=True, errors="replace") as process:
        for line in process.stdout:
            found = DIE.match(line)
            if found:
                depth, tag, name, place = int(found[1], 16), found[2], None, None
                if inside and depth <= level:
                    process.kill()
                    break
                if tag == "DW_TAG_subprogram" and not inside:
                    here, low = depth, None
            elif tag == "DW_TAG_subprogram" and not inside and "DW_AT_low_pc" in line:
                low = int(line.rsplit(":", 1)[1], 16)
            elif tag == "DW_TAG_subprogram" and not inside and "DW_AT_high_pc" in line:
                high = int(line.rsplit(":", 1)[1], 16)
                inside, level = low is not None and low <= pc < (high if high > low else low + high), here
            elif inside and tag == "DW_TAG_subprogram" and "DW_AT_frame_base" in line:
                shift = 16 if "DW_OP_reg6" in line else 0  # clang counts from the frame pointer
            elif inside and tag in ("DW_TAG_variable", "DW_TAG_formal_parameter"):
                if "DW_AT_name" in line:
                    name = line.rsplit(":", 1)[1].strip()
                place = re.search(r"DW_OP_fbreg: (-?\d+)", line) or place
                if place and name:
                    at = int(place[1]) - shift
                    if at <= offset and (best is None or at > best[0]):
                        best = at, name
    return best[1] if best else None


def calls_text(stack, how):
    """Lines of an access's calls."""
    lines, times = [], 1
    for k, (file, line, function) in enumerate(stack):
        word = "  called" if lines else how
        if k + 1 < len(stack) and LAMBDA.search(function) and stack[k + 1][:2] == (file, line):
            continue  # what g++ and clang++ make of a spawn's statement
        told = f"  {word} at {file}:{line}, in {function}"
        times = times + 1 if lines and lines[-1].split(" (")[0] == told else 1
        if times > 1:
            lines[-1] = f"{told} ({times} times)"
        else:
            lines.append(told)
    return lines


def memory_text(memory):
    """A line or two of whose memory it is."""
    byte = f", from byte {memory['byte']}" if memory.get("byte") else ""
    if "variable" in memory:
        return [f"  memory: `{memory['variable']}` of {memory['size']} bytes{byte}"]
    if "block" in memory:
        return [f"  memory: a block of {memory['block']} bytes{byte}", *calls_text(memory["allocated"], "allocated")]
    if "local" in memory:
        named = f"`{memory['local']}`, " if memory["local"] else ""
        return [f"  memory: {named}a local variable of {memory['function']}"]
    return []


def as_table(race, stacks, memory, sites):
    """A race as a dictionary, for JSON and for its text."""
    table = {}
    for k, word in ((2 * race[0], "earlier"), (2 * race[0] + 1, "later")):
        access = race[1][k % 2]
        place, function = (sites.get(access.site, "?:0 ?").split(" ", 1) + ["?"])[:2]
        stack = stacks.get(k) or [(*place.rsplit(":", 1), function)]
        table[word] = {"kind": "write" if access.kind else "read", "bytes": access.size,
                       "calls": [{"file": f, "line": int(n), "function": g} for f, n, g in stack]}
    whose_it_is = memory.get(race[0], {})
    if "allocated" in whose_it_is:
        calls = [{"file": f, "line": n, "function": g} for f, n, g in whose_it_is["allocated"]]
        whose_it_is = dict(whose_it_is, allocated=calls)
    table["memory"] = whose_it_is
    return table


def as_text(table, number, total):
    """A race's lines."""
    lines = [f"race {number} of {total}:" if total > 1 else "the race:"]
    for word in ("earlier", "later"):
        access = table[word]
        stack = [(c["file"], c["line"], c["function"]) for c in access["calls"]]
        lines += calls_text(stack, f"{word} {access['kind']}")
    memory = dict(table["memory"])
    if "allocated" in memory:
        memory["allocated"] = [(c["file"], c["line"], c["function"]) for c in memory["allocated"]]
    return lines + memory_text(memory)


def read_sites(path):
    """A table of sites: `FILE:LINE FUNCTION` by number."""
    try:
        with open(path, encoding="utf-8", errors="replace") as f:
            return {int(n): rest for n, rest in (line.rstrip("\n").split(" ", 1) for line in f if line[0].isdigit())}
    except OSError:
        return {}


def find_races(run, answer, once):
    """The tables of a run's races, and whether a second run took another way."""
    positions = re.match(r"(?:refused 311|race) (\d+) (\d+)\b", answer)
    parts = tool(run.work) if positions else None
    if not parts:
        return [], False
    with open(run.pages, encoding="utf-8", errors="replace") as f:
        program, load_address, lines, *pages = f.read().split("\n")[:-1]
    sites = read_sites(run.sites)
    races = Races(run, parts, sites, [int(p, 16) for p in pages])
    races.find((int(positions[1]), int(positions[2])))
    pairs = list(races.found.values())
    stacks, memory, places = {}, {}, Places(program, int(load_address, 16))
    told = "" if once else run.repeat([access for pair in pairs for access in pair])
    is_same = told.endswith(f"\nend {lines}\n")
    if is_same:
        stacks, memory = read_told(told, pairs, places)
    else:
        memory = {k: whose(pair[1].address, [], None, places) for k, pair in enumerate(pairs)}
    return [as_table(race, stacks, memory, sites) for race in enumerate(pairs)], not is_same and not once


def unseen_calls(run):
    """What the trace of a run says that it lacks: [(position, name, file, line)]."""
    parts, found = tool(run.work), []
    if parts:
        done = subprocess.run([parts, run.copy, "unseen"], capture_output=True, text=True, check=False)
        found = [tuple(map(int, line.split())) for line in done.stdout.split("\n")[:-1]]
    else:
        with open(run.copy, "rb") as f:
            found = [(k, event[1]) for k, event in enumerate(cilktrace.events(f), 2) if event[0] == "unseen"]
    sites, calls = read_sites(run.sites), []
    for position, site in found:
        place, name = (sites.get(site, "?:0 ?").split(" ", 1) + ["?"])[:2]
        file, line = place.rsplit(":", 1)
        calls.append((position, name, os.path.normpath(file), int(line) if line.isdigit() else 0))
    return calls


def names_text(calls):
    """The names of calls, each once."""
    names = list(dict.fromkeys(name for _, name, _, _ in calls))
    return ", ".join(names[:MOST_NAMES]) + (f" and {len(names) - MOST_NAMES} more" if len(names) > MOST_NAMES else "")


def calls_lines(calls):
    """A line for each call that wasn't recorded, by its place."""
    lines = [f"not recorded: {name} at {file}:{line}" for _, name, file, line in calls]
    return lines[:MOST_NAMES] + ([f"not recorded: {len(lines) - MOST_NAMES} more"] if len(lines) > MOST_NAMES else [])


def refuse(answer, calls, is_strict):
    """The answer, and the status where it isn't the judge's: what isn't recorded is a refusal where that is wanted."""
    if not answer.startswith("race-free") or not calls:
        return answer, None
    return (f"refused 313 {calls[0][0]}", REFUSED) if is_strict else (f"{answer}: {names_text(calls)}", None)


def main(words):
    """The command; its status."""
    options = set()
    while words and words[0].startswith("--"):
        options.add(words.pop(0))
    if not words or options - {"--json", "--once", "--strict"}:
        raise Fault("run [--json] [--once] [--strict] PROGRAM ARGS..")
    judge = shlex.split(os.environ.get("CILKREC_JUDGE", "")) or [os.path.join(os.path.dirname(HERE), "cilk"), "judge"]
    with tempfile.TemporaryDirectory(prefix="cilkrec-") as work:
        run = Run(words, work, judge)
        judged = run.record()
        answer = judged.stdout.split("\n")[0].strip()
        calls = unseen_calls(run) if re.match("race-free,|race |refused", answer) else []
        tables, is_other = find_races(run, answer, "--once" in options)
    answer, refused = refuse(answer, calls, "--strict" in options)
    status = run.status or refused or judged.returncode
    if "--json" in options:
        told = {"answer": answer or judged.stderr.strip(), "status": run.status,
                "unseen": [{"name": name, "file": file, "line": line} for _, name, file, line in calls]}
        print(json.dumps(dict(told, races=tables)), file=sys.stderr)
        return status
    lines = [line for line in judged.stderr.strip().split("\n") if line]
    if run.status:
        lines.append(f"the program ended with status {run.status}")
    for k, table in enumerate(tables):
        lines += as_text(table, k + 1, len(tables))
    if is_other:
        lines.append("no calls are shown: a second run took another way, as where it reads other input")
    if tables and any(name == unseen.ATOMIC for _, name, _, _ in calls):
        lines.append("atomic operations ran beside these: what they order isn't in a trace")
    for line in lines + calls_lines(calls) + [answer]:
        if line:
            print(f"cilkrec: {line}", file=sys.stderr)
    return status
