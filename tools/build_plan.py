"""How long a build takes: the crates in their order, the minutes of docs/GATE.md, and a simulation of `rt ci`.

`rt ci` proves crates side by side, one a processor, each once those below it are proved, and first those with the
longest chain of crates above them, by their lines. An Estimate follows such a run: it compares the minutes that crates took with those
of the table, and simulates what is left.
"""

import os
import re

USUAL = 0.6  # how many times as long as the table, of a slow machine, a machine takes, while nothing of it is known
KNOWN_BY = 3.4  # the minutes of the table after which that counts for half
MINUTES_A_LINE = 0.0042  # of code, in a crate that the table doesn't have
LAST = 0.5  # minutes of the table once all is proved: the program runs and is copied
MEMORY = 4_500_000  # kilobytes of a process of the prover: few take more, most of them half


def crates_of(text):
    """The crates that a text such as crates.txt lists, each with those that it names."""
    found = {}
    for line in text.splitlines():
        head, colon, tail = line.split("#")[0].partition(":")
        if colon:
            found[head.split()[0]] = tail.split()
    return {name: [it for it in below if it in found] for name, below in found.items()}


def needed(found, top):
    """The crates that this one stands on, and itself, lower ones first, each with those that it names."""
    order = {}

    def visit(name):
        for it in found[name]:
            if it not in order:
                visit(it)
        order[name] = found[name]

    visit(top)
    return order


def minutes_of(table, names, lines):
    """The processor minutes of each crate's proof, from the table of docs/GATE.md; by its lines where it isn't there."""
    found = dict(re.findall(r"\| `(\w+)` \| *([\d.]+) *(?=\|)", table))
    return {name: float(found[name]) if name in found else lines[name] * MINUTES_A_LINE for name in names}


def chains(named, minutes):
    """For each crate the minutes of the longest chain that begins with it and goes up."""
    longest = {name: 0.0 for name in named}
    for name in reversed(list(named)):
        longest[name] += minutes.get(name, 0.0)
        for below in named[name]:
            longest[below] = max(longest[below], longest[name])
    return longest


def simulate(named, minutes, lanes, running=(), longest=None):
    """When each crate of `minutes` is proved, in minutes from now; those of `running` are under way, the others proved."""
    longest = longest or chains(named, minutes)
    left = sorted(minutes, key=lambda it: (it not in running, -longest[it]))
    ends, under_way, now = {}, {}, 0.0
    while left or under_way:
        for name in list(left):
            is_ready = all(it in ends or it not in minutes for it in named[name])
            if len(under_way) < lanes and (is_ready or name in running):
                left.remove(name)
                under_way[name] = now + minutes[name]
        name = min(under_way, key=under_way.get)
        now = ends[name] = under_way.pop(name)
    return ends


def processors():
    """How many crates are proved side by side here: by RT_JOBS, or else by processors, a control group's quota and memory."""
    if os.environ.get("RT_JOBS", "").isdigit():
        return max(1, int(os.environ["RT_JOBS"]))
    count = len(os.sched_getaffinity(0))
    try:
        with open("/proc/meminfo", encoding="ascii") as said:
            free = next(int(line.split()[1]) for line in said if line.startswith("MemAvailable:"))
        count = min(count, free // MEMORY)
    except (OSError, StopIteration, ValueError):
        pass
    try:
        with open("/sys/fs/cgroup/cpu.max", encoding="ascii") as said:
            quota, period = said.read().split()
        if quota != "max":
            count = min(count, int(quota) // int(period))
    except (OSError, ValueError):
        pass
    return max(1, count)


class Estimate:
    """The work left of a run of `rt ci`, by its lines so far. Times are in minutes since it began."""

    def __init__(self, named, minutes, lanes, usual=USUAL, kept=(), lines=None):
        self.named, self.minutes, self.lanes, self.usual = named, minutes, lanes, usual
        self.longest = chains(named, lines or minutes)  # (`rt ci` goes by lines)
        self.kept = set(kept)  # what an earlier run proved, if that is right
        self.done = set()
        self.began = {}  # the crates under way, as far as that can be guessed
        self.busy = 0.0  # the minutes that processors were at work, up to `seen`
        self.seen = 0.0
        self.of = 0.0  # the table's minutes of the crates proved in this run
        self.begin(0.0)

    def begin(self, now):
        """Gives the free processors to the crates that `rt ci` takes next."""
        todo = [it for it in self.named if it not in self.done | self.kept and it not in self.began]
        for name in sorted(todo, key=lambda it: -self.longest[it]):
            if len(self.began) < self.lanes and all(it in self.done | self.kept for it in self.named[name]):
                self.began[name] = now

    def proved(self, name, now, is_kept=False):
        """`rt ci` said that this crate is proved, or kept from an earlier run."""
        self.busy += len(self.began) * (now - self.seen)
        self.seen = now
        if name in self.kept and not is_kept:
            self.kept.clear()  # so what an earlier run proved isn't there any more
        if name in self.began:
            del self.began[name]
        elif self.began and not is_kept:
            del self.began[max(self.began, key=self.began.get)]  # (the guess was wrong)
        self.kept.discard(name)
        self.done.add(name)
        self.of += 0.0 if is_kept else self.minutes[name]
        self.begin(now)

    def slowness(self, now):
        """How many times as long as the table says a crate takes here, by the minutes that processors were at work."""
        took = self.usual * KNOWN_BY + self.busy + len(self.began) * (now - self.seen)
        slower = self.usual
        for _ in range(8):
            part = sum(min((now - began) / slower, 0.9 * self.minutes[name]) for name, began in self.began.items())
            slower = max(took / (KNOWN_BY + self.of + part), 0.1)
        return slower

    def left(self, now):
        """The minutes by the clock until the program is built."""
        slower = self.slowness(now)
        minutes = {it: slower * self.minutes[it] for it in self.named if it not in self.done | self.kept}
        for name, began in self.began.items():
            minutes[name] = max(minutes[name] - (now - began), 0.1 * minutes[name])
        ends = simulate(self.named, minutes, self.lanes, set(self.began), self.longest)
        return max(ends.values(), default=0.0) + LAST * slower


def read_line(line):
    """The crate that a line of `rt ci` says is proved, and whether it is kept from an earlier run; or None."""
    said = re.match(r"rt: (\w+) (?:(proved)$|is kept:)", line)
    return (said[1], said[2] is None) if said else None
