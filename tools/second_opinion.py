#!/usr/bin/env python3
"""Runs a program by a second reading of docs/LANGUAGE.md, and says whether its run has a race.

second_opinion.py PROGRAM [INPUT]

Standard output is what `cilk run` shows. The error stream has the counts of events, frames and strands, the span (the
most events of which each is before the next), and then `accepted`, or the first race as a refusal: `refused 311 P Q`
for two accesses, `refused 312 P Q` for a reducer's creation and a later `set` or `value`. A fault of the run is
`fault N at P` with its position; the limits 204 to 206 aren't there. A text with a fault isn't judged: it ends with
Python's own message.

It shares no text with the tool. Determinacy races are found by SP-bags (Feng and Leiserson, 1997), view-read races by
the spawns that a strand lies under. It is slow, and meant for programs of some 100,000 events.
"""

import re
import sys
import threading

MARKS = r"<=|>=|==|!=|&&|\|\||\+=|-=|\*=|\+\+|--|[(){}\[\];,=+\-*/%<>!]"
TOKEN = re.compile(r"\s+|//[^\n]*|/\*.*?\*/|(?P<it>[A-Za-z_]\w*|\d+|" + MARKS + ")", re.S)
LEAST, GREATEST = -(2**63), 2**63 - 1
OPERATORS = [["||"], ["&&"], ["==", "!="], ["<", "<=", ">", ">="], ["+", "-"], ["*", "/", "%"]]


def wrapped(x):
    return (x + 2**63) % 2**64 - 2**63


class Fault(Exception):
    """A fault of the run, by its number."""


class Returned(Exception):
    """A `return`, with its value."""


class Parser:
    """Reads a text by descent. Each part of the tree is a tuple whose first element is its kind."""

    def __init__(self, text):
        text = re.sub(r"^[ \t]*#[^\n]*", "", text, flags=re.M)
        self.tokens, at = [], 0
        while at < len(text):
            found = TOKEN.match(text, at)
            if not found:
                raise SyntaxError(f"no token at {text[at:at + 20]!r}")
            if found["it"]:
                self.tokens.append(found["it"])
            at = found.end()
        self.tokens += ["", ""]
        self.at = 0

    def peek(self, ahead=0):
        return self.tokens[self.at + ahead]

    def take(self, wanted=None):
        it = self.peek()
        if wanted not in (None, it):
            before = " ".join(self.tokens[max(self.at - 9, 0) : self.at])
            raise SyntaxError(f"{before} >>> {it} where {wanted} is wanted")
        self.at += 1
        return it

    def has(self, it):
        found = self.peek() == it
        self.at += found
        return found

    def several(self, part, end):
        """Parts with commas between them, up to the token after them."""
        found = [] if self.peek() == end else [part()]
        while found and self.has(","):
            found.append(part())
        self.take(end)
        return found

    def program(self):
        opening, functions = [], {}
        while self.peek():
            self.take()
            if self.peek() == "cilk_reducer":
                opening.append(("reducer", *self.reducer()))
                self.take(";")
            elif self.peek(1) == "(":
                name = self.take()
                self.take("(")
                self.has("void")
                functions[name] = (self.several(self.parameter, ")"), self.block())
            else:
                opening += self.several(self.opening, ";")
        return opening, functions

    def opening(self):
        name = self.take()
        if self.has("["):
            length = int(self.take())
            self.take("]")
            return ("array", length, name)
        sign = 1
        if self.has("="):
            sign = -1 if self.has("-") else 1
            return ("number", sign * int(self.take()), name)
        return ("number", 0, name)

    def parameter(self):
        self.take("int")
        return self.reducer() if self.peek() == "cilk_reducer" else (None, self.take())

    def reducer(self):
        self.take("cilk_reducer")
        self.take("(")
        monoid = self.take()
        self.take(")")
        return monoid, self.take()

    def block(self):
        self.take("{")
        parts = []
        while not self.has("}"):
            parts.append(self.statement())
        return ("block", parts)

    def statement(self):
        it = self.peek()
        if it == "{":
            return self.block()
        if it in (";", "int", "if", "while", "for", "cilk_for", "return", "cilk_sync", "print", "update", "set"):
            self.take()
            return getattr(self, "after_" + it.replace(";", "nothing"))()
        if it == "cilk_spawn" or self.peek(1) == "(":
            part = ("evaluate", self.right_side())
        else:
            part = self.assignment()
        self.take(";")
        return part

    def after_nothing(self):
        return ("block", [])

    def after_int(self):
        if self.peek() == "cilk_reducer":
            part = ("reducer", *self.reducer())
            self.take(";")
            return part
        return ("several", self.several(self.local, ";"))

    def local(self):
        name = self.take()
        return ("declare", name, self.right_side() if self.has("=") else ("number", 0), object())

    def condition(self):
        self.take("(")
        part = self.expression()
        self.take(")")
        return part

    def after_if(self):
        return ("if", self.condition(), self.statement(), self.statement() if self.has("else") else ("block", []))

    def after_while(self):
        return ("for", ("block", []), self.condition(), ("block", []), self.statement())

    def after_for(self):
        self.take("(")
        first, test, step = ("block", []), ("number", 1), ("block", [])
        if self.has("int"):
            first = self.local()
        elif self.peek() != ";":
            first = self.assignment()
        self.take(";")
        if self.peek() != ";":
            test = self.expression()
        self.take(";")
        if self.peek() != ")":
            step = self.assignment()
        self.take(")")
        return ("for", first, test, step, self.statement())

    def after_cilk_for(self):
        self.take("(")
        self.take("int")
        name = self.take()
        self.take("=")
        first = self.expression()
        self.take(";")
        self.take(name)
        self.take("<")
        end = self.expression()
        self.take(";")
        while not self.has(")"):
            self.take()
        return ("cilk_for", name, first, end, self.statement())

    def after_return(self):
        part = ("return", ("number", 0) if self.peek() == ";" else self.expression())
        self.take(";")
        return part

    def after_cilk_sync(self):
        self.take(";")
        return ("sync",)

    def after_print(self):
        part = ("print", self.condition())
        self.take(";")
        return part

    def after_update(self, kind="update"):
        self.take("(")
        name = self.take()
        self.take(",")
        part = (kind, name, self.expression())
        self.take(")")
        self.take(";")
        return part

    def after_set(self):
        return self.after_update("set")

    def assignment(self):
        if self.peek() in ("++", "--"):
            step = 1 if self.take() == "++" else -1
            return ("change", self.place(), "+", ("number", step))
        place = self.place()
        mark = self.take()
        if mark in ("++", "--"):
            return ("change", place, "+", ("number", 1 if mark == "++" else -1))
        if mark == "=":
            return ("assign", place, self.right_side())
        return ("change", place, mark[0], self.expression())

    def place(self):
        name = self.take()
        if self.has("["):
            index = self.expression()
            self.take("]")
            return ("element", name, index)
        return ("variable", name)

    def right_side(self):
        """A call, or an expression."""
        is_spawn = self.has("cilk_spawn")
        is_name = re.match(r"[A-Za-z_]", self.peek()) and self.peek() not in ("value", "input", "input_count")
        if not (is_spawn or is_name and self.peek(1) == "("):
            return self.expression()
        name = self.take()
        self.take("(")
        return ("call", is_spawn, name, self.several(self.expression, ")"))

    def expression(self, level=0):
        if level == len(OPERATORS):
            return self.unary()
        left = self.expression(level + 1)
        while self.peek() in OPERATORS[level]:
            left = ("binary", self.take(), left, self.expression(level + 1))
        return left

    def unary(self):
        it = self.peek()
        if it in ("-", "!"):
            return ("unary", self.take(), self.unary())
        if it == "(":
            return self.condition()
        if it.isdigit():
            return ("number", int(self.take()))
        if it not in ("value", "input", "input_count"):
            return self.place()
        self.take()
        self.take("(")
        inside = None if it == "input_count" else self.take() if it == "value" else self.expression()
        self.take(")")
        return (it, inside)


class Reducer:
    """A reducer with its view, its frame and place there, and where it was created."""

    def __init__(self, monoid, name):
        self.monoid, self.name = monoid, name
        self.view = {"add": 0, "min": GREATEST, "max": LEAST, "append": [], "affine": (1, 0)}[monoid]
        self.created = self.strand = None

    def single(self, x):
        return {"append": [x], "affine": (10, x)}.get(self.monoid, x)

    def update(self, x):
        left = self.view
        if self.monoid == "append":
            self.view = left + [x]
        elif self.monoid == "affine":
            self.view = wrapped(10 * left[0]), wrapped(10 * left[1] + x)
        else:
            self.view = {"add": lambda a, b: wrapped(a + b), "min": min, "max": max}[self.monoid](left, x)

    def number(self):
        return {"append": lambda v: len(v), "affine": lambda v: v[1]}.get(self.monoid, lambda v: v)(self.view)


class Under:
    """What a strand lies under: a spawn's child or the continuation beside it, and what these lie under."""

    def __init__(self, spawn=None, is_child=False, outer=None):
        self.spawn, self.is_child, self.outer = spawn, is_child, outer

    def spawns(self):
        it = self
        while it:
            yield it.spawn, it.is_child
            it = it.outer


def are_parallel(earlier, later):
    return bool({s for s, child in earlier.spawns() if child and s} & {s for s, child in later.spawns() if not child})


class Bags:
    """Disjoint sets of frames, each an S bag or a P bag."""

    def __init__(self):
        self.above, self.is_p = [], []

    def new(self):
        self.above.append(len(self.above))
        self.is_p.append(False)
        return len(self.above) - 1

    def find(self, x):
        while self.above[x] != x:
            self.above[x] = self.above[self.above[x]]
            x = self.above[x]
        return x

    def join(self, one, other, is_p):
        """The union of two bags, of which either may be absent."""
        if one is None or other is None:
            root = self.find(other if one is None else one)
        else:
            root = self.find(other)
            self.above[self.find(one)] = root
        self.is_p[root] = is_p
        return root

    def is_parallel(self, frame):
        return frame is not None and self.is_p[self.find(frame)]


class Frame:
    """A frame: its number, how many reducers it has made, its bags, what it is under, and the longest chains to its
    latest event and to its children's ends."""

    def __init__(self, bags, under, chain, number):
        self.number, self.made = number, 0
        self.name = self.s_bag = bags.new()
        self.p_bag = None
        self.under = self.at_begin = under
        self.chain, self.children = chain, 0


class Run:
    """The serial run: events are counted, and kept where a race may be asked of them."""

    def __init__(self, text, inputs):
        self.opening, self.functions = Parser(text).program()
        self.inputs = inputs
        self.bags = Bags()
        self.cells = {}
        self.last = {}  # of each cell the frames of a reader and of the last writer, as SP-bags keeps them
        self.accesses = {}  # of each cell (position, whether it writes, what its strand is under, the strand)
        self.output = []
        self.events = self.frames = self.strands = self.span = 0
        self.race = self.view_race = None

    def event(self, frame, *words):
        """One event more, whose words are as in a certificate; a cell and a reducer stand for themselves."""
        self.events += 1
        frame.chain += 1
        return self.events

    # Frames, spawns and syncs.

    def sync(self, frame):
        frame.chain = max(frame.chain, frame.children)
        self.event(frame, "sync")
        self.strands += 1
        if frame.p_bag is not None:
            frame.s_bag = self.bags.join(frame.p_bag, frame.s_bag, False)
            frame.p_bag = None
        frame.under = frame.at_begin

    def begun(self, under, chain=0):
        self.frames += 1
        frame = Frame(self.bags, under, chain, self.frames)
        self.event(frame, "begin", frame.number)
        self.strands += 1
        return frame

    def invoke(self, frame, is_spawn, body, cell=None):
        """A child runs the body, a function of its frame, whose result goes to the cell if there is one."""
        spawn = self.event(frame, "spawn" if is_spawn else "call", self.frames + 1)
        child = self.begun(Under(spawn, True, frame.under) if is_spawn else frame.under, frame.chain)
        result = body(child)
        self.sync(child)
        if cell is not None:
            self.write(child, cell, result)
        self.event(child, "end")
        if is_spawn:
            frame.children = max(frame.children, child.chain)
            frame.under = Under(spawn, False, frame.under)
            frame.p_bag = self.bags.join(frame.p_bag, child.s_bag, True)
        else:
            frame.chain = child.chain
            frame.s_bag = self.bags.join(frame.s_bag, child.s_bag, False)
        self.event(frame, "resume", frame.number)
        self.strands += 1

    # Cells and reducers.

    def access(self, frame, cell, writes, x):
        at = self.event(frame, "write" if writes else "read", cell, x)
        reader, writer = self.last.get(cell, (None, None))
        races = self.bags.is_parallel(writer) or writes and self.bags.is_parallel(reader)
        before = self.accesses.setdefault(cell, [])
        if races and not self.race:
            self.race = self.first_of(before, writes, frame.under), at
        if not self.race:
            before.append((at, writes, frame.under, self.strands))
        if writes:
            self.last[cell] = reader, frame.name
        elif not self.bags.is_parallel(reader):
            self.last[cell] = frame.name, writer

    def first_of(self, before, writes, under):
        """Of the accesses that race with one here, the first in the strand of greatest Hebrew number."""
        best = None
        for at, wrote, its, strand in before:
            if (writes or wrote) and are_parallel(its, under):
                if best is None or strand != best[2] and not are_parallel(best[1], its):
                    best = at, its, strand
        return best[0]

    def read(self, frame, cell):
        self.access(frame, cell, False, self.cells.get(cell, 0))
        return self.cells.get(cell, 0)

    def write(self, frame, cell, x):
        self.access(frame, cell, True, x)
        self.cells[cell] = x

    def create(self, frame, monoid):
        frame.made += 1
        made = Reducer(monoid, (frame.number, frame.made))
        made.created, made.strand = self.event(frame, "create", made), frame.under
        return ("reducer", made)

    def read_view(self, frame, reducer, *words):
        at = self.event(frame, *words)
        if frame.under is not reducer.strand and not self.view_race:
            self.view_race = reducer.created, at

    # Names: a scope tells of each name what it is; scopes are a tuple, the innermost last.

    def look(self, scopes, name):
        return next(scope[name] for scope in reversed(scopes) if name in scope)

    def cell(self, frame, scopes, place):
        """A variable's cell, or an element's, whose index is evaluated and checked."""
        if place[0] == "variable":
            return self.look(scopes, place[1])[1]
        return self.checked(scopes, place, self.evaluate(frame, scopes, place[2]))

    def checked(self, scopes, place, index):
        _, length, name = self.look(scopes, place[1])
        if not 0 <= index < length:
            raise Fault(202)
        return name, index

    # Statements.

    def whole(self):
        root = self.begun(Under())
        self.outermost, shown = {}, []
        for kind, what, name in self.opening:
            if kind == "reducer":
                self.outermost[name] = self.create(root, what)
                shown.append((name, self.outermost[name][1]))
            else:
                self.outermost[name] = ("array", what, name) if kind == "array" else ("cell", name)
                self.cells.update({name: what} if kind == "number" else {})
        result = self.function(root, "main", [])
        self.sync(root)
        self.event(root, "end")
        self.span = root.chain
        for name, reducer in shown:
            parts = reducer.view if reducer.monoid == "append" else [reducer.number()]
            self.output.append(" ".join(map(str, ["reducer", name, *parts])))
        return [*self.output, f"result {result}"]

    def function(self, frame, name, given):
        parameters, (_, parts) = self.functions[name]
        scope = {}
        for (monoid, parameter), argument in zip(parameters, given):
            scope[parameter] = argument if monoid else ("cell", (frame, parameter))
            if not monoid:
                self.write(frame, (frame, parameter), argument)
        try:
            for part in parts:
                if part[0] == "reducer":
                    scope[part[2]] = self.create(frame, part[1])
            self.all(frame, (self.outermost, scope), [part for part in parts if part[0] != "reducer"])
        except Returned as it:
            return it.args[0]
        return 0

    def call(self, frame, scopes, part, cell):
        _, is_spawn, name, arguments = part
        given = []
        for (monoid, _), argument in zip(self.functions[name][0], arguments):
            given.append(self.look(scopes, argument[1]) if monoid else self.evaluate(frame, scopes, argument))
        self.invoke(frame, is_spawn, lambda child: self.function(child, name, given), cell)

    def turns(self, frame, scopes, part, first, end):
        if end - first > 1:
            middle = first + (end - first) // 2
            self.invoke(frame, True, lambda child: self.turns(child, scopes, part, first, middle))
            self.invoke(frame, False, lambda child: self.turns(child, scopes, part, middle, end))
            return
        cell = frame, part[1]
        self.write(frame, cell, first)
        self.statement(frame, (*scopes, {part[1]: ("cell", cell)}, {}), part[4])

    def all(self, frame, scopes, parts):
        for part in parts:
            self.statement(frame, scopes, part)

    def put(self, frame, scopes, cell, right):
        if right[0] == "call":
            self.call(frame, scopes, right, cell)
        else:
            self.write(frame, cell, self.evaluate(frame, scopes, right))

    def statement(self, frame, scopes, part):
        getattr(self, "do_" + part[0])(frame, scopes, *part[1:])

    def do_block(self, frame, scopes, parts):
        self.all(frame, (*scopes, {}), parts)

    def do_several(self, frame, scopes, parts):
        self.all(frame, scopes, parts)

    def do_declare(self, frame, scopes, name, right, itself):
        scopes[-1][name] = ("cell", (frame, itself))
        self.put(frame, scopes, (frame, itself), right)

    def do_sync(self, frame, _):
        self.sync(frame)

    def do_assign(self, frame, scopes, place, right):
        if place[0] == "variable":
            self.put(frame, scopes, self.cell(frame, scopes, place), right)
            return
        index = self.evaluate(frame, scopes, place[2])
        x = self.evaluate(frame, scopes, right)
        self.write(frame, self.checked(scopes, place, index), x)

    def do_change(self, frame, scopes, place, operator, right):
        cell = self.cell(frame, scopes, place)
        left = self.read(frame, cell)
        self.write(frame, cell, self.binary(operator, left, self.evaluate(frame, scopes, right)))

    def do_if(self, frame, scopes, test, yes, no):
        self.statement(frame, (*scopes, {}), yes if self.evaluate(frame, scopes, test) else no)

    def do_for(self, frame, scopes, first, test, step, body):
        scopes = (*scopes, {})
        self.statement(frame, scopes, first)
        while self.evaluate(frame, scopes, test):
            self.statement(frame, (*scopes, {}), body)
            self.statement(frame, scopes, step)

    def do_cilk_for(self, frame, scopes, *part):
        first, end = self.evaluate(frame, scopes, part[1]), self.evaluate(frame, scopes, part[2])
        if first < end:
            self.invoke(frame, False, lambda child: self.turns(child, scopes, ("cilk_for", *part), first, end))

    def do_return(self, frame, scopes, right):
        raise Returned(self.evaluate(frame, scopes, right))

    def do_print(self, frame, scopes, right):
        x = self.evaluate(frame, scopes, right)
        self.output.append(str(x))
        self.event(frame, "print", x)

    def do_update(self, frame, scopes, name, right):
        x = self.evaluate(frame, scopes, right)
        reducer = self.look(scopes, name)[1]
        reducer.update(x)
        self.event(frame, "update", reducer, x)

    def do_set(self, frame, scopes, name, right):
        x = self.evaluate(frame, scopes, right)
        reducer = self.look(scopes, name)[1]
        self.read_view(frame, reducer, "set", reducer, x)
        reducer.view = reducer.single(x)

    def do_evaluate(self, frame, scopes, right):
        self.call(frame, scopes, right, None)

    # Expressions.

    def evaluate(self, frame, scopes, part):
        kind = part[0]
        if kind == "number":
            return part[1]
        if kind in ("variable", "element"):
            return self.read(frame, self.cell(frame, scopes, part))
        if kind == "unary":
            x = self.evaluate(frame, scopes, part[2])
            return wrapped(-x) if part[1] == "-" else int(not x)
        if kind == "binary":
            left = self.evaluate(frame, scopes, part[2])
            if part[1] in ("&&", "||"):
                decided = bool(left) == (part[1] == "||")
                return int(bool(left if decided else self.evaluate(frame, scopes, part[3])))
            return self.binary(part[1], left, self.evaluate(frame, scopes, part[3]))
        if kind == "value":
            reducer = self.look(scopes, part[1])[1]
            self.read_view(frame, reducer, "value", reducer, reducer.number())
            return reducer.number()
        if kind == "input_count":
            return len(self.inputs)
        place = self.evaluate(frame, scopes, part[1])
        if not 0 <= place < len(self.inputs):
            raise Fault(203)
        return self.inputs[place]

    def binary(self, operator, a, b):
        if operator in "/%":
            if b == 0:
                raise Fault(201)
            quotient = abs(a) // abs(b) * (1 if (a < 0) == (b < 0) else -1)
            return wrapped(quotient if operator == "/" else a - b * quotient)
        if operator in "+-*":
            return wrapped({"+": a + b, "-": a - b, "*": a * b}[operator])
        signs = {"==": a == b, "!=": a != b, "<": a < b, "<=": a <= b, ">": a > b, ">=": a >= b}
        return int(signs[operator])


def judge(words):
    with open(words[0], encoding="utf-8", errors="replace") as it:
        text = it.read()
    inputs = []
    for path in words[1:]:
        with open(path, encoding="utf-8") as it:
            inputs = list(map(int, it.read().split()))
    run = Run(text, inputs)
    try:
        lines = run.whole()
    except Fault as fault:
        print(f"fault {fault} at {run.events + 1}", file=sys.stderr)
        return
    print("\n".join(lines))
    print(f"size {run.events} {run.frames} {run.strands} span {run.span}", file=sys.stderr)
    number, pair = (311, run.race) if run.race else (312, run.view_race)
    print(f"refused {number} {pair[0]} {pair[1]}" if pair else "accepted", file=sys.stderr)


if __name__ == "__main__":
    if len(sys.argv) not in (2, 3):
        sys.exit(__doc__)
    sys.setrecursionlimit(10**6)
    threading.stack_size(2**29)
    judging = threading.Thread(target=judge, args=[sys.argv[1:]])
    judging.start()
    judging.join()
