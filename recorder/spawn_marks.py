#!/usr/bin/env python3
"""Puts the recorder's marks into a preprocessed text of C or C++ with OpenCilk's words.

spawn_marks.py [--clang] [--c++] FILE    writes the changed text to standard output

A spawned call is put between two calls of the runtime, and a write of its result is told after it:

    x = cilk_spawn f(a);
    { cilkrec_spawn_begin(); x = f(a); cilkrec_spawn_into(&x, sizeof(x)); cilkrec_spawn_end(); }

In C++ all this is the body of a lambda that is called at once, so that temporaries of the statement, such as copies of
its arguments, lie in a part of the stack that the spawned child owns. A place that isn't one name is found before the
spawn, as its parent does. `cilk_scope` gets a variable whose cleanup ends it. Variables with `cilk_reducer` are told to
the runtime where they are declared. Nothing else of the text changes, and no line moves, so that the compiler's
messages and the sites of accesses name the user's lines.

It knows tokens, brackets and statements, not types: what it can't place for sure it refuses, with file and line.
"""

import bisect
import re
import sys
from collections import namedtuple

TOKEN = re.compile(
    r"""(?P<text>(?:u8|u|U|L)?R"(?P<fence>[^()\\\s]{0,16})\(.*?\)(?P=fence)"
      |(?:u8|u|U|L)?"(?:\\.|[^"\\\n])*"|(?:u8|u|U|L)?'(?:\\.|[^'\\\n])*')
      |(?P<line>^[ \t]*\#[^\n]*)
      |(?P<word>[A-Za-z_]\w*)
      |(?P<number>\.?\d(?:'?[\w.])*)
      |(?P<mark>->|\+\+|--|::|&&|\|\||[-+*/%&|^=!<>]=|[^\s])""",
    re.S | re.M | re.X,
)
LINE_MARKER = re.compile(r'^# (\d+) "([^"\n]*)"', re.M)
OPENING = {")": "(", "]": "[", "}": "{"}
HEADS = ("if", "for", "while", "switch", "constexpr")
WORDS = re.compile(r"\bcilk_(spawn|scope|reducer)\b")
LOOP = re.compile(r"[ \t]*#[ \t]*pragma omp taskloop default\(shared\) grainsize\(1\)[ \t]*$")  # `cilk_for`, by cilk.h
OPENMP = re.compile(r"^[ \t]*#[ \t]*pragma[ \t]+omp\b[^\n]*", re.M)
# What begins no call.
OTHER_WORDS = set(
    "if for while do switch else return goto new delete sizeof throw try co_await co_yield co_return".split()
)
FUNCTION_NAMES = ("__func__", "__FUNCTION__", "__PRETTY_FUNCTION__")
INLINED = {"always_inline", "__always_inline__"}
INLINED_NAME = re.compile(r"\b(?:__always_inline__|always_inline)\b[^;{}]*?\b(?!__attribute__\b)(\w+)\s*\(")
# Attributes of functions whose accesses, or calls, the compiler then doesn't tell.
UNTOLD = re.compile(
    r"\b_*(no_sanitize(?:_thread|_address)?|no_address_safety_analysis|no_instrument_function"
    r"|disable_sanitizer_instrumentation|naked|optimize)_*\b(\s*\([^()]*\))?"
)
ATTRIBUTE = re.compile(r"((__attribute(__)?\s*\(\(|\[\[)[^;{}]*|^[ \t]*#[ \t]*pragma[ \t]+GCC[ \t]+)\Z", re.M)
LAMBDA = "[&]() __attribute__((no_instrument_function, noinline)) "
# libstdc++ has the members of std::string compiled: without this line they are compiled, and recorded, here.
COMPILED_STRING = "extern template class basic_string<char>;"

Token = namedtuple("Token", "kind text start end")


class Fault(Exception):
    """A use of a word that the recorder doesn't take; its text has file and line."""


class Marker:
    """One text: its tokens, the partner of each bracket, and the edits that were found."""

    def __init__(self, text, clang, cxx):
        self.text, self.clang, self.cxx, self.edits = text, clang, cxx, []
        self.returns, self.syncs, self.nexts = {}, {}, {}
        self.inlined = set(INLINED_NAME.findall(text)) if clang else set()
        self.tokens, loops = [], []  # loops: the `for` of each cilk_for
        for m in TOKEN.finditer(text):
            if m.lastgroup == "line":
                loops += [len(self.tokens)] if LOOP.match(m.group()) else []
            else:
                kind = m.lastgroup if m.lastgroup != "fence" else "text"
                self.tokens.append(Token(kind, m.group(), m.start(), m.end()))
        self.markers = [(m.start(), int(m[1]), m[2]) for m in LINE_MARKER.finditer(text)]
        self.partner, self.outer = self.brackets()
        self.turns = {self.partner[k + 1] + 1 for k in loops if k + 1 in self.partner}  # what the body begins with

    def brackets(self):
        """The partner of each bracket, and for each of this pass's words the brackets open round it."""
        partner, outer, stack = {}, {}, []
        for i, token in enumerate(self.tokens):
            if token.kind == "mark" and token.text in "([{":
                stack.append(i)
            elif token.kind == "mark" and token.text in ")]}":
                if not stack or self.tokens[stack[-1]].text != OPENING[token.text]:
                    raise self.fault(i, f"`{token.text}` closes nothing")
                partner[i] = stack.pop()
                partner[partner[i]] = i
            elif token.kind == "word" and WORDS.fullmatch(token.text):
                outer[i] = list(stack)
            elif token.kind == "word" and token.text in ("return", "cilkrec_sync", "continue"):
                {"return": self.returns, "continue": self.nexts}.get(token.text, self.syncs)[i] = list(stack)
        return partner, outer

    def fault(self, i, what):
        """A Fault at a token, by the compiler's line markers."""
        offset = self.tokens[i].start
        k = bisect.bisect_right(self.markers, (offset,)) - 1
        if k < 0:
            return Fault(f"line {self.text.count(chr(10), 0, offset) + 1}: {what}")
        start, line, name = self.markers[k]
        return Fault(f"{name}:{line + self.text.count(chr(10), start, offset) - 1}: {what}")

    def insert(self, offset, text):
        """An insertion; those at one place stand in the order in which they came."""
        self.edits.append((offset, offset, text))

    def remove(self, first, last):
        """Removes the tokens from `first` to `last`, but for their line feeds."""
        start, end = self.tokens[first].start, self.tokens[last].end
        self.edits.append((start, end, "\n" * self.text.count("\n", start, end)))

    def is_label(self, colon, last):
        """Whether a colon ends a label, not the middle of `? :`."""
        for k in range(colon - 1, max(colon - 40, -1), -1):
            if self.tokens[k].text in (";", "{", "}"):
                return True
            if self.tokens[k].text == "?":
                raise self.fault(last, "cilk_spawn inside `? :`; give it a statement of its own")
        return True

    def statement_start(self, spawn):
        """The first token of the statement that a `cilk_spawn` is in."""
        k = spawn
        while k > 0:
            before = self.tokens[k - 1].text
            if before in (";", "{", "}", "else", "do") or before == ":" and self.is_label(k - 1, spawn):
                break
            if before == "(" or before == "[":
                raise self.fault(spawn, "cilk_spawn inside an expression; give it a statement of its own")
            if before == ")":
                opening = self.partner[k - 1]
                if self.tokens[opening - 1].text in HEADS:
                    break
                k = opening
            elif before == "]":
                k = self.partner[k - 1]
            else:
                k -= 1
        return k

    def statement_end(self, spawn):
        """The `;` that ends the statement of a `cilk_spawn`."""
        k = spawn + 1
        while k < len(self.tokens):
            text = self.tokens[k].text
            if text == ";":
                return k
            if text == "cilk_spawn":
                raise self.fault(k, "a second cilk_spawn in one statement")
            if text in ")]}" and self.tokens[k].kind == "mark":
                break
            k = self.partner[k] + 1 if text in "([{" and self.tokens[k].kind == "mark" else k + 1
        raise self.fault(spawn, "cilk_spawn is no statement of its own")

    @staticmethod
    def declares(place):
        """Whether these tokens before a `=` declare a variable, as `int x` or `std::vector<int> v`."""
        if len(place) < 2 or place[-1].kind != "word" or not (place[0].kind == "word" or place[0].text == "::"):
            return False
        if place[1].text in (",", "=", ".", "->", "[", "(", "++", "--"):
            return False
        return place[-2].kind == "word" or place[-2].text in ("*", "&", "&&", ">", ",")

    def place_of_result(self, i, first):
        """The tokens between the statement's begin and the `=` before a `cilk_spawn`."""
        left = self.tokens[first:i]
        if [t.text for t in left] == ["(", "void", ")"]:
            left = []
        if left and left[-1].text != "=":
            raise self.fault(
                i, f"cilk_spawn after `{left[-1].text}`; a spawned call is a statement, or the right side of `=`"
            )
        if not self.declares(left[:-1]) and any(t.text == "," for t in left):
            raise self.fault(i, "cilk_spawn after `,`; give it a statement of its own")
        return left[:-1]

    def refuse_place(self, i, place):
        """Refuses a place of a result that does more than to name memory: C and C++ don't do that at the same time."""
        for k, token in enumerate(place):
            text, before = token.text, place[k - 1] if k else token
            is_call = text == "(" and k and (before.kind == "word" or before.text in (")", "]", ">"))
            if text in ("++", "--") or token.kind == "mark" and re.fullmatch(r"[-+*/%&|^]?=", text):
                raise self.fault(i, f"`{text}` on the left of cilk_spawn; give it a statement of its own")
            if is_call and before.text not in ("sizeof", "alignof", "_Alignof"):
                raise self.fault(i, "a call on the left of cilk_spawn; give it a statement of its own")

    def after_angles(self, k, last):
        """The token after a list of a template's arguments, or None."""
        depth = 0
        while k < last:
            text = self.tokens[k].text
            depth += (text == "<") - (text == ">")
            if depth == 0:
                return k + 1
            k = self.partner[k] + 1 if text in ("(", "[", "{") else k + 1
        return None

    def after_part(self, k, first, last):
        """The token after one part of what is called, or after its arguments; None where there is an operator."""
        token = self.tokens[k]
        if token.kind == "word" and token.text == "operator":
            return next((j for j in range(k + 1, last) if self.tokens[j].text == "("), None)
        if token.kind == "word":
            return None if token.text in OTHER_WORDS else k + 1
        if token.text == "[" and k == first:  # a lambda, up to its body
            while k < last and self.tokens[k].text != "{":
                k = self.partner[k] + 1 if self.tokens[k].text in ("(", "[") else k + 1
        if self.tokens[k].text in ("(", "[", "{"):
            return self.partner[k] + 1
        if token.text == "<" and self.cxx:
            return self.after_angles(k, last)
        return k + 1 if token.text in (".", "->", "::", "~") else None

    def is_one_call(self, k, last):
        """Whether the tokens from `k` to `last` are one call, as `f(x)`, `p->f<int>(x)` or `[&] { .. }()`."""
        if [t.text for t in self.tokens[k : k + 3]] == ["(", "void", ")"]:
            k += 3
        if k >= last or self.tokens[last - 1].text != ")":
            return False
        if self.tokens[k].text == "(" and self.partner[k] == last - 1:
            return self.is_one_call(k + 1, last - 1)
        first = k
        while k is not None and k < last:
            k = self.after_part(k, first, last)
        return k == last

    def refuse_names(self, first, last):
        """Refuses a function's own name: in C++ the statement is the body of a lambda."""
        k = first
        while k < last:
            if self.tokens[k].text in FUNCTION_NAMES:
                name = self.tokens[k].text
                raise self.fault(k, f"{name} in a statement with cilk_spawn; keep it in a variable before")
            k = self.partner[k] + 1 if self.tokens[k].text == "{" else k + 1

    def refuse_inlined(self, i, last):
        """Refuses a spawn in a function that the compiler puts into another one, whose frame it would have, and with clang
        one of such a function, which has no hooks there."""
        brace = self.body_of(self.outer[i])
        if brace and INLINED & set(self.head_of(brace)):
            raise self.fault(i, "a function that spawns is always_inline: take that attribute away")
        if self.clang and self.tokens[last - 1].text == ")":
            if self.tokens[self.partner[last - 1] - 1].text in self.inlined:
                raise self.fault(i, "a function that is always_inline is spawned: clang has no frame for it; "
                                    "take that attribute away")

    def mark_spawn(self, i):
        """The marks of one spawn."""
        if self.tokens[i + 1].text == "{":
            raise self.fault(i, "cilk_spawn of a block; put the block into a function")
        first, last = self.statement_start(i), self.statement_end(i)
        self.refuse_inlined(i, last)
        place, begin, into = self.place_of_result(i, first), "cilkrec_spawn_begin(); ", ""
        if self.cxx:
            begin = "cilkrec_spawn_inside(); "
        elif self.clang:  # so that the stack has no fixed room for arguments: they come to lie below the mark
            begin = "(void)__builtin_alloca(cilkrec_spawn_begin()); "
        declares = self.declares(place)
        if declares:
            self.refuse_variables(i, last)
        else:
            self.refuse_place(i, place)
        if not self.is_one_call(i + 1, last):
            raise self.fault(i, "cilk_spawn of more than a call; give that call a statement of its own")
        if self.cxx:
            self.refuse_names(first, last)
        if declares and place[-2].text in ("&", "&&"):
            into = self.into_reference(i, last, place[-1].text)
        elif declares or len(place) == 1:
            into = f" cilkrec_spawn_into((void *)&{place[-1].text}, sizeof({place[-1].text}));"
        elif place:
            where = " ".join(self.text[place[0].start : place[-1].end].split())
            begin = f"__typeof__(&({where})) cilkrec_place = &({where}); {begin}*cilkrec_place "
            into = " cilkrec_spawn_into((void *)cilkrec_place, sizeof(*cilkrec_place));"
            self.remove(first, i - 2)
        self.remove(i, i)
        if declares:
            self.mark_declaration(i, first, last, begin, into)
            return
        opening, closing = ("{ " + LAMBDA + "{ ", " }(); }") if self.cxx else ("{ ", " }")
        self.insert(self.tokens[first].start, opening + begin)
        self.insert(self.tokens[last].end, f"{into} cilkrec_spawn_end();{closing}")

    def into_reference(self, i, last, name):
        """The write of the value that a reference keeps, where the call gives one: it may give a reference itself."""
        if any(self.tokens[k].text == "[" and not self.is_subscript(k) for k in range(i + 1, last)):
            raise self.fault(i, "a lambda beside cilk_spawn in the first value of a reference; give it a name before")
        given = " ".join(self.text[self.tokens[i + 1].start : self.tokens[last - 1].end].split())
        return f" if (cilkrec_given<decltype({given})>::is_value) cilkrec_spawn_into((void *)&{name}, sizeof({name}));"

    def is_subscript(self, k):
        """Whether a `[` follows what it is an index of, so that it begins no lambda."""
        before = self.tokens[k - 1]
        return before.kind == "word" and before.text not in ("return", "cilk_spawn") or before.text in (")", "]")

    def type_of(self, first, i):
        """The type of a declared variable: what the lambda gives, so that a value is made before its arguments end."""
        words = [t.text for t in self.tokens[first : i - 2]]  # without the name and `=`
        if {"&", "&&", "decltype", "["} & set(words):
            return "decltype(auto)"
        kept = [w for w in words if w not in ("static", "const", "constexpr", "volatile", "register", "thread_local",
                                              "extern", "inline", "mutable")]
        if "*" in words:  # a pointer's `const` is part of what it points to
            kept = [w for w in words if w not in ("static", "constexpr", "register", "thread_local", "extern", "inline")]
        return " ".join(kept)

    def refuse_variables(self, i, last):
        """Refuses a declaration of more variables."""
        k, angles = i + 1, 0
        while k < last:
            text = self.tokens[k].text
            angles += {"<": 1, ">": -1}.get(text, 0)
            if text == "," and angles == 0:
                raise self.fault(i, "a declaration goes on after cilk_spawn; declare one variable")
            k = self.partner[k] + 1 if text in ("(", "[", "{") else k + 1

    def mark_declaration(self, i, first, last, begin, into):
        """The marks of a spawn whose result is a variable's first value."""
        if self.cxx:
            self.insert(self.tokens[i].start, f"{LAMBDA}-> {self.type_of(first, i)} {{ {begin}return ")
            self.insert(self.tokens[last].start, "; }()")
        else:
            self.insert(self.tokens[first].start, begin)
        self.insert(self.tokens[last].end, f"{into} cilkrec_spawn_end();")

    def mark_scope(self, i):
        """The variable of a scope."""
        if self.tokens[i + 1].text != "{":
            raise self.fault(i, "cilk_scope without braces")
        self.remove(i, i)
        self.insert(
            self.tokens[i + 1].end,
            f" int cilkrec_scope_{i} __attribute__((cleanup(cilkrec_scope_end))) = cilkrec_scope_begin();",
        )

    def head_of(self, i):
        """The texts of the tokens before token `i` in its statement or declaration."""
        k = i
        while k > 0 and self.tokens[k - 1].text not in (";", "{", "}"):
            k = self.partner[k - 1] if self.tokens[k - 1].text in (")", "]") else k - 1
        return [t.text for t in self.tokens[k:i]]

    def brace_kind(self, brace):
        """`namespace`, `record` or `code`."""
        head = self.head_of(brace)
        if "namespace" in head or head[-2:] == ["extern", '"C"']:
            return "namespace"
        if {"struct", "class", "union", "enum"} & set(head) and head[-1:] != [")"] and "=" not in head:
            return "record"
        return "code"

    def is_body(self, brace):
        """Whether a brace begins the body of a function or lambda, not a block in one, a class or a list."""
        k, last = brace - 1, self.tokens[brace - 1]
        if last.text in (";", ":", "{", "}", "else", "do", "try", "=", ",", "(", "return") or brace == 0:
            return False
        while k > 0 and self.tokens[k].text not in (";", "{", "}", "(", ","):
            if self.tokens[k].text == ")":
                before = self.tokens[self.partner[k] - 1].text
                if before not in ("noexcept", "decltype", "__attribute__", "throw", "requires"):
                    return before not in HEADS + ("catch",)
                k = self.partner[k]
            elif self.tokens[k].text == "]":  # of a lambda without parameters, not of a list's length
                before = self.tokens[self.partner[k] - 1]
                return before.kind == "mark" and before.text not in (")", "]", ">") or before.text == "return"
            k -= 1
        return False

    def body_of(self, outer):
        """The brace of the innermost function's body among open brackets, or None."""
        for brace in reversed(outer):
            if self.tokens[brace].text == "{" and self.tokens[brace].kind == "mark" and self.is_body(brace):
                return brace
        return None

    def turn_of(self, outer):
        """The brace of the innermost body of a function or of a cilk_for among open brackets, or None."""
        for brace in reversed(outer):
            if self.tokens[brace].text == "{" and (brace in self.turns or self.is_body(brace)):
                return brace
        return None

    def is_looped(self, k):
        """Whether the statement or block that begins at token `k` is a loop's body, or in one without braces."""
        while k > 0:
            before = self.tokens[k - 1].text
            if before in ("for", "while", "do"):
                return True
            if before in (";", "}", "{") and (before == "{" or self.tokens[k].text != "else"):
                return False
            k = self.partner[k - 1] if before in (")", "]", "}") else k - 1
        return False

    def ends_turn(self, i, outer):
        """Whether a `continue` ends a turn of the cilk_for whose body it is in, not one of a loop in that body."""
        for brace in reversed(outer):
            if self.is_looped(i) or self.tokens[brace].text != "{":
                return False
            if brace in self.turns:
                return True
            i = brace
        return False

    def mark_ends(self):
        """The implicit sync at the end of each function, and turn of a cilk_for, that spawns comes before its
        variables' destructors."""
        bodies = {self.turn_of(self.outer[i]) for i in self.outer if self.tokens[i].text == "cilk_spawn"} - {None}
        for i, outer in self.nexts.items():
            if self.turn_of(outer) in bodies and self.ends_turn(i, outer):
                self.insert(self.tokens[i].start, "{ cilkrec_sync(); ")
                self.insert(self.tokens[i + 1].end, " }")
        for brace in bodies:
            self.insert(self.tokens[self.partner[brace]].start, " cilkrec_sync(); ")
        for i, outer in self.returns.items():
            if self.body_of(outer) in bodies:
                end = self.statement_end(i)
                self.insert(self.tokens[i].start, "{ int cilkrec_end __attribute__((cleanup(cilkrec_leave), unused)) = 0; ")
                self.insert(self.tokens[end].end, " }")
        for i in self.outer:
            if self.tokens[i].text == "cilk_scope":
                self.insert(self.tokens[self.partner[i + 1]].start, " cilkrec_sync(); ")

    def declared_names(self, i, end):
        """The variables that a declaration's list from token `i` on declares: not its pointers and references."""
        names, k, fresh = [], i, True
        while k < end:
            token = self.tokens[k]
            if fresh and token.kind == "word":
                names.append(token.text)
            fresh = token.text == ","
            k = self.partner[k] + 1 if token.text in "([{" and token.kind == "mark" else k + 1
        return names

    def mark_reducer(self, i):
        """Takes the word away, and tells the runtime of the variables."""
        if self.tokens[i + 1].text != "(":
            raise self.fault(i, "cilk_reducer without `(`")
        close = self.partner[i + 1]
        self.remove(i, close)
        head, outer = self.head_of(i), self.outer[i]
        following = self.tokens[close + 1]
        if "extern" in head and "\"C\"" not in head or following.text in ("*", "&", "&&"):
            return
        if {"typedef", "using", "new"} & set(head) or following.kind != "word":
            raise self.fault(i, "cilk_reducer is taken in declarations of variables alone")
        if outer and self.tokens[outer[-1]].text != "{":
            raise self.fault(i, "a reducer as a parameter; pass a pointer to it")
        kinds = [self.brace_kind(k) for k in outer]
        if kinds[-1:] == ["record"]:
            raise self.fault(i, "a reducer as a member")
        end = close
        while self.tokens[end].text != ";":
            end = self.partner[end] + 1 if self.tokens[end].text in ("(", "[", "{") else end + 1
        names = self.declared_names(close + 1, end)
        if "code" in kinds and "static" in head:
            raise self.fault(i, "a reducer that is static in a function; make it a global one")
        for name in names:
            if "code" in kinds:
                call = f" cilkrec_reducer_local((void *)&{name}, sizeof({name}));"
            else:
                call = (
                    " __attribute__((constructor, no_instrument_function, noinline)) static void"
                    f" cilkrec_reducer_{name}_{i}(void) {{ cilkrec_reducer_global((void *)&{name}, sizeof({name})); }}"
                )
            self.insert(self.tokens[end].end, call)

    def marked(self):
        """The changed text."""
        marks = {"cilk_spawn": self.mark_spawn, "cilk_scope": self.mark_scope, "cilk_reducer": self.mark_reducer}
        for i in self.outer:
            marks[self.tokens[i].text](i)
        for i, outer in self.syncs.items():  # its frame would be another function's, whose children it doesn't wait for
            if INLINED & set(self.head_of(self.body_of(outer) or 0)):
                raise self.fault(i, "a function that syncs is always_inline: take that attribute away")
        if self.cxx or re.search(r"\bcleanup\b", self.text):
            self.mark_ends()
        out, done = [], 0
        for start, end, text in sorted(self.edits, key=lambda e: e[0]):
            out += [self.text[done : max(start, done)], text]
            done = max(done, end)
        return "".join(out + [self.text[done:]])


def hides(word, arguments, clang):
    """Whether an attribute takes away what cilkrec needs of a compiler: gcc's thread sanitizer, or clang's address one."""
    wanted = "address" if clang else "thread"
    if word == "no_sanitize":
        return bool(re.search(rf'"(all|{wanted})"|\b{wanted}\b', arguments or ""))
    if word == "optimize":
        return not clang
    if word.startswith("no_sanitize_"):
        return word == "no_sanitize_" + wanted
    return clang or word not in ("no_address_safety_analysis", "disable_sanitizer_instrumentation")


def place_of(text, offset):
    """(file, line) of a place in a preprocessed text, by its line markers."""
    before = list(LINE_MARKER.finditer(text, 0, offset))
    if not before:
        return "?", 1 + text.count("\n", 0, offset)
    return before[-1][2], int(before[-1][1]) + text.count("\n", before[-1].start(), offset) - 1


def refuse_untold(text, clang, own):
    """Raises Fault at an attribute that hides a function, but for those in the recorder's own folder of headers."""
    for found in UNTOLD.finditer(text):
        if not hides(found[1], found[2], clang):
            continue
        way = ATTRIBUTE.search(text, max(0, found.start() - 400), found.start())
        name, line = place_of(text, found.start()) if way else ("<", 0)
        if name.startswith("<") or own and name.startswith(own):
            continue
        kind = "#pragma GCC" if "#" in way[0] else "attribute"
        raise Fault(f"{name}:{line}: {kind} {found[1]}: what its function does isn't recorded")


def without_openmp(text, has_openmp):
    """The text without OpenMP's pragmas, but for those of cilk_for, as a compiler takes it that isn't told of them."""
    for found in OPENMP.finditer(text):
        if has_openmp and not LOOP.match(found[0]):
            name, line = place_of(text, found.start())
            raise Fault(f"{name}:{line}: `#pragma omp` with -fopenmp: of OpenMP only cilk_for's loops are recorded")
    return OPENMP.sub(lambda found: found[0] if LOOP.match(found[0]) else "", text)


def marked(text, clang, cxx, own="", has_openmp=False):
    """The text with its marks; a text without OpenCilk's words as it is."""
    refuse_untold(text, clang, own)
    text = without_openmp(text, has_openmp)
    if cxx:
        text = text.replace(COMPILED_STRING, " " * len(COMPILED_STRING))
    return Marker(text, clang, cxx).marked() if WORDS.search(text) else text


def main(words):
    """The command."""
    clang, cxx = "--clang" in words, "--c++" in words
    if len(words) != 1 + clang + cxx or words[-1].startswith("--"):
        sys.exit(__doc__)
    try:
        with open(words[-1], encoding="latin-1") as f:
            sys.stdout.buffer.write(marked(f.read(), clang, cxx).encode("latin-1"))
    except (OSError, Fault) as e:
        sys.exit(f"spawn_marks.py: {e}")


if __name__ == "__main__":
    main(sys.argv[1:])
