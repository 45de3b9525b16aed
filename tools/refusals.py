#!/usr/bin/env python3
"""docs/REFUSALS.md and `cilk explain` say the same of each number, in a row of a table or in an item of a list.

refusals.py            compares these of docs/REFUSALS.md with crates/cilk_messages; where the program is built (./cilk, or CILK),
                       each example that is a whole program is run, and has to be answered by its line; and the forms of docs/EDITORS.md
                       have to match what `--explain` writes
refusals.py --write    writes the rows and items anew from the crate

Its status is 0 where all agrees.
"""

import os
import re
import subprocess
import sys
import tempfile
import textwrap

TOP = os.path.dirname(os.path.dirname(os.path.realpath(__file__)))
DOCUMENT = f"{TOP}/docs/REFUSALS.md"
PROGRAM = os.environ.get("CILK", f"{TOP}/crates/cilk/out/cilk")
ROW = re.compile(r"\| `(?:program|input|fault|refused) (\d+)(?!\d| in )[^`]*` \| .* \| .* \|$")
ITEM = re.compile(r"- `(?:program|input|fault|refused) (\d+)(?!\d| in )[^`]*`, by ")


def unescaped(text):
    text = re.sub(r"\\u\{([0-9a-f]+)\}", lambda found: chr(int(found[1], 16)), text)
    return re.sub(r"\\(.)", r"\1", text)


def reasons():
    """Each number with the line, the kind and text of its example, and how the place is read."""
    with open(f"{TOP}/crates/cilk_messages/src/numbers.rt", encoding="utf-8") as file:
        table = unescaped(file.read().partition('NUMBERS: &str = "\\\n')[2].rpartition('"')[0])
    found = {}
    for entry in table.split("\n\n"):
        number, _meaning, example, line, place = entry.split("\n")[:5]
        kind, _blank, shown = example.partition(" ")
        found[int(number)] = (line, kind, shown, place)
    return found


def row(line, example, place):
    return [f"| `{line}` | {example} | {place} |"]


def item(line, example, place):
    text = f"- `{line}`, by {example}: {place}"
    return textwrap.wrap(text, 138, subsequent_indent="  ", break_long_words=False, break_on_hyphens=False)


def rewritten(document, known):
    """The document with each row and item as the crate has it, and their numbers."""
    lines, numbers, within = [], [], False
    for line in document.split("\n"):
        found = ROW.match(line) or ITEM.match(line)
        if found and int(found[1]) in known:
            number, within = int(found[1]), line.startswith("-")
            shown, kind, example, place = known[number]
            numbers.append(number)
            lines += (item if within else row)(shown, f"`{example}`" if kind == "program" else example, place)
        elif not (within and line.startswith("  ")):
            within = False
            lines.append(line)
    return "\n".join(lines), numbers


def answers(words):
    done = subprocess.run([PROGRAM, *words], capture_output=True, text=True, check=False)
    return done.stdout, done.stderr


def provoked(text, number, folder):
    """The line that the program says of a text, or of the certificate of its run."""
    path = f"{folder}/example.c"
    with open(path, "w", encoding="utf-8") as file:
        file.write(text)
    if number < 300:
        return answers(["run", path])[1]
    with open(f"{folder}/certificate", "w", encoding="utf-8") as file:
        file.write(answers(["certify", path])[0])
    return answers(["check", path, f"{folder}/certificate"])[0]


def forms():
    """The regular expressions of docs/EDITORS.md, by the word before each."""
    with open(f"{TOP}/docs/EDITORS.md", encoding="utf-8") as file:
        return re.findall(r'"regexp": "((?:[^"\\]|\\.)*)"', file.read())


def wrong_examples(known):
    wrong = []
    with tempfile.TemporaryDirectory() as folder:
        for number, (line, kind, example, _place) in sorted(known.items()):
            if kind == "program":
                said = provoked(example, number, folder).split("\n")[0]
                if said != line:
                    wrong.append(f"{number}: the example is answered by `{said}`, not by `{line}`")
        with open(f"{folder}/fault.c", "w", encoding="utf-8") as file:
            file.write("int x;\nint main() { x = 1 return x; }\n")
        said = answers(["run", f"{folder}/fault.c", "--explain"])[1].split("\n")
        for form in forms():
            found = re.match(form.replace("\\\\", "\\"), said[1])
            if not found or found.group(1, 2, 3) != (f"{folder}/fault.c", "2", "20"):
                wrong.append(f"docs/EDITORS.md: `{form}` doesn't match `{said[1]}`")
    return wrong


def main():
    known = reasons()
    with open(DOCUMENT, encoding="utf-8") as file:
        document = file.read()
    text, numbers = rewritten(document, known)
    if sys.argv[1:] == ["--write"]:
        with open(DOCUMENT, "w", encoding="utf-8") as file:
            file.write(text)
        return 0
    wrong = [] if sorted(numbers) == sorted(known) else [f"the numbers differ: {sorted(set(numbers) ^ set(known))}"]
    for here, there in zip(document.split("\n"), text.split("\n")):
        if here != there:
            wrong.append(f"docs/REFUSALS.md has\n  {here}\nand the crate\n  {there}")
    if os.access(PROGRAM, os.X_OK):
        wrong += wrong_examples(known)
    else:
        print("the program isn't built: its answers to the examples weren't compared")
    print("\n".join(wrong) if wrong else f"{len(known)} numbers agree")
    return 1 if wrong else 0


if __name__ == "__main__":
    sys.exit(main())
