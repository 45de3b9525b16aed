#!/usr/bin/env python3
"""Runs the cases of crates/cilk_rows/data by the built program, one process each, and makes new ones.

tools/cases.py run PROGRAM [REGEX] [--jobs N] [--limit SECONDS] [--light]
    runs each case whose name REGEX finds; what differs is printed, and last `N passed, M failed`; status 1 if any failed.
    With --light those in the file `slow` are left out, which go to a limit of a run: an unproved program takes minutes for one
tools/cases.py new [--program PROGRAM] [--folder FOLDER] [--stdin FILE] [--makes "FILE WORDS.."] NAME [WORDS..]
    makes or changes a case: its words, and the files of FOLDER (by default the current one) that they name; the
    program's answer is put into NAME.new beside it, and its difference from what the case wants is shown
tools/cases.py accept NAME
    the answer of `new` becomes what the case wants, and the case is listed: call it only once you have found by other
    means that the answer is right
tools/cases.py list
    lists the cases that are there anew, as after one was written or removed manually
tools/cases.py unpack NAME
    makes a folder NAME of the case's file, where each text is a file: edit these, and call `pack`
tools/cases.py pack
    takes each folder NAME into NAME.case, each file in place of the text of its name there, and lists the cases; while there
    is a folder, the calls above but `unpack` stop and say so

A case is a file NAME.case, listed in the file `cases`. It has texts by name, each below a line `-- NAME --`; the form is in
tools/case_files.py. Lines before the first such line tell its reader what the case is for. The texts are
  words     one word a line; none where the text isn't there. A word that names a text of the case means that file
  stdin     standard input
  out err   what goes to the two streams. `<..>` stands for any bytes
  status    the exit status, where it isn't 0
  makes     a line with the name of a file that is made first, and a line for each word of the call that shows it
  reads     how many times files are read; only crates/cilk_rows counts that
  unread    after how many reads of files each further one fails; only crates/cilk_rows serves such a case
  fills     lines `FILE COUNT TEXT`: TEXT is put COUNT times at the end of FILE, `\\n` in it for a line's end; after
            `makes`
and the files that its words name, which lie where the program runs. A text that isn't there is empty. Of `new`, PROGRAM is
by default the built one, or what CILK names. crates/cilk_rows serves the same cases in the gate.
"""

import argparse
import concurrent.futures
import difflib
import os
import re
import shlex
import shutil
import subprocess
import sys
import tempfile

sys.dont_write_bytecode = True
import case_files

TOP = os.path.dirname(os.path.dirname(os.path.realpath(__file__)))
DATA = f"{TOP}/crates/cilk_rows/data"
PROGRAM = os.environ.get("CILK", f"{TOP}/crates/cilk/out/cilk")
GAP = b"<..>"
WANTED = ("out", "err", "status")
OWN = WANTED + ("words", "stdin", "makes", "reads", "unread", "fills", "about")
NEW = ".new"
LIMIT = 60
MOST = 40  # lines of a difference


def path_of(name, ending=case_files.ENDING):
    """The file of a case."""
    return f"{DATA}/{name}{ending}"


def read(name):
    """The texts of a case by name; none where it isn't there."""
    try:
        return case_files.read(path_of(name))
    except FileNotFoundError:
        return {}


def put(texts, name, text):
    """Gives a case this text; an empty one isn't written."""
    texts.pop(name, None)
    if text:
        texts[name] = text


def lines(text):
    """The lines of a text, without their ends."""
    return text[: -1 if text.endswith(b"\n") else None].split(b"\n") if text else []


def names(listed="cases"):
    """All cases, in the order of the file that lists them; or those of another such file."""
    with open(f"{DATA}/{listed}", encoding="utf-8") as file:
        return file.read().splitlines()


def files_with(ending):
    """The names of the files with this ending in the folder of the cases."""
    return sorted(each[: -len(ending)] for each in os.listdir(DATA) if each.endswith(ending))


def folders():
    """The folders beside the cases' files."""
    return sorted(each for each in os.listdir(DATA) if os.path.isdir(f"{DATA}/{each}"))


def agrees(wanted, shown):
    """Whether a text is the wanted one, in which `<..>` stands for any bytes."""
    form = b".*".join(re.escape(piece) for piece in wanted.split(GAP))
    return re.fullmatch(form, shown, re.S) is not None


def call(program, words, folder, standard, limit):
    """The status and the two streams of a call of the program in a folder."""
    try:
        ended = subprocess.run(
            [os.path.abspath(program).encode()] + words, cwd=folder, input=standard, stdout=subprocess.PIPE,
            stderr=subprocess.PIPE, timeout=limit, check=False,
        )
    except subprocess.TimeoutExpired:
        return None, b"", f"no end in {limit} seconds\n".encode()
    return ended.returncode, ended.stdout, ended.stderr


def answer(program, texts, limit=LIMIT):
    """What the program shows of a case with these texts."""
    with tempfile.TemporaryDirectory(prefix="cases-") as room:
        for each in set(texts).difference(OWN):
            with open(f"{room}/{each}", "wb") as file:
                file.write(texts[each])
        standard = texts.get("stdin", b"")
        makes = lines(texts.get("makes", b""))
        if makes:
            status, made, told = call(program, makes[1:], room, b"", limit)
            if status is None:
                return status, b"", told
            with open(f"{room}/{makes[0].decode()}", "wb") as file:
                file.write(made)
        for each in lines(texts.get("fills", b"")):
            file_name, count, text = each.split(b" ", 2)
            text = text.replace(b"\\n", b"\n") * int(count)
            if file_name == b"stdin":
                standard += text
            else:
                with open(f"{room}/{file_name.decode()}", "ab") as file:
                    file.write(text)
        return call(program, lines(texts.get("words", b"")), room, standard, limit)


def difference(name, stream, wanted, shown):
    """How a text differs from the wanted one, as lines; none where it doesn't. The first one tells that it does."""
    if agrees(wanted, shown):
        return []
    texts = [text.decode("utf-8", "backslashreplace").split("\n") for text in (wanted, shown)]
    same = next((k for k, both in enumerate(zip(*texts)) if both[0] != both[1]), min(map(len, texts)))
    parts = [text[max(same - 1, 0) : same + MOST] for text in texts]
    told = list(difflib.unified_diff(*parts, f"{name}: wanted", f"{name}: shown", lineterm="", n=1))
    return [f"{name}: {stream} isn't as wanted, from line {same + 1} on", *told[:MOST]]


def differences(name, texts, status, out, err):
    """How a status and two streams differ from what a case with these texts wants, as lines; none where they don't."""
    wanted = int(texts.get("status", b"0"))
    told = [] if status == wanted else [f"{name}: status {wanted} is wanted, and it is {status}"]
    for stream, shown in (("out", out), ("err", err)):
        told += difference(name, stream, texts.get(stream, b""), shown)
    return told


def tried(program, name, limit):
    """How what the program shows of a case differs from what it wants."""
    texts = read(name)
    return differences(name, texts, *answer(program, texts, limit))


def run(program, form, jobs, limit, is_light):
    """Runs the cases whose names a form finds; the answer is the status."""
    chosen = [name for name in names() if re.search(form, name)]
    lacking = set(chosen).difference(files_with(case_files.ENDING))
    if lacking:
        sys.exit(f"{min(lacking)} is listed in {DATA}/cases and has no file: tools/cases.py list")
    chosen = [name for name in chosen if "unread" not in read(name)]
    if is_light:
        slow = set(names("slow"))
        print(f"left out: {len(slow.intersection(chosen))} cases that go to a limit of a run")
        chosen = [name for name in chosen if name not in slow]
    failed = 0
    with concurrent.futures.ThreadPoolExecutor(jobs) as pool:
        for told in pool.map(lambda name: tried(program, name, limit), chosen):
            failed += bool(told)
            if told:
                print("\n".join(told))
    print(f"{len(chosen) - failed} passed, {failed} failed")
    return 1 if failed else 0


def new(program, name, words, folder, standard, makes):
    """Makes a case, and shows how the program's answer differs from what the case wants so far."""
    if not re.fullmatch(r"[a-z0-9]+(-[a-z0-9]+)*", name):
        sys.exit("a case's name is small letters and digits, with `-` between its words")
    texts, made = read(name), shlex.split(makes) if makes else []
    put(texts, "words", "".join(f"{word}\n" for word in words).encode())
    put(texts, "makes", "".join(f"{word}\n" for word in made).encode())
    sources = {"stdin": standard} if standard else {}
    for word in set(words + made[1:]):
        if os.path.isfile(f"{folder}/{word}") and os.path.basename(word) == word and word not in OWN:
            sources[word] = f"{folder}/{word}"
    for each, source in sources.items():
        with open(source, "rb") as file:
            texts[each] = file.read()
    case_files.write(path_of(name), texts)
    status, out, err = answer(program, texts)
    shown = {"out": out, "err": err, "status": b"%d\n" % (status or 0)}
    case_files.write(path_of(name, NEW), shown)
    for stream in WANTED:
        wanted = texts.get(stream, b"0\n" if stream == "status" else b"")
        print("\n".join(difference(name, stream, wanted, shown[stream])) or f"{name}: {stream} as wanted")
    print(f"if this is right by other means than this program: tools/cases.py accept {name}")
    return 0


def accept(name):
    """Makes the answer of `new` what the case wants, and lists the case."""
    if not os.path.exists(path_of(name, NEW)):
        sys.exit(f"{name} has no answer: call `new` first")
    texts, shown = read(name), case_files.read(path_of(name, NEW))
    for stream in WANTED:
        put(texts, stream, b"" if stream == "status" and shown[stream] == b"0\n" else shown[stream])
    case_files.write(path_of(name), texts)
    os.remove(path_of(name, NEW))
    return list_cases()


def list_cases():
    """Lists the cases that are there, and how many are to pass in the gate."""
    there = files_with(case_files.ENDING)
    for name in there:
        read(name)
    with open(f"{DATA}/cases", "w", encoding="utf-8") as file:
        file.writelines(f"{name}\n" for name in there)
    with open(f"{os.path.dirname(DATA)}/stdout", "w", encoding="utf-8") as file:
        file.write(f"{len(there)} passed, 0 failed\n")
    return 0


def unpack(name):
    """Makes a folder of a case's file."""
    texts = read(name)
    os.mkdir(f"{DATA}/{name}")
    for each, text in texts.items():
        with open(f"{DATA}/{name}/{each}", "wb") as file:
            file.write(text)
    os.remove(path_of(name))
    return 0


def pack():
    """Takes the folders into the cases' files, and lists the cases."""
    for name in folders():
        texts = read(name)
        for each in os.listdir(f"{DATA}/{name}"):
            if not each.endswith(NEW):
                with open(f"{DATA}/{name}/{each}", "rb") as file:
                    texts[each] = file.read()
        case_files.write(path_of(name), texts)
        shutil.rmtree(f"{DATA}/{name}")
        print(f"{name}: a file")
    return list_cases()


def words_of(given):
    """The parts of the command line."""
    parser = argparse.ArgumentParser(description=__doc__, formatter_class=argparse.RawDescriptionHelpFormatter)
    commands = parser.add_subparsers(dest="command", required=True)
    runs = commands.add_parser("run")
    runs.add_argument("program")
    runs.add_argument("form", nargs="?", default="")
    runs.add_argument("--jobs", type=int, default=os.cpu_count() or 1)
    runs.add_argument("--limit", type=int, default=LIMIT)
    runs.add_argument("--light", action="store_true")
    makes = commands.add_parser("new")
    makes.add_argument("name")
    makes.add_argument("--program", default=PROGRAM)
    makes.add_argument("--folder", default=".")
    makes.add_argument("--stdin")
    makes.add_argument("--makes")
    makes.add_argument("words", nargs=argparse.REMAINDER)
    commands.add_parser("accept").add_argument("name")
    commands.add_parser("unpack").add_argument("name")
    commands.add_parser("list")
    commands.add_parser("pack")
    return parser.parse_args(given)


def done(given):
    """Does what the command line says; the answer is the status."""
    if given.command in ("pack", "unpack"):
        return pack() if given.command == "pack" else unpack(given.name)
    if folders():
        sys.exit(f"{DATA}/{folders()[0]} is a folder, and a case is a file: tools/cases.py pack takes it in")
    if given.command == "run":
        return run(given.program, given.form, given.jobs, given.limit, given.light)
    if given.command == "new":
        return new(given.program, given.name, given.words, given.folder, given.stdin, given.makes)
    return accept(given.name) if given.command == "accept" else list_cases()


def main():
    try:
        return done(words_of(sys.argv[1:]))
    except case_files.Malformed as fault:
        return str(fault)


if __name__ == "__main__":
    sys.exit(main())
