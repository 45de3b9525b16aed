#!/usr/bin/env python3
"""Plays programs by scripts made by chance, and compares what is left with what `run` shows.

random_schedules.py COUNT PROGRAM... [--cilk COMMAND] [--seed N] [--input FILE]

Each program is played COUNT times with 1 to 8 workers: choices by chance, then `all`. Where `check` accepts the program's own
certificate, each play has to leave the run's lines; of a racy one the number of different answers is shown.
"""

import argparse
import os
import random
import subprocess
import sys
import tempfile

TOP = os.path.dirname(os.path.dirname(os.path.realpath(__file__)))


def shown(command):
    """The lines on standard output, and the status."""
    done = subprocess.run(command, stdout=subprocess.PIPE, stderr=subprocess.PIPE, check=False, timeout=120)
    return done.stdout + done.stderr, done.returncode


def script(chance, workers, length):
    lines = []
    for _ in range(length):
        worker = chance.randint(1, workers)
        if chance.random() < 0.4:
            lines.append(f"steal {worker} {chance.randint(0, 3)}")
        else:
            lines.append(f"run {worker} {chance.randint(1, 9)}")
    return "\n".join(lines + ["all", ""])


def accepted(cilk, program, more, folder):
    text, status = shown(cilk + ["certify", program] + more)
    if status != 0:
        return False
    path = os.path.join(folder, "certificate")
    with open(path, "wb") as file:
        file.write(text)
    return shown(cilk + ["check", program, path] + more) == (b"accepted\n", 0)


def played(cilk, program, more, count, chance, folder):
    """The different answers of this many plays, each with the script that gave it."""
    answers = {}
    for _ in range(count):
        workers = chance.randint(1, 8)
        text = script(chance, workers, chance.choice([5, 50, 400]))
        path = os.path.join(folder, "script")
        with open(path, "w", encoding="ascii") as file:
            file.write(text)
        answers.setdefault(shown(cilk + ["play", program, path, "--workers", str(workers)] + more), text)
    return answers


def main():
    words = argparse.ArgumentParser()
    words.add_argument("count", type=int)
    words.add_argument("program", nargs="+")
    words.add_argument("--cilk", default=f"{TOP}/cilk")
    words.add_argument("--seed", type=int, default=1)
    words.add_argument("--input")
    given = words.parse_args()
    cilk, wrong = given.cilk.split(), 0
    more = ["--input", given.input] if given.input else []
    with tempfile.TemporaryDirectory() as folder:
        for program in given.program:
            wanted = shown(cilk + ["run", program] + more)
            right = accepted(cilk, program, more, folder)
            answers = played(cilk, program, more, given.count, random.Random(given.seed), folder)
            differs = right and set(answers) != {wanted}
            wrong += differs
            print(f"{program}: {'accepted' if right else 'not accepted'}, {len(answers)} answers{' DIFFERS' if differs else ''}", flush=True)
    print(f"{wrong} wrong")
    sys.exit(1 if wrong else 0)


if __name__ == "__main__":
    main()
