#!/usr/bin/env python3
"""Works out by Python's own means what each program of examples/gallery shows, and of its folder `oblivious`, and
compares it with its `.out` file.

Each answer is found by another method than the program's where there is one: permutations instead of a search,
`sorted` instead of a sort of our own, fractions instead of numbers modulo a prime, a queue instead of levels.
"""

import collections
import fractions
import glob
import itertools
import os
import sys

GALLERY = os.path.join(os.path.dirname(os.path.dirname(os.path.realpath(__file__))), "examples", "gallery")


def queens():
    ways = itertools.permutations(range(6))
    free = sum(all(abs(w[i] - w[j]) != j - i for i, j in itertools.combinations(range(6), 2)) for w in ways)
    return [("reducer", "boards", free), ("result", free)]


def matrix_product():
    n = range(12)
    a = [[i + j for j in n] for i in n]
    b = [[i * i - 5 * j for j in n] for i in n]
    c = [[sum(x * y for x, y in zip(row, column)) for column in zip(*b)] for row in a]
    return [c[-1][-1], ("result", sum(map(sum, c)))]


def numbers(seed):
    while True:
        seed = (1103515245 * seed + 12345) % 2**31
        yield seed // 65536 % 1000


def sorting(seed):
    a = sorted(itertools.islice(numbers(seed), 100))
    return [a[0], a[50], a[99], ("result", sum(i * x for i, x in enumerate(a, 1)))]


def determinant(rows):
    """By elimination over fractions."""
    rows = [[fractions.Fraction(x) for x in row] for row in rows]
    product = fractions.Fraction(1)
    for k in range(len(rows)):
        pivot = next(i for i in range(k, len(rows)) if rows[i][k])
        if pivot != k:
            rows[k], rows[pivot] = rows[pivot], rows[k]
            product = -product
        product *= rows[k][k]
        for i in range(k + 1, len(rows)):
            times = rows[i][k] / rows[k][k]
            rows[i] = [x - times * y for x, y in zip(rows[i], rows[k])]
    return int(product)


def lu():
    n, prime = range(10), 10007
    a = [[(i * i + 3 * i * j + 7 * j + (11 if i == j else 0)) % prime for j in n] for i in n]
    a[0][0] = 1
    return [0, ("result", determinant(a) % prime)]


def toward_zero(a, b):
    return abs(a) // abs(b) * (1 if (a < 0) == (b < 0) else -1)


def heat():
    now = [[1000000] + [0] * 11 for _ in range(12)]
    for _ in range(10):
        after = [row[:] for row in now]
        for i, j in itertools.product(range(1, 11), repeat=2):
            around = now[i - 1][j] + now[i + 1][j] + now[i][j - 1] + now[i][j + 1]
            after[i][j] += toward_zero(around - 4 * now[i][j], 8)
        now = after
    return now[6] + [("result", sum(map(sum, now)))]


def prefix_sum():
    sums = list(itertools.accumulate(i * i % 10 - 3 for i in range(100)))
    return [sums[0], sums[50], sums[99], ("result", sum(sums))]


def histogram():
    data = [i * i * 7919 % 1009 % 1000 for i in range(200)]
    bins = collections.Counter(x // 250 for x in data)
    shown = [("reducer", f"below_{250 * (b + 1)}", bins[b]) for b in range(4)]
    return shown + [("reducer", "least", min(data)), ("reducer", "greatest", max(data)), ("result", 200)]


def floyd_warshall():
    edges = {}
    for i in range(10):
        edges[i, (i + 1) % 10] = 3 + i
        edges[i, (3 * i + 4) % 10] = 7
        edges[i, i] = 0

    def lengths(start):
        best = [0 if v == start else 1000000 for v in range(10)]
        for _ in range(10):
            for (u, v), length in edges.items():
                best[v] = min(best[v], best[u] + length)
        return best

    return lengths(0) + [("result", sum(sum(lengths(s)) for s in range(10)))]


def sieve():
    primes = [n for n in range(2, 1001) if all(n % d for d in range(2, n))]
    return [primes[-1], ("result", len(primes))]


def knapsack():
    with open(f"{GALLERY}/knapsack.in", encoding="ascii") as kept:
        room, *rest = map(int, kept.read().split())
    table = [0] * (room + 1)
    for worth, weight in zip(rest[::2], rest[1::2]):
        for w in range(room, weight - 1, -1):
            table[w] = max(table[w], table[w - weight] + worth)
    return [("result", table[room])]


def collatz():
    def steps(n):
        return 0 if n == 1 else 1 + steps(3 * n + 1 if n % 2 else n // 2)

    n = max(range(1, 200), key=steps)
    return [n, ("reducer", "packed", 1000 * steps(n) + 1000 - n), ("result", steps(n))]


def bfs():
    distance, waiting = {0: 0}, collections.deque([0])
    while waiting:
        v = waiting.popleft()
        for w in ((v + 1) % 32, (5 * v + 3) % 32, (7 * v + 2) % 32):
            if w not in distance:
                distance[w] = distance[v] + 1
                waiting.append(w)
    sizes = collections.Counter(distance.values())
    return [sizes[k] for k in sorted(sizes)] + [("result", sum(distance.values()))]


def mandelbrot():
    def inside(real, imaginary):
        x = y = 0
        for _ in range(30):
            if x * x + y * y >= 4 * 4096**2:
                return False
            x, y = toward_zero(x * x - y * y, 4096) + real, toward_zero(2 * x * y, 4096) + imaginary
        return True

    rows = []
    for row in range(11):
        imaginary = toward_zero((row - 5) * 4096, 4)
        rows.append("".join("18"[inside(c * 4096 // 6 - 2 * 4096 - 200, imaginary)] for c in range(18)))
    return rows + [("result", "".join(rows).count("8"))]


def given(name):
    """The numbers of a program's input."""
    with open(f"{GALLERY}/oblivious/{name}.in", encoding="ascii") as kept:
        return list(map(int, kept.read().split()))


def given_product():
    n, *numbers = given("matrix_product")
    a, b = [[numbers[k + n * i : k + n * i + n] for i in range(n)] for k in (0, n * n)]
    c = [[sum(x * y for x, y in zip(row, column)) for column in zip(*b)] for row in a]
    return [c[-1][-1], ("result", sum(map(sum, c)))]


def given_heat():
    width, steps, *numbers = given("heat")
    now = [numbers[width * i : width * i + width] for i in range(width)]
    for _ in range(steps):
        after = [row[:] for row in now]
        for i, j in itertools.product(range(1, width - 1), repeat=2):
            around = now[i - 1][j] + now[i + 1][j] + now[i][j - 1] + now[i][j + 1]
            after[i][j] = toward_zero(4 * now[i][j] + around, 8)
        now = after
    return now[width // 2] + [("result", sum(map(sum, now)))]


def transform():
    a = given("ntt")
    of = [sum(x * pow(81, i * k, 257) for i, x in enumerate(a)) % 257 for k in range(64)]
    return [of[0], of[1], of[63], ("result", sum(i * x for i, x in enumerate(of, 1)))]


def given_sorting():
    a = sorted(given("bitonic_sort"))
    return [a[0], a[len(a) // 2], a[-1], ("result", sum(i * x for i, x in enumerate(a, 1)))]


def given_sums():
    sums = list(itertools.accumulate(given("prefix_sum")))
    return [sums[0], sums[len(sums) // 2], sums[-1], ("result", sum(sums))]


def sparse_product():
    n, count, *numbers = given("sparse_product")
    begins, columns = numbers[: n + 1], numbers[n + 1 : n + 1 + count]
    values, vector = numbers[n + 1 + count : n + 1 + 2 * count], numbers[n + 1 + 2 * count :]
    matrix = [[0] * len(vector) for _ in range(n)]
    for row in range(n):
        for k in range(begins[row], begins[row + 1]):
            matrix[row][columns[k]] += values[k]
    product = [sum(x * y for x, y in zip(row, vector)) for row in matrix]
    return product + [("result", sum(product))]


def knapsack_table():
    _, room, *rest = given("knapsack_table")
    things = list(zip(rest[::2], rest[1::2]))
    choices = itertools.chain.from_iterable(itertools.combinations(things, k) for k in range(len(things) + 1))
    return [("result", max(sum(w for w, _ in it) for it in choices if sum(w for _, w in it) <= room))]


def convolution():
    length, width, *numbers = given("convolution")
    signal, kernel = numbers[:length], numbers[length:]
    sums = [sum(x * y for x, y in zip(signal[i:], kernel)) for i in range(length - width + 1)]
    return [sums[0], sums[-1], ("result", sum(sums))]


ANSWERS = {
    "queens": queens,
    "matrix_product": matrix_product,
    "merge_sort": lambda: sorting(1),
    "quicksort": lambda: sorting(7),
    "lu": lu,
    "heat": heat,
    "prefix_sum": prefix_sum,
    "histogram": histogram,
    "floyd_warshall": floyd_warshall,
    "sieve": sieve,
    "knapsack": knapsack,
    "collatz": collatz,
    "bfs": bfs,
    "bfs_racy": bfs,
    "mandelbrot": mandelbrot,
    "oblivious/matrix_product": given_product,
    "oblivious/heat": given_heat,
    "oblivious/ntt": transform,
    "oblivious/bitonic_sort": given_sorting,
    "oblivious/prefix_sum": given_sums,
    "oblivious/sparse_product": sparse_product,
    "oblivious/knapsack_table": knapsack_table,
    "oblivious/convolution": convolution,
}


def main():
    paths = glob.glob(f"{GALLERY}/*.c") + glob.glob(f"{GALLERY}/oblivious/*.c")
    programs = sorted(os.path.relpath(it, GALLERY)[:-2] for it in paths)
    failed = [name for name in programs if name not in ANSWERS]
    for name in programs:
        if name in ANSWERS:
            lines = [" ".join(map(str, it)) if isinstance(it, tuple) else str(it) for it in ANSWERS[name]()]
            with open(f"{GALLERY}/{name}.out", encoding="ascii") as kept:
                if kept.read() != "".join(line + "\n" for line in lines):
                    failed.append(name)
    for name in failed:
        print(f"{name}: not what Python finds")
    print(f"{len(programs) - len(failed)} answers agree, {len(failed)} don't")
    return 1 if failed else 0


if __name__ == "__main__":
    sys.exit(main())
