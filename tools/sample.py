#!/usr/bin/env python3
"""A slow sample, by the definitions alone.

    tools/sample.py SEED COUNT     writes the lines of `drg sample SEED COUNT` that count tests 1 to 9

It shares no code with the program: the arrays come from the generator as docs/recipes.md tells it, and the intersection
numbers from tools/census.py.
"""

import sys
from fractions import Fraction

from census import numbers

COUNTING = ("first", "degree", "order", "cross", "size", "intersect", "handshake", "induced", "triangles")


def arrays(seed, count):
    """The arrays that the seed generates, each as b_0 .. b_(d-1) and c_1 .. c_d."""
    state = seed

    def draw():
        nonlocal state
        state = (1103515245 * state + 12345) % 2**31
        return state // 65536

    for _ in range(count):
        d, k = 2 + draw() % 2, 3 + draw() % 30
        b, c = [k], [1]
        for _ in range(1, d):
            b.append(max(1, b[-1] - 1 - draw() % 3))
        for _ in range(1, d):
            c.append(min(k, c[-1] + draw() % 3))
        yield b, c


def first_failing(b, c):
    """The first of tests 1 to 9 that the array fails; nothing where it fails none."""
    d, k = len(b), b[0]
    longer_b, longer_c = b + [0], [0] + c
    indices = range(1, d + 1)
    if c[0] != 1:
        return "first"
    if any(k - longer_b[i] - longer_c[i] < 0 for i in indices):
        return "degree"
    if any(longer_b[i] < longer_b[i + 1] or longer_c[i] > longer_c[i + 1] for i in range(1, d)):
        return "order"
    if any(longer_c[i] > longer_b[j] for i in indices for j in range(d - i + 1)):
        return "cross"
    sizes = [Fraction(1)]
    for further, nearer in zip(b, c):
        sizes.append(sizes[-1] * further / nearer)
    if any(size.denominator != 1 for size in sizes):
        return "size"
    tables = numbers(b, c)
    if any(x.denominator != 1 or x < 0 for table in tables for row in table for x in row):
        return "intersect"
    n = sum(sizes)
    if any(n * sizes[i] % 2 != 0 for i in indices):
        return "handshake"
    if any(sizes[i] * tables[i][i][j] % 2 != 0 for i in indices for j in indices):
        return "induced"
    if any(n * sizes[i] * tables[i][i][i] % 6 != 0 for i in indices):
        return "triangles"
    return ""


def counted(seed, count):
    """How many of the arrays fail each of tests 1 to 9 first."""
    found = [first_failing(b, c) for b, c in arrays(seed, count)]
    return [found.count(test) for test in COUNTING]


def main(words):
    seed, count = map(int, words)
    for test, number in zip(COUNTING, counted(seed, count)):
        print("infeasible", test, number)


if __name__ == "__main__":
    main(sys.argv[1:])
