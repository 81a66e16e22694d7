#!/usr/bin/env python3
"""A slow census and slow classical parameters, by the definitions alone.

    tools/census.py D K N          writes the arrays as `drg census D K N` does
    tools/census.py classical TEXT writes the rows as `drg classical` does, of the array in TEXT

It shares no code with the program: the intersection numbers come from products of matrices over fractions, and the
classical parameters from their equations.
"""

import sys
from fractions import Fraction
from itertools import product


def times(left, right):
    side = range(len(left))
    return [[sum(left[i][l] * right[l][j] for l in side) for j in side] for i in side]


def numbers(b, c):
    """The matrices with p^h_ij at (h, j), for each i."""
    d, k = len(b), b[0]
    b, c = list(b) + [0], [0] + list(c)
    a = [k - b[i] - c[i] for i in range(d + 1)]
    one = [[Fraction(int(h == j)) for j in range(d + 1)] for h in range(d + 1)]
    step = [[Fraction(c[h] if j == h - 1 else a[h] if j == h else b[h] if j == h + 1 else 0) for j in range(d + 1)] for h in range(d + 1)]
    tables = [one, step]
    for i in range(1, d):
        made = times(step, tables[i])
        tables.append([[(made[h][j] - a[i] * tables[i][h][j] - b[i - 1] * tables[i - 1][h][j]) / c[i + 1] for j in range(d + 1)] for h in range(d + 1)])
    return tables


def passes(b, c, n):
    """Whether the array has n vertices, and passes tests 1 to 9."""
    d, k = len(b), b[0]
    longer_b, longer_c = list(b) + [0], [0] + list(c)
    if c[0] != 1 or any(k - longer_b[i] - longer_c[i] < 0 for i in range(1, d + 1)):
        return False
    if any(longer_b[i] < longer_b[i + 1] or longer_c[i] > longer_c[i + 1] for i in range(1, d)):
        return False
    if any(longer_c[i] > longer_b[j] for i in range(1, d + 1) for j in range(d - i + 1)):
        return False
    sizes = [Fraction(1)]
    for further, nearer in zip(b, c):
        sizes.append(sizes[-1] * further / nearer)
    if any(size.denominator != 1 for size in sizes) or sum(sizes) != n:
        return False
    tables = numbers(b, c)
    if any(x.denominator != 1 or x < 0 for table in tables for row in table for x in row):
        return False
    indices = range(1, d + 1)
    return (all(n * sizes[i] % 2 == 0 for i in indices)
            and all(sizes[i] * tables[i][i][j] % 2 == 0 for i in indices for j in indices)
            and all(n * sizes[i] * tables[i][i][i] % 6 == 0 for i in indices))


def census(d, k, n):
    for rest in product(range(1, k + 1), repeat=d - 1):
        for c in product(range(1, k + 1), repeat=d):
            if passes((k,) + rest, c, n):
                yield (k,) + rest, c


def classical(b, c):
    d, k = len(b), b[0]
    for base in range(-k, k + 1):
        if base in (0, -1):
            continue
        bracket = [Fraction(0)]
        for _ in range(d):
            bracket.append(1 + base * bracket[-1])
        alpha, beta = Fraction(c[1], 1 + base) - 1, k / bracket[d]
        if (all((bracket[d] - bracket[i]) * (beta - alpha * bracket[i]) == b[i] for i in range(d))
                and all(bracket[i] * (1 + alpha * bracket[i - 1]) == c[i - 1] for i in range(1, d + 1))):
            yield base, alpha, beta


def main(words):
    if words[0] == "classical":
        b, c = [[int(n) for n in part.split(",")] for part in words[1].strip().strip("{}").split(";")]
        if len(b) == 1:
            print("diameter 1")
        else:
            for base, alpha, beta in classical(b, c):
                print("classical", base, alpha, beta)
        return
    for b, c in census(*map(int, words)):
        print("{" + ",".join(map(str, b)) + ";" + ",".join(map(str, c)) + "}")


if __name__ == "__main__":
    main(sys.argv[1:])
