#!/usr/bin/env python3
"""The P-polynomial orderings of an intersection array: the lines `ppoly` of docs/reports.md.

Usage: python3 tools/orderings.py '{3,2;1,1}'

It shares no code with the program. The intersection numbers come from the products of the intersection
matrices, `c_(i+1) L_(i+1) = L_1 L_i - a_i L_i - b_(i-1) L_(i-1)`, where L_i has `p^h_ij` in row h and column
j, and the orderings from a search that tries every index at each place.
"""
import sys
from fractions import Fraction

from spectrum import entries_of, words


def intersection_matrices(e):
    side = range(len(e.b))
    unit = [[Fraction(h == j) for j in side] for h in side]
    one = [[Fraction({h - 1: e.c[h], h: e.a(h), h + 1: e.b[h]}.get(j, 0)) for j in side] for h in side]
    found = [unit, one]
    for i in range(1, len(e.b) - 1):
        last, before = found[i], found[i - 1]
        found.append([
            [
                (sum(one[h][l] * last[l][j] for l in side) - e.a(i) * last[h][j] - e.b[i - 1] * before[h][j]) / e.c[i + 1]
                for j in side
            ]
            for h in side
        ])
    return found


def fits(zero, order, h, j):
    """Whether the entry at two places of an ordering is as it should be."""
    is_zero = zero(order[h], order[1], order[j])
    return h == j or is_zero == (abs(h - j) > 1)


def orderings(d, zero):
    """All orderings r_1 .. r_d of the indices by the zeros of a table, ascending."""

    def after(order):
        last = len(order) - 1
        if last > 0 and not all(fits(zero, order, h, last) and fits(zero, order, last, h) for h in range(len(order))):
            return
        if last == d:
            yield order[1:]
        for index in range(1, d + 1):
            if index not in order:
                yield from after([*order, index])

    return list(after([0]))


def ordering_lines(array):
    matrices = intersection_matrices(entries_of(array))
    found = orderings(len(matrices) - 1, lambda h, i, j: matrices[i][h][j] == 0)
    return [words("ppoly", order) for order in found]


if __name__ == "__main__":
    print("\n".join(ordering_lines(sys.argv[1])))
