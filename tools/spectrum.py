#!/usr/bin/env python3
"""The eigenvalues and the matrices P and Q of an intersection array, exactly, or why no one quadratic field
holds them: the lines of docs/reports.md from `root` on, or those of the certificate.

Usage: python3 tools/spectrum.py '{3,2;1,1}'

It shares no code with the program, and no number is too wide for it. The multiplicities come from the sum of
squares of the cosines, and the eigenvalues from the factors of the characteristic polynomial.
"""
import sys
from fractions import Fraction
from functools import cmp_to_key
from math import isqrt
from typing import NamedTuple


class Value(NamedTuple):
    """a + b √root, with b = 0 where the root is 0."""

    a: Fraction
    b: Fraction
    root: int

    def plus(self, other):
        return Value(self.a + other.a, self.b + other.b, self.root)

    def times(self, other):
        a = self.a * other.a + self.root * self.b * other.b
        return Value(a, self.a * other.b + self.b * other.a, self.root)

    def scaled(self, factor):
        return Value(self.a * factor, self.b * factor, self.root)

    def inverse(self):
        norm = self.a * self.a - self.root * self.b * self.b
        return Value(self.a / norm, -self.b / norm, self.root)

    def sign(self):
        if self.a * self.b >= 0:
            part = self.a or self.b
        else:
            part = self.a if self.a * self.a > self.root * self.b * self.b else self.b
        return (part > 0) - (part < 0)

    def __str__(self):
        if self.b == 0:
            return str(self.a)
        front = str(self.a) if self.a else ""
        sign = "-" if self.b < 0 else "+" if front else ""
        return f"{front}{sign}{abs(self.b)}r{self.root}"


class Entries(NamedTuple):
    """b_0 .. b_d and c_0 .. c_d."""

    b: list
    c: list

    def a(self, i):
        return self.b[0] - self.b[i] - self.c[i]


def entries_of(array):
    b, c = ([int(x) for x in side.split(",")] for side in array.strip("{}").split(";"))
    return Entries(b + [0], [0] + c)


def characteristic(e):
    """F_(d+1), from the constant upwards: F_(j+1) = (x - a_j) F_j - b_(j-1) c_j F_(j-1)."""
    before, last = [0], [1]
    for j in range(len(e.b)):
        weight = e.b[j - 1] * e.c[j] if j else 0
        following = [0] + last
        for i, x in enumerate(last):
            following[i] -= e.a(j) * x
        for i, x in enumerate(before):
            following[i] -= weight * x
        before, last = last, following
    return last


def quotient(poly, divisor):
    """The quotient by a monic divisor, where nothing is left."""
    rest, found = list(poly), []
    while len(rest) >= len(divisor):
        lead = rest.pop()
        found.append(lead)
        for i in range(1, len(divisor)):
            rest[-i] -= lead * divisor[-i - 1]
    return None if any(rest) else found[::-1]


def divisors(x):
    """Those of a number other than 0, of either sign."""
    for t in range(1, isqrt(abs(x)) + 1):
        if x % t == 0:
            yield from {t, -t, x // t, -x // t}


def factors(poly, k):
    """The factors x - r and the irreducible x² - sx + t, in their order, and what is left."""
    found = []
    for r in range(k, -k - 1, -1):
        left = quotient(poly, [-r, 1])
        if left:
            poly = left
            found.append([-r, 1])
    ts = sorted({t for t in divisors(poly[0]) if abs(t) <= k * k}, reverse=True)
    for s in range(2 * k, -2 * k - 1, -1):
        for t in ts:
            left = quotient(poly, [t, -s, 1])
            if left:
                poly = left
                found.append([t, -s, 1])
    return found, poly


def squarefree(x):
    """f and the squarefree root with x = f² root."""
    f = next(f for f in range(isqrt(x), 0, -1) if x % (f * f) == 0)
    return f, x // (f * f)


def discriminant(factor):
    t, minus_s, _ = factor
    return minus_s * minus_s - 4 * t


def words(name, numbers):
    return " ".join([name, *map(str, numbers)])


def certificate(found, left, others):
    lines = [words("factor", factor) for factor in found]
    if left != [1]:
        return lines + [words("rest", left)]
    return lines + [words("first", others[0]), words("second", others[1])]


def spectrum_lines(array):
    """The lines of the frame and its multiplicities, or those of the certificate and None."""
    e = entries_of(array)
    found, left = factors(characteristic(e), e.b[0])
    quadratic = [factor for factor in found if len(factor) == 3]
    roots = [squarefree(discriminant(factor))[1] for factor in quadratic]
    other = next((factor for factor, root in zip(quadratic, roots) if root != roots[0]), None)
    if left != [1] or other:
        return certificate(found, left, (quadratic[0], other) if other else None), None
    return frame_lines(e, eigenvalues(found, roots[0] if roots else 0))


def eigenvalues(found, root):
    thetas = []
    for factor in found:
        half = Fraction(-factor[-2], len(factor) - 1)
        width = Fraction(squarefree(discriminant(factor))[0], 2) if len(factor) == 3 else Fraction(0)
        thetas += [Value(half, b, root) for b in {width, -width}]
    return sorted(thetas, key=cmp_to_key(lambda x, y: x.plus(y.scaled(-1)).sign()), reverse=True)


def cosines(e, theta):
    one = Value(Fraction(1), Fraction(0), theta.root)
    u = [one, theta.scaled(Fraction(1, e.b[0]))]
    for r in range(1, len(e.b) - 1):
        step = theta.plus(one.scaled(-e.a(r))).times(u[r])
        u.append(step.plus(u[r - 1].scaled(-e.c[r])).scaled(Fraction(1, e.b[r])))
    return u


def frame_lines(e, thetas):
    k = [Fraction(1)]
    for up, down in zip(e.b, e.c[1:]):
        k.append(k[-1] * up / down)
    us = [cosines(e, theta) for theta in thetas]
    ms = []
    for u in us:
        squares = [x.times(x).scaled(size) for x, size in zip(u, k)]
        total = squares[0]
        for square in squares[1:]:
            total = total.plus(square)
        ms.append(total.inverse().scaled(sum(k)))
    lines = [words("root", [thetas[0].root]), words("theta", thetas)]
    lines += [words("P", [x.scaled(size) for x, size in zip(u, k)]) for u in us]
    lines += [words("Q", [m.times(u[r]) for m, u in zip(ms, us)]) for r in range(len(k))]
    return lines, ms


if __name__ == "__main__":
    print("\n".join(spectrum_lines(sys.argv[1])[0]))
