#!/usr/bin/env python3
"""A second judge of derivations.

It follows docs/derivation-format.md. It is a second witness next to
`drg replay`: it shares no code with the product and is no part of it. Where
the two give different answers for a file, one of them or the page is wrong.

    python3 tools/replay.py FILE..

writes for one FILE what `drg replay FILE` writes, to the same stream, and
ends with the same number:

    accepted CLAIM CLASS            0   every line is met, the claim is closed
    undecided wide L                3   a work number of line L passes 2^127-1
    rejected line L                 5   line L is the first that isn't met
    rejected open L                 5   every line is met, the claim isn't closed

These are written to standard output. The others go to standard error:

    drg: usage                      64  no FILE, or one that begins with - and
                                        has further bytes
    drg: bad input, line L, place 0 65  line L isn't what may stand there
    drg: input too long             66  the file has more than 67,108,864 bytes
    drg: cannot open                67
    drg: cannot read                68
    drg: cannot write               69
    drg: no memory                  71

Of several files each is judged, in their order, as if it stood alone. The
exit number is 0 where all are accepted, else that of the first that isn't.

A file is read to its `end` line before it is judged, so a text that isn't a
derivation is bad input even where a line further up wouldn't be met.

To extend it: a new line of evidence is an entry in EVIDENCE and, once it is
judged, a method in Judge and an entry in LINE_RULES. A claim is an entry in
CLAIMS and, once it is judged, two methods and an entry in CLAIM_RULES.
"""

import os
import re
import sys
from fractions import Fraction
from math import gcd
from typing import Callable, Container, Dict, List, NamedTuple, Optional, Tuple

BOUND = 2**127 - 1
MAX_DIAMETER = 12
MAX_ENTRY = 4095
MAX_CLAIM_NUMBER = 255
MAX_INPUT_BYTES = 67_108_864
PIECE_BYTES = 1 << 20

NUMBER = re.compile(rb"0|-?[1-9][0-9]*")
MAX_NUMBER_BYTES = len(str(-BOUND))

EXIT_ACCEPTED = 0
EXIT_UNDECIDED = 3
EXIT_REJECTED = 5
EXIT_USAGE = 64
EXIT_BAD_INPUT = 65
EXIT_TOO_LONG = 66
EXIT_CANNOT_OPEN = 67
EXIT_CANNOT_READ = 68
EXIT_CANNOT_WRITE = 69
EXIT_NO_MEMORY = 71


class NotANumber(Exception):
    """Bytes that aren't a number of the format."""


class BadInput(Exception):
    """The text isn't a derivation; `line` is the first line that is wrong."""

    def __init__(self, line: int) -> None:
        super().__init__(line)
        self.line = line


class Wide(Exception):
    """A work number passes the bound."""


class Answer(NamedTuple):
    """The line that is written for a file, and its exit number."""

    text: str
    status: int

    def is_refusal(self) -> bool:
        """Whether nothing was judged, so that the line goes to standard error."""
        return self.status >= EXIT_USAGE


class Array(NamedTuple):
    """An array with all of b_0 .. b_d and c_0 .. c_d (b_d = c_0 = 0)."""

    d: int
    b: List[int]
    c: List[int]

    def a(self, i: int) -> int:
        return self.b[0] - self.b[i] - self.c[i]


class Claim(NamedTuple):
    """The name of a test and that test's numbers."""

    name: str
    numbers: List[int]

    def __str__(self) -> str:
        return " ".join([self.name] + [str(x) for x in self.numbers])


class Line(NamedTuple):
    """A line of evidence."""

    word: str
    numbers: List[int]


class Derivation(NamedTuple):
    """A text of the right form. `evidence` begins at line 4."""

    array: Array
    claim: Claim
    evidence: List[Line]


FIRST_EVIDENCE_LINE = 4


# ---------------------------------------------------------------------------
# The text
# ---------------------------------------------------------------------------


class Shape(NamedTuple):
    """What the length of a line of evidence may depend on."""

    d: int  # the diameter
    field: int  # how many numbers a field number has: F of the page
    first: int  # the first number of the line, 0 where it has none


Count = Tuple[int, int]  # least and most; (1, 0) where no count is right


def exactly(count: int) -> Count:
    return (count, count)


def comb_count(shape: Shape) -> Count:
    return exactly(1 + 2 * shape.first) if shape.first >= 1 else (1, 0)


# Each line of evidence: its word, and how many numbers it has.
EVIDENCE: Dict[str, Callable[[Shape], Count]] = {
    "k": lambda s: (1, s.d + 1),
    "p": lambda s: exactly(s.d + 3),
    "frame": lambda s: exactly(1),
    "theta": lambda s: exactly(1 + s.field),
    "prow": lambda s: exactly(1 + s.field * (s.d + 1)),
    "qrow": lambda s: exactly(1 + s.field * (s.d + 1)),
    "krein": lambda s: exactly(2 + s.field * (s.d + 1)),
    "eq": lambda s: exactly(3),
    "keq": lambda s: exactly(4),
    "comb": comb_count,
    "low": lambda s: exactly(5),
    "high": lambda s: exactly(5),
    "split": lambda s: exactly(4),
    "miss": lambda s: exactly(1),
    "mod": lambda s: exactly(2),
    "void": lambda s: exactly(3),
}

# Each claim: the name of its test, and how many numbers it has.
CLAIMS: Dict[str, int] = {
    "first": 0,
    "degree": 1,
    "order": 1,
    "cross": 2,
    "size": 1,
    "intersect": 3,
    "handshake": 1,
    "induced": 2,
    "triangles": 1,
    "mult": 1,
    "krein": 3,
    "absolute": 2,
    "triple": 3,
    "ktriple": 3,
}


def read_number(token: bytes) -> int:
    """The number that `token` writes; NotANumber where it writes none."""
    if len(token) > MAX_NUMBER_BYTES or not NUMBER.fullmatch(token):
        raise NotANumber
    value = int(token)
    if abs(value) > BOUND:
        raise NotANumber
    return value


def read_numbers(tokens: List[bytes], line: int) -> List[int]:
    try:
        return [read_number(token) for token in tokens]
    except NotANumber:
        raise BadInput(line) from None


def find_word(token: bytes, table: Container[str], line: int) -> str:
    """The word of `table` that `token` is; BadInput where it is none."""
    word = token.decode("latin-1")
    if word not in table:
        raise BadInput(line)
    return word


class Reader:
    """Reads a derivation from bytes, up to the LF of its `end` line."""

    def __init__(self, data: bytes) -> None:
        self.data = data
        self.at = 0  # where the next line begins
        self.line = 0  # the number of the last line taken, from 1

    def read(self) -> Derivation:
        self.read_version()
        array = self.read_array()
        claim = self.read_claim()
        return Derivation(array, claim, self.read_evidence(array.d))

    def next_line(self) -> bytes:
        """The next line without its LF; BadInput where there is no LF."""
        self.line += 1
        stop = self.data.find(b"\n", self.at)
        if stop < 0:
            raise BadInput(self.line)
        text = self.data[self.at : stop]
        self.at = stop + 1
        return text

    def read_version(self) -> None:
        if self.next_line() != b"drg 1":
            raise BadInput(self.line)

    def read_array(self) -> Array:
        tokens = self.next_line().split(b" ")
        if tokens[0] != b"array":
            raise BadInput(self.line)
        numbers = read_numbers(tokens[1:], self.line)
        if not numbers or not 1 <= numbers[0] <= MAX_DIAMETER:
            raise BadInput(self.line)
        d, entries = numbers[0], numbers[1:]
        if len(entries) != 2 * d:
            raise BadInput(self.line)
        if not all(1 <= entry <= MAX_ENTRY for entry in entries):
            raise BadInput(self.line)
        return Array(d, entries[:d] + [0], [0] + entries[d:])

    def read_claim(self) -> Claim:
        tokens = self.next_line().split(b" ")
        if len(tokens) < 2 or tokens[0] != b"claim":
            raise BadInput(self.line)
        name = find_word(tokens[1], CLAIMS, self.line)
        numbers = read_numbers(tokens[2:], self.line)
        if len(numbers) != CLAIMS[name]:
            raise BadInput(self.line)
        if not all(0 <= x <= MAX_CLAIM_NUMBER for x in numbers):
            raise BadInput(self.line)
        return Claim(name, numbers)

    def read_evidence(self, d: int) -> List[Line]:
        """The lines of evidence, and the `end` line after them."""
        evidence: List[Line] = []
        field = 2
        while True:
            text = self.next_line()
            if text == b"end":
                return evidence
            line = self.read_evidence_line(text, d, field)
            if line.word == "frame":
                field = 2 if line.numbers[0] == 0 else 4
            evidence.append(line)

    def read_evidence_line(self, text: bytes, d: int, field: int) -> Line:
        tokens = text.split(b" ")
        word = find_word(tokens[0], EVIDENCE, self.line)
        numbers = read_numbers(tokens[1:], self.line)
        first = numbers[0] if numbers else 0
        least, most = EVIDENCE[word](Shape(d, field, first))
        if not least <= len(numbers) <= most:
            raise BadInput(self.line)
        return Line(word, numbers)


# ---------------------------------------------------------------------------
# Judging
# ---------------------------------------------------------------------------


def work(value: int) -> int:
    """`value`, as a work number; Wide where it passes the bound."""
    if abs(value) > BOUND:
        raise Wide
    return value


def is_squarefree(n: int) -> bool:
    """Whether no square above 1 divides n, which is at least 1."""
    k = 2
    while k * k <= n:
        if n % (k * k) == 0:
            return False
        k += 1
    return True


def add(x: Fraction, y: Fraction, sign: int = 1) -> Fraction:
    """x + y, or x - y with the sign -1."""
    g = gcd(x.denominator, y.denominator)
    left = work(x.numerator * (y.denominator // g))
    right = work(y.numerator * (x.denominator // g))
    total = work(left + sign * right)
    return Fraction(total, work(x.denominator * (y.denominator // g)))


def multiply(x: Fraction, y: Fraction) -> Fraction:
    g = gcd(x.numerator, y.denominator)
    h = gcd(y.numerator, x.denominator)
    over = work((x.numerator // g) * (y.numerator // h))
    return Fraction(over, work((x.denominator // h) * (y.denominator // g)))


class FieldNumber(NamedTuple):
    """The number a + b√root. The root is the same for all and kept apart."""

    a: Fraction
    b: Fraction

    def plus(self, other: "FieldNumber", sign: int = 1) -> "FieldNumber":
        return FieldNumber(add(self.a, other.a, sign), add(self.b, other.b, sign))

    def times(self, root: int, other: "FieldNumber") -> "FieldNumber":
        first = multiply(self.a, other.a)
        second = multiply(Fraction(root), multiply(self.b, other.b))
        a = add(first, second)
        return FieldNumber(
            a, add(multiply(self.a, other.b), multiply(self.b, other.a))
        )

    def is_positive(self, root: int) -> bool:
        if self.a >= 0 and self.b >= 0:
            return self.a > 0 or self.b > 0
        if self.a <= 0 and self.b <= 0:
            return False
        square = multiply(self.a, self.a)
        other = multiply(Fraction(root), multiply(self.b, self.b))
        difference = add(square, other, -1)
        return difference > 0 if self.a > 0 else difference < 0

    def is_count(self) -> bool:
        """Whether it is a positive whole number."""
        return self.b == 0 and self.a.denominator == 1 and self.a > 0


Unknown = Tuple[int, int, int]  # the number [r s t]
Room = Dict[Unknown, Tuple[int, int]]  # the low and the high bound of each


class Equation(NamedTuple):
    """A sum of terms and what it equals. No coefficient is 0."""

    terms: Dict[Unknown, int]
    right: int


def sum_in(room: Room, terms: Dict[Unknown, int], greatest: bool) -> int:
    """The least or the greatest sum of the terms in the room."""
    total = 0
    for unknown in sorted(terms):
        coefficient = terms[unknown]
        low, high = room[unknown]
        bound = high if (coefficient > 0) == greatest else low
        total = work(total + work(coefficient * bound))
    return total


def whole(n: int) -> FieldNumber:
    return FieldNumber(Fraction(n), Fraction(0))


def dot(root: int, xs: List[FieldNumber], ys: List[FieldNumber]) -> FieldNumber:
    """The sum of the products at each place, from left to right."""
    products = [x.times(root, y) for x, y in zip(xs, ys)]
    total = products[0]
    for product in products[1:]:
        total = total.plus(product)
    return total


def read_field_numbers(root: int, numbers: List[int]) -> Optional[List[FieldNumber]]:
    """The field numbers; None where one isn't in lowest terms."""
    pairs = list(zip(numbers[0::2], numbers[1::2]))
    if not all(den > 0 and gcd(num, den) == 1 for num, den in pairs):
        return None
    fractions = [Fraction(num, den) for num, den in pairs]
    if root == 0:
        return [FieldNumber(x, Fraction(0)) for x in fractions]
    return [FieldNumber(a, b) for a, b in zip(fractions[0::2], fractions[1::2])]


class Judge:
    """Judges one derivation. Holds what the lines met so far have shown."""

    def __init__(self, derivation: Derivation) -> None:
        self.array = derivation.array
        self.claim = derivation.claim
        self.evidence = derivation.evidence
        self.sizes: Optional[List[int]] = None  # the k line
        self.rows: Dict[Tuple[int, int], List[int]] = {}  # p lines, by (h, i)
        self.spectral = False  # a frame line stands
        self.root = 0
        self.theta: List[FieldNumber] = []
        self.p: List[List[FieldNumber]] = []
        self.q: List[List[FieldNumber]] = []
        self.krein: Dict[Tuple[int, int], List[FieldNumber]] = {}  # by (i, j)
        self.equations: List[Equation] = []  # those made so far
        self.rooms: Optional[List[Room]] = None  # of the open branches

    def judge(self) -> Answer:
        line = 3
        try:
            if not self.claim_met():
                return Answer(f"rejected line {line}", EXIT_REJECTED)
            for line, item in enumerate(self.evidence, FIRST_EVIDENCE_LINE):
                if not self.line_met(item):
                    return Answer(f"rejected line {line}", EXIT_REJECTED)
            line = FIRST_EVIDENCE_LINE + len(self.evidence)
            if not self.claim_closed():
                return Answer(f"rejected open {line}", EXIT_REJECTED)
        except Wide:
            return Answer(f"undecided wide {line}", EXIT_UNDECIDED)
        kind = "spectral" if self.spectral else "counting"
        return Answer(f"accepted {self.claim} {kind}", EXIT_ACCEPTED)

    def claim_met(self) -> bool:
        if self.claim.name not in CLAIM_RULES:
            return False  # not judged yet
        in_range, _ = CLAIM_RULES[self.claim.name]
        return in_range(self, *self.claim.numbers)

    def line_met(self, line: Line) -> bool:
        if line.word not in LINE_RULES or self.rooms == []:
            return False  # not judged yet, or all branches are closed
        return LINE_RULES[line.word](self, line.numbers)

    def claim_closed(self) -> bool:
        _, closed = CLAIM_RULES[self.claim.name]
        return closed(self, *self.claim.numbers)

    # What stands.

    def row(self, h: int, i: int) -> Optional[List[int]]:
        """Row i of h: p^h_(i,0) .. p^h_(i,d), or None. Row 0 always stands."""
        if i == 0:
            return [1 if j == h else 0 for j in range(self.array.d + 1)]
        return self.rows.get((h, i))

    def all_sizes(self) -> Optional[List[int]]:
        """The k line where it has d+1 numbers, or None."""
        if self.sizes is None or len(self.sizes) != self.array.d + 1:
            return None
        return self.sizes

    def entry_times_c(self, h: int, i: int, j: int) -> int:
        """N(h,i,j) of the page. Rows i-1 and i-2 (if i > 1) of h must stand."""
        array = self.array
        last = self.row(h, i - 1)
        assert last is not None
        terms: List[int] = []
        if j >= 1:
            terms.append(work(array.b[j - 1] * last[j - 1]))
        terms.append(work(array.a(j) * last[j]))
        if j + 1 <= array.d:
            terms.append(work(array.c[j + 1] * last[j + 1]))
        if i >= 2:
            before = self.row(h, i - 2)
            assert before is not None
            terms.append(-work(array.b[i - 2] * before[j]))
        terms.append(-work(array.a(i - 1) * last[j]))
        total = 0
        for term in terms:
            total = work(total + term)
        return total

    # Lines of evidence.

    def k_met(self, v: List[int]) -> bool:
        if self.sizes is not None or v[0] != 1:
            return False
        b, c = self.array.b, self.array.c
        for i in range(1, len(v)):
            left = work(v[i] * c[i])
            right = work(v[i - 1] * b[i - 1])
            if left != right:
                return False
        self.sizes = v
        return True

    def p_met(self, numbers: List[int]) -> bool:
        h, i, v = numbers[0], numbers[1], numbers[2:]
        d = self.array.d
        if not (0 <= h <= d and 1 <= i <= d):
            return False
        if self.row(h, i) is not None or self.row(h, i - 1) is None:
            return False
        for j in range(d + 1):
            left = work(self.array.c[i] * v[j])
            right = self.entry_times_c(h, i, j)
            if left != right:
                return False
        self.rows[h, i] = v
        return True

    def frame_met(self, numbers: List[int]) -> bool:
        (root,) = numbers
        if self.spectral or self.all_sizes() is None or self.claim.name not in SPECTRAL:
            return False
        self.spectral = True
        self.root = root
        return root == 0 or (2 <= root < 2**32 and is_squarefree(root))

    def theta_met(self, numbers: List[int]) -> bool:
        values = read_field_numbers(self.root, numbers[1:])
        count = len(self.theta)
        if not self.spectral or values is None:
            return False
        if numbers[0] != count or count > self.array.d:
            return False
        (x,) = values
        if count > 0 and not self.theta[-1].plus(x, -1).is_positive(self.root):
            return False
        self.theta.append(x)
        return True

    def prow_met(self, numbers: List[int]) -> bool:
        row = read_field_numbers(self.root, numbers[1:])
        d, count = self.array.d, len(self.p)
        if not self.spectral or row is None or len(self.theta) != d + 1:
            return False
        if numbers[0] != count or count > d:
            return False
        theta = self.theta[count]
        if row[0] != whole(1) or row[1] != theta:
            return False
        for j in range(d + 1):
            left = theta.times(self.root, row[j])
            if left != self.neighbours(row, j):
                return False
        self.p.append(row)
        return True

    def neighbours(self, row: List[FieldNumber], j: int) -> FieldNumber:
        """The right side of the equation of a prow line for j."""
        array = self.array
        terms: List[Tuple[int, FieldNumber]] = []
        if j >= 1:
            terms.append((array.b[j - 1], row[j - 1]))
        terms.append((array.a(j), row[j]))
        if j < array.d:
            terms.append((array.c[j + 1], row[j + 1]))
        coefficients = [whole(coefficient) for coefficient, _ in terms]
        return dot(self.root, coefficients, [x for _, x in terms])

    def qrow_met(self, numbers: List[int]) -> bool:
        row = read_field_numbers(self.root, numbers[1:])
        d, count = self.array.d, len(self.q)
        if not self.spectral or row is None or len(self.p) != d + 1:
            return False
        if numbers[0] != count or count > d:
            return False
        rows = self.q + [row]
        if count == d and not self.product_holds(rows):
            return False
        self.q = rows
        return True

    def product_holds(self, rows: List[List[FieldNumber]]) -> bool:
        """Whether P Q = n I, where Q has these rows."""
        sizes = self.all_sizes()
        assert sizes is not None
        n: Optional[int] = None
        for i, row in enumerate(self.p):
            for j in range(self.array.d + 1):
                left = dot(self.root, row, [other[j] for other in rows])
                if n is None:
                    n = 0
                    for size in sizes:
                        n = work(n + size)
                if left != whole(n if i == j else 0):
                    return False
        return True

    def krein_met(self, numbers: List[int]) -> bool:
        i, j = numbers[0], numbers[1]
        values = read_field_numbers(self.root, numbers[2:])
        d = self.array.d
        if not self.spectral or values is None or len(self.q) != d + 1:
            return False
        if not 1 <= i <= j <= d or (i, j) in self.krein:
            return False
        for row in self.q:
            left = row[i].times(self.root, row[j])
            if left != dot(self.root, values, row):
                return False
        self.krein[i, j] = values
        return True

    # Triple intersection numbers.

    def entry(self, h: int, i: int, j: int) -> Optional[int]:
        """p^h_ij, or None where row i of h doesn't stand."""
        row = self.row(h, i)
        return None if row is None else row[j]

    def live_type(self) -> Optional[Tuple[int, int, int]]:
        """U, V and W of the claim where an eq line may stand, or None."""
        if self.claim.name not in TRIPLES:
            return None
        u, v, w = self.claim.numbers
        distances = range(1, self.array.d + 1)
        if any(self.row(h, i) is None for h in (u, v, w) for i in distances):
            return None
        number = self.entry(w, v, u)
        return (u, v, w) if number is not None and number > 0 else None

    def first_room(self, u: int, v: int, w: int) -> Room:
        """Each unknown from 0 to its high bound."""
        distances = range(1, self.array.d + 1)
        room: Room = {}
        for r in distances:
            for s in distances:
                for t in distances:
                    above = (self.entry(u, s, t), self.entry(v, r, t), self.entry(w, r, s))
                    room[r, s, t] = (0, min(x for x in above if x is not None))
        return room

    def eq_met(self, numbers: List[int]) -> bool:
        a, x, y = numbers
        d, live = self.array.d, self.live_type()
        if live is None or not (1 <= a <= 3 and 1 <= x <= d and 1 <= y <= d):
            return False
        u, v, w = live
        h, fixed = [(u, (w, v)), (v, (w, u)), (w, (v, u))][a - 1]
        entry = self.entry(h, x, y)
        assert entry is not None
        right = work(entry - (1 if (x, y) == fixed else 0))
        if self.rooms is None:
            self.rooms = [self.first_room(u, v, w)]
        others = [(q, x, y) if a == 1 else (x, q, y) if a == 2 else (x, y, q) for q in range(1, d + 1)]
        self.equations.append(Equation({unknown: 1 for unknown in others}, right))
        return True

    def is_equation(self, n: int) -> bool:
        return 0 <= n < len(self.equations)

    def is_unknown(self, r: int, s: int, t: int) -> bool:
        return all(1 <= x <= self.array.d for x in (r, s, t))

    def comb_met(self, numbers: List[int]) -> bool:
        pairs = list(zip(numbers[1::2], numbers[2::2]))
        if self.rooms is None or not all(self.is_equation(n) for n, _ in pairs):
            return False
        terms: Dict[Unknown, int] = {}
        right = 0
        for n, factor in pairs:
            equation = self.equations[n]
            for unknown, coefficient in equation.terms.items():
                terms[unknown] = work(terms.get(unknown, 0) + work(factor * coefficient))
            right = work(right + work(factor * equation.right))
        left = {unknown: a for unknown, a in terms.items() if a != 0}
        self.equations.append(Equation(left, right))
        return True

    def value_left(self, unknown: Unknown, n: int, least: bool) -> Optional[int]:
        """The least or greatest value that equation n leaves to the unknown."""
        assert self.rooms
        equation = self.equations[n]
        coefficient = equation.terms.get(unknown, 0)
        if coefficient == 0:
            return None
        rest = {x: a for x, a in equation.terms.items() if x != unknown}
        low_sum = sum_in(self.rooms[-1], rest, False)
        high_sum = sum_in(self.rooms[-1], rest, True)
        other = high_sum if (coefficient > 0) == least else low_sum
        left = work(equation.right - other)
        return -(-left // coefficient) if least else left // coefficient

    def low_met(self, numbers: List[int]) -> bool:
        r, s, t, v, n = numbers
        if not self.rooms or not self.is_unknown(r, s, t) or not self.is_equation(n):
            return False
        value = self.value_left((r, s, t), n, True)
        if value is None or value < v:
            return False
        low, high = self.rooms[-1][r, s, t]
        self.rooms[-1][r, s, t] = (max(low, v), high)
        return True

    def high_met(self, numbers: List[int]) -> bool:
        r, s, t, v, n = numbers
        if not self.rooms or not self.is_unknown(r, s, t) or not self.is_equation(n):
            return False
        value = self.value_left((r, s, t), n, False)
        if value is None or value > v:
            return False
        low, high = self.rooms[-1][r, s, t]
        self.rooms[-1][r, s, t] = (low, min(high, v))
        return True

    def split_met(self, numbers: List[int]) -> bool:
        r, s, t, v = numbers
        if not self.rooms or not self.is_unknown(r, s, t):
            return False
        low, high = self.rooms[-1][r, s, t]
        if not low <= v < high:
            return False
        above = self.rooms.pop()
        below = dict(above)
        above[r, s, t] = (v + 1, high)
        below[r, s, t] = (low, v)
        self.rooms += [above, below]
        return True

    def close_branch(self) -> bool:
        assert self.rooms
        self.rooms.pop()
        return True

    def miss_met(self, numbers: List[int]) -> bool:
        (n,) = numbers
        if not self.rooms or not self.is_equation(n):
            return False
        equation, room = self.equations[n], self.rooms[-1]
        if equation.right >= sum_in(room, equation.terms, False):
            if equation.right <= sum_in(room, equation.terms, True):
                return False
        return self.close_branch()

    def mod_met(self, numbers: List[int]) -> bool:
        n, g = numbers
        if not self.rooms or not self.is_equation(n) or g < 2:
            return False
        equation, room = self.equations[n], self.rooms[-1]
        fixed: List[int] = []
        for unknown in sorted(equation.terms):
            low, high = room[unknown]
            if low < high and equation.terms[unknown] % g != 0:
                return False
        for unknown in sorted(equation.terms):
            low, high = room[unknown]
            if low == high:
                fixed.append(work(equation.terms[unknown] * low))
        rest = equation.right
        for product in fixed:
            rest = work(rest - product)
        return rest % g != 0 and self.close_branch()

    def void_met(self, numbers: List[int]) -> bool:
        r, s, t = numbers
        if not self.rooms or not self.is_unknown(r, s, t):
            return False
        low, high = self.rooms[-1][r, s, t]
        return low > high and self.close_branch()

    # Claims: the ranges of their numbers, and where they are closed.

    def first_in_range(self) -> bool:
        return True

    def first_closed(self) -> bool:
        return self.array.c[1] != 1

    def one_to_d(self, i: int) -> bool:
        """The range of degree, size, handshake and triangles."""
        return 1 <= i <= self.array.d

    def degree_closed(self, i: int) -> bool:
        return self.array.a(i) < 0

    def order_in_range(self, i: int) -> bool:
        return 1 <= i <= self.array.d - 1

    def order_closed(self, i: int) -> bool:
        b, c = self.array.b, self.array.c
        return b[i] < b[i + 1] or c[i] > c[i + 1]

    def cross_in_range(self, i: int, j: int) -> bool:
        return i >= 1 and i + j <= self.array.d

    def cross_closed(self, i: int, j: int) -> bool:
        return self.array.c[i] > self.array.b[j]

    def size_closed(self, i: int) -> bool:
        if self.sizes is None or len(self.sizes) < i:
            return False
        return work(self.sizes[i - 1] * self.array.b[i - 1]) % self.array.c[i] != 0

    def intersect_in_range(self, h: int, i: int, j: int) -> bool:
        return all(0 <= x <= self.array.d for x in (h, i, j))

    def intersect_closed(self, h: int, i: int, j: int) -> bool:
        if i < 1 or any(self.row(h, r) is None for r in range(1, i)):
            return False
        value = self.entry_times_c(h, i, j)
        return value < 0 or value % self.array.c[i] != 0

    def handshake_closed(self, i: int) -> bool:
        k = self.all_sizes()
        return k is not None and sum(k) * k[i] % 2 == 1

    def induced_in_range(self, i: int, j: int) -> bool:
        return 1 <= i <= self.array.d and 1 <= j <= self.array.d

    def induced_closed(self, i: int, j: int) -> bool:
        k, row = self.all_sizes(), self.row(i, i)
        return k is not None and row is not None and k[i] * row[j] % 2 == 1

    def triangles_closed(self, i: int) -> bool:
        k, row = self.all_sizes(), self.row(i, i)
        if k is None or row is None:
            return False
        return sum(k) * k[i] * row[i] % 6 != 0

    def mult_closed(self, i: int) -> bool:
        return len(self.q) == self.array.d + 1 and not self.q[0][i].is_count()

    def triple_in_range(self, u: int, v: int, w: int) -> bool:
        return all(1 <= x <= self.array.d for x in (u, v, w))

    def triple_closed(self, u: int, v: int, w: int) -> bool:
        return self.rooms == []


# The claims of class spectral.
SPECTRAL = ("mult", "krein", "absolute", "ktriple")

# The claims that name a type of triples.
TRIPLES = ("triple",)

# Each line of evidence that is judged: where it is met.
LINE_RULES: Dict[str, Callable[[Judge, List[int]], bool]] = {
    "k": Judge.k_met,
    "p": Judge.p_met,
    "frame": Judge.frame_met,
    "theta": Judge.theta_met,
    "prow": Judge.prow_met,
    "qrow": Judge.qrow_met,
    "krein": Judge.krein_met,
    "eq": Judge.eq_met,
    "comb": Judge.comb_met,
    "low": Judge.low_met,
    "high": Judge.high_met,
    "split": Judge.split_met,
    "miss": Judge.miss_met,
    "mod": Judge.mod_met,
    "void": Judge.void_met,
}

# Each claim that is judged: where its line is met, and where it is closed.
CLAIM_RULES: Dict[str, Tuple[Callable[..., bool], Callable[..., bool]]] = {
    "first": (Judge.first_in_range, Judge.first_closed),
    "degree": (Judge.one_to_d, Judge.degree_closed),
    "order": (Judge.order_in_range, Judge.order_closed),
    "cross": (Judge.cross_in_range, Judge.cross_closed),
    "size": (Judge.one_to_d, Judge.size_closed),
    "intersect": (Judge.intersect_in_range, Judge.intersect_closed),
    "handshake": (Judge.one_to_d, Judge.handshake_closed),
    "induced": (Judge.induced_in_range, Judge.induced_closed),
    "mult": (Judge.one_to_d, Judge.mult_closed),
    "triangles": (Judge.one_to_d, Judge.triangles_closed),
    "triple": (Judge.triple_in_range, Judge.triple_closed),
}


# ---------------------------------------------------------------------------
# The command
# ---------------------------------------------------------------------------


def read_file(handle: int) -> bytes:
    """The bytes of an open file; one more than the limit where it has more."""
    pieces: List[bytes] = []
    left = MAX_INPUT_BYTES + 1
    while left > 0:
        piece = os.read(handle, min(left, PIECE_BYTES))
        if not piece:
            break
        pieces.append(piece)
        left -= len(piece)
    return b"".join(pieces)


def answer_bytes(data: bytes) -> Answer:
    if len(data) > MAX_INPUT_BYTES:
        return Answer("input too long", EXIT_TOO_LONG)
    try:
        derivation = Reader(data).read()
    except BadInput as bad:
        return Answer(f"bad input, line {bad.line}, place 0", EXIT_BAD_INPUT)
    return Judge(derivation).judge()


def answer_file(path: str) -> Answer:
    try:
        handle = os.open(path, os.O_RDONLY)
    except OSError:
        return Answer("cannot open", EXIT_CANNOT_OPEN)
    try:
        data = read_file(handle)
    except OSError:
        return Answer("cannot read", EXIT_CANNOT_READ)
    finally:
        os.close(handle)
    return answer_bytes(data)


def is_name(word: str) -> bool:
    """Whether the program takes the word as the name of a file."""
    try:
        os.fsencode(word).decode("utf-8")
    except UnicodeDecodeError:
        return False
    return word == "-" or not word.startswith("-")


def write(answer: Answer) -> int:
    """Writes the answer's line to its stream; the exit number of the file."""
    if answer.is_refusal():
        sys.stderr.write(f"drg: {answer.text}\n")
        return answer.status
    text = f"{answer.text}\n".encode("ascii")
    try:
        while text:
            text = text[os.write(sys.stdout.fileno(), text) :]
    except OSError:
        return write(Answer("cannot write", EXIT_CANNOT_WRITE))
    return answer.status


def answer(path: str) -> Answer:
    try:
        return answer_file(path)
    except MemoryError:
        return Answer("no memory", EXIT_NO_MEMORY)


def main(paths: List[str]) -> int:
    if not paths or not all(is_name(path) for path in paths):
        return write(Answer("usage", EXIT_USAGE))
    statuses = [write(answer(path)) for path in paths]
    return next((status for status in statuses if status != EXIT_ACCEPTED), EXIT_ACCEPTED)


if __name__ == "__main__":
    sys.exit(main(sys.argv[1:]))
