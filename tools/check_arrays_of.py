#!/usr/bin/env python3
"""Checks tools/arrays_of.py and tools/edges_of.py on tables of texts.

Usage: python3 tools/check_arrays_of.py

Each text of CASES is one case: what is written of it and what is left out, with the reason. A table that was written
is read again, and is the same. Each text of EDGES is one case: its list of edges, or its line on standard error.
The last line printed is 'N passed, M failed', and the exit status is 0 where M is 0.
"""
import subprocess
import sys
import tempfile
from pathlib import Path
from typing import List, NamedTuple, Tuple

TOOLS = Path(__file__).resolve().parent
LIMIT_SECONDS = 60
LONG = ",".join(["1"] * 13)


class Case(NamedTuple):
    """A text, the lines that are written, and the lines that are left out with their number and reason."""

    text: str
    arrays: List[str]
    left_out: List[Tuple[int, str, str]] = []


CASES = [
    # As books and plain lists write it.
    Case("{3,2;1,1}\n", ["{3,2;1,1}"]),
    Case("{ 3, 2; 1, 1 }", ["{3,2;1,1}"]),
    Case("Petersen: {3,2;1,1}, Heawood: {3,2,2;1,1,3}.\n", ["{3,2;1,1}", "{3,2,2;1,1,3}"]),
    Case("{3;1}\r\n{3,2;1,1}\r\n", ["{3;1}", "{3,2;1,1}"]),
    Case("{5,4,\n 2;1,1,4}", ["{5,4,2;1,1,4}"]),
    Case("3,2;1,1\n", ["{3,2;1,1}"]),
    Case("{3,2:1,1}\n{4,1|1,4}\n", ["{3,2;1,1}", "{4,1;1,4}"]),
    Case("{3,2,0;0,1,1}\n", ["{3,2;1,1}"]),
    Case("{3\u00a0,2\uff1b1\uff0c1}\n", ["{3,2;1,1}"]),
    Case("{4095;1}\n", ["{4095;1}"]),
    # As TeX writes it.
    Case("the array $\\{3, 2; 1, 1\\}$ of\n", ["{3,2;1,1}"]),
    Case("$\\left\\{5,4\\,;\\,1,2\\right\\}$\n", ["{5,4;1,2}"]),
    Case("\\lbrace 4,1;\\ 1,4\\rbrace\n", ["{4,1;1,4}"]),
    Case("\\bigl\\{4,1;1,4\\bigr\\}\n", ["{4,1;1,4}"]),
    Case("\\textbf{Odd graph $\\{4,3,3;1,1,2\\}$}\n", ["{4,3,3;1,1,2}"]),
    # As Sage and GAP write it.
    Case("([3, 2, None], [None, 1, 1])\n", ["{3,2;1,1}"]),
    Case("[[4,1],[1,4]]\n", ["{4,1;1,4}"]),
    Case("[27, 10, 1], [1, 10, 27]\n", ["{27,10,1;1,10,27}"]),
    Case("[3, 2, 1, 1, 2, 3]\n", ["{3,2,1;1,2,3}"]),
    Case("see [3, 4] and [1, 2].\n", []),
    Case("see [3, 4], [1, 2]\n", ["{3,4;1,2}"]),
    # Strongly regular parameters.
    Case("(10,3,0,1)\n", ["{3,2;1,1}"]),
    Case("an srg(16, 6, 2, 2) exists\n", ["{6,3;1,2}"]),
    Case("10 3 0 1\n16,5,0,2\n", ["{3,2;1,1}", "{5,4;1,2}"]),
    Case("10 3 0 1 2\n", []),
    Case(
        "(12,3,0,1)\n",
        [],
        [(1, "(12,3,0,1)", "k (k-lambda-1) isn't (v-k-1) mu, so no graph has these parameters")],
    ),
    Case("\n(8,3,2,0)\n", [], [(2, "(8,3,2,0)", "no connected graph of diameter 2 has these parameters")]),
    # What is none.
    Case("", []),
    Case("no array\n", []),
    Case("{1,2,3} and {x}\n", []),
    Case("{q^2,q;1,q}\n", [], [(1, "{q^2,q;1,q}", "an entry isn't a number")]),
    Case("$\\{b_0,b_{d-1};c_1,c_d\\}$", [], [(1, "{b_0,b_{d-1};c_1,c_d}", "an entry isn't a number")]),
    Case("{5,\\ldots,1;1,\\ldots,5}\n", [], [(1, "{5,\\ldots,1;1,\\ldots,5}", "entries are left out by dots")]),
    Case("{3,..,1;1,..,3}\n", [], [(1, "{3,..,1;1,..,3}", "entries are left out by dots")]),
    Case("{3,-2;1,1}\n", [], [(1, "{3,-2;1,1}", "an entry isn't a number")]),
    Case("{3 2;1 1}\n", [], [(1, "{3 2;1 1}", "a comma is missing between two numbers")]),
    Case("{3,;1,1}\n", [], [(1, "{3,;1,1}", "a number is missing")]),
    Case("{3,2;1}\n", [], [(1, "{3,2;1}", "2 numbers stand before the semicolon and 1 after it")]),
    Case("{3,0;1,1}\n", [], [(1, "{3,0;1,1}", "an entry is 0")]),
    Case("{4096;1}\n", [], [(1, "{4096;1}", "an entry is above 4095")]),
    Case("{3;2;1}\n", [], [(1, "{3;2;1}", "it has more than one semicolon")]),
    Case("[3, 2, 1]\n", [], [(1, "[3, 2, 1]", "one list of an odd number of entries")]),
    Case(f"{{{LONG};{LONG}}}\n", [], [(1, f"{{{LONG};{LONG}}}", "the diameter is above 12")]),
    Case("{3,2;1,1}\n{3, 2; 1, 1}\n", ["{3,2;1,1}"], [(2, "{3, 2; 1, 1}", "it was written before")]),
]
# Texts with the records of their tables.
TABLES = [
    ("Petersen graph & $\\{3,2;1,1\\}$ & 10 \\\\\n", 'Petersen graph,"{3,2;1,1}"\n'),
    ("1 & Heawood & $\\{3,2,2;1,1,3\\}$ \\\\\n", 'Heawood,"{3,2,2;1,1,3}"\n'),
    ("Petersen: {3,2;1,1}\nKneser: {3,2;1,1}\n", 'Petersen,"{3,2;1,1}"\nKneser,"{3,2;1,1}"\n'),
    ("The Sylvester graph has intersection array {5,4,2;1,1,4}.\n", 'The Sylvester graph,"{5,4,2;1,1,4}"\n'),
    ("{7,6;1,1} Hoffman-Singleton graph\n", 'Hoffman-Singleton graph,"{7,6;1,1}"\n'),
    ("srg(16,6,2,2) Shrikhande\n", 'Shrikhande,"{6,3;1,2}"\n'),
    ('petersen,"{3, 2; 1, 1}"\n', 'petersen,"{3,2;1,1}"\n'),
    ('"K, with a comma",{3;1}\n', '"K, with a comma",{3;1}\n'),
    ('"srg(10,3,0,1)","{3,2;1,1}"\n', '"srg(10,3,0,1)","{3,2;1,1}"\n'),
    ('"{3;1} in a name, as long as you like","{ 3;1 }"\n', '"{3;1} in a name, as long as you like",{3;1}\n'),
    ("Johnson graph J(6,3) ({9,4,1;1,4,9})\n", '"Johnson graph J(6,3)","{9,4,1;1,4,9}"\n'),
    ("{4,1;1,4}\n", ',"{4,1;1,4}"\n'),
    ("{4,1;1,4} and {3;1}\n", ',"{4,1;1,4}"\n,{3;1}\n'),
    ("a name that is longer than the forty letters {3;1}\n", ",{3;1}\n"),
]


# Texts with edges: the list that is written, the line on standard error, and the exit number.
EDGES = [
    ("1 2\n2 3\n3 1\n", "graph 3\n0 1\n1 2\n2 0\n", "", 0),
    ("7 10\n10 9\n", "graph 3\n0 2\n2 1\n", "", 0),
    ("# a path\n[(a, b),\n(b, \"c\")]\n\n", "graph 3\n0 1\n1 2\n", "", 0),
    ("x;y\n", "graph 2\n0 1\n", "", 0),
    ("# none\n", "", "no line has names\n", 65),
    ("1 2\n1 2 3\n", "", "line 2: hasn't two names\n", 65),
    ("1 2\n3\n", "", "line 2: hasn't two names\n", 65),
]


def run(words, text="", tool="arrays_of.py"):
    """What a tool writes on standard output and standard error, and its exit number."""
    done = subprocess.run(
        [sys.executable, TOOLS / tool, *words],
        input=text.encode(),
        stdout=subprocess.PIPE,
        stderr=subprocess.PIPE,
        timeout=LIMIT_SECONDS,
    )
    return done.stdout.decode(), done.stderr.decode(), done.returncode


def holds(name, wanted, found):
    if wanted == found:
        return True
    print(f"{name!r}\n  wanted: {wanted}\n  found:  {found}")
    return False


def cases():
    for text, arrays, left_out in CASES:
        lines = "".join(f"{array}\n" for array in arrays)
        errors = "".join(f"input:{line}: left out {shown}: {why}\n" for line, shown, why in left_out)
        yield holds(text, (lines, errors, 0 if arrays else 1), run([], text))
    for text, table in TABLES:
        yield holds(text, (table, "", 0), run(["--table"], text))
        yield holds(table, (table, "", 0), run(["--table"], table))
    with tempfile.TemporaryDirectory() as folder:
        first, second = Path(folder) / "first", Path(folder) / "second"
        first.write_text("{3,2;1,1}\n", encoding="utf-8")
        second.write_text("{4,1;1,4}\n{3,2;1,1}\n", encoding="utf-8")
        error = f"{second}:2: left out {{3,2;1,1}}: it was written before\n"
        yield holds("two files", ("{3,2;1,1}\n{4,1;1,4}\n", error, 0), run([first, second]))
        error = f"{folder}/none: No such file or directory\n"
        yield holds("no such file", ("", error, 67), run([f"{folder}/none"]))
    for text, lines, error, status in EDGES:
        yield holds(text, (lines, error, status), run([], text, "edges_of.py"))
    yield holds("--other", ("", "usage: arrays_of.py [--table] [FILE..]\n", 64), run(["--other"]))


def main():
    passed = failed = 0
    for held in cases():
        if held:
            passed += 1
        else:
            failed += 1
    print(f"{passed} passed, {failed} failed")
    return 0 if failed == 0 and passed > 0 else 1


if __name__ == "__main__":
    sys.exit(main())
