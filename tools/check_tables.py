#!/usr/bin/env python3
"""Checks the tables of examples/tables, without the program.

Usage: python3 tools/check_tables.py

- Each section of examples/tables/README.md that begins with the name of a table has its records, in their order.
- Beside each array stands the sum of its sizes, and the verdict of the tests that always run with handshake, induced,
  triangles and mult, as tools/census.py and tools/spectrum.py work it out.
- Each mark of a reference stands in the list of references, and each reference of the list is used.

Each record is one case, and so is each table and the list. The last line printed is 'N passed, M failed', and the exit
status is 0 where M is 0.
"""
import csv
import re
import sys
from pathlib import Path
from typing import Dict, List, NamedTuple

from census import passes
from spectrum import spectrum_lines

TABLES = Path(__file__).resolve().parent.parent / "examples" / "tables"
PAGE = TABLES / "README.md"
ROW = re.compile(
    r"^\| (?P<name>[^|]+) \| `(?P<array>[^`]+)` \| (?P<n>\d+) \| `(?P<verdict>[^`]+)` \| (?P<reference>[^|]+) \|$",
    re.MULTILINE,
)
MARK = re.compile(r"^\| (?P<mark>\w+) \| [^`|]*\*[^`|]+ \|$", re.MULTILINE)
# The tests that the verdicts of the page are about, besides those that always run.
TESTS = "handshake,induced,triangles,mult"


class Row(NamedTuple):
    """A row of the page."""

    name: str
    array: str
    n: int
    verdict: str
    reference: str


def rows_of_page() -> Dict[str, List[Row]]:
    """The rows of the page by the name of their table."""
    found: Dict[str, List[Row]] = {}
    for section in PAGE.read_text(encoding="utf-8").split("\n## "):
        named = re.search(r"^`(\w+)\.csv` has ", section, re.MULTILINE)
        if named:
            found[named.group(1)] = [
                Row(row["name"], row["array"], int(row["n"]), row["verdict"], row["reference"])
                for row in ROW.finditer(section)
            ]
    return found


def vertices(array: str) -> int:
    """The sum of the sizes k_0 .. k_d, by `k_i c_i = k_(i-1) b_(i-1)`; 0 where one isn't whole."""
    b, c = ([int(x) for x in side.split(",")] for side in array.strip("{}").split(";"))
    k = [1]
    for up, down in zip(b, c):
        if k[-1] * up % down != 0:
            return 0
        k.append(k[-1] * up // down)
    return sum(k)


def verdict_of(array: str) -> str:
    """The verdict by the programs that share no code with drg; nothing where a counting test fails."""
    b, c = ([int(x) for x in side.split(",")] for side in array.strip("{}").split(";"))
    if not passes(b, c, vertices(array)):
        return ""
    multiplicities = spectrum_lines(array)[1]
    if multiplicities is None:
        return "refused-spectrum"
    wrong = [i for i, m in enumerate(multiplicities) if i > 0 and not is_count(m)]
    return f"infeasible mult {wrong[0]} spectral" if wrong else "survivor"


def is_count(value) -> bool:
    """Whether a value a + b√D is a positive whole number."""
    return value.b == 0 and value.a.denominator == 1 and value.a > 0


def cases():
    page = rows_of_page()
    files = sorted(path.stem for path in TABLES.glob("*.csv"))
    yield "examples/tables/README.md: has a section for each table", files == sorted(page)
    for name, rows in page.items():
        with open(TABLES / f"{name}.csv", encoding="utf-8", newline="") as table:
            records = list(csv.reader(table))
        yield f"{name}.csv: has the records of its section", records == [[row.name, row.array] for row in rows] != []
        for row in rows:
            yield f"{name}.csv: n of {row.array}", row.n == vertices(row.array)
            yield f"{name}.csv: the verdict of {row.array}", row.verdict == verdict_of(row.array)
    text = PAGE.read_text(encoding="utf-8")
    marks = {match["mark"] for match in MARK.finditer(text.split("\n## References")[1])}
    used = {row.reference.split(",")[0].split(" ")[0] for rows in page.values() for row in rows} - {"-"}
    yield "examples/tables/README.md: the references are those of the rows", marks == used


def main():
    passed = failed = 0
    for name, held in cases():
        if held:
            passed += 1
        else:
            failed += 1
            print(f"{name}: isn't so")
    print(f"{passed} passed, {failed} failed")
    return 0 if failed == 0 and passed > 0 else 1


if __name__ == "__main__":
    sys.exit(main())
