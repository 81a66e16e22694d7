#!/usr/bin/env python3
"""Judges all arrays of a list, of a table or of any text, and writes a table with their verdicts.

    python3 tools/verdicts.py [--drg PROGRAM] [--tests LIST] [--jobs N] [FILE..]

reads the files, or standard input where there are none, as tools/arrays_of.py does: each array that is found there is
a row, with the name that stands beside it. Each is judged by `drg check`, with the tests of LIST where it is given,
and N at a time (as many as there are processors, where N isn't given). For each row, in their order, a record of a CSV
table is written: the name, the array, and the verdict, as in `survivor` or `infeasible degree 1 counting`. A row that
`drg` refuses has the line of standard error in the place of the verdict, as in `drg: no memory`.

The exit number is 0 where each row has a verdict, 1 where one hasn't or no array was found, 64 where the words are
wrong, 67 where a file can't be read, and 70 where the program can't be built. PROGRAM is bin/drg, where it isn't given.
"""
import argparse
import csv
import os
import subprocess
import sys
from concurrent.futures import ThreadPoolExecutor
from pathlib import Path
from typing import Iterator, List, NamedTuple, Tuple

from arrays_of import CANNOT_READ, USAGE, texts_of

TOP = Path(__file__).resolve().parent.parent
CANNOT_BUILD = 70
# The exit numbers that come with a report.
VERDICTS = {0, 1, 2, 3}


class Judged(NamedTuple):
    """What `drg check` says of an array: its report, its verdict in words, and its exit number."""

    report: str
    verdict: str
    status: int

    def is_judged(self) -> bool:
        return self.status in VERDICTS


class Words(argparse.ArgumentParser):
    """The words of a command, with the exit number of the project where they are wrong."""

    def error(self, message):
        self.print_usage(sys.stderr)
        self.exit(USAGE, f"{self.prog}: {message}\n")


def words_of(title: str) -> Words:
    """The words that each command on many arrays takes."""
    words = Words(description=title, allow_abbrev=False)
    words.add_argument("--drg", metavar="PROGRAM", default=str(TOP / "bin" / "drg"))
    words.add_argument("--tests", metavar="LIST")
    words.add_argument("--jobs", metavar="N", type=int, default=os.cpu_count() or 1)
    return words


def rows_of(files: List[str]) -> List[Tuple[str, str]]:
    """The name and the text of each array of the files."""
    seen: set = set()
    try:
        return [row for text in texts_of(files) for row in text.rows(seen, True)]
    except OSError as error:
        print(f"{error.filename}: {error.strerror}", file=sys.stderr)
        sys.exit(CANNOT_READ)


def judge(program: str, tests: str, array: str) -> Judged:
    """Judges one array."""
    words = [program, "check"] + (["--tests", tests] if tests else []) + ["/dev/stdin"]
    done = subprocess.run(words, input=f"{array}\n".encode(), capture_output=True, check=False)
    report = done.stdout.decode()
    told = [line.removeprefix("verdict ") for line in report.split("\n") if line.startswith("verdict ")]
    errors = done.stderr.decode("utf-8", "replace").strip().split("\n")
    return Judged(report, told[0] if told else errors[-1], done.returncode)


def judged(given, rows: List[Tuple[str, str]]) -> Iterator[Judged]:
    """What `drg check` says of each row, in their order. The first is judged alone: it may build the program."""
    for row in rows[:1]:
        answer = judge(given.drg, given.tests, row[1])
        if answer.status == CANNOT_BUILD:
            print(answer.verdict, file=sys.stderr)
            sys.exit(CANNOT_BUILD)
        yield answer
    with ThreadPoolExecutor(max(1, given.jobs)) as pool:
        yield from pool.map(lambda row: judge(given.drg, given.tests, row[1]), rows[1:])


def main() -> int:
    words = words_of("Judges all arrays of a text, and writes a table with their verdicts.")
    words.add_argument("files", metavar="FILE", nargs="*")
    given = words.parse_args()
    rows = rows_of(given.files)
    writer = csv.writer(sys.stdout, lineterminator="\n")
    all_judged = bool(rows)
    for (name, array), answer in zip(rows, judged(given, rows)):
        writer.writerow([name, array, answer.verdict])
        all_judged = all_judged and answer.is_judged()
    return 0 if all_judged else 1


if __name__ == "__main__":
    sys.exit(main())
