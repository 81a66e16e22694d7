#!/usr/bin/env python3
"""Makes an archive of derivations: one file for each array of a text that `drg check` excludes.

    python3 tools/archive.py [--drg PROGRAM] [--tests LIST] [--jobs N] FOLDER [FILE..]

reads the files, or standard input where there are none, as tools/arrays_of.py does, and judges each array as
tools/verdicts.py does. For each that is infeasible the derivation, up to its line `end`, becomes a file of FOLDER,
whose name is the number of the row from 1, as in 0002.txt. FOLDER/index.csv has a record for each: the name of the
file, the name of the array, the array, the claim and its class. FOLDER is made where it isn't there; it must be empty.

Then each file is judged by both replayers, `drg replay` and tools/replay.py. A file that one of them doesn't accept,
with the claim and the class that the report names, is told on standard error. The two lines of standard output say
how many arrays there were by their verdicts, and how many derivations both replayers accept.

The exit number is 0 where each derivation is accepted by both and each array was judged, 1 where one isn't, and as
that of tools/verdicts.py where nothing could be judged. PROGRAM is bin/drg, where it isn't given.
"""
import csv
import subprocess
import sys
from collections import Counter
from pathlib import Path
from typing import List, Tuple

import replay
from arrays_of import USAGE
from verdicts import Judged, judged, rows_of, words_of

INFEASIBLE = 1
KINDS = ["survivor", "infeasible", "refused-spectrum", "undecided"]
INDEX = "index.csv"


def derivation_in(report: str) -> str:
    """The derivation at the front of a report."""
    return report[: report.index("\nend\n") + len("\nend\n")]


def kept(folder: Path, rows: List[Tuple[str, str]], answers: List[Judged]) -> List[Tuple[Path, str]]:
    """Writes the derivations and the index; each file with the claim and the class of its report."""
    width = max(4, len(str(len(rows))))
    files: List[Tuple[Path, str]] = []
    with open(folder / INDEX, "w", encoding="utf-8", newline="") as out:
        index = csv.writer(out, lineterminator="\n")
        for number, ((name, array), answer) in enumerate(zip(rows, answers), 1):
            if answer.status == INFEASIBLE:
                path = folder / f"{number:0{width}}.txt"
                path.write_text(derivation_in(answer.report), encoding="utf-8", newline="")
                claim = answer.verdict.removeprefix("infeasible ")
                index.writerow([path.name, name, array, *claim.rsplit(" ", 1)])
                files.append((path, claim))
    return files


def by_program(program: str, path: Path) -> str:
    """The line of `drg replay` on a file."""
    done = subprocess.run([program, "replay", path], capture_output=True, check=False)
    return (done.stdout + done.stderr).decode("utf-8", "replace").rstrip("\n")


def is_accepted(program: str, path: Path, claim: str) -> bool:
    """Whether both replayers accept a file with this claim and class; where one doesn't, says so."""
    wanted = f"accepted {claim}"
    answers = {"drg replay": by_program(program, path), "tools/replay.py": replay.answer(str(path)).text}
    for name, answer in answers.items():
        if answer != wanted:
            print(f"{path}: {name} answers `{answer}`, and not `{wanted}`", file=sys.stderr)
    return all(answer == wanted for answer in answers.values())


def counted(answers: List[Judged]) -> str:
    """How many arrays there are, by their verdicts."""
    counts = Counter(answer.verdict.split(" ")[0] if answer.is_judged() else "not judged" for answer in answers)
    return f"{len(answers)} arrays: " + ", ".join(f"{counts[kind]} {kind}" for kind in [*KINDS, "not judged"])


def main() -> int:
    words = words_of("Makes an archive of the derivations of all arrays of a text that drg check excludes.")
    words.add_argument("folder", metavar="FOLDER", type=Path)
    words.add_argument("files", metavar="FILE", nargs="*")
    given = words.parse_args()
    given.folder.mkdir(parents=True, exist_ok=True)
    if any(given.folder.iterdir()):
        print(f"{given.folder}: isn't empty", file=sys.stderr)
        return USAGE
    rows = rows_of(given.files)
    answers = list(judged(given, rows))
    for (_, array), answer in zip(rows, answers):
        if not answer.is_judged():
            print(f"{array}: {answer.verdict}", file=sys.stderr)
    files = kept(given.folder, rows, answers)
    accepted = sum(is_accepted(given.drg, path, claim) for path, claim in files)
    print(counted(answers))
    print(f"{len(files)} derivations: {accepted} accepted by both replayers")
    return 0 if accepted == len(files) and all(answer.is_judged() for answer in answers) else 1


if __name__ == "__main__":
    sys.exit(main())
