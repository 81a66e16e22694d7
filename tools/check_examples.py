#!/usr/bin/env python3
"""Runs the program on every example, and compares what it writes on each stream and its exit number.

Usage: python3 tools/check_examples.py

- Each array of examples/graphs has the verdict that the table of examples/README.md gives, with its
  array and its number of vertices, and the orderings of the table below it; the sizes follow from the
  array, and tools/spectrum.py works out the eigenvalues and matrices, or the certificate. Each file has a
  row of both tables, and each row a file. Where no test is selected, each is a survivor.
- Each of the ten arrays of examples/fails fails the test of its name first: the report is the file of
  that name in examples/derivations and the verdict on its claim. The report is the same where that test
  is the only one selected. Where it is one that can be selected and none is, the array is a survivor, and
  tools/orderings.py works out its orderings.
- Each derivation, and each such report, is accepted by `drg replay` and by tools/replay.py.
- Each derivation of examples/spectral and of examples/triples is accepted by both, with the claim of its
  row in examples/README.md.
- Each text of examples/refused has the answer of its row in examples/README.md, by both.
- Each census of CENSUSES is that of tools/census.py. The census of the diameter, the valency and the number of
  vertices of each array of examples/graphs has it, where there is one, and the classical parameters of the array
  are those of tools/census.py.
- Each list of edges of examples/edges is the one that tools/make_edges.py makes, and has the answer of its
  row in examples/README.md, by `drg graph` and by tools/graph_answer.py.
- Each array of examples whose name begins with wide is undecided, by the number that WIDE names.
- Each array of the tables of examples/tables has the verdict that stands beside it in examples/tables/README.md, by
  `drg check` and, for the rows of each table together, by `drg table`.
- Each sample of SAMPLES is the same at each run, its numbers add up, and those of tests 1 to 9 are those of
  tools/sample.py.
- Each text of the table of docs/limits.md is refused at the place that stands there.
- Each fault of FAULTS ends with its line on standard error and its exit number, and nothing is written. Those of
  `drg replay` do so by tools/replay.py too, and of several files it answers each as if it stood alone.
- examples/petersen.txt and examples/degree.txt are copies of the files of their names further down.
- Each example of man/drg.1 prints what the page shows.

Each of these is one case. The last line printed is 'N passed, M failed', and the exit status is 0 where
M is 0.
"""
import csv
import io
import os
import re
import subprocess
import sys
import tempfile
from pathlib import Path
from typing import NamedTuple

from check_tables import TESTS as TABLE_TESTS
from check_tables import rows_of_page
from make_edges import made
from orderings import ordering_lines
from sample import COUNTING, counted
from spectrum import spectrum_lines

TOP = Path(__file__).resolve().parent.parent
EXAMPLES = TOP / "examples"
ALWAYS_RUN = ["first", "degree", "order", "cross", "size", "intersect"]
SELECTABLE = ["handshake", "induced", "triangles", "mult"]
TESTS = ALWAYS_RUN + SELECTABLE
# Each array with a number past 2^127-1: the tests that it passed, and the number.
WIDE = {
    "wide": ("first degree order cross", "size wide k 11"),
    "wide_vertices": ("first degree order cross", "size wide n"),
    "wide_intersection": ("first degree order cross size", "intersect wide p 0 11 10"),
    "wide_polynomial": (" ".join(ALWAYS_RUN + SELECTABLE[:3]), "mult wide poly 13"),
}
COPIES = {"petersen": "graphs", "degree": "fails"}
ROW = re.compile(
    r"\| [^|]+ \| `(?P<file>\w+)` \| `(?P<array>\{[\d,;]+\})` \| (?P<n>\d+) \| (?P<verdict>[a-z-]+) \|"
)
ORDERINGS_ROW = re.compile(r"\| `(?P<file>\w+)` \| (?P<orderings>`[\d ]+`(?:, `[\d ]+`)*) \|")
REFUSED_ROW = re.compile(r"\| `(?P<file>\w+)` \| `(?P<answer>(?:rejected|undecided|bad input,)[^`]+)` \|")
ACCEPTED_ROW = re.compile(r"\| `\{[\d,;]+\}` \| `(?P<file>\w+)` \| `(?P<answer>accepted [^`]+ (?P<kind>\w+))` \|")
# The folders of derivations made without the program, and their class.
UNWRITTEN = {"spectral": "spectral", "triples": "counting"}
TEXT_ROW = re.compile(r"^\| `(?P<text>[^`]+)` \| (?P<place>\d+) \| ", re.MULTILINE)
EDGES_ROW = re.compile(r"\| [^|]+ \| `(?P<file>\w+)` \| `(?P<answer>(?:array|single|apart|differ|far)\b[^`]*)` \|")
# Small censuses, some of them without an array: diameter, valency and number of vertices.
CENSUSES = [
    *("1 1 2", "1 32 33", "2 3 8", "2 4 9", "2 5 16", "2 6 16", "2 8 27"),
    *("3 3 14", "3 4 15", "3 5 12", "3 6 27", "4 3 14", "4 4 16"),
]
# Small samples: seed and count.
SAMPLES = [(0, 0), (1, 1), (7, 200), (2147483647, 100)]
# The greatest diameter, valency and number of vertices of a census.
CENSUS_LIMITS = (4, 32, 2000)
EXAMPLE = re.compile(r"^\.EX\n\$ (?P<command>.*)\n(?P<printed>(?:.*\n)*?)\.EE$", re.MULTILINE)
SURVIVOR, INFEASIBLE, REFUSED, UNDECIDED, ACCEPTED, REJECTED, DONE, BAD_INPUT = 0, 1, 2, 3, 0, 5, 0, 65
CANNOT_BUILD = 70
# The exit number of an answer that isn't `accepted`, by its first word.
REFUSED_STATUS = {"rejected": REJECTED, "undecided": UNDECIDED, "bad": BAD_INPUT}
# Each fault of a run: the command, where $drg stands for the program, its line, and its exit number.
FAULTS = [
    ("$drg", "usage", 64),
    ("$drg check", "usage", 64),
    ("$drg check --tests krein examples/petersen.txt", "usage", 64),
    ("$drg check $'\\xff'", "usage", 64),
    ("$drg check --json --json examples/petersen.txt", "usage", 64),
    ("$drg check --budget 0 examples/petersen.txt", "usage", 64),
    ("$drg check --budget 100001 examples/petersen.txt", "usage", 64),
    ("$drg check --json examples/nothing.txt", "cannot open", 67),
    ("echo '{3,2;1}' | $drg check /dev/stdin", "bad input, line 1, place 7", BAD_INPUT),
    ("$drg check /dev/null", "bad input, line 1, place 1", BAD_INPUT),
    ("$drg replay", "usage", 64),
    ("$drg replay -", "cannot open", 67),
    ("$drg replay --tests", "usage", 64),
    ("$drg replay $'\\xff'", "usage", 64),
    ("$drg replay examples/petersen.txt", "bad input, line 1, place 0", BAD_INPUT),
    ("$drg replay ''", "cannot open", 67),
    ("$drg graph", "usage", 64),
    ("$drg graph examples/petersen.txt", "bad input, line 1, place 0", BAD_INPUT),
    ("$drg classical", "usage", 64),
    ("echo '{3,2;1}' | $drg classical /dev/stdin", "bad input, line 1, place 7", BAD_INPUT),
    ("$drg table", "usage", 64),
    ("$drg table --json examples/tables/open.csv", "usage", 64),
    ("$drg table examples/petersen.txt", "bad input, line 1, place 0", BAD_INPUT),
    ("printf 'a,{3;1}\\n\\nb,{3;0}\\n' | $drg table /dev/stdin", "bad input, line 2, place 4", BAD_INPUT),
    ("$drg sample 1", "usage", 64),
    ("$drg sample 01 1", "usage", 64),
    ("$drg sample 2147483648 1", "usage", 64),
    ("$drg sample 1 100001", "usage", 64),
    ("$drg census 2 3", "usage", 64),
    ("$drg census 5 3 10", "usage", 64),
    ("$drg census 2 33 100", "usage", 64),
    ("$drg census 2 3 2001", "usage", 64),
    ("$drg census 2 03 10", "usage", 64),
    ("printf 'graph 3\\n1 1\\n' | $drg graph /dev/stdin", "bad input, line 2, place 0", BAD_INPUT),
    ("head -c 67108865 /dev/zero | $drg check /dev/stdin", "input too long", 66),
    ("head -c 67108865 /dev/zero | $drg replay /dev/stdin", "input too long", 66),
    ("head -c 67108865 /dev/zero | $drg graph /dev/stdin", "input too long", 66),
    ("head -c 67108865 /dev/zero | $drg classical /dev/stdin", "input too long", 66),
    ("$drg check examples/nothing.txt", "cannot open", 67),
    ("$drg replay examples/nothing.txt", "cannot open", 67),
    ("$drg graph examples/nothing.txt", "cannot open", 67),
    ("$drg classical examples/nothing.txt", "cannot open", 67),
    ("$drg check examples", "cannot read", 68),
    ("$drg replay examples", "cannot read", 68),
    ("$drg graph examples", "cannot read", 68),
    ("$drg classical examples", "cannot read", 68),
    ("$drg check examples/petersen.txt >/dev/full", "cannot write", 69),
    ("$drg replay examples/derivations/size.txt >/dev/full", "cannot write", 69),
    ("$drg graph examples/edges/cube.txt >/dev/full", "cannot write", 69),
    ("$drg census 2 4 9 >/dev/full", "cannot write", 69),
    ("$drg classical examples/petersen.txt >/dev/full", "cannot write", 69),
    ("ulimit -v 50000; head -c 60000000 /dev/zero | $drg check /dev/stdin", "no memory", 71),
]
LIMIT_SECONDS = 3600


class Ran(NamedTuple):
    """What a command wrote on standard output and on standard error, and its exit number."""

    out: bytes
    err: bytes
    status: int


def run(*words):
    """Runs a command at the top of the repository."""
    done = subprocess.run(
        [str(word) for word in words],
        cwd=TOP,
        stdin=subprocess.DEVNULL,
        stdout=subprocess.PIPE,
        stderr=subprocess.PIPE,
        timeout=LIMIT_SECONDS,
    )
    return Ran(done.stdout, done.stderr, done.returncode)


def drg(*words):
    return run(TOP / "bin" / "drg", *words)


def other_replayer(*paths):
    return run(sys.executable, "tools/replay.py", *paths)


def writes(lines, status):
    """A run that writes these lines on standard output and nothing on standard error."""
    return Ran("".join(line + "\n" for line in lines).encode(), b"", status)


def complains(line, status):
    """A run that writes nothing but this line on standard error."""
    return Ran(b"", f"drg: {line}\n".encode(), status)


def holds(case, wanted, found):
    """Whether a command wrote and answered what is wanted; where it didn't, says so."""
    if wanted == found:
        return True
    print(case)
    for title, ran in (("wanted:", wanted), ("found: ", found)):
        print(f"  {title} {ran.out!r}\n          error {ran.err!r}\n          exit {ran.status}")
    return False


def is_true(case, value):
    """Whether a case without a command holds; where it doesn't, says so."""
    if not value:
        print(case)
    return value


def names_in(folder):
    return {path.stem for path in (EXAMPLES / folder).glob("*.txt")}


def content(name):
    path = EXAMPLES / f"{name}.txt"
    return path.read_text(encoding="utf-8") if path.is_file() else ""


def sizes(array):
    """k_0 .. k_d, by `k_i c_i = k_(i-1) b_(i-1)`."""
    b, c = ([int(x) for x in side.split(",")] for side in array.strip("{}").split(";"))
    k = [1]
    for up, down in zip(b, c):
        k.append(k[-1] * up // down)
    return k


def survivor(array, n, k, passed, further):
    lines = ["verdict survivor", f"array {array}", "passed " + " ".join(passed), f"n {n}"]
    return writes([*lines, "sizes " + " ".join(map(str, k)), *further], SURVIVOR)


def refused_spectrum(array, passed, certificate):
    lines = ["verdict refused-spectrum", f"array {array}", "passed " + " ".join(passed)]
    return writes([*lines, "pending mult spectrum", *certificate], REFUSED)


def class_of(test):
    return "spectral" if test == "mult" else "counting"


def graph_cases():
    """The arrays of graphs, against the table."""
    page = (EXAMPLES / "README.md").read_text(encoding="utf-8")
    rows = {row["file"]: row for row in ROW.finditer(page)}
    orderings = {row["file"]: row["orderings"] for row in ORDERINGS_ROW.finditer(page)}
    same = rows.keys() == orderings.keys() == names_in("graphs")
    yield is_true("examples/README.md: its tables have each file of examples/graphs and no other", same)
    for file, row in sorted(rows.items()):
        array, k = row["array"], sizes(row["array"])
        name = f"examples/graphs/{file}.txt"
        yield is_true(f"{name}: is the array of the table", content(f"graphs/{file}") == array + "\n")
        yield is_true(f"examples/README.md: n of {file} is the sum of its sizes", int(row["n"]) == sum(k))
        lines, multiplicities = spectrum_lines(array)
        ppoly = [f"ppoly {order}" for order in orderings[file].strip("`").split("`, `")]
        yield is_true(f"examples/README.md: the orderings of {file}", ppoly == ordering_lines(array))
        wanted = survivor(array, row["n"], k, ALWAYS_RUN, ppoly)
        yield holds(f"drg check --tests none {name}", wanted, drg("check", "--tests", "none", name))
        wanted = survivor(array, row["n"], k, TESTS, lines + ppoly)
        if multiplicities is None:
            wanted = refused_spectrum(array, TESTS[:-1], lines)
        verdict = wanted.out.decode().split("\n", 1)[0].removeprefix("verdict ")
        yield is_true(f"examples/README.md: the verdict of {file}", row["verdict"] == verdict)
        yield holds(f"drg check {name}", wanted, drg("check", name))


def failing_cases():
    """The arrays that fail a test, against the derivations."""
    yield is_true("examples/fails: has one array for each test", names_in("fails") == set(TESTS))
    yield is_true("examples/derivations: has one derivation for each test", names_in("derivations") == set(TESTS))
    for test in TESTS:
        name = f"examples/fails/{test}.txt"
        derivation = content(f"derivations/{test}").split("\n")[:-1]
        claim = claim_of(derivation)
        yield is_true(f"examples/derivations/{test}.txt: claims {test}", claim.split(" ")[0] == test)
        wanted = writes(derivation + [f"verdict infeasible {claim} {class_of(test)}"], INFEASIBLE)
        yield holds(f"drg check {name}", wanted, drg("check", name))
        if test in SELECTABLE:
            yield holds(f"drg check --tests {test} {name}", wanted, drg("check", "--tests", test, name))
            array = content(f"fails/{test}").strip()
            k = sizes(array)
            wanted = survivor(array, sum(k), k, ALWAYS_RUN, ordering_lines(array))
        yield holds(f"drg check --tests none {name}", wanted, drg("check", "--tests", "none", name))


def claim_of(derivation):
    """The claim of a derivation, as an answer names it."""
    return derivation[2].removeprefix("claim ") if len(derivation) > 2 else ""


def replay_cases():
    """The derivations, and the reports of the arrays that fail, by both replayers."""
    with tempfile.TemporaryDirectory() as folder:
        for test in TESTS:
            derivation = EXAMPLES / "derivations" / f"{test}.txt"
            report = Path(folder) / f"{test}.txt"
            report.write_bytes(drg("check", f"examples/fails/{test}.txt").out)
            claim = claim_of(content(f"derivations/{test}").split("\n"))
            wanted = writes([f"accepted {claim} {class_of(test)}"], ACCEPTED)
            for path in (derivation, report):
                yield holds(f"drg replay {path}", wanted, drg("replay", path))
                yield holds(f"tools/replay.py {path}", wanted, other_replayer(path))


def unwritten_cases():
    """The derivations made without the program, by both replayers, against the tables."""
    page = (EXAMPLES / "README.md").read_text(encoding="utf-8")
    for folder, kind in UNWRITTEN.items():
        rows = {row["file"]: row["answer"] for row in ACCEPTED_ROW.finditer(page) if row["kind"] == kind}
        same = rows.keys() == names_in(folder)
        yield is_true(f"examples/README.md: its table has each file of examples/{folder} and no other", same)
        for file, answer in sorted(rows.items()):
            path = f"examples/{folder}/{file}.txt"
            wanted = writes([answer], ACCEPTED)
            yield holds(f"drg replay {path}", wanted, drg("replay", path))
            yield holds(f"tools/replay.py {path}", wanted, other_replayer(path))


def refused_cases():
    """The texts that aren't accepted, by both replayers, against the table."""
    page = (EXAMPLES / "README.md").read_text(encoding="utf-8")
    rows = {row["file"]: row["answer"] for row in REFUSED_ROW.finditer(page)}
    same = rows.keys() == names_in("refused")
    yield is_true("examples/README.md: its table has each file of examples/refused and no other", same)
    for file, answer in sorted(rows.items()):
        path = f"examples/refused/{file}.txt"
        status = REFUSED_STATUS[answer.split(" ")[0]]
        is_text = status != BAD_INPUT
        wanted = writes([answer], status) if is_text else complains(f"{answer}, place 0", status)
        yield holds(f"drg replay {path}", wanted, drg("replay", path))
        yield holds(f"tools/replay.py {path}", wanted, other_replayer(path))


def edge_cases():
    """The lists of edges, by the program and by the other one, against the table."""
    page = (EXAMPLES / "README.md").read_text(encoding="utf-8")
    rows = {row["file"]: row["answer"] for row in EDGES_ROW.finditer(page)}
    same = rows.keys() == names_in("edges") == made().keys()
    yield is_true("examples/README.md: its table has each file of examples/edges and no other", same)
    for file, text in made().items():
        yield is_true(f"examples/edges/{file}.txt: is the list that is made", content(f"edges/{file}") == text)
    for file, answer in sorted(rows.items()):
        path = f"examples/edges/{file}.txt"
        status = ACCEPTED if answer.startswith("array ") else REJECTED
        yield holds(f"drg graph {path}", writes([answer], status), drg("graph", path))
        yield holds(f"tools/graph_answer.py {path}", writes([answer], 0), run(sys.executable, "tools/graph_answer.py", path))


def census_cases():
    """The censuses and the classical parameters, by the program and by the other one."""
    for numbers in CENSUSES:
        words = numbers.split(" ")
        wanted = run(sys.executable, "tools/census.py", *words)
        yield holds(f"drg census {numbers}", wanted, drg("census", *words))
    for file in sorted(names_in("graphs")):
        array = content(f"graphs/{file}").strip()
        k = sizes(array)
        numbers = (len(k) - 1, k[1], sum(k))
        if all(number <= most for number, most in zip(numbers, CENSUS_LIMITS)):
            found = drg("census", *numbers)
            yield is_true(f"drg census {numbers}: has {array}", array in found.out.decode().split("\n"))
        path = f"examples/graphs/{file}.txt"
        wanted = run(sys.executable, "tools/census.py", "classical", array)
        yield holds(f"drg classical {path}", wanted, drg("classical", path))


def fault_cases():
    """The faults of a run, each with its line."""
    for command, line, status in FAULTS:
        found = run("bash", "-c", f"drg={TOP / 'bin' / 'drg'}; {command}")
        yield holds(command.replace("$drg", "drg"), complains(line, status), found)
    yield from other_fault_cases()


def other_fault_cases():
    """The faults of `drg replay` by tools/replay.py, and several files at once."""
    for command, line, status in FAULTS:
        if "$drg replay" in command:
            shown = command.replace("$drg replay", "tools/replay.py")
            found = run("bash", "-c", command.replace("$drg replay", f"{sys.executable} tools/replay.py"))
            yield holds(shown, complains(line, status), found)
    size, row, fault = (f"examples/{name}.txt" for name in ("derivations/size", "refused/wrong_row", "petersen"))
    lines = ["accepted size 2 counting", "rejected line 4"]
    yield holds(f"tools/replay.py {size} {size}", writes(lines[:1] * 2, ACCEPTED), other_replayer(size, size))
    yield holds(f"tools/replay.py {size} {row}", writes(lines, REJECTED), other_replayer(size, row))
    wanted = writes(lines, BAD_INPUT)._replace(err=complains("bad input, line 1, place 0", BAD_INPUT).err)
    yield holds(f"tools/replay.py {size} {fault} {row}", wanted, other_replayer(size, fault, row))


def table_cases():
    """The tables of arrays, against the words beside them."""
    for table, rows in rows_of_page().items():
        for row in rows:
            with tempfile.NamedTemporaryFile() as file:
                file.write(row.array.encode() + b"\n")
                file.flush()
                found = drg("check", "--tests", TABLE_TESTS, file.name).out.decode().split("\n")
            same = [line for line in found if line.startswith("verdict ")] == [f"verdict {row.verdict}"]
            yield is_true(f"examples/tables/{table}.csv: {row.array} is {row.verdict}", same)
        written = io.StringIO()
        csv.writer(written, lineterminator="\n").writerows([row.name, row.array, row.verdict] for row in rows)
        name = f"examples/tables/{table}.csv"
        wanted = Ran(written.getvalue().encode(), b"", DONE)
        yield holds(f"drg table {name}", wanted, drg("table", "--tests", TABLE_TESTS, name))


def sample_cases():
    """The samples, each twice, against the numbers of the other program."""
    for seed, count in SAMPLES:
        name = f"drg sample {seed} {count}"
        first, second = drg("sample", seed, count), drg("sample", seed, count)
        yield is_true(f"{name}: is the same at each run", first == second and first.status == DONE)
        lines = [line.rsplit(" ", 1) for line in first.out.decode().split("\n")[:-1]]
        yield is_true(f"{name}: has its head line", lines[:1] == [[f"sample {seed}", str(count)]])
        yield is_true(f"{name}: adds up", sum(int(number) for _, number in lines[1:]) == count)
        found = [int(number) for words, number in lines if words.removeprefix("infeasible ") in COUNTING]
        yield is_true(f"{name}: tests 1 to 9", found == counted(seed, count))


def text_cases():
    """The texts of the table of docs/limits.md, which are no arrays."""
    rows = list(TEXT_ROW.finditer((TOP / "docs" / "limits.md").read_text(encoding="utf-8")))
    yield is_true("docs/limits.md: has a table of texts", len(rows) > 0)
    for row in rows:
        wanted = complains(f"bad input, line 1, place {row['place']}", BAD_INPUT)
        with tempfile.NamedTemporaryFile() as file:
            file.write(row["text"].encode() + b"\n")
            file.flush()
            yield holds(f"drg check on {row['text']}", wanted, drg("check", file.name))


def wide_cases():
    """The arrays that are undecided."""
    found = {path.stem for path in EXAMPLES.glob("wide*.txt")}
    yield is_true("examples: has the wide arrays and no other", found == WIDE.keys())
    for name, (passed, pending) in WIDE.items():
        array = content(name).strip()
        wanted = writes(["verdict undecided", f"array {array}", f"passed {passed}", f"pending {pending}"], UNDECIDED)
        yield holds(f"drg check examples/{name}.txt", wanted, drg("check", f"examples/{name}.txt"))


def copy_cases():
    for name, folder in COPIES.items():
        same = content(name) == content(f"{folder}/{name}") != ""
        yield is_true(f"examples/{name}.txt: is examples/{folder}/{name}.txt", same)


def page_cases():
    """The examples of the manual page: a command each, and what it prints."""
    page = (TOP / "man" / "drg.1").read_text(encoding="utf-8").replace("\\-", "-")
    examples = list(EXAMPLE.finditer(page))
    yield is_true("man/drg.1: has examples of one command each", 0 < len(examples) == page.count("\n.EX\n"))
    for example in examples:
        found = run("bash", "-c", example["command"])
        wanted = Ran(example["printed"].encode(), b"", found.status)
        yield holds(f"man/drg.1: {example['command']}", wanted, found._replace(out=found.out + found.err, err=b""))


def main():
    # Builds the program once, and says so.
    build = [TOP / "bin" / "drg", "check", EXAMPLES / "petersen.txt"]
    if subprocess.run(build, stdout=subprocess.DEVNULL, check=False).returncode == CANNOT_BUILD:
        print("0 passed, 1 failed")
        return 1
    passed = failed = 0
    groups = (
        graph_cases,
        failing_cases,
        replay_cases,
        unwritten_cases,
        refused_cases,
        edge_cases,
        census_cases,
        wide_cases,
        table_cases,
        sample_cases,
        text_cases,
        fault_cases,
        copy_cases,
        page_cases,
    )
    for cases in groups:
        for held in cases():
            if held:
                passed += 1
            else:
                failed += 1
    print(f"{passed} passed, {failed} failed")
    return 0 if failed == 0 and passed > 0 else 1


if __name__ == "__main__":
    os.environ["LC_ALL"] = "C.UTF-8"
    sys.exit(main())
