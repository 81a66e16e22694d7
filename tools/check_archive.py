#!/usr/bin/env python3
"""Checks tools/verdicts.py and tools/archive.py with a program that knows the answers of the examples alone.

Usage: python3 tools/check_archive.py

That program stands in the place of `drg`: of an array of examples/fails it writes the derivation of
examples/derivations and its verdict, of any other a survivor, and some arrays that it answers otherwise are named
below. Each check is one case. The last line printed is 'N passed, M failed', and the exit status is 0 where M is 0.
"""
import subprocess
import sys
import tempfile
from pathlib import Path

TOP = Path(__file__).resolve().parent.parent
LIMIT_SECONDS = 60
# The program: it refuses {1;1}, can't be built on {2;1}, and writes a wrong derivation of {3;1}.
PROGRAM = f"""#!{sys.executable}
import sys
from pathlib import Path
top = Path({str(TOP)!r})
if sys.argv[1] == "replay":
    sys.path.insert(0, str(top / "tools"))
    import replay
    sys.exit(replay.main(sys.argv[2:]))
array = sys.stdin.read().strip()
for path in (top / "examples" / "fails").glob("*.txt"):
    if path.read_text().strip() == array:
        derivation = (top / "examples" / "derivations" / path.name).read_text()
        kind = "spectral" if "frame" in derivation else "counting"
        print(derivation + "verdict infeasible " + derivation.split("\\n")[2].removeprefix("claim ") + " " + kind)
        sys.exit(1)
if array == "{{1;1}}":
    print("drg: no memory", file=sys.stderr)
    sys.exit(71)
if array == "{{2;1}}":
    print("drg: it can't be built", file=sys.stderr)
    sys.exit(70)
if array == "{{3;1}}":
    print("drg 1\\narray 1 3 1\\nclaim first\\nend\\nverdict infeasible first counting")
    sys.exit(1)
print("verdict survivor\\narray " + array)
"""
LIST = "Petersen {3,2;1,1}\n{3,3;1,1} none\nCSV,\"{5,4;1,3}\"\n{3,0;1,1}\n"
LEFT_OUT = "input:4: left out {3,0;1,1}: an entry is 0\n"
TABLE = """Petersen,"{3,2;1,1}",survivor
none,"{3,3;1,1}",infeasible degree 1 counting
CSV,"{5,4;1,3}",infeasible size 2 counting
"""
INDEX = '0002.txt,none,"{3,3;1,1}",degree 1,counting\n0003.txt,CSV,"{5,4;1,3}",size 2,counting\n'
COUNTS = "{} arrays: {} survivor, {} infeasible, 0 refused-spectrum, 0 undecided, 0 not judged\n"


def run(tool, words, text):
    done = subprocess.run(
        [sys.executable, TOP / "tools" / tool, *words], input=text.encode(), capture_output=True, timeout=LIMIT_SECONDS
    )
    return done.stdout.decode(), done.stderr.decode(), done.returncode


def cases(folder):
    """Each case with its name, what is wanted, and what is found."""
    program = folder / "drg"
    program.write_text(PROGRAM, encoding="utf-8")
    program.chmod(0o755)
    drg = ["--drg", program]
    yield "a table", (TABLE, LEFT_OUT, 0), run("verdicts.py", drg, LIST)
    yield "a table, one at a time", (TABLE, LEFT_OUT, 0), run("verdicts.py", [*drg, "--jobs", "1"], LIST)
    yield "no array", ("", "", 1), run("verdicts.py", drg, "none\n")
    refused = ",{1;1},drg: no memory\n"
    yield "a row that is refused", (refused, "", 1), run("verdicts.py", drg, "{1;1}\n")
    yield "a program that can't be built", ("", "drg: it can't be built\n", 70), run("verdicts.py", drg, "{2;1}\n")
    missing = f"{folder}/none: No such file or directory\n"
    yield "no such file", ("", missing, 67), run("verdicts.py", [*drg, folder / "none"], "")
    yield "wrong words", 64, run("verdicts.py", ["--other"], "")[2]

    archive = folder / "archive"
    wanted = COUNTS.format(3, 1, 2) + "2 derivations: 2 accepted by both replayers\n"
    yield "an archive", (wanted, LEFT_OUT, 0), run("archive.py", [*drg, archive], LIST)
    names = ["0002.txt", "0003.txt", "index.csv"]
    yield "its files", names, sorted(path.name for path in archive.iterdir())
    yield "its index", INDEX, (archive / "index.csv").read_text(encoding="utf-8")
    derivation = (TOP / "examples" / "derivations" / "size.txt").read_text(encoding="utf-8")
    yield "a derivation", derivation, (archive / "0003.txt").read_text(encoding="utf-8")
    yield "a folder that isn't empty", ("", f"{archive}: isn't empty\n", 64), run("archive.py", [*drg, archive], LIST)
    path = folder / "wrong" / "0001.txt"
    told = "".join(
        f"{path}: {name} answers `rejected open 4`, and not `accepted first counting`\n"
        for name in ("drg replay", "tools/replay.py")
    )
    wanted = COUNTS.format(1, 0, 1) + "1 derivations: 0 accepted by both replayers\n"
    yield "a wrong derivation", (wanted, told, 1), run("archive.py", [*drg, path.parent], "{3;1}\n")


def main():
    passed = failed = 0
    with tempfile.TemporaryDirectory() as folder:
        for name, wanted, found in cases(Path(folder)):
            if wanted == found:
                passed += 1
            else:
                failed += 1
                print(f"{name}\n  wanted: {wanted}\n  found:  {found}")
    print(f"{passed} passed, {failed} failed")
    return 0 if failed == 0 and passed > 0 else 1


if __name__ == "__main__":
    sys.exit(main())
