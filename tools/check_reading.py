#!/usr/bin/env python3
"""Checks that each file and each name that docs/reading.md tells is there.

Usage: python3 tools/check_reading.py

- Each file that it links to is there.
- Each row of its list has its names in code: each stands as a definition or a function in one of the files of the row.
- Each line of Rust that it shows stands in a crate.
- Each guide of the kit that it names is in the kit, where the command rt is there.
- Each other name in code, with a letter that is no sign of the two tables above, is one of a crate, or of the kit.

Each file and each name is one case. The last line printed is 'N passed, M failed', and the exit status is 0 where M
is 0.
"""
import re
import shutil
import subprocess
import sys
from pathlib import Path

TOP = Path(__file__).resolve().parent.parent
PAGE = TOP / "docs" / "reading.md"
LINK = re.compile(r"\[[^\]]*\]\(([^)#]+)(?:#[^)]*)?\)")
CODE = re.compile(r"`([^`]+)`")
NAME = re.compile(r"^[A-Za-z_]\w*$")
GUIDE = re.compile(r"^[A-Z_]+\.md$")
LIST = "## What to read for the headline"
LIMIT_SECONDS = 60
# Words of Rattle and of the program's answers, which no file of a crate defines.
WORDS = set(
    "requires ensures abbrev unfoldable ghost result record view invariant specs proofs main mathlib i128 drg rt "
    "infeasible counting spectral check replay answer graph Ok Err Some None IfOk IfErr IfSome IfNone OnOk OnErr "
    "Contains Model Counting".split()
)


def source(path):
    return path.read_text(encoding="utf-8")


def defines(text, name):
    """Whether the text of a file has a definition, a field, a function or a type of this name."""
    word = re.escape(name)
    return bool(
        re.search(rf"\b(?:abbrev|unfoldable) pub {word}\b|\bpub (?:record|data) {word}\b", text)
        or re.search(rf"\b(?:fn|struct|enum|trait) {word}\b|^\s*pub {word} :|ensures {word} ", text, re.MULTILINE)
    )


def row_cases(page):
    """The rows of the list for the headline."""
    for row in page.split(LIST)[1].split("\n"):
        files = [(PAGE.parent / link).resolve() for link in LINK.findall(row) if link.endswith((".antt", ".rt"))]
        texts = [source(path) for path in files if path.is_file()]
        words = CODE.findall(LINK.sub("", row))
        names = [name for name in words if NAME.match(name) and name not in WORDS]
        for name in names if files else []:
            place = ", ".join(path.name for path in files)
            yield f"{name} stands in {place}", any(defines(text, name) for text in texts)


def kit():
    """The folder of the kit's guides, or none."""
    if not shutil.which("rt"):
        return None
    done = subprocess.run(["rt", "doc"], stdout=subprocess.PIPE, stderr=subprocess.DEVNULL, timeout=LIMIT_SECONDS)
    first = Path(done.stdout.decode().split("\n")[0].strip())
    return first.parent / "rattle" if first.is_file() else None


def cases():
    page = source(PAGE)
    for link in sorted(set(LINK.findall(page))):
        yield f"{link} is there", (PAGE.parent / link).exists()
    yield from row_cases(page)
    crates = sorted((TOP / "crates").glob("*/src/*.rt")) + sorted((TOP / "crates").glob("*/specs/*.antt"))
    texts = [source(path) for path in crates]
    shown = page.split("```rust\n")[1].split("```")[0]
    for line in shown.strip().split("\n"):
        yield f"{line.strip()} stands in a crate", any(line in text for text in texts)
    plain = page.replace(f"```rust\n{shown}```", "")
    for name in sorted({name for name in CODE.findall(plain) if NAME.match(name)} - WORDS):
        there = (TOP / "crates" / name).is_dir() or any(defines(text, name) for text in texts)
        yield f"{name} is a name of a crate", there
    guides = sorted({name for name in CODE.findall(plain) if GUIDE.match(name)})
    folder = kit()
    if folder is None:
        print("skipped, since the kit isn't there: whether it has the guides that docs/reading.md names")
    for name in guides if folder is not None else []:
        yield f"{name} is in the kit", (folder / name).is_file()


def main():
    passed = failed = 0
    for name, held in cases():
        if held:
            passed += 1
        else:
            failed += 1
            print(f"docs/reading.md: {name}: it isn't so")
    print(f"{passed} passed, {failed} failed")
    return 0 if failed == 0 and passed > 0 else 1


if __name__ == "__main__":
    sys.exit(main())
