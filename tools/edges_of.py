#!/usr/bin/env python3
"""Makes a list of edges, as `drg graph` reads it, from pairs of vertices with any names.

    python3 tools/edges_of.py [FILE]

reads lines with two names each, from standard input where there is no file. Spaces, tabs, commas and semicolons stand
between names; brackets, quotes and empty lines don't count, and neither does what follows a # or % at the front of a
line. The vertices become 0 to N-1: in the order of their numbers, where all names are numbers, and else in the order
in which they come. A vertex without an edge has no line, so it isn't there.

The exit number is 65 where a line hasn't two names, or where none has, which is told on standard error, and 67 where
the file can't be read.
"""
import re
import sys
from typing import List

BAD_INPUT, CANNOT_READ = 65, 67
BETWEEN = re.compile(r"[\s,;()\[\]{}\"']+")


def pairs_of(text: str) -> List[List[str]]:
    """The names of each line that has some; ValueError with the reason where a line hasn't two, or where none has."""
    pairs = []
    for number, line in enumerate(text.split("\n"), 1):
        names = [] if line.lstrip().startswith(("#", "%")) else [name for name in BETWEEN.split(line) if name]
        if names and len(names) != 2:
            raise ValueError(f"line {number}: hasn't two names")
        pairs += [names] if names else []
    if not pairs:
        raise ValueError("no line has names")
    return pairs


def list_of(pairs: List[List[str]]) -> str:
    """The list of edges."""
    names = list(dict.fromkeys(name for pair in pairs for name in pair))
    if all(name.isdecimal() for name in names):
        names.sort(key=int)
    place = {name: number for number, name in enumerate(names)}
    return f"graph {len(names)}\n" + "".join(f"{place[x]} {place[y]}\n" for x, y in pairs)


def main(words: List[str]) -> int:
    try:
        text = open(words[0], encoding="utf-8", errors="replace").read() if words else sys.stdin.read()
        sys.stdout.write(list_of(pairs_of(text)))
    except ValueError as why:
        print(why, file=sys.stderr)
        return BAD_INPUT
    except OSError as error:
        print(f"{error.filename}: {error.strerror}", file=sys.stderr)
        return CANNOT_READ
    return 0


if __name__ == "__main__":
    sys.exit(main(sys.argv[1:]))
