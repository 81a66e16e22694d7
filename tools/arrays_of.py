#!/usr/bin/env python3
"""Finds intersection arrays in a text, and writes them as `drg` reads them.

    python3 tools/arrays_of.py [--table] [FILE..]

reads the files, or standard input where there are none, and writes each array without spaces in a line of its own.
With --table it writes records of a CSV table in place of lines: the name that stands beside the array, and the array.

It finds these, anywhere in the text:

    {3,2;1,1}  \\{3, 2; 1, 1\\}  \\left\\{3,2\\,;\\,1,1\\right\\}    an array, as in books, in TeX and in plain lists
    {3,2:1,1}  {3,2|1,1}  {3,2,0;0,1,1}                      the same by other signs, and with b_d and c_0
    [[3,2],[1,1]]  [3,2],[1,1]                               two lists, as in Sage and GAP
    ([3,2,None],[None,1,1])                                  the pair of lists that Sage gives of a graph
    (10,3,0,1)  srg(10,3,0,1)                                strongly regular parameters (v,k,lambda,mu)

and these where nothing else stands in the line:

    Petersen,"{3,2;1,1}"   a record of a CSV table with a name and an array
    3,2;1,1        an array without braces
    [3,2,1,1]      one list, first the b and then the c
    10 3 0 1       strongly regular parameters

Strongly regular parameters become the array {k,k-lambda-1;1,mu}, where a connected graph of diameter 2 has them and
k (k-lambda-1) is (v-k-1) mu. The name of an array that is alone in its line is what stands before it, else what stands
behind it, if that is at most 40 characters long; every other array has an empty one, but for those of a table. An
array that was written before isn't written again, with --table where it has the same name too.

What looks like one of these and is none goes to standard error, with its line and the reason. The exit number is 0
where an array was written, 1 where none was, 64 where the words are wrong, and 67 where a file can't be read.
"""
import csv
import re
import sys
from bisect import bisect
from collections import Counter
from typing import Iterator, List, NamedTuple, Optional, Tuple

MAX_DIAMETER = 12
MAX_ENTRY = 4095
MAX_NAME = 40
MAX_SHOWN = 60
FOUND, NOTHING, USAGE, CANNOT_READ = 0, 1, 64, 67

# What TeX and typesetters write for the signs of an array; each becomes as many characters, so that places stay. The
# braces that TeX prints become OPEN and SHUT, since braces of its groups may stand between them.
OPEN, SHUT = "\u2983", "\u2984"
SIGNS = [
    (re.compile(r"\\(?:left|right|[bB]igg?[lr]?)(?=\\[{}lr]|[{}(\[)\]])"), " "),
    (re.compile(r"\\lbrace\b|\\\{"), OPEN),
    (re.compile(r"\\rbrace\b|\\\}"), SHUT),
    (re.compile(r"\\[,;:! >]|\\q?quad\b|[~$\u00a0\u2009\u202f]"), " "),
    (re.compile("\uff0c"), ","),
    (re.compile("\uff1b"), ";"),
]
# What may stand for an array or for parameters, each with the part that is read.
BRACED = rf"{OPEN}(?P<printed>[^{OPEN}{SHUT}]*){SHUT}|\{{(?P<braced>[^{{}}{OPEN}{SHUT}]*)\}}"
LISTS = r"\[(?P<b>[^\[\]]*)\]\s*,\s*\[(?P<c>[^\[\]]*)\]"
PARAMETERS = r"\((?P<parameters>\s*\d+\s*(?:,\s*\d+\s*){3})\)"
ANYWHERE = re.compile(f"{BRACED}|{LISTS}|{PARAMETERS}")
# What does where nothing else stands in the line.
ALONE = [
    ("braced", re.compile(r"^\s*(\d[\d,\s]*;[\d,\s]*\d)\s*$")),
    ("list", re.compile(r"^\s*\[([\d,\s]+)\]\s*$")),
    ("parameters", re.compile(r"^\s*(\d+(?:\s*[,\s]\s*\d+){3})\s*$")),
]
DIVIDERS = re.compile(r"[;:|]")
# What is no part of a name: the words that lead up to an array, and signs at the ends.
LEADS = re.compile(r"(?i)(?:[\s,(]*\b(?:with|has|have|its|the|intersection|array|parameters|srg))+\W*$")
EDGE = " \t\r\n&,:;=.-\"'`[]*|\\"


class LeftOut(Exception):
    """Why a text isn't an array that can be written."""


class Found(NamedTuple):
    """Something that looks like an array: its text, what it is, and where it begins and ends."""

    text: str
    kind: str
    parts: Tuple[str, ...]
    begin: int
    end: int
    name: Optional[str] = None  # where a table says it


def plain(text: str) -> str:
    """The text with plain signs, of the same length."""
    for pattern, sign in SIGNS:
        text = pattern.sub(lambda match, sign=sign: sign.rjust(len(match.group())), text)
    return text


def numbers(text: str) -> List[int]:
    """The numbers of a list with commas."""
    items = [item.strip() for item in text.split(",")]
    for item in items:
        if not item:
            raise LeftOut("a number is missing")
        if re.search(r"\d\s+\d", item):
            raise LeftOut("a comma is missing between two numbers")
        if re.search(r"\.\.|\\[lc]?dots|\u2026", item):
            raise LeftOut("entries are left out by dots")
        if not re.fullmatch(r"[0-9]+", item):
            raise LeftOut("an entry isn't a number")
    return [int(item) for item in items]


def array_of(b: List[int], c: List[int]) -> str:
    """The text of an array, where `drg` takes it."""
    if len(b) == len(c) > 1 and b[-1] == 0 == c[0]:
        b, c = b[:-1], c[1:]
    if len(b) != len(c):
        raise LeftOut(f"{len(b)} numbers stand before the semicolon and {len(c)} after it")
    if len(b) > MAX_DIAMETER:
        raise LeftOut(f"the diameter is above {MAX_DIAMETER}")
    if 0 in b + c:
        raise LeftOut("an entry is 0")
    if max(b + c) > MAX_ENTRY:
        raise LeftOut(f"an entry is above {MAX_ENTRY}")
    return "{" + ",".join(map(str, b)) + ";" + ",".join(map(str, c)) + "}"


def array_of_parameters(v: int, k: int, shared: int, apart: int) -> str:
    """The array of strongly regular parameters (v, k, lambda, mu)."""
    if not (shared <= k - 2 and 1 <= apart <= k < v - 1):
        raise LeftOut("no connected graph of diameter 2 has these parameters")
    if k * (k - shared - 1) != (v - k - 1) * apart:
        raise LeftOut("k (k-lambda-1) isn't (v-k-1) mu, so no graph has these parameters")
    return array_of([k, k - shared - 1], [1, apart])


def without_none(text: str) -> str:
    """A list of Sage without the `None` at one of its ends."""
    return re.sub(r"^\s*None\s*,|,\s*None\s*$", "", text)


def array_in(found: Found) -> str:
    if found.kind == "parameters":
        return array_of_parameters(*map(int, re.findall(r"\d+", found.parts[0])))
    if found.kind == "lists":
        b, c = (numbers(without_none(part)) for part in found.parts)
        return array_of(b, c)
    if found.kind == "list":
        entries = numbers(found.parts[0])
        if len(entries) % 2 == 1:
            raise LeftOut("one list of an odd number of entries")
        return array_of(entries[: len(entries) // 2], entries[len(entries) // 2 :])
    sides = DIVIDERS.split(found.parts[0])
    if len(sides) != 2:
        raise LeftOut("it has more than one semicolon")
    return array_of(numbers(sides[0]), numbers(sides[1]))


def looks_like_array(text: str) -> bool:
    """Whether a text in braces may be meant as an array: it has a semicolon, or another divider between digits."""
    return ";" in text or re.fullmatch(r"[\d\s,]+[:|][\d\s,]+", text) is not None


def part_of(match) -> Optional[Tuple[str, Tuple[str, ...]]]:
    """What a place of the text is, with the part that is read; none where it doesn't look like an array."""
    if match["parameters"] is not None:
        return "parameters", (match["parameters"],)
    if match["b"] is not None:
        return ("lists", (match["b"], match["c"])) if re.search(r"\d", match["b"] + match["c"]) else None
    inside = match["printed"] if match["printed"] is not None else match["braced"]
    return ("braced", (inside,)) if looks_like_array(inside) else None


def found_anywhere(text: str) -> Iterator[Found]:
    for match in ANYWHERE.finditer(text):
        part = part_of(match)
        if part is not None:
            yield Found(match.group(), *part, match.start(), match.end())


def found_alone(text: str) -> Iterator[Found]:
    begin = 0
    for row in text.split("\n"):
        for kind, pattern in ALONE:
            match = pattern.match(row)
            if match:
                yield Found(row, kind, (match.group(1),), begin, begin + len(row))
                break
        begin += len(row) + 1


def found_in_table(text: str) -> Iterator[Found]:
    """The records of a table: a name, and an array in braces."""
    begin = 0
    for row in text.split("\n"):
        if "{" in row and "," in row:
            cells = next(csv.reader([row]), [])
            match = re.fullmatch(r"\s*\{([^{}]*;[^{}]*)\}\s*", cells[1]) if len(cells) == 2 else None
            if match:
                yield Found(cells[1].strip(), "braced", (match.group(1),), begin, begin + len(row), cells[0].strip())
        begin += len(row) + 1


def found_in(text: str) -> List[Found]:
    """All places of a plain text that look like an array, in their order."""
    found: List[Found] = []
    taken: set = set()  # the places of what is found
    for items in (found_in_table(text), found_anywhere(text), found_alone(text)):
        more = [item for item in items if taken.isdisjoint(range(item.begin, item.end))]
        taken.update(place for item in more for place in range(item.begin, item.end))
        found += more
    return sorted(found, key=lambda item: item.begin)


def name_in(text: str) -> str:
    """A name that stands in a text beside an array, or nothing."""
    text = re.sub(r"\\[A-Za-z]+\s*", " ", re.sub(rf"[{{}}{OPEN}{SHUT}]", " ", text))
    cells = [LEADS.sub("", " ".join(cell.split())) for cell in re.split(r"[&\t]", text)]
    cells = [cell.strip(EDGE).lstrip(")").rstrip("(").strip(EDGE) for cell in cells]
    name = next((cell for cell in cells if re.search(r"[^\W\d_]", cell)), "")
    return name if len(name) <= MAX_NAME else ""


class Text:
    """A text in which arrays are looked for."""

    def __init__(self, place: str, text: str) -> None:
        self.place = place
        self.text = plain(text)
        self.found = found_in(self.text)
        self.begins = [0] + [match.end() for match in re.finditer("\n", text)]  # where each line begins
        self.lines = [bisect(self.begins, item.begin) for item in self.found]
        self.in_line = Counter(self.lines)

    def name(self, number: int) -> str:
        """What the text calls the array that was found with this number, from 0; nothing where it has no name."""
        item, line = self.found[number], self.lines[number]
        if item.name is not None:
            return item.name
        if self.in_line[line] > 1:
            return ""
        end = self.text.find("\n", item.end)
        before = self.text[self.begins[line - 1] : item.begin]
        after = self.text[item.end : end if end >= 0 else len(self.text)]
        return name_in(before) or name_in(after)

    def left_out(self, number: int, why: object) -> None:
        shown = self.found[number].text.replace(OPEN, "{").replace(SHUT, "}")
        shown = re.sub(r"(?<=[{(\[]) | (?=[})\]])", "", " ".join(shown.split()))
        shown = shown if len(shown) <= MAX_SHOWN else shown[: MAX_SHOWN - 2] + ".."
        print(f"{self.place}:{self.lines[number]}: left out {shown}: {why}", file=sys.stderr)

    def rows(self, seen: set, table: bool) -> Iterator[Tuple[str, str]]:
        """The name and the text of each array, where it wasn't written before."""
        for number, item in enumerate(self.found):
            try:
                array = array_in(item)
            except LeftOut as why:
                self.left_out(number, why)
                continue
            row = (self.name(number), array)
            key = row if table else array
            if key in seen:
                self.left_out(number, "it was written before")
                continue
            seen.add(key)
            yield row


def texts_of(files: List[str]) -> Iterator[Text]:
    if not files:
        yield Text("input", sys.stdin.buffer.read().decode("utf-8", "replace"))
    for file in files:
        with open(file, "rb") as source:
            yield Text(file, source.read().decode("utf-8", "replace"))


def main(words: List[str]) -> int:
    table = words[:1] == ["--table"]
    files = words[1:] if table else words
    if any(file.startswith("-") for file in files):
        print("usage: arrays_of.py [--table] [FILE..]", file=sys.stderr)
        return USAGE
    seen: set = set()
    writer = csv.writer(sys.stdout, lineterminator="\n")
    try:
        for text in texts_of(files):
            for name, array in text.rows(seen, table):
                if table:
                    writer.writerow([name, array])
                else:
                    print(array)
    except OSError as error:
        print(f"{error.filename}: {error.strerror}", file=sys.stderr)
        return CANNOT_READ
    return FOUND if seen else NOTHING


if __name__ == "__main__":
    sys.exit(main(sys.argv[1:]))
