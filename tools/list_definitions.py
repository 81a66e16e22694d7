#!/usr/bin/env python3
"""Writes docs/definitions.md from the definitions of specs/ and the comments that stand beside them.

Usage: python3 tools/list_definitions.py [--check]

The first part of the page has the definitions and types that the clauses of ROOTS reach by their names, step by
step; the second part has the others. A name that is imported counts as used where it stands in a definition, so the
first part may have a name too many where a variable is called the same.

With --check nothing is written: it compares the page with what would be written, one case for each crate, and its
last line is 'N passed, M failed'; the exit status is 0 where M is 0.
"""
import re
import sys
from pathlib import Path
from typing import Dict, List, NamedTuple, Set, Tuple

TOP = Path(__file__).resolve().parent.parent
PAGE = TOP / "docs" / "definitions.md"
# The calls whose clauses the first part follows: the crate, the file, and the function.
ROOTS = [("drg_program", "lib", "run"), ("drg_replay", "judge", "replay")]

HEAD = """# Definitions

Every contract is stated by definitions in `specs/`. This page lists them in the words that stand beside them; the \
head of each file names the literature. *BCN* there is Brouwer, Cohen and Neumaier, *Distance-Regular Graphs*, \
Springer 1989. Those whose name says all come after "Also".

A record has its fields under its words, each with the words beside it. Of a definition without arguments, such as a \
law, the arrow shows what it concludes, or what it is.

The page has two parts. What the clauses of `run` and `replay` say is made of the \
[first part](#what-run-and-replay-rest-on): who wants to believe the headline reads it alone, in \
the order of [reading.md](reading.md#what-to-read-for-the-headline). The \
[second part](#the-other-definitions) is scaffolding: what crates promise each other, the laws that proofs use, and \
small cases.
"""
FIRST = """## What run and replay rest on

The definitions and types that the clauses of `run` (crate `drg_program`) and `replay` (crate `drg_replay`) reach by \
name, and those that these reach, to the end. Each name here is marked with a ●.
"""
SECOND = """## The other definitions

No clause of `run` or `replay` reaches these.
"""

DEFINITION = re.compile(r"^\s*(?:abbrev|unfoldable)?\s*(?:pub )?(?:record |data )?(?P<name>[^\s:({]+)")
KEYWORDS = ("abbrev ", "unfoldable ", "pub record ", "pub data ", "record ", "data ")
# What stands beside the definitions without a keyword: a lemma, or, where its name begins with a capital, a type.
HELPER = re.compile(r"^\s*(?:pub )?(?P<name>[^\s:=({]+) : ")
FIELD = re.compile(r"^\s+pub (?P<name>[^\s:]+) : (?P<type>.*)$")
IMPORT = re.compile(
    r"use Rattle\.(?P<crate>drg_\w+)\.specs\.(?P<path>[\w.]+?)(?:\.\{(?P<names>[^}]*)\}| as (?P<alias>\w+))(?=[\s;]|$)"
)
TOKEN = re.compile(r"[^\s(){}\[\],;]+")
TYPE = re.compile(r"^\s*pub(?:\([^)]*\))? (?:struct|enum|trait) (?P<name>\w+)")
# The name of a variant of an enum, at the front of its line.
VARIANT = re.compile(r"^\s*[A-Z]\w*(?=\s*[,({])")
Key = Tuple[str, str, str]  # a crate, a file (of specs/, or of src/ for a type), and a name


class Definition(NamedTuple):
    name: str
    words: str
    text: List[str]  # its lines, with those of the modules around it
    is_public: bool


def joined(comments):
    """The words of comment lines that stand together."""
    return " ".join(" ".join(comments).split())


def begins_definition(line):
    """The name of the definition that a line begins, or none."""
    text = line.strip()
    if not text.startswith(KEYWORDS) or text.startswith("record {"):
        return None
    return DEFINITION.match(line).group("name")


def begins_helper(line, level):
    """The name of the helper that a line begins, where the definition in hand begins at this level; or none."""
    match = HELPER.match(line)
    return match["name"] if match and indent_of(line) <= level else None


def indent_of(line):
    return len(line) - len(line.lstrip())


def imports_of(text):
    """What each imported name or alias stands for: a crate, a path, and a name, which is empty for an alias."""
    found = {}
    for match in IMPORT.finditer(text):
        crate, path = match["crate"], match["path"]
        if match["alias"]:
            found[match["alias"]] = (crate, path, "")
        for item in (match["names"] or "").split(","):
            name, _, alias = item.strip().partition(" as ")
            if name:
                found[alias or name] = (crate, path, name)
    return found


class SpecFile:
    """A file of specs/: its head comment, its imports, and its definitions in their order."""

    def __init__(self, path):
        lines = path.read_text(encoding="utf-8").split("\n")
        self.name = path.stem
        self.imports = imports_of("\n".join(line for line in lines if line.startswith(("use ", "pub use "))))
        self.head, self.definitions = self.read(lines)

    @staticmethod
    def read(lines):
        head, found, comments, in_head = [], [], [], True
        modules: List[str] = []
        current, level = None, 0  # the lines of the definition in hand, and how far its first line is indented
        for line in lines:
            text = line.strip()
            if text.startswith("-- ----"):
                in_head, comments = False, []
            elif text.startswith("--"):
                (head if in_head else comments).append(text.lstrip("-"))
                if current is not None:
                    current.append(line)
            elif text.startswith("module _"):
                modules = [other for other in modules if indent_of(other) < indent_of(line)] + [line]
                in_head, current, comments = False, None, []
            else:
                in_head = False
                name = begins_definition(line)
                helper = None if name else begins_helper(line, level)
                if name is not None or helper is not None:
                    modules = [other for other in modules if indent_of(other) < indent_of(line)]
                    current, level = modules + [line], indent_of(line)
                    is_type = name is not None or "A" <= helper[0] <= "Z"
                    is_public = is_type and " pub " in f" {text}"
                    found.append(Definition(name or helper, joined(comments), current if is_type else [], is_public))
                elif current is not None and text:
                    current.append(line)
                comments = []
        return joined(head), found


class TypeFile:
    """A file of src/: the public types that it has, and the lines that contracts can see of each.

    Those are the lines of its definition, or, where it has a model, what its value is and which values it takes.
    """

    def __init__(self, path):
        text = path.read_text(encoding="utf-8")
        self.name = path.stem
        self.imports = imports_of(text)
        self.types: Dict[str, Tuple[str, List[str]]] = {}
        lines, comments = text.split("\n"), []
        for number, line in enumerate(lines):
            match = TYPE.match(line)
            if line.strip().startswith("///"):
                comments.append(line.strip()[3:])
            elif match and match["name"] not in self.types:
                named = re.compile(rf"\bModel for {match['name']}\b")
                models = [other for other, head in enumerate(lines) if named.search(head)]
                body = model(lines, models[0]) if models else block(lines, number)
                self.types[match["name"]] = (joined(comments), body)
                comments = []
            elif not line.strip().startswith("#["):
                comments = []


def block(lines, number):
    """The lines from this one to the end of the braces that it opens."""
    depth, found = 0, []
    for line in lines[number:]:
        found.append(line.split("//")[0])
        depth += line.count("{") - line.count("}")
        if depth <= 0 and ("{" in "".join(found) or line.rstrip().endswith(";")):
            break
    return found


def model(lines, number):
    """The lines of a model that say what its value is, and which values there are."""
    text = "\n".join(block(lines, number))
    return [part for part in re.split(r"(?=ghost )", text) if part.startswith(("ghost Value", "ghost invariant"))]


class Crate:
    def __init__(self, name):
        folder = TOP / "crates" / name
        self.name = name
        specs = [path for path in sorted((folder / "specs").glob("*.antt")) if path.name != "Lib.antt"]
        self.specs = {path.stem: SpecFile(path) for path in specs}
        self.types = {path.stem: TypeFile(path) for path in sorted((folder / "src").glob("*.rt"))}

    def contract(self, file, function):
        """The signature and the clauses of a function."""
        path = TOP / "crates" / self.name / "src" / f"{file}.rt"
        lines = path.read_text(encoding="utf-8").split("\n")
        begin = next(i for i, line in enumerate(lines) if re.match(rf"pub fn {function}\b", line))
        end = next(i for i, line in enumerate(lines) if i > begin and line == "{")
        return [line.split("//")[0] for line in lines[begin:end]]


class Library:
    """All crates, and what a name in one of their files stands for."""

    def __init__(self):
        lines = (TOP / "crates.txt").read_text(encoding="utf-8").split("\n")
        names = [line.split("#")[0].split(":")[0].strip() for line in lines]
        self.crates = {name: Crate(name) for name in names if name and (TOP / "crates" / name / "specs").is_dir()}
        self.uses = {name: line.split(":")[-1].split() for name, line in zip(names, lines)}

    def definition(self, key):
        crate, file, name = key
        found = self.crates[crate].specs.get(file) if crate in self.crates else None
        return [item for item in found.definitions if item.name == name] if found else []

    def at_path(self, crate, path, name):
        """The keys of a name that is imported from a path of a crate."""
        if crate not in self.crates:
            return []
        parts = path.split(".")
        if parts[0] == "declared":
            return self.type_of(crate, parts[2] if len(parts) > 2 else name)
        file = self.crates[crate].specs.get(parts[0])
        if file is None:
            return []
        if any(item.name == name for item in file.definitions):
            return [(crate, parts[0], name)]
        return self.at_path(*file.imports[name]) if name in file.imports else []

    def named(self, token, imports, crate, local):
        """The keys that a word of a definition stands for."""
        word, _, rest = token.partition(".")
        for name in (word, f"◌{token}◌"):
            if name in local:
                return [(crate, local[name], name)]
            if name in imports and imports[name][2]:
                return self.at_path(*imports[name])
        if word in imports and rest:
            return self.at_path(imports[word][0], imports[word][1], rest.split(".")[0])
        return []

    def type_of(self, crate, name):
        """The type of a crate's code with this name."""
        return [(crate, f"src/{file}", name) for file, types in self.crates[crate].types.items() if name in types.types]

    def type_named(self, token, crate):
        """The type that the code of a crate calls so: its own, or that of the first crate that it uses."""
        name = re.sub(r"\W", " ", token).split()
        near = [crate] + [other for other in self.uses[crate] if other in self.crates]
        return [key for other in near for key in self.type_of(other, name[0] if name else "")][:1]

    def used_by(self, key):
        """The keys that a definition or a type uses."""
        crate, file, name = key
        found: List[Key] = []
        if file.startswith("src/"):
            types = self.crates[crate].types[file[4:]]
            lines, imports, local = types.types[name][1], types.imports, {}
            for line in lines:
                if "ghost" not in line:
                    for token in re.findall(r"[A-Z]\w+", VARIANT.sub("", line)):
                        found += self.type_named(token, crate)
        else:
            spec = self.crates[crate].specs[file]
            lines = [line for item in self.definition(key) for line in item.text]
            imports, local = spec.imports, {item.name: file for item in spec.definitions}
        text = "\n".join(line for line in lines if not line.strip().startswith("--"))
        binders = re.findall(r"\(([^():]+) : ", text) + re.findall(r"λ ([^.]+)\.", text)
        bound = set(re.findall(r"[^\s()]+", " ".join(binders)))
        local = {word: place for word, place in local.items() if word not in bound}
        for token in set(TOKEN.findall(text)):
            found += self.named(token, imports, crate, local)
        return [other for other in found if other != key]

    def reached(self):
        """All keys that the clauses of ROOTS reach."""
        waiting: List[Key] = []
        for crate, file, function in ROOTS:
            lines = self.crates[crate].contract(file, function)
            imports = imports_of((TOP / "crates" / crate / "src" / f"{file}.rt").read_text(encoding="utf-8"))
            for token in set(TOKEN.findall("\n".join(lines))):
                waiting += self.named(token, imports, crate, {}) or self.type_named(token, crate)
        seen: Set[Key] = set()
        while waiting:
            key = waiting.pop()
            if key not in seen:
                seen.add(key)
                waiting += self.used_by(key)
        return seen


def code(text):
    """Code for a cell of a table."""
    return "`" + re.sub(r"\s+", " ", text).strip().replace("|", "\\|") + "`"


def conclusion(item):
    """What a statement concludes: what stands behind its last arrow outside brackets; none where it is no statement."""
    text = "\n".join(line for line in item.text if not line.strip().startswith("--"))
    name = re.escape(item.name)
    match = re.match(rf"\s*(?:abbrev|unfoldable) pub {name} : Type [01]\s*\n\s*{name}\s*=\s*(.*)$", text, re.DOTALL)
    if not match:
        return ""
    depth, begin, body = 0, 0, match[1]
    for place, char in enumerate(body):
        depth += (char in "({") - (char in ")}")
        if char == "→" and depth == 0:
            begin = place + 1
    return body[begin:]


def fields(item):
    """The fields of a record with the words beside them."""
    if not item.text or "pub record" not in next((line for line in item.text if begins_definition(line)), ""):
        return []
    found, comments = [], []
    for line in item.text:
        match = FIELD.match(line)
        if line.strip().startswith("--"):
            comments.append(line.strip().lstrip("-"))
        elif match and not begins_definition(line):
            found.append((match["name"], joined(comments)))
            comments = []
        else:
            comments = []
    return found


def words_of(item):
    """The cell of a definition: its words, its fields, and what it concludes."""
    parts = [item.words.replace("|", "\\|")] if item.words else []
    told = [f"`{name}`" + (f" ({words})" if words else "") for name, words in fields(item)]
    if told:
        parts.append("*Fields:* " + ", ".join(told).replace("|", "\\|"))
    concluded = conclusion(item)
    if concluded:
        parts.append("→ " + code(concluded))
    return "<br>".join(parts)


def file_part(crate, spec, shown, mark):
    """The part of the page on one file: those of its definitions that are shown."""
    link = f"**[`{spec.name}.antt`](../crates/{crate}/specs/{spec.name}.antt)**"
    items = [item for item in spec.definitions if item.is_public and item.name in shown]
    parts = [f"{link}: {spec.head}\n"]
    rows = [(item.name, words_of(item)) for item in items]
    told = [f"| {mark}`{name}` | {words} |\n" for name, words in rows if words]
    if told:
        parts.append("| Name | In words |\n|---|---|\n" + "".join(told))
    plain = ", ".join(f"{mark}`{name}`" for name, words in rows if not words)
    if plain:
        parts.append(f"Also: {plain}.\n" if told else f"{plain}.\n")
    return parts


def types_part(crate, keys):
    """The types of the code that are reached."""
    found = sorted((file, name) for owner, file, name in keys if owner == crate.name and file.startswith("src/"))
    if not found:
        return []
    rows = []
    for file, name in found:
        words = crate.types[file[4:]].types[name][0].replace("|", "\\|")
        rows.append(f"| ● [`{name}`](../crates/{crate.name}/{file}.rt) | {words} |\n")
    return ["| Type of the code | In words |\n|---|---|\n" + "".join(rows)]


def sections(library):
    """For each part of the page its sections by crate."""
    reached = library.reached()
    first, second = {}, {}
    for crate in library.crates.values():
        near: List[str] = []
        far: List[str] = []
        for spec in crate.specs.values():
            public = {item.name for item in spec.definitions if item.is_public}
            shown = {name for owner, file, name in reached if (owner, file) == (crate.name, spec.name)} & public
            if shown:
                near += file_part(crate.name, spec, shown, "● ")
            if public - shown or not public:
                far += file_part(crate.name, spec, public - shown, "")
        near += types_part(crate, reached)
        if near:
            first[crate.name] = "\n".join([f"### {crate.name}\n", *near])
        if far:
            second[crate.name] = "\n".join([f"### {crate.name}: other definitions\n", *far])
    return first, second


def main():
    first, second = sections(Library())
    page = "\n".join([HEAD, FIRST, *first.values(), SECOND, *second.values()])
    if sys.argv[1:] != ["--check"]:
        PAGE.write_text(page, encoding="utf-8")
        return 0
    stands = PAGE.read_text(encoding="utf-8")
    crates = list(dict.fromkeys([*first, *second]))
    stale = [crate for crate in crates if any(part.get(crate, "") not in stands for part in (first, second))]
    if not stale and stands != page:
        stale = ["the page"]
    for name in stale:
        print(f"docs/definitions.md: {name} isn't as its specs say; run tools/list_definitions.py")
    print(f"{len(crates) - len(stale)} passed, {len(stale)} failed")
    return 1 if stale else 0


if __name__ == "__main__":
    sys.exit(main())
