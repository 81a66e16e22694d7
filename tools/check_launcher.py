#!/usr/bin/env python3
"""Checks the launcher bin/drg on a small repository of its own, with a command rt that proves nothing.

Usage: python3 tools/check_launcher.py

The rt of these checks takes a moment for each crate, and builds a program that prints the content of its
source and its words. Each check is one case. The last line printed is 'N passed, M failed', and the exit
status is 0 where M is 0.
"""
import os
import shutil
import subprocess
import sys
import tempfile
from pathlib import Path

LAUNCHER = Path(__file__).resolve().parent.parent / "bin" / "drg"
CANNOT = 70
LIMIT_SECONDS = 60
# It waits for its turn in a folder, as rt does. Where the file `edit` is there, a source is changed while low is proved.
RT = """#!/usr/bin/env bash
kit=$(dirname -- "$(dirname -- "$(readlink -f -- "$0")")")
[ "$1" != version ] || exec cat "$kit/KIT-ID"
exec 9<. && flock 9
echo "$1 ${PWD##*/}" >>"$kit/calls"
[ ! -e "$kit/broken" ] || { echo "no proof"; exit 1; }
sleep 0.2
if [ -e "$kit/edit" ]; then rm "$kit/edit"; echo again >../drg/src/main.rt; fi
[ "$1" != run ] || [ "$PWD/src/main.rt" -ot out/drg ] && exit 0
mkdir -p out
printf '#!/bin/sh\\necho "%s $*"\\nexit 3\\n' "$(cat src/main.rt)" >out/drg.new
chmod +x out/drg.new && mv out/drg.new out/drg
"""


class Place:
    """A kit and a repository with the crates low, drg and other, of which drg uses low alone."""

    def __init__(self, folder):
        self.kit, self.top = folder / "kit", folder / "repository"
        self.write(self.kit / "KIT-ID", "kit-1\n")
        self.write(self.kit / "bin" / "rt", RT)
        (self.kit / "bin" / "rt").chmod(0o755)
        self.write(self.top / "crates.txt", "# two\nlow:\nother: low\ndrg: low\n")
        self.write(self.top / "HANDLES", "Handles allowed: none.\n")
        for crate, root in (("low", "lib"), ("other", "lib"), ("drg", "main")):
            self.write(self.top / "crates" / crate / "src" / f"{root}.rt", "first\n")
            for part in ("specs", "proofs"):
                self.write(self.top / "crates" / crate / part / "Lib.antt", "")
        (self.top / "bin").mkdir()
        shutil.copy(LAUNCHER, self.top / "bin" / "drg")

    @staticmethod
    def write(path, text):
        path.parent.mkdir(parents=True, exist_ok=True)
        path.write_text(text, encoding="utf-8")

    def edit(self, text):
        self.write(self.top / "crates" / "drg" / "src" / "main.rt", text + "\n")

    def start(self, path=None):
        """Starts the launcher with two words, in the kit's folder."""
        return subprocess.Popen(
            [self.top / "bin" / "drg", "a", "b"],
            cwd=self.kit,
            env={**os.environ, "PATH": path or f"{self.kit / 'bin'}:{os.environ['PATH']}"},
            stdin=subprocess.DEVNULL,
            stdout=subprocess.PIPE,
            stderr=subprocess.PIPE,
            text=True,
        )

    def run(self, path=None):
        return ended(self.start(path))

    def calls(self):
        """What rt was asked for since the last look."""
        path = self.kit / "calls"
        lines = path.read_text(encoding="utf-8").split("\n")[:-1] if path.exists() else []
        path.unlink(missing_ok=True)
        return lines


def ended(process):
    """What a process wrote on standard output and standard error, and its exit number."""
    out, err = process.communicate(timeout=LIMIT_SECONDS)
    return out, err, process.returncode


def answers(ran, text):
    """Whether the program that was built from this text has answered."""
    return ran[0] == f"{text} a b\n" and ran[2] == 3


def refuses(ran, words):
    """Whether the launcher has refused, with these words in its last line."""
    return ran[0] == "" and ran[2] == CANNOT and words in ran[1].split("\n")[-2]


def cases(place):
    """Each case with its name, in an order in which one rests on those before it."""
    ran = place.run()
    yield "builds the program, and says of each crate that it is proved", (
        answers(ran, "first")
        and [line[:24] for line in ran[1].split("\n")[1:]] == ["drg: proving low, crate ", "drg: proving drg, crate ", ""]
        and place.calls() == ["lib low", "run drg"]
    )
    ran = place.run()
    yield "runs what is built, and prints nothing of its own", answers(ran, "first") and ran[1] == "" and place.calls() == []
    place.edit("second")
    both = [ended(process) for process in [place.start(), place.start()]]
    yield "two that are started at once after an edit both answer", all(answers(ran, "second") for ran in both)
    yield "and leave no log", not list((place.top / "out").glob("*.log"))
    place.calls()
    place.write(place.kit / "KIT-ID", "kit-2\n")
    yield "builds again by another kit", answers(place.run(), "second") and place.calls() == ["lib low", "run drg"]
    place.edit("third")
    (place.kit / "edit").touch()
    yield "refuses where a source is changed during the build", refuses(place.run(), "was changed")
    yield "and builds from what stands then", answers(place.run(), "again")
    place.edit("fourth")
    (place.kit / "broken").touch()
    ran = place.run()
    yield "refuses where a proof fails, and keeps the log", (
        refuses(ran, "low can't be proved") and Path(ran[1].split("\n")[-2].split("see ")[1]).read_text(encoding="utf-8") == "no proof\n"
    )
    (place.kit / "broken").unlink()
    yield "refuses where there is no kit", refuses(place.run("/usr/bin:/bin"), "isn't in the PATH")
    loop = place.top / "crates" / "low" / "src" / "loop.rt"
    loop.symlink_to(loop)
    yield "refuses where a source can't be read", refuses(place.run(), "cannot read all sources")
    loop.unlink()
    shutil.rmtree(place.top / "crates" / "other")
    yield "refuses where the sources of a crate aren't there", refuses(place.run(), "cannot read all sources")


def main():
    passed = failed = 0
    with tempfile.TemporaryDirectory() as folder:
        for name, held in cases(Place(Path(folder))):
            if held:
                passed += 1
            else:
                failed += 1
                print(f"bin/drg: {name}: it doesn't")
    print(f"{passed} passed, {failed} failed")
    return 0 if failed == 0 and passed > 0 else 1


if __name__ == "__main__":
    sys.exit(main())
