#!/usr/bin/env python3
"""Runs the sessions that the documents show, and compares what they print.

Usage: python3 tools/check_sessions.py FILE..

A session is a block that begins with ```console. A line `$ COMMAND` is run by bash at the top of the
repository; the lines up to the next such line are what it must print on standard output and standard
error, in that order. Each session is one case. The last line printed is 'N passed, M failed', and the
exit status is 0 where M is 0.
"""
import os
import subprocess
import sys
from pathlib import Path

FENCE = "```"
LIMIT_SECONDS = 3600
CANNOT_BUILD = 70


def sessions(path):
    """The sessions of a document: the line on which each begins, and its lines."""
    begins, lines = None, []
    for number, line in enumerate(path.read_text(encoding="utf-8").split("\n"), 1):
        if begins is None:
            if line.strip() == FENCE + "console":
                begins, lines = number, []
        elif line.strip() == FENCE:
            yield begins, lines
            begins = None
        else:
            lines.append(line)


def steps(lines):
    """Each command of a session with the lines that it must print."""
    command, wanted = None, []
    for line in lines:
        if line.startswith("$ "):
            if command is not None:
                yield command, wanted
            command, wanted = line[2:], []
        else:
            wanted.append(line)
    if command is not None:
        yield command, wanted


def printed(command, top):
    """What a command prints."""
    done = subprocess.run(
        ["bash", "-c", command],
        cwd=top,
        stdin=subprocess.DEVNULL,
        stdout=subprocess.PIPE,
        stderr=subprocess.PIPE,
        timeout=LIMIT_SECONDS,
    )
    text = done.stdout.decode("utf-8", "replace") + done.stderr.decode("utf-8", "replace")
    return text.split("\n")[:-1] if text.endswith("\n") else text.split("\n") if text else []


def holds(place, lines, top):
    """Whether a session prints what the document says; where it doesn't, says so."""
    for command, wanted in steps(lines):
        found = printed(command, top)
        if found != wanted:
            print(f"{place}: $ {command}")
            print("\n".join(f"  wanted: {line}" for line in wanted))
            print("\n".join(f"  found:  {line}" for line in found))
            return False
    return True


def main():
    top = Path(__file__).resolve().parent.parent
    # Builds the program once, and says so.
    build = [top / "bin" / "drg", "check", top / "examples" / "petersen.txt"]
    if subprocess.run(build, stdout=subprocess.DEVNULL, check=False).returncode == CANNOT_BUILD:
        print("0 passed, 1 failed")
        return 1
    passed = failed = 0
    for name in sys.argv[1:]:
        for begins, lines in sessions(Path(name)):
            if holds(f"{name}:{begins}", lines, top):
                passed += 1
            else:
                failed += 1
    print(f"{passed} passed, {failed} failed")
    return 0 if failed == 0 and passed > 0 else 1


if __name__ == "__main__":
    os.environ["LC_ALL"] = "C.UTF-8"
    sys.exit(main())
