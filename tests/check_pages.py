#!/usr/bin/env python3
"""Runs the commands of pages and compares what they print with the page.

usage: check_pages.py LAUNCHER PAGE...
A page's blocks are one session, in an empty folder of its own in which ./panad is the launcher: a block `sh` is run
and prints nothing; in a block `console` each line that starts with '$ ' is a command, and the lines after it are what
it prints, on standard output and standard error. Other blocks are not run. A page without such a block fails.
The last line is 'N passed, M failed', one for each block.
"""
from __future__ import annotations

import os
import re
import subprocess
import sys
import tempfile
from pathlib import Path

import check_scenarios

TOP = Path(__file__).resolve().parent.parent
BLOCK = re.compile(r"^```(sh|console)\n(.*?)^```$", re.MULTILINE | re.DOTALL)
SECONDS = 60


def commands_of(kind, text):
    """The commands of a block, each with what it prints."""
    if kind == "sh":
        return [(text, "")]
    parts = re.split(r"^\$ (.*)\n", text, flags=re.MULTILINE)
    if parts[0]:
        raise ValueError(f"it begins with no command: {parts[0]!r}")
    return list(zip(parts[1::2], parts[2::2]))


def faults_of(command, wanted, room):
    """Says how a command fails to print what the page has."""
    how = {"stdin": subprocess.DEVNULL, "stdout": subprocess.PIPE, "stderr": subprocess.STDOUT}
    try:
        done = subprocess.run(["bash", "-c", command], cwd=room, timeout=SECONDS, **how)
    except subprocess.TimeoutExpired:
        return [f"it had not ended after {SECONDS} seconds"]
    return check_scenarios.difference("output", wanted.encode(), done.stdout)


def passes(name, kind, text, room):
    """Whether what a block prints is what the page has; prints its line."""
    first = text.split("\n")[0]
    try:
        faults = [fault for it in commands_of(kind, text) for fault in faults_of(*it, room)]
    except (OSError, ValueError) as error:
        faults = [f"it could not run: {error}"]
    print(f"{'FAILED' if faults else 'ok'} {name}: {first}", *faults, sep="\n    ")
    return not faults


def outcomes_of(page, launcher):
    """Whether each block of a page passes."""
    name = page.relative_to(TOP) if page.is_relative_to(TOP) else page
    blocks = BLOCK.findall(page.read_text(encoding="utf-8"))
    if not blocks:
        print(f"FAILED {name}: it has no commands")
        return [False]
    with tempfile.TemporaryDirectory(prefix="pages-") as room:
        os.symlink(os.path.realpath(launcher), f"{room}/panad")
        return [passes(name, kind, text, room) for kind, text in blocks]


def main(launcher, pages):
    outcomes = [it for page in pages for it in outcomes_of(Path(page).resolve(), launcher)]
    failed = outcomes.count(False) + (not outcomes)
    print(f"{outcomes.count(True)} passed, {failed} failed")
    return 1 if failed else 0


if __name__ == "__main__":
    sys.exit(main(sys.argv[1], sys.argv[2:]))
