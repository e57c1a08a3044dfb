#!/usr/bin/env python3
"""Runs the program on each scenario and compares what it wrote and its status with what is wanted.

usage: check_scenarios.py LAUNCHER [SCENARIO..]
With no names of scenarios it runs them all. The launcher is called through a link in an empty folder elsewhere, as a user may call it.
The last line is 'N passed, M failed'.
"""
import contextlib
import difflib
import os
import subprocess
import sys
import tempfile
from pathlib import Path

import scenario

SECONDS = 60
WIDEST = 300
LONGEST = 40


def shown(text):
    """The lines of some bytes, fit to be printed: a long one is cut, and a missing newline is shown."""
    lines = text.decode(errors="backslashreplace").split("\n")
    lines = lines[:-1] if lines[-1] == "" else [*lines[:-1], lines[-1] + "  [no newline here]"]
    return [it if len(it) <= WIDEST else f"{it[:WIDEST]}.. ({len(it)} characters)" for it in lines]


def difference(name, wanted, got):
    """Says where two texts differ, or nothing where they are the same."""
    if wanted == got:
        return []
    lines = [*difflib.unified_diff(shown(wanted), shown(got), f"{name}, wanted", f"{name}, got", lineterm="", n=1)]
    at = next((i for i, (a, b) in enumerate(zip(wanted, got)) if a != b), min(len(wanted), len(got)))
    return [f"{name} differs first at byte {at} (counted from 0)", *lines[:LONGEST]]


def ran(run, launcher, room):
    """Runs the program as is said, and returns what came of it."""
    settings = {"stdout": subprocess.PIPE, "stderr": subprocess.PIPE, "cwd": room, "timeout": SECONDS}
    with contextlib.ExitStack() as opened:
        if run.to is not None:
            settings["stdout"] = opened.enter_context(open(run.to, "wb"))
        if run.source is None:
            return subprocess.run([launcher, *run.args], input=run.given, **settings)
        source = os.open(run.source, os.O_RDONLY)
        opened.callback(os.close, source)
        return subprocess.run([launcher, *run.args], stdin=source, **settings)


def faults_of(run, launcher, room):
    """Says how a run of the program fails: no lines where it passes."""
    try:
        done = ran(run, launcher, room)
    except subprocess.TimeoutExpired:
        return [f"it had not ended after {SECONDS} seconds"]
    faults = difference("output", run.output, done.stdout or b"") + difference("error", run.error, done.stderr)
    if done.returncode != run.status:
        faults.append(f"status {run.status} is wanted, and it ended with {done.returncode}")
    return faults


def faults_of_each(runs, launcher, room):
    """Says how the runs of a scenario fail, and of several which."""
    for number, run in enumerate(runs, 1):
        faults = faults_of(run, launcher, room)
        if faults and len(runs) > 1:
            yield f"run {number}, {' '.join(run.args)[:WIDEST]!r}:"
        yield from faults


def passes(folder, launcher, room):
    """Whether the scenario of the folder passes; prints its line, and why it fails."""
    try:
        case = scenario.read(folder)
        faults = [*faults_of_each(case.runs, launcher, room)]
    except (scenario.BadScenario, subprocess.TimeoutExpired, OSError, ValueError) as error:
        faults = [f"it could not run: {error}"]
    if not faults:
        print(f"ok {case.name}: {case.about}")
        return True
    print(f"FAILED {folder.name}", *faults, sep="\n    ")
    return False


def main(launcher, *names):
    folders = [scenario.folder_of(it) for it in names] or scenario.folders()
    with tempfile.TemporaryDirectory(prefix="scenarios-") as room:
        link, inside = Path(room) / "link", Path(room) / "empty"
        os.symlink(os.path.realpath(launcher), link)
        inside.mkdir()
        outcomes = [passes(it, link, inside) for it in folders]
    failed = outcomes.count(False) + (not folders)
    print(f"{outcomes.count(True)} passed, {failed} failed")
    return 1 if failed else 0


if __name__ == "__main__":
    sys.exit(main(*sys.argv[1:]))
