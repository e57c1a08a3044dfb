#!/usr/bin/env python3
"""Runs `track`, `status`, `why`, `history` and `may-overwrite` with their Nth allocation failing, for N = 1, 2, .. until none fails: a
first look at two folders, a second look after a change, and a question by each of the others.

usage: sweep_folders.py PROGRAM

A run gives what it gives without a failed allocation, or says on standard error that memory ran out, with status 3. A look
or a question after it, with all its memory, gives what it gives after a run with none failing: what wasn't reported is
reported then.
The last line is 'N passed, M failed', one for each of them.
"""
from __future__ import annotations

import os
import shutil
import subprocess
import sys
import tempfile
from concurrent.futures import ThreadPoolExecutor
from pathlib import Path

HERE = Path(__file__).resolve().parent
sys.path.insert(0, str(HERE.parent))
import failing  # noqa: E402

MOST = 20_000
SECONDS = 60
SHOWN = 5
LOOK = ("track", "--journal", "j", "laptop=l", "usb=u")
QUESTIONS = (
    ("status", "usb:", "--journal", "j"),
    ("status", "--all", "--journal", "j"),
    ("why", "usb:a", "laptop:a", "--journal", "j"),
    ("history", "usb:a", "--journal", "j"),
    ("history", "usb:a", "--svg", "/dev/stdout", "--journal", "j"),
    ("may-overwrite", "usb:a", "--by", "laptop:a", "--journal", "j"),
)


def run(program, words, folder, environment=None, descriptors=()):
    """How a run ends, and what it prints."""
    how = {"stdin": subprocess.DEVNULL, "capture_output": True, "timeout": SECONDS}
    done = subprocess.run([program, *words], cwd=folder, env=environment, pass_fds=descriptors, **how)
    return done.returncode, done.stdout, done.stderr


def failing_run(program, library, before, words, at):
    """A run in a copy of a folder, allocation `at` failing: whether it failed, how it ended, and what a run after it gives."""
    with tempfile.TemporaryDirectory(prefix="folders-") as name, failing.Report() as report:
        room = shutil.copytree(before, Path(name) / "room")
        ended = run(program, words, room, report.environment(library, at), [report.number])
        return bool(report.counts()[1]), ended, run(program, words, room)


def is_said(ended):
    """Whether the run says that memory ran out."""
    status, _, error = ended
    return status == 3 and b"emory" in error


def faults_of(program, library, before, words):
    """What is wrong with the runs of these words, each with another allocation failing."""
    _, wanted, after = failing_run(program, library, before, words, 0)
    with ThreadPoolExecutor(os.cpu_count()) as pool:
        runs = pool.map(lambda at: (at, *failing_run(program, library, before, words, at)), range(1, MOST))
        for at, has_failed, ended, later in runs:
            if not has_failed:
                pool.shutdown(wait=False, cancel_futures=True)
                return
            if ended != wanted and not is_said(ended):
                yield f"allocation {at} failed: {ended!r:.200}"
            if later != after:
                yield f"after allocation {at} failed: {later!r:.200}, wanted {after!r:.200}"
    yield f"more than {MOST} allocations"


def passes(name, faults):
    """Whether there are none; prints a line."""
    print(f"{'FAILED' if faults else 'ok'} {name}", *faults[:SHOWN], sep="\n    ", flush=True)
    return not faults


def outcomes(program, library, folder):
    """Whether each of them passes."""
    for device in "lu":
        (folder / device).mkdir(parents=True)
        for file in "ab":
            (folder / device / file).write_text(f"one {file}")
    yield passes("a first look", [*faults_of(program, library, folder, LOOK)])
    run(program, LOOK, folder)
    (folder / "l" / "a").write_text("two")
    yield passes("a second look", [*faults_of(program, library, folder, LOOK)])
    run(program, LOOK, folder)
    for words in QUESTIONS:
        yield passes(words[0], [*faults_of(program, library, folder, words)])


def main(program):
    with tempfile.TemporaryDirectory(prefix="sweep-") as name:
        library = failing.compiled(name)
        found = [*outcomes(program, library, Path(name) / "folder")] if library else [False]
    print(f"{found.count(True)} passed, {found.count(False)} failed")
    return int(not all(found))


if __name__ == "__main__":
    if len(sys.argv) != 2:
        print(__doc__, file=sys.stderr)
        sys.exit(2)
    sys.exit(main(str(Path(sys.argv[1]).resolve())))
