#!/usr/bin/env python3
"""Proves again what has changed since the last run, over the work that is kept in out/, and runs each crate's tests.

usage: quick.py KIT
It is no verdict: that is `rt ci`, which proves everything from nothing and tries the must-fail edits. The tests of a
crate are built again where its sources, those of a crate below it or the kit have changed since they last passed.
It says how many must-fail edits `./test` would try for what has changed.
The last line is 'N passed, M failed', one for each crate.
"""
from __future__ import annotations

import re
import subprocess
import sys
import time
from pathlib import Path

import edits
from crates import TOP, sources, sum_of, uses, with_those_below

SHOWN = 15
SECONDS = "60"
TEST = re.compile(rb"#\[test\]")


def ran(words, folder):
    """Runs a command: whether it succeeded, and the last lines that it printed."""
    how = {"stdin": subprocess.DEVNULL, "stdout": subprocess.PIPE, "stderr": subprocess.STDOUT}
    done = subprocess.run(words, cwd=folder, **how)
    return done.returncode == 0, done.stdout.decode(errors="replace").splitlines()[-SHOWN:]


def tested(kit, name):
    """Whether the crate's tests pass, and what was printed: those built before where nothing has changed since."""
    folder = TOP / "crates" / name
    program, passed = folder / "out" / f"{name}_tests", folder / "out" / "tests-passed"
    wanted = edits.crate_sum(kit, name)
    if program.is_file() and passed.is_file() and passed.read_text() == f"{wanted} {sum_of([program])}":
        return ran([kit / "bin" / "rattle-test", "--seconds", SECONDS, program], folder)
    passed.unlink(missing_ok=True)
    outcome = ran([kit / "bin" / "rt", "test"], folder)
    if outcome[0]:
        passed.write_text(f"{wanted} {sum_of([program])}")
    return outcome


def passes(kit, name):
    """Whether the crate is proved and its tests pass; prints its line, and the end of what rt printed where not."""
    start = time.monotonic()
    has_tests = any(TEST.search(it.read_bytes()) for it in sources(name))
    is_program = (TOP / "crates" / name / "src" / "main.rt").is_file()
    words = ["run", "--", "run"] if is_program else ["lib"]
    well, printed = ran([kit / "bin" / "rt", *words], TOP / "crates" / name)
    if well and has_tests:
        well, printed = tested(kit, name)
    took = f"({time.monotonic() - start:.0f} s)"
    if well:
        print(f"ok {name}: proved{', and its tests pass' if has_tests else ''} {took}", flush=True)
    else:
        print(f"FAILED {name} {took}", *printed, sep="\n    ", flush=True)
    return well


def main(kit):
    outcomes = [passes(Path(kit), it) for it in with_those_below(uses())]
    failed = outcomes.count(False) + (not outcomes)
    print(f"must-fail edits: {len(edits.stale(kit))} of {len(edits.names())} have no line in tests/edits-tried that holds, and ./test would try them")
    print(f"{outcomes.count(True)} passed, {failed} failed")
    return 1 if failed else 0


if __name__ == "__main__":
    sys.exit(main(sys.argv[1]))
