#!/usr/bin/env python3
"""Runs the tests of the given modules with the Nth allocation failing, for N = 1, 2, .. until none fails.

usage: each_test.py MODULE..

A module stands in one of the crates OF_TESTS, as src/MODULE.rt; one that stands in none of them has failed.
A test passes with no failed allocation. With one it ends with an error that says so, AllocError, AllocFailed
or OutOfMemory: not with another answer, a failed assertion or a crash. What a test leaves in the folder for temporary
files is taken away. Of a test with more than MOST allocations, MOST fail in turn, evenly spread. The tests are those that
`rt ci` or `rt test` has built.
The last line is 'N passed, M failed', one for each module.
"""
from __future__ import annotations

import re
import subprocess
import sys
import tempfile
from concurrent.futures import ProcessPoolExecutor
from pathlib import Path

import failing

CRATES = Path(__file__).resolve().parents[2] / "crates"
OF_TESTS = ("pana_clock_tests", "pana_line_tests", "pana_scan_tests", "pana_desk_tests")
PROCESSES = 4
SECONDS = 60
SHOWN = 5
MOST = 2000
LISTED = re.compile(r"^(\S+): test$", re.MULTILINE)
OUT_OF_MEMORY = re.compile(rb"error: (AllocError|AllocFailed \{ \.\. \}|OutOfMemory|Kind\(OutOfMemory\))\nthe test failed: its result gives status 1\n")


class NoModule(Exception):
    """No crate of tests has a module of this name."""


def program_of(module):
    """The built tests of the crate that has the module, or NoModule."""
    for crate in OF_TESTS:
        if (CRATES / crate / "src" / f"{module}.rt").is_file():
            return CRATES / crate / "out" / f"{crate}_tests"
    raise NoModule(f"none of {', '.join(OF_TESTS)} has src/{module}.rt")


def run(program, test, library, at):
    """Runs the test with allocation number `at` failing (0: none): its status, standard error, allocations, failed ones."""
    with failing.Report() as report:
        environment = {**report.environment(library, at), "TMPDIR": str(Path(library).parent)}
        ended = subprocess.run([program, test], env=environment, pass_fds=[report.number], capture_output=True, timeout=SECONDS)
        return (ended.returncode, ended.stderr, *report.counts())


def fault_of(program, test, library, at):
    """What is wrong with a run in which allocation number `at` fails, or None."""
    try:
        status, error, _, failed = run(program, test, library, at)
    except (OSError, subprocess.SubprocessError) as fault:
        return f"allocation {at} failed: {fault}"
    if failed != 1:
        return f"allocation {at} is never asked for"
    if status == 0 or not OUT_OF_MEMORY.fullmatch(error):
        return f"allocation {at} failed: it ended with status {status} and {error[:200]!r}"
    return None


def chosen(allocations):
    """The numbers of the allocations that are to fail."""
    return sorted({1 + at * (allocations - 1) // (min(allocations, MOST) - 1 or 1) for at in range(min(allocations, MOST))})


def faults_of(program, test, library):
    """How many allocations of the test failed, and what went wrong."""
    status, error, allocations, _ = run(program, test, library, 0)
    if status:
        return 0, [f"{test}: with no failed allocation it ended with status {status} and {error[:200]!r}"]
    numbers = chosen(allocations)
    with ProcessPoolExecutor(PROCESSES) as pool:
        faults = pool.map(fault_of, *([it] * len(numbers) for it in (program, test, library)), numbers, chunksize=8)
        return len(numbers), [f"{test}: {it}" for it in faults if it]


def sweep(module, library):
    """Sweeps the tests of one module: how many allocations failed, and whether all was as it must be."""
    failed, faults = 0, []
    try:
        program = program_of(module)
        listed = subprocess.run([program, "--list"], capture_output=True, text=True, timeout=SECONDS, check=True)
        tests = [it for it in LISTED.findall(listed.stdout) if it.startswith(f"{module}::")]
        for test in tests:
            more, wrong = faults_of(program, test, library)
            failed += more
            faults += wrong
    except NoModule as fault:
        tests, faults = [], [str(fault)]
    except (OSError, subprocess.SubprocessError) as fault:
        tests, faults = [], [f"its tests could not run: {fault}"]
    if not failed and not faults:
        faults = ["none of its tests allocates"]
    print(f"{'FAILED' if faults else 'ok'} {module}: {failed} failed allocations in {len(tests)} tests", *faults[:SHOWN], sep="\n    ", flush=True)
    return failed, not faults


def main(modules):
    with tempfile.TemporaryDirectory(prefix="sweep-") as room:
        library = failing.compiled(room)
        if library is None or not modules:
            print("FAILED: failing.c does not compile" if modules else "FAILED: no module is named")
            print(f"0 passed, {max(len(modules), 1)} failed")
            return 1
        outcomes = [sweep(it, library) for it in modules]
    passed = sum(it[1] for it in outcomes)
    print(f"{sum(it[0] for it in outcomes)} allocations failed in the tests of {len(modules)} modules")
    print(f"{passed} passed, {len(modules) - passed} failed")
    return 0 if passed == len(modules) else 1


if __name__ == "__main__":
    sys.exit(main(sys.argv[1:]))
