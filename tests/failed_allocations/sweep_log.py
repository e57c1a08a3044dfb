#!/usr/bin/env python3
"""Runs `run --log` on logs in etcd with its Nth allocation failing, for N = 1, 2, .. until none fails, each on a log of its own.

usage: sweep_log.py PROGRAM

An answer is a report's next number, or says that memory ran out. A run that ends early says so. What stands in the log
then are the reports that were answered as done, in order, and behind them at most some of those without an answer, in
order, since lines that come together are put together; and a run after it, with all its memory, goes on behind them. Where there is no etcd and none can be installed it is skipped, which is printed.
The last line is 'N passed, M failed'.
"""
from __future__ import annotations

import json
import os
import subprocess
import sys
import tempfile
from concurrent.futures import ThreadPoolExecutor
from pathlib import Path

HERE = Path(__file__).resolve().parent
sys.path.insert(0, str(HERE.parent))
import failing  # noqa: E402
from daemon import line_of  # noqa: E402
from members import Members, has_etcd  # noqa: E402

MOST = 20_000
SECONDS = 60
SHOWN = 5
LINES = [
    line_of("laptop", "register", device="laptop", path="plan.txt"),
    line_of("laptop", "duplicate", copy=1, device="usb", path="plan.txt"),
    line_of("usb", "found", device="usb", path="plan.txt", sum="1" * 64),
]
# What they make, each at most once: what is found is noted of a copy, or, where there is none, registered.
MADE = ["register", "duplicate", "found"]
JOURNAL = line_of("desk", "journal", **{"from": 1})
# What an answer may be where memory ran out, for it or for one before it.
OTHERS = ({"code": 9, "refused": "OutOfMemory"}, {"fault": "OutOfMemory"}, {"code": 2, "copy": 1, "refused": "UnknownCopy"})


def run(program, address, lines, environment=None, descriptors=()):
    """How a run ends, the answers that it prints, and what it reports."""
    how = {"input": b"".join(lines), "capture_output": True, "timeout": SECONDS}
    done = subprocess.run([program, "run", "--log", address], env=environment, pass_fds=descriptors, **how)
    return done.returncode, [json.loads(it) for it in done.stdout.splitlines()], done.stderr.decode()


def failing_run(program, library, address, at):
    """Allocation `at` failing: whether it failed, how the run ended, the entries after it, and how a run after it ends."""
    with failing.Report() as report:
        ended = run(program, address, LINES, report.environment(library, at), [report.number])
        entries = run(program, address, [JOURNAL])[1][0]["entries"]
        return bool(report.counts()[1]), ended, entries, run(program, address, [LINES[0]])


def faults_of(ended, entries, later):
    """What is wrong with a run, by what it has left."""
    status, answers, error = ended
    done = [it["done"] for it in answers if "done" in it]
    others = [it for it in answers if "done" not in it and it not in OTHERS]
    is_early = len(answers) < len(LINES)
    if others or done != [*range(1, len(done) + 1)]:
        yield f"the answers are {answers!r:.200}"
    if (status, bool(error)) != ((1, True) if is_early else (0, False)):
        yield f"it ended with {status} and {error!r:.200} after {len(answers)} answers"
    made, unanswered = ["found" if it["by"] == "usb" else it["do"] for it in entries], len(LINES) - len(answers)
    if [it["number"] for it in entries] != [*range(1, len(entries) + 1)] or not len(done) <= len(entries) <= len(done) + unanswered:
        yield f"{len(entries)} entries are there after {answers!r:.200}"
    if made != [it for it in MADE if it in made]:
        yield f"the entries are {made!r:.200}"
    # The first line once more is done where it wasn't, and else refused.
    is_there = any(it["by"] == "laptop" and it["do"] == "register" for it in entries)
    wanted = {"code": 6, "copy": 1, "refused": "PlaceTaken"} if is_there else {"done": len(entries) + 1}
    if later != (0, [wanted], ""):
        yield f"a run after it gave {later!r:.200}, and not {wanted}"


def faults(program, library, members):
    """What is wrong with the runs, each with another allocation failing."""
    with ThreadPoolExecutor(os.cpu_count()) as pool:
        runs = pool.map(lambda at: (at, *failing_run(program, library, members.address(f"at{at}"), at)), range(1, MOST))
        for at, has_failed, *left in runs:
            if not has_failed:
                pool.shutdown(wait=False, cancel_futures=True)
                print(f"{at - 1} allocations, each of which has failed once", flush=True)
                return
            yield from (f"allocation {at} failed: {it}" for it in faults_of(*left))
    yield f"more than {MOST} allocations"


def main(program):
    if not has_etcd():
        print("skipped: there is no etcd\n0 passed, 0 failed")
        return 0
    with tempfile.TemporaryDirectory(prefix="sweep-") as name, Members(Path(name), 1) as members:
        library = failing.compiled(name)
        found = [*faults(program, library, members)] if library else ["the library doesn't compile"]
    print(*found[:SHOWN], f"{int(not found)} passed, {int(bool(found))} failed", sep="\n")
    return int(bool(found))


if __name__ == "__main__":
    if len(sys.argv) != 2:
        print(__doc__, file=sys.stderr)
        sys.exit(2)
    sys.exit(main(str(Path(sys.argv[1]).resolve())))
