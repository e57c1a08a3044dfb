#!/usr/bin/env python3
"""Runs the checks of the built program, three at a time: most of them wait most of the time.

usage: parts.py TOP TOOK
TOP is the repository's folder, with a program that is built. What a check prints is printed once it has ended. To the
file TOOK goes a line for each that says how long it took.
The last line is 'N passed, M failed': what the last lines of the checks count, added up. A check that could not run has
failed, and so has one whose status disagrees with its count.
"""
from __future__ import annotations

import re
import subprocess
import sys
import threading
import time
from concurrent.futures import ThreadPoolExecutor
from pathlib import Path

AT_ONCE = 3
COUNT = re.compile(rb"(\d{1,9}) passed, (\d{1,9}) failed")
PAGES = ("README.md", "docs/PROTOCOL.md", "docs/CLOCKS.md", "docs/USE.md")
# The crates whose calls the program makes seldom.
SELDOM = "id event stamp text rel family copies sums ignore scan report turn shared".split()
# Each check by its name, with its script and words; those that take long come first. A word with a sign is a path: `+` of
# the repository, `=` of what is built.
PARTS = (
    ("histories of folders", "check_histories.py", "=panad"),
    ("failed allocations of the tests", "failed_allocations/each_test.py", *SELDOM),
    ("failed allocations", "failed_allocations/sweep.py", "=panad"),
    ("daemons on a journal in etcd", "check_etcd_daemon.py", "=panad"),
    ("failed allocations of the daemon", "failed_allocations/sweep_daemon.py", "=panad"),
    ("failed allocations of a run on a log in etcd", "failed_allocations/sweep_log.py", "=panad"),
    ("failed allocations of looks at folders", "failed_allocations/sweep_folders.py", "=panad"),
    ("the daemon with a journal on disk", "check_kept_daemon.py", "=panad"),
    ("journals on disk", "check_journal.py", "=panad"),
    ("a journal in etcd", "check_etcd.py", "=panad"),
    ("questions that wait, and watch", "check_watch.py", "=panad"),
    ("the daemon", "check_daemon.py", "=panad"),
    ("the daemon where something runs short", "check_daemon_limits.py", "=panad"),
    ("folders that the daemon tracks", "check_track_daemon.py", "=panad"),
    ("folders that are reported to the daemon", "check_track_port.py", "=panad"),
    ("scenarios", "check_scenarios.py", "+panad"),
    ("folders that are scanned", "check_scan.py", "=panad"),
    ("folders that are tracked", "check_track.py", "=panad"),
    ("folders that have not changed", "check_rest.py", "=panad"),
    ("questions and reports by place", "check_ask.py", "=panad"),
    ("what a terminal gets", "check_terminal.py", "=panad"),
    ("disks that fail", "check_disks.py", "=panad"),
    ("sixteen clients at once", "check_clients.py", "=panad"),
    ("the memory of many copies, and allocations", "check_memory.py", "=panad"),
    ("the pages' commands", "check_pages.py", "+panad", *(f"+{it}" for it in PAGES)),
    ("a tunnel to the daemon", "check_tunnel.py", "=panad"),
    ("completions and the service", "check_share.py", "=panad"),
    ("the packages", "check_package.py"),
)
ROOTS = {"+": ".", "=": ".build"}


class Parts:
    """The checks that have ended: what they count, and how long they took."""

    def __init__(self, top, took):
        self.top, self.took, self.passed, self.failed, self.printing = top, took, 0, 0, threading.Lock()

    def word(self, word):
        root = ROOTS.get(word[0])
        return self.top / root / word[1:] if root else word

    def run(self, name, script, *words):
        """Runs a check, and prints what it prints once it has ended."""
        begun = time.monotonic()
        command = [sys.executable, "-B", self.top / "tests" / script, *map(self.word, words)]
        ran = subprocess.run(command, stdin=subprocess.DEVNULL, stdout=subprocess.PIPE, stderr=subprocess.STDOUT)
        with self.printing:
            self.took.append((time.monotonic() - begun, name))
            print(f"== {name}", flush=True)
            sys.stdout.buffer.write(ran.stdout)
            self.count(name, ran.returncode, ran.stdout)

    def count(self, name, status, output):
        found = COUNT.fullmatch((output.splitlines() or [b""])[-1])
        if found:
            self.passed, self.failed = self.passed + int(found[1]), self.failed + int(found[2])
        if not found or (status != 0) != (int(found[2]) != 0):
            self.failed += 1
            print(f"FAILED: {name} ended with status {status} and {'another count' if found else 'no count'}")
        sys.stdout.flush()


def main(top, took):
    parts = Parts(Path(top), [])
    with ThreadPoolExecutor(AT_ONCE) as pool:
        for it in [pool.submit(parts.run, *part) for part in PARTS]:
            it.result()
    with open(took, "a", encoding="utf-8") as out:
        for seconds, name in sorted(parts.took, reverse=True):
            print(f"{int(seconds) // 60:2}:{int(seconds) % 60:02} {name}", file=out)
    print(f"{parts.passed} passed, {parts.failed} failed")
    return 1 if parts.failed else 0


if __name__ == "__main__":
    sys.exit(main(*sys.argv[1:]))
