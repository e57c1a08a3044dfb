#!/usr/bin/env python3
"""Runs `rt ci` over a copy of the repository that has the must-fail edits which are to be tried.

usage: gate.py KIT TOOK [edits]
Every crate and its tests are proved, and the tests and the program are run. The edits that are tried are those whose
line in tests/edits-tried is missing or stale, and a twentieth of the others; with `edits` all of them. Those that a clause
refuses get a line in the record. What is built goes into the crates' folders out/. To the file TOOK go lines that say
what took how long.
The last line is 'N passed, M failed'. An edit that is taken over from the record counts as neither.
"""
from __future__ import annotations

import os
import re
import shutil
import signal
import subprocess
import sys
import tempfile
import threading
import time
from pathlib import Path

import edits
from crates import MANY, TOP, most_at_once
from prove import minutes

# What isn't copied: git's, what is built, what Python leaves.
LEFT_OUT = {".git", ".build", "out", "__pycache__"}
COUNT = re.compile(r"(\d+) passed, (\d+) failed")
# What rt says of an edit: first its name, and then what became of it.
TRIED = re.compile(r"rt: must-fail (\S+): (refused, as it must be|NOT REFUSED|BAD EDIT|NOT TRIED)(.*)")
# What it says of one that no clause need have refused: the proof just names something that is gone.
HOLLOW = "(only because a proof file names"
TICKS = os.sysconf("SC_CLK_TCK")
SECONDS_BETWEEN_LOOKS = 2


def copy_to(room, chosen):
    """Copies the repository as it stands, with these edits alone."""

    def left_out(folder, names):
        at = Path(folder).relative_to(TOP)
        if at.name == "must-fail" and len(at.parts) == 3:
            return [it for it in names if it.endswith(".edit") and f"{at.parts[1]}/{it}" not in chosen]
        return LEFT_OUT & {*names}

    shutil.copytree(TOP, room, symlinks=True, ignore=left_out)
    # rt wants the top of a repository.
    (room / ".git").mkdir()


class Processors(threading.Thread):
    """Adds up what processor time the prover takes below a process, by what it is for."""

    KINDS = ("proofs", "tests", "edits")

    def __init__(self, root):
        super().__init__(daemon=True)
        self.root, self.taken, self.kinds, self.is_over = root, {}, {}, threading.Event()

    def run(self):
        while not self.is_over.wait(SECONDS_BETWEEN_LOOKS):
            self.look()

    def look(self):
        """Notes what each process of the prover has taken so far."""
        running = {}
        for it in Path("/proc").glob("[0-9]*"):
            try:
                fields = (it / "stat").read_text().rpartition(")")[2].split()
                is_prover = os.path.basename(os.readlink(it / "exe")) == "rattle"
                running[int(it.name)] = is_prover, int(fields[1]), fields[19], int(fields[11]) + int(fields[12])
            except (OSError, ValueError, IndexError):
                continue
        for number, (is_prover, _, start, ticks) in running.items():
            if is_prover and self.is_below(number, running):
                self.taken[number, start] = ticks
                self.kinds.setdefault((number, start), self.kind_of(number))

    def is_below(self, number, running):
        while number in running and number != self.root:
            number = running[number][1]
        return number == self.root

    @staticmethod
    def kind_of(number):
        """What a process of the prover is for: rt tries an edit in a folder of its own."""
        try:
            words = Path(f"/proc/{number}/cmdline").read_bytes().split(b"\0")
            if os.path.basename(os.readlink(f"/proc/{number}/cwd")).startswith("rt-edit"):
                return "edits"
            return "tests" if b"--test" in words else "proofs"
        except OSError:
            return "proofs"

    def seconds(self):
        """What each kind has taken."""
        found = dict.fromkeys(self.KINDS, 0)
        for it, ticks in self.taken.items():
            found[self.kinds[it]] += ticks / TICKS
        return found


def run_ci(kit, room):
    """Runs rt ci in the folder and prints its lines, those of rt with the minutes so far: its status, lines and processor time."""
    start, lines = time.monotonic(), []
    processors, settings = os.cpu_count() or 1, dict(os.environ)
    if processors <= MANY:
        # By itself it counts a gigabyte for each thousand lines of a crate, and has the largest wait until nothing else runs.
        settings.setdefault("RT_JOBS", str(most_at_once()))
    how = {"stdin": subprocess.DEVNULL, "stdout": subprocess.PIPE, "stderr": subprocess.STDOUT, "env": settings}
    with subprocess.Popen([Path(kit) / "bin" / "rt", "ci"], cwd=room, errors="replace", text=True, **how) as ran:
        processors = Processors(ran.pid)
        processors.start()
        try:
            for line in ran.stdout:
                lines.append(line.rstrip("\n"))
                so_far = f"[{minutes(time.monotonic() - start)}] " if line.startswith("rt: ") else ""
                print(f"{so_far}{lines[-1]}", flush=True)
        except KeyboardInterrupt:
            ran.terminate()
            raise
        processors.is_over.set()
    return ran.returncode, lines, processors.seconds()


def judged(lines, chosen):
    """The edits that a clause refused; those that rt counts as failed; and of those that only we refuse why."""
    refused, failed, faults = set(), set(), {}
    for name, said, rest in (it.groups() for it in map(TRIED.match, lines) if it and it[1] in chosen):
        if said in ("NOT REFUSED", "NOT TRIED"):
            failed.add(name)
        elif said == "BAD EDIT":
            faults[name] = "it cannot be applied, compiled or read"
        elif HOLLOW in rest:
            faults[name] = "a proof file names what this edit takes away, so no clause refused it"
        else:
            refused.add(name)
    return refused, failed, faults


def keep_built(room):
    """Moves the programs that rt ci has built to the crates' folders out/."""
    for made in room.glob("crates/*/out/*"):
        if made.is_file() and made.name in (made.parents[1].name, f"{made.parents[1].name}_tests"):
            to = TOP / "crates" / made.parents[1].name / "out"
            to.mkdir(exist_ok=True)
            shutil.copy2(made, to / made.name)


def counted(status, lines, chosen):
    """How many checks passed and failed: those that rt counts, and the edits that only we refuse. The record follows."""
    refused, failed, faults = judged(lines, chosen)
    edits.write({it: chosen[it] for it in refused}, failed | {*faults})
    found = COUNT.fullmatch(lines[-1]) if lines else None
    if not found or (status != 0) != (found[2] != "0"):
        print(f"FAILED: rt ci ended with status {status} and {'another count' if found else 'no count'}")
        return 0, 1
    for name, why in sorted(faults.items()):
        print(f"FAILED: must-fail {name}: {why}")
    untried = len(chosen) - len(refused) - len(failed) - len(faults)
    if untried:
        print(f"FAILED: {untried} must-fail edits were not tried, as their crates are not proved")
    hollow = sum(why.startswith("a proof file") for why in faults.values())
    return int(found[1]) - hollow, int(found[2]) + len(faults) + (untried > 0)


def main(kit, took, which=""):
    signal.signal(signal.SIGTERM, signal.default_int_handler)
    sums, stale = edits.sums(kit), edits.stale(kit)
    chosen = {it: sums[it] for it in (sums if which == "edits" else {*stale, *edits.of_the_day()})}
    print(f"must-fail edits: {len(sums)}, of them {len(stale)} without a line that holds; {len(chosen)} are tried", flush=True)
    with tempfile.TemporaryDirectory(prefix="panad-gate-") as folder:
        room = Path(folder) / "repository"
        copy_to(room, chosen)
        if edits.sums(kit) != sums:
            print("the sources changed while they were being copied; start again\n0 passed, 1 failed")
            return 1
        status, lines, seconds = run_ci(kit, room)
        keep_built(room)
    passed, failed = counted(status, lines, chosen)
    proofs, tests, tries = (minutes(seconds[it]) for it in Processors.KINDS)
    with open(took, "a", encoding="utf-8") as out:
        print(f"of it processor time: proofs {proofs}, tests {tests}, must-fail edits {tries}", file=out)
        print(f"must-fail edits: {len(chosen)} tried, {len(sums) - len(chosen)} taken over", file=out)
    print(f"{passed} passed, {failed} failed")
    return 1 if failed else 0


if __name__ == "__main__":
    sys.exit(main(*sys.argv[1:]))
