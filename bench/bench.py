#!/usr/bin/env python3
"""Measures what the program does in a second of processor time, beside other programs on the same bytes.

usage: bench.py PROGRAM [--beside OTHER] [--only NAME,..] [--scale X] [--rounds N] [--seed S]
PROGRAM is the built program, .build/panad. OTHER is another program with the command `run`, if there is one to compare
with. Beside it run a bare echo of lines (echo.c), `jq -c .`, `sha256sum` and a Redis server, each where it is there.
All are given the same lines, in turn, and of N rounds (20) the best counts, so other work on the machine shows little. OTHER
must print what PROGRAM does.
Processor time is what the kernel counts for the process, user and system together. Of lines the time for what comes
before, which is measured by itself, is taken off. It judges nothing.
"""
from __future__ import annotations

import argparse
import filecmp
import os
import random
import re
import shutil
import subprocess
import sys
import tempfile
import time
from dataclasses import dataclass
from pathlib import Path

import serving
import workloads

HERE = Path(__file__).resolve().parent
# Where files cost the least.
ROOMS = Path("/dev/shm")
FILES = 10_000
ENTRIES = 50_000
FILE_BYTES = 4096
SECONDS_BETWEEN_LOOKS = 0.002
MOST_MEMORY = re.compile(r"^VmHWM:\s+(\d+) kB$", re.MULTILINE)


@dataclass
class Used:
    """What a run of a program used."""

    seconds: float
    megabytes: float


def most_memory(process):
    """The most megabytes that a process has had in memory so far. What the kernel says at its end counts those of this one too."""
    try:
        found = MOST_MEMORY.search(Path(f"/proc/{process}/status").read_text())
    except OSError:
        found = None
    return int(found[1]) / 1024 if found else 0.0


def run(words, given, folder=None, name="any"):
    """Runs a program on a file, and returns what it used. What it prints goes to a file in memory, beside that file."""
    with open(given, "rb") as stdin, open(given.with_name(f"{name}.printed"), "wb") as stdout:
        child = subprocess.Popen(words, stdin=stdin, stdout=stdout, stderr=subprocess.DEVNULL, cwd=folder)
        memory = 0.0
        while (ended := os.wait4(child.pid, os.WNOHANG))[0] == 0:
            memory = max(memory, most_memory(child.pid))
            time.sleep(SECONDS_BETWEEN_LOOKS)
    child.returncode, used = os.waitstatus_to_exitcode(ended[1]), ended[2]
    if child.returncode < 0:
        raise SystemExit(f"bench.py: {words[0]} was ended by signal {-child.returncode}")
    return Used(used.ru_utime + used.ru_stime, memory)


def best(rounds, measures):
    """The least of each measure, all of which are taken in each round."""
    found = {name: [] for name in measures}
    for _ in range(rounds):
        for name, measure in measures.items():
            found[name].append(measure())
    return {name: Used(min(it.seconds for it in all), min(it.megabytes for it in all)) for name, all in found.items()}


def built_echo(room):
    """The echo of lines; None where there is no compiler."""
    compiler = shutil.which("cc")
    if not compiler:
        return None
    subprocess.run([compiler, "-O2", "-o", room / "echo", HERE / "echo.c"], check=True)
    return str(room / "echo")


class Table:
    """Prints rows below each other as they come."""

    def __init__(self, *names):
        self.widths = [max(len(it), 9) for it in names]
        self.widths[0] = 44
        self.row(*names)

    def row(self, *cells):
        first, *others = (str(it) for it in cells)
        print(first.ljust(self.widths[0]), *(it.rjust(width) for it, width in zip(others, self.widths[1:])), flush=True)


def ratio(ours, theirs):
    """How much we do in the time in which the other does 1; nothing where it isn't there."""
    return f"{theirs / ours:.2f}" if theirs else "-"


def must_agree(room, name):
    """Ends the program where ours and the other have printed different answers."""
    ours, other = room / "panad.printed", room / "other.printed"
    if other.exists() and not filecmp.cmp(ours, other, shallow=False):
        raise SystemExit(f"bench.py: {name}: the answers differ")


class Lines:
    """Workloads of lines, which programs answer from standard input."""

    def __init__(self, options, room):
        self.options, self.room = options, room
        self.programs = {"panad": [options.program, "run"]}
        if options.beside:
            self.programs["other"] = [options.beside, "run"]
        if echo := built_echo(room):
            self.programs["echo"] = [echo]
        if jq := shutil.which("jq"):
            self.programs["jq"] = [jq, "-c", "."]

    def measure(self, work):
        """The seconds of each program for the lines alone, and the memory of ours and of the other in megabytes."""
        before, all = self.room / "before", self.room / "all"
        before.write_bytes(b"".join(work.before))
        all.write_bytes(b"".join(work.before + work.lines))
        measures = {}
        for name, words in self.programs.items():
            measures[name, "before"] = lambda words=words: run(words, before)
            measures[name, "all"] = lambda words=words, name=name: run(words, all, name=name)
        found = best(self.options.rounds, measures)
        must_agree(self.room, work.name)
        seconds = {name: max(found[name, "all"].seconds - found[name, "before"].seconds, 1e-6) for name in self.programs}
        memory = {name: found[name, "all"].megabytes for name in self.programs}
        return seconds, memory

    def print(self):
        table = Table("lines to `run`", "a second", "of other", "of echo", "of jq", "MB", "other's")
        for work in workloads.workloads(self.options.seed, self.options.scale, self.options.only):
            seconds, memory = self.measure(work)
            ratios = [ratio(seconds["panad"], seconds.get(it)) for it in ("other", "echo", "jq")]
            other = f"{memory['other']:.1f}" if "other" in memory else "-"
            rate = f"{len(work.lines) / seconds['panad']:,.0f}"
            table.row(f"{work.name}: {work.what}"[:44], rate, *ratios, f"{memory['panad']:.1f}", other)


def print_load(options, room):
    """What it takes to load a dump and to print its tables."""
    made, asked = workloads.dump(int(ENTRIES * options.scale), random.Random(f"{options.seed} load"))
    given, nothing, dumped = room / "given", room / "nothing", room / "dump"
    nothing.write_bytes(b"")
    given.write_bytes(b"".join(made + asked))
    run([options.program, "run"], given)
    dumped.write_bytes(b"".join((room / "any.printed").read_bytes().splitlines(keepends=True)[len(made) :]))
    programs = {"panad": options.program, **({"other": options.beside} if options.beside else {})}
    found = best(options.rounds, {name: lambda name=name, it=it: run([it, "load", str(dumped)], nothing, name=name) for name, it in programs.items()})
    must_agree(room, "load")
    ours, other = found["panad"], found.get("other")
    table = Table(f"a dump of {len(made):,} entries", "a second", "of other", "MB", "other's")
    table.row("load", f"{len(made) / ours.seconds:,.0f}", ratio(ours.seconds, other and other.seconds), f"{ours.megabytes:.1f}", f"{other.megabytes:.1f}" if other else "-")


def print_folders(options, room):
    """What it takes to read folders, beside `sha256sum` of the same files."""
    files = int(FILES * options.scale)
    folder, nothing = room / "folder", room / "nothing"
    folder.mkdir()
    nothing.write_bytes(b"")
    workloads.folder(folder, files, FILE_BYTES, options.seed)
    journal = room / "journal"
    track = [options.program, "track", "--journal", str(journal), "--quiet", f"laptop={folder}"]

    def first():
        for it in room.glob("journal*"):
            it.unlink()
        return run(track, nothing)

    sums = ["sh", "-c", "find . -type f -print0 | xargs -0 sha256sum"]
    found = best(options.rounds, {
        "sums": lambda: run(sums, nothing, folder),
        "scan": lambda: run([options.program, "scan", "laptop", str(folder)], nothing),
        "first": first,
        "again": lambda: run(track, nothing),
    })
    table = Table(f"{files:,} files of {FILE_BYTES} bytes", "seconds", "of sha256sum")
    for name, what in (("scan", "scan"), ("first", "track, first"), ("again", "track, nothing changed")):
        table.row(what, f"{found[name].seconds:.3f}", ratio(found[name].seconds, found["sums"].seconds))


def main(words):
    parser = argparse.ArgumentParser(description=__doc__, formatter_class=argparse.RawDescriptionHelpFormatter)
    parser.add_argument("program", type=lambda it: str(Path(it).resolve()))
    parser.add_argument("--beside", metavar="OTHER", type=lambda it: str(Path(it).resolve()))
    parser.add_argument("--only", metavar="NAME,..", type=lambda it: it.split(","), default=[])
    parser.add_argument("--scale", type=float, default=1.0)
    parser.add_argument("--rounds", type=int, default=20)
    parser.add_argument("--seed", default="1")
    options = parser.parse_args(words)
    with tempfile.TemporaryDirectory(dir=ROOMS if ROOMS.is_dir() else None) as room:
        room = Path(room)
        Lines(options, room).print()
        if not options.only or "load" in options.only:
            print_load(options, room)
        if not options.only or "folders" in options.only:
            print_folders(options, room)
        if not options.only or "serve" in options.only:
            serving.print_rates(options, Table)
    print("load of the machine:", *os.getloadavg())


if __name__ == "__main__":
    main(sys.argv[1:])
