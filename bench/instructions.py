#!/usr/bin/env python3
"""Counts the instructions that the program runs for a line, by valgrind, whatever else the machine does.

usage: instructions.py PROGRAM [--beside OTHER] [--only NAME,..] [--functions N] [--seed S]
PROGRAM and OTHER are as bench.py takes them, and the workloads are its own, a part of their lines. Of each workload the
instructions a line are printed, those of OTHER over them, and the N functions of PROGRAM that run most of them. What comes
before the lines is taken off, and what the system does isn't counted. It needs `valgrind`.
"""
from __future__ import annotations

import argparse
import re
import subprocess
import sys
import tempfile
from collections import Counter
from pathlib import Path

import workloads

# What part of a workload's lines is run: enough for counts that hold to a hundredth.
PARTS = {"conflicts": 0.03, "families": 0.05, "mixed": 0.04, "registers": 0.05}
PART = 0.02
NAMED = re.compile(r"^(c?fn)=\((\d+)\)(?: (.*))?$")
HASH = re.compile(r"<#[0-9a-f]+>")


def counted(counts):
    """The instructions of each function, of a file that callgrind has written."""
    names, found, function, is_call = {}, Counter(), None, False
    for line in counts.read_text(errors="replace").splitlines():
        named = NAMED.match(line)
        if named:
            if named[3]:
                names[named[2]] = named[3]
            if named[1] == "fn":
                function = HASH.sub("", names[named[2]])
        elif line.startswith("calls="):
            is_call = True
        elif function and line[:1] in "0123456789+-*" and line:
            # The line behind a call has what the called function took.
            if not is_call:
                found[function] += int(line.split()[1])
            is_call = False
    return found


def instructions(program, lines, room):
    """The instructions of each function in a run on these lines."""
    given, counts = room / "lines", room / "counts"
    given.write_bytes(b"".join(lines))
    with open(given, "rb") as stdin:
        words = ["valgrind", "--tool=callgrind", f"--callgrind-out-file={counts}", program, "run"]
        subprocess.run(words, stdin=stdin, stdout=subprocess.DEVNULL, stderr=subprocess.DEVNULL, check=True)
    return counted(counts)


def of_lines(program, workload, room):
    """The instructions of each function for the lines of a workload."""
    found = instructions(program, workload.before + workload.lines, room)
    found.subtract(instructions(program, workload.before, room))
    return found


def shown(workload, options, room):
    """The lines of a workload's table."""
    count = len(workload.lines)
    ours = of_lines(options.program, workload, room)
    each = ours.total() / count
    beside = f"{of_lines(options.beside, workload, room).total() / count / each:10.2f}" if options.beside else ""
    yield f"{workload.name:<12}{each:14,.0f}{beside}"
    for name, part in ours.most_common(options.functions):
        yield f"    {part / count:12,.0f}  {name}"


def main(words):
    parser = argparse.ArgumentParser(usage=__doc__.splitlines()[2][len("usage: "):])
    parser.add_argument("program")
    parser.add_argument("--beside")
    parser.add_argument("--only", type=lambda names: names.split(","), default=[])
    parser.add_argument("--functions", type=int, default=0)
    parser.add_argument("--seed", default="1")
    options = parser.parse_args(words)
    with tempfile.TemporaryDirectory() as room:
        for name in options.only or [make.__name__ for make, _ in workloads.LINE_WORKLOADS]:
            for workload in workloads.workloads(options.seed, PARTS.get(name, PART), [name]):
                for line in shown(workload, options, Path(room)):
                    print(line, flush=True)
    return 0


if __name__ == "__main__":
    sys.exit(main(sys.argv[1:]))
