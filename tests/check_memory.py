#!/usr/bin/env python3
"""Looks at what memory `run` takes for many copies, and how often it allocates for a line.

usage: check_memory.py PROGRAM
It prints the bytes that it found for a copy, and the allocations for a line. The last line is 'N passed, M failed'.
"""
from __future__ import annotations

import json
import re
import subprocess
import sys
import threading
from pathlib import Path

from daemon import HERE, SECONDS, line_of
from harness import Broken, differs, run_checks

sys.path.insert(0, str(HERE / "failed_allocations"))
from failing import Report, compiled  # noqa: E402

COPIES = 300_000
# The most bytes for a registered copy, and for an edit.
MOST, MOST_EDIT = 400, 40
FEW, MANY = 1000, 20_000
PATH = "pictures/2026/holidays/{:07}"
# The most memory that a process has had so far, in kilobytes.
PEAK = re.compile(r"^VmHWM:\s+(\d+) kB$", re.MULTILINE)


def say(lines, pipe):
    """Writes the lines, and leaves the pipe open."""
    for line in lines:
        pipe.write(line)
    pipe.flush()


def peak(program, lines):
    """The bytes of memory that `run` has had at most once it has answered the lines, each with the next number."""
    with subprocess.Popen([program, "run"], stdin=subprocess.PIPE, stdout=subprocess.PIPE) as run:
        writer = threading.Thread(target=say, args=(lines, run.stdin))
        writer.start()
        for number in range(1, len(lines) + 1):
            answer = json.loads(run.stdout.readline())
            if answer != {"done": number}:
                run.kill()
                raise Broken(f"line {number} was answered with {answer}")
        writer.join()
        found = PEAK.search(Path(f"/proc/{run.pid}/status").read_text())
    return int(found[1]) * 1024


def register(number):
    """The line that registers a file of its own."""
    return line_of("laptop", "register", device="laptop", path=PATH.format(number))


def registered(program, _room):
    """A hall of 300,000 registered copies takes at most 400 bytes for each, its journal and all."""
    lines = [register(number) for number in range(COPIES)]
    few = 1000
    each = (peak(program, lines) - peak(program, lines[:few])) / (COPIES - few)
    print(f"{each:.0f} bytes a registered copy")
    yield from differs(each <= MOST, True)


def edited(program, _room):
    """An edit takes at most 40 bytes, in the journal and beside it."""
    lines = [register(0), *[line_of("laptop", "edit", copy=1)] * COPIES]
    few = 1000
    each = (peak(program, lines) - peak(program, lines[:few])) / (len(lines) - few)
    print(f"{each:.0f} bytes an edit")
    yield from differs(each <= MOST_EDIT, True)


def allocations(program, library, lines):
    """How often `run` allocates for these lines, each of which has an answer."""
    with Report() as report:
        ended = subprocess.run(
            [program, "run"],
            input=b"".join(lines),
            env=report.environment(library, 0),
            pass_fds=[report.number],
            capture_output=True,
            timeout=SECONDS,
        )
        count, _ = report.counts()
        # The program allocates before its first line: else nothing was counted.
        yield from differs((ended.returncode, ended.stdout.count(b"\n"), count > 0), (0, len(lines), True))
        return count


def allocated(program, room):
    """A refused line and a pair allocate nothing, an edit, a file that is known and a place three times at most: the path and the sum."""
    library = compiled(room)
    place, sum = {"device": "usb", "path": "b"}, "0" * 64
    before = [
        line_of("usb", "register", device="usb", path="a"),
        line_of("usb", "duplicate", copy=1, **place),
        line_of("usb", "found", sum=sum, **place),
    ]
    kinds = {
        "a refused line": (line_of("usb", "edit", copy=9), 0),
        "a pair": (line_of("usb", "pair", a=1, b=2), 0),
        "what is at a place": (line_of("usb", "at", **place), 3),
        "a file that is known": (line_of("usb", "found", sum=sum, **place), 3),
        "an edit": (line_of("usb", "edit", copy=1), 3),
    }
    for kind, (line, most) in kinds.items():
        few = yield from allocations(program, library, [*before, *[line] * FEW])
        many = yield from allocations(program, library, [*before, *[line] * MANY])
        each = (many - few) / (MANY - FEW)
        print(f"{each:.3f} allocations for {kind}")
        # A list that grows allocates once for many entries.
        yield from differs(each <= most + (most and 0.01), True)


CHECKS = (registered, edited, allocated)


if __name__ == "__main__":
    sys.exit(run_checks(__doc__, CHECKS, sys.argv[1:]))
