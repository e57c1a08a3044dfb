#!/usr/bin/env python3
"""Runs `track` where nothing has changed since a run that had nothing to report, and where something has.

usage: check_rest.py PROGRAM
Each change is made in two rooms that are alike, of which the second lacks the file beside its journal that says what the
last run printed. What the program prints is the same in both.
The last line is 'N passed, M failed'.
"""
from __future__ import annotations

import hashlib
import os
import shutil
import subprocess
import sys
import time
from pathlib import Path

from harness import differs, run_checks

SECONDS = 60
# What has changed later than three seconds before a run may change again and look the same.
SETTLED = 4.2
HEAD = b"panad last 1\n"
BEFORE = HEAD + bytes(64)


class Room:
    """Two folders, a journal, and the file beside it."""

    def __init__(self, program, at):
        self.program, self.at = program, at
        self.laptop, self.usb, self.journal = at / "laptop", at / "usb", at / "files.journal"
        self.last = at / "files.journal.last"
        for folder in (self.laptop, self.usb):
            (folder / "sub").mkdir(parents=True)
            (folder / "plan.txt").write_text("one")
            (folder / "sub" / "deep.txt").write_text("deep")
            (folder / "old.tmp").write_text(folder.name)
            (folder / ".panadignore").write_text("*.tmp\n")

    def track(self, *options, roots=("laptop=laptop", "usb=usb")):
        """The status of a run, and what it prints."""
        words = [self.program, "track", "--journal", "files.journal", *options, *roots]
        done = subprocess.run(words, stdin=subprocess.DEVNULL, capture_output=True, cwd=self.at, timeout=SECONDS)
        return done.returncode, done.stdout.decode(), done.stderr.decode()

    def report(self, line):
        words = [self.program, "run", "--journal", "files.journal"]
        subprocess.run(words, input=line.encode() + b"\n", capture_output=True, cwd=self.at, timeout=SECONDS)


def edit_alike(room):
    """As long as before, and with the time of its last edit put back."""
    file = room.laptop / "plan.txt"
    times = file.stat()
    file.write_text("two")
    os.utime(file, ns=(times.st_atime_ns, times.st_mtime_ns))


def replace_by_a_link(room):
    (room.usb / "plan.txt").unlink()
    (room.usb / "plan.txt").symlink_to(room.laptop / "plan.txt")


def add_a_pattern(room):
    with (room.laptop / ".panadignore").open("a") as file:
        file.write("plan.txt\n")


def swap_folders(room):
    """Each folder stands where the other stood."""
    (room.laptop / "plan.txt").write_text("two")
    room.laptop.rename(room.at / "other")
    room.usb.rename(room.laptop)
    (room.at / "other").rename(room.usb)


def damage(room):
    """A byte of what is kept is another."""
    if room.last.exists():
        kept = bytearray(room.last.read_bytes())
        kept[len(BEFORE) + 3] ^= 1
        room.last.write_bytes(kept)


def cut(room):
    if room.last.exists():
        room.last.write_bytes(room.last.read_bytes()[:-1])


def other_roots(room):
    return room.track(roots=("laptop=usb", "usb=laptop"))


# What is changed, and the run behind it.
CHANGES = (
    ("nothing", lambda room: None, Room.track),
    ("a file is edited", lambda room: (room.laptop / "plan.txt").write_text("longer"), Room.track),
    ("a file is edited, as long and with its time", edit_alike, Room.track),
    ("a file further down is edited", lambda room: (room.usb / "sub" / "deep.txt").write_text("else"), Room.track),
    ("a file is new", lambda room: (room.usb / "sub" / "new.txt").write_text("new"), Room.track),
    ("a folder is new", lambda room: shutil.copytree(room.usb / "sub", room.usb / "more"), Room.track),
    ("a file is gone", lambda room: (room.usb / "plan.txt").unlink(), Room.track),
    ("a file is renamed", lambda room: (room.usb / "plan.txt").rename(room.usb / "moved.txt"), Room.track),
    ("a file is a link", replace_by_a_link, Room.track),
    ("a folder is gone", lambda room: shutil.rmtree(room.usb), Room.track),
    ("a folder is empty", lambda room: (shutil.rmtree(room.usb), room.usb.mkdir()), Room.track),
    ("folders are swapped", swap_folders, Room.track),
    ("a pattern is new", add_a_pattern, Room.track),
    ("what is ignored is edited", lambda room: (room.usb / "old.tmp").write_text("tmp"), Room.track),
    ("the patterns are gone", lambda room: (room.usb / ".panadignore").unlink(), Room.track),
    ("the journal has grown", lambda room: room.report('{"by":"usb","do":"edit","at":"usb:plan.txt"}'), Room.track),
    ("the journal is gone", lambda room: room.journal.unlink(), Room.track),
    ("lines are asked for", lambda room: None, lambda room: room.track("--json")),
    ("nothing is to be printed", lambda room: None, lambda room: room.track("--quiet")),
    ("a pattern is given", lambda room: None, lambda room: room.track("--ignore", "plan.txt")),
    ("all is to be read", lambda room: None, lambda room: room.track("--read-all")),
    ("one folder is left out", lambda room: None, lambda room: room.track(roots=("laptop=laptop",))),
    ("the devices are changed over", lambda room: None, other_roots),
    ("what is kept is damaged", damage, Room.track),
    ("what is kept is cut", cut, Room.track),
)


def rested(rooms):
    """Has rooms come to rest: in each a copy is obsolete, and a further run has nothing to report."""
    for room in rooms:
        room.track()
    for room in rooms:
        (room.laptop / "plan.txt").write_text("new")
        room.track()
    time.sleep(SETTLED)
    for room in rooms:
        room.track()


def noticed(program, at):
    """What has changed is noticed: the same is printed with and without what the last run kept."""
    pairs = [(Room(program, at / f"{number}-with"), Room(program, at / f"{number}-without")) for number in range(len(CHANGES))]
    rested([room for pair in pairs for room in pair])
    for (what, change, run), (room, other) in zip(CHANGES, pairs):
        if not room.last.is_file():
            yield f"{what}: nothing was kept"
        other.last.unlink(missing_ok=True)
        change(room)
        change(other)
        for fault in differs(run(room), run(other)):
            yield f"{what}: {fault}"


def printed_again(program, at):
    """Where nothing has changed, what is kept is printed, and the journal isn't read; it is kept where all has settled alone."""
    room = Room(program, at / "room")
    rested([room])
    said = room.track()
    kept = room.last.read_bytes()
    # A text that no run has printed shows where it came from.
    forged = kept[: len(BEFORE)] + b"\x05forged\n"
    room.last.write_bytes(forged + hashlib.sha256(forged).digest())
    yield from differs(room.track(), (5, "forged\n", ""))
    room.last.unlink()
    yield from differs(room.track(), said)
    yield from differs(room.last.read_bytes(), kept)
    (room.laptop / "plan.txt").write_text("newer")
    yield from differs(room.track(), said)
    room.last.unlink()
    yield from differs(room.track(), said)
    if room.last.exists():
        yield "something is kept though a file may still change and look the same"


def another_file(program, at):
    """A file of that name that isn't the program's stays as it is."""
    room = Room(program, at / "room")
    room.last.write_text("mine")
    rested([room])
    yield from differs(room.last.read_text(), "mine")


def within_a_folder(program, at):
    """A journal in a folder that is tracked, and what is kept beside it, are passed over, with the same line each time."""
    room = Room(program, at / "room")
    words = [program, "track", "--journal", "laptop/files.journal", "laptop=laptop", "usb=usb"]

    def run():
        done = subprocess.run(words, stdin=subprocess.DEVNULL, capture_output=True, cwd=room.at, timeout=SECONDS)
        return done.returncode, done.stdout.decode(), done.stderr.decode()

    run()
    time.sleep(SETTLED)
    wanted = (0, "nothing is obsolete or in conflict\n", "panad: laptop: the journal is passed over\n")
    for _ in range(3):
        yield from differs(run(), wanted)
    if not (room.laptop / "files.journal.last").is_file():
        yield "nothing was kept"


if __name__ == "__main__":
    sys.exit(run_checks(__doc__, (noticed, printed_again, another_file, within_a_folder), sys.argv[1:]))
