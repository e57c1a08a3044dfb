#!/usr/bin/env python3
"""Runs `scan` on folders that no scenario can hold: names and kinds of files that a repository doesn't keep, limits,
files that change, and a terminal.

usage: check_scan.py PROGRAM
The last line is 'N passed, M failed'.
"""
from __future__ import annotations

import json
import os
import pty
import re
import shutil
import subprocess
import sys
import threading
import time
from pathlib import Path

from harness import differs, run_checks

SECONDS = 60
LIMIT = 100_000
NESTED = 64
NOBODY = 65534


def scanned(program, folder, *options, **how):
    """The status of a scan, its lines and what it wrote on standard error."""
    words = [program, "scan", *options, "usb", str(folder)]
    done = subprocess.run(words, stdin=subprocess.DEVNULL, capture_output=True, timeout=SECONDS, **how)
    return done.returncode, done.stdout.decode(), done.stderr.decode()


def lines_for(*paths):
    """The lines that register these paths."""
    said = ({"by": "usb", "device": "usb", "do": "register", "path": it} for it in paths)
    return "".join(json.dumps(it, ensure_ascii=False, separators=(",", ":")) + "\n" for it in said)


def kinds(program, room):
    """A FIFO, a symbolic link to a folder above, to a file and to nothing are passed over: no loop, no report."""
    (room / "inner").mkdir()
    (room / "inner" / "a").write_text("abc")
    os.mkfifo(room / "fifo")
    for name, to in (("inner/up", ".."), ("file_link", "inner/a"), ("nowhere", "missing")):
        (room / name).symlink_to(to)
    yield from differs(scanned(program, room), (0, lines_for("inner/a"), ""))
    status, out, err = scanned(program, room, "--verbose")
    said = [f"panad: {it}: a symbolic link" for it in ("file_link", "inner/up", "nowhere")]
    yield from differs((status, out, sorted(err.splitlines())), (0, lines_for("inner/a"), ["panad: fifo: a pipe", *said]))


def names(program, room):
    """Names that aren't UTF-8 and refused paths are counted; such a folder is counted once, and not entered."""
    for name in (b"\xff", b"line\nbreak", b"\xffolder/inside", b"work/\xfe", b"work/plan", "käse".encode()):
        file = os.path.join(os.fsencode(room), name)
        os.makedirs(os.path.dirname(file), exist_ok=True)
        Path(os.fsdecode(file)).write_text("abc")
    yield from differs(scanned(program, room), (0, lines_for("käse", "work/plan"), "panad: 4 names skipped\n"))


def long_paths(program, room):
    """A path of 1,024 bytes is reported, and one of 1,025 is counted."""
    folders = "/".join(["d" * 254] * 4)
    (room / folders).mkdir(parents=True)
    (room / folders / "abcd").write_text("abc")
    (room / folders / "abcde").write_text("abc")
    yield from differs(scanned(program, room), (0, lines_for(f"{folders}/abcd"), "panad: 1 names skipped\n"))


def deep_folders(program, room):
    """Folders 64 below the root are entered, and 65 are too deep."""
    inner = "/".join(["d"] * NESTED)
    (room / inner).mkdir(parents=True)
    (room / inner / "a").write_text("abc")
    yield from differs(scanned(program, room), (0, lines_for(f"{inner}/a"), ""))
    (room / inner / "d").mkdir()
    yield from differs(scanned(program, room), (1, "", "panad: folders too deep\n"))


def many_entries(program, room):
    """Of 100,000 entries all files are reported, and one more is too many, of any kind."""
    for name in ("d1", "d2"):
        (room / name).mkdir()
    (room / "a").write_text("abc")
    for number in range(LIMIT - 3):
        (room / f"d{number % 2 + 1}" / str(number)).symlink_to("/missing")
    yield from differs(scanned(program, room), (0, lines_for("a"), ""))
    (room / "d2" / "more").symlink_to("/missing")
    yield from differs(scanned(program, room), (1, "", "panad: too many entries\n"))


def permissions(program, room):
    """For a user who may not list a folder the scan fails; a file that may not be read isn't reported."""
    folder = room / "theirs"
    (folder / "closed").mkdir(parents=True)
    (folder / "open").write_text("abc")
    (folder / "secret").write_text("abc")
    (folder / "secret").chmod(0)
    copy = room / "panad"
    shutil.copy2(program, copy)
    for it in (room, folder):
        it.chmod(0o755)
    copy.chmod(0o755)
    user = {"user": NOBODY, "group": NOBODY, "extra_groups": []} if os.geteuid() == 0 else {}
    yield from differs(scanned(str(copy), folder, **user), (0, lines_for("open"), ""))
    named = "panad: secret: cannot be read: permission denied\n"
    yield from differs(scanned(str(copy), folder, "--verbose", **user), (0, lines_for("open"), named))
    (folder / "closed").chmod(0)
    yield from differs(scanned(str(copy), folder, **user), (1, "", "panad: cannot list folder\n"))
    (folder / "closed").chmod(0o700)


def growing_file(program, room):
    """A file that grows while it is read is reported, and the scan ends."""
    file, done = room / "log", threading.Event()

    def grow():
        with file.open("ab", buffering=0) as opened:
            while not done.is_set():
                opened.write(b"x" * 4096)
                time.sleep(0.0001)

    file.write_bytes(b"x" * 1_000_000)
    writer = threading.Thread(target=grow)
    writer.start()
    try:
        yield from differs(scanned(program, room), (0, lines_for("log"), ""))
    finally:
        done.set()
        writer.join()


def terminal(program, room):
    """Where standard error is a terminal and a scan takes over a second, a line shows how far it is, and is taken away."""
    with (room / "large").open("wb") as file:
        file.truncate(800_000_000)
    ours, theirs = pty.openpty()
    words = [program, "scan", "usb", str(room)]
    with subprocess.Popen(words, stdin=subprocess.DEVNULL, stdout=subprocess.PIPE, stderr=theirs) as started:
        os.close(theirs)
        shown, more = b"", True
        while more:
            try:
                more = os.read(ours, 65536)
            except OSError:
                more = b""
            shown += more
        lines = started.stdout.read().decode()
    os.close(ours)
    yield from differs((started.returncode, lines), (0, lines_for("large")))
    if not re.fullmatch(rb"(\r\x1b\[Kpanad: 1 of 1 files, [0-9]+ bytes, [0-9]+ MB/s)+\r\x1b\[K", shown):
        yield f"the terminal has {shown!r:.300}"
    yield from differs(scanned(program, room), (0, lines_for("large"), ""))


CHECKS = (kinds, names, long_paths, deep_folders, many_entries, permissions, growing_file, terminal)


if __name__ == "__main__":
    sys.exit(run_checks(__doc__, CHECKS, sys.argv[1:]))
