#!/usr/bin/env python3
"""Runs `run --journal` on disks that are full, whose syncs fail, and that lose what they said they had.

usage: check_disks.py PROGRAM
The last line is 'N passed, M failed'.
"""
from __future__ import annotations

import contextlib
import json
import os
import resource
import shutil
import signal
import subprocess
import sys
from pathlib import Path

from journals import BOARD, EDIT, SECONDS, Session, asked, entries, line, made, pages, ran, reported
from harness import differs, run_checks

DISKS = 20
HERE = Path(__file__).resolve().parent


def ignore_signal():
    """A write past the limit fails, and doesn't end the program."""
    signal.signal(signal.SIGXFSZ, signal.SIG_IGN)


def full_disk(program, room):
    """Where there is no room a report is NotKept and nothing has changed; with room again it is Done."""
    file = room / "journal"
    all_of = made(program, file, 20)
    size = file.stat().st_size
    session = Session(program, file, restore_signals=False, preexec_fn=ignore_signal)
    yield from differs(session.ask(EDIT), {"done": 22})
    process, size = session.started.pid, file.stat().st_size
    resource.prlimit(process, resource.RLIMIT_FSIZE, (size + 10, resource.RLIM_INFINITY))
    refused = {"code": 14, "refused": "NotKept"}
    yield from differs([session.ask(EDIT) for _ in range(3)], [refused] * 3)
    yield from differs(session.ask(line(do="edit", copy=9)), {"code": 2, "copy": 9, "refused": "UnknownCopy"})
    yield from differs(len(session.ask(pages(0) or BOARD)["entries"]), 22)
    resource.prlimit(process, resource.RLIMIT_FSIZE, (resource.RLIM_INFINITY, resource.RLIM_INFINITY))
    yield from differs([session.ask(EDIT) for _ in range(2)], [{"done": 23}, {"done": 24}])
    yield from differs(session.end(), (0, b"", b""))
    found = entries(program, file, 24, None)
    yield from differs((found[:21], len(found)), (all_of, 24))


def failed_syncs(program, room):
    """A sync that fails ends the session with no answer to its line, and the file opens with all that was Done."""
    library, file = room / "failing.so", room / "journal"
    subprocess.run(["cc", "-shared", "-fPIC", "-o", library, HERE / "failing_sync.c"], check=True, timeout=SECONDS)
    for number in range(1, 12):
        file.unlink(missing_ok=True)
        made(program, file, 1)
        found = {**os.environ, "LD_PRELOAD": str(library), "FAILING_SYNC": str(number)}
        answered, ended = asked(program, file, *[EDIT] * 4, env=found)
        done = max(0, (number - 3) // 2) if number < 11 else 4
        text = "journal failed" if number > 2 else f"journal {file}: the device failed"
        yield from differs(answered, [{"done": at + 3} for at in range(done)])
        yield from differs(ended, reported(b"", text) if number < 11 else (0, b"", b""))
        there = entries(program, file, 9, None)
        if len(there) not in (2 + done, 3 + done):
            yield f"sync {number}: {done} were acknowledged behind the first 2, {len(there)} are there"


def failed_syncs_of_groups(program, room):
    """Lines that come together take two syncs, and where one of them fails none of these lines is answered."""
    library, file = room / "failing.so", room / "journal"
    subprocess.run(["cc", "-shared", "-fPIC", "-o", library, HERE / "failing_sync.c"], check=True, timeout=SECONDS)
    answered = b"".join(b'{"done":%d}\n' % at for at in range(3, 11))
    for number in (3, 4, 5):
        file.unlink(missing_ok=True)
        made(program, file, 1)
        found = {**os.environ, "LD_PRELOAD": str(library), "FAILING_SYNC": str(number)}
        ended = ran(program, "run", "--journal", file, given=EDIT * 8, env=found)
        yield from differs(ended, reported(b"", "journal failed") if number < 5 else (0, answered, b""))
        there = len(entries(program, file, 10, None))
        if there not in ((2, 10) if number < 5 else (10,)):
            yield f"sync {number}: {there} are there, of 2 and a group of 8"


def forgetful_disk(program, room):
    """Behind any sync that fails for one process, what a later one acknowledges is on the disk that a power cut leaves."""
    library, file, disk_has, cut = room / "forgetful.so", room / "journal", room / "disk", room / "cut"
    subprocess.run(["cc", "-shared", "-fPIC", "-o", library, HERE / "forgetful_disk.c"], check=True, timeout=SECONDS)
    for number in range(1, 16):
        file.unlink(missing_ok=True)
        made(program, file, 1)
        shutil.copyfile(file, disk_has)
        loaded = {**os.environ, "LD_PRELOAD": str(library), "FORGETFUL_DISK": str(disk_has)}
        found, _ = asked(program, file, *[EDIT] * 4, env={**loaded, "FAILING_SYNC": str(number)})
        first = [it["done"] for it in found]
        status, out, err = ran(program, "run", "--journal", file, given=EDIT * 3, env=loaded)
        later = [json.loads(text)["done"] for text in out.splitlines()]
        if status or len(later) != 3:
            yield f"sync {number}: {status} {err!r}"
        shutil.copyfile(disk_has, cut)
        there = len(entries(program, cut, 20, None))
        if there < max([2, *first, *later]):
            yield f"sync {number}: {first} and then {later} were acknowledged, {there} entries are on the disk"


def disk(room, size):
    """A file system of its own over an image on a small one, whose store has no room for all of it."""
    store, mounted, image = room / "store", room / "mounted", room / "store" / "image"
    store.mkdir()
    mounted.mkdir()
    subprocess.run(["mount", "-t", "tmpfs", "-o", f"size={size}", "tmpfs", store], check=True, timeout=SECONDS)
    with image.open("wb") as made_:
        made_.truncate(8 << 20)
    subprocess.run(["mkfs.ext4", "-q", "-O", "^has_journal", image], check=True, timeout=SECONDS)
    subprocess.run(["mount", "-o", "loop", image, mounted], check=True, timeout=SECONDS)
    return store, mounted


def failed_disk(program, room):
    """What was acknowledged behind a sync that failed for an earlier process is on the disk (where root is at hand)."""
    if os.geteuid() != 0 or not shutil.which("mkfs.ext4"):
        print("  not checked: it needs root and mkfs.ext4")
        return
    for number in range(DISKS):
        part = room / str(number)
        part.mkdir()
        try:
            store, mounted = disk(part, 3 << 20)
        except (OSError, subprocess.SubprocessError) as error:
            print(f"  not checked: no file system can be mounted here ({error})")
            return
        try:
            acknowledged, found = acknowledged_after_a_failed_disk(program, part, store, mounted)
        finally:
            for name in (mounted, store):
                subprocess.run(["umount", name], check=False, timeout=SECONDS)
        if found is not None:
            print(f"  disk {number}: {acknowledged} were acknowledged, {found} are on it")
            if found < acknowledged:
                yield f"{acknowledged} were acknowledged, {found} are on the disk"
            return
    print(f"  not checked: each of {DISKS} disks has lost what it had synced before")


def acknowledged_after_a_failed_disk(program, room, store, mounted):
    """How many entries were acknowledged, and how many a power cut leaves; none where the disk had lost what it had synced.

    A loop device takes a write that its store has cut short for a whole one, so a sync may succeed that wrote nothing.
    Such a journal is reported, and isn't touched.
    """
    file = mounted / "journal"
    made(program, file, 3)
    session = Session(program, file)
    with contextlib.suppress(OSError), (store / "filler").open("wb", buffering=0) as filler:
        while filler.write(b"x" * 4096):
            pass
    answer = {"done": 5}
    while answer != "nothing":
        answer = session.ask(EDIT)
    if session.end() != reported(b"", "journal failed"):
        raise ValueError("a failed sync isn't reported")
    (store / "filler").unlink()
    status, out, err = ran(program, "run", "--journal", file, given=EDIT * 5)
    if b"the last line has no newline" in err or b"Damaged" in err:
        return 0, None
    if status:
        raise ValueError(f"it isn't opened: {err!r}")
    # what a power cut leaves is what the store has: it is read by a mount of a copy
    copy, again, kept = room / "copy", room / "again", room / "kept"
    shutil.copyfile(store / "image", copy)
    again.mkdir()
    subprocess.run(["mount", "-o", "loop,ro", copy, again], check=True, timeout=SECONDS)
    try:
        shutil.copyfile(again / "journal", kept)
    finally:
        subprocess.run(["umount", again], check=False, timeout=SECONDS)
    return json.loads(out.splitlines()[-1])["done"], len(entries(program, kept, 500, None))


CHECKS = (full_disk, failed_syncs, failed_syncs_of_groups, forgetful_disk, failed_disk)


if __name__ == "__main__":
    sys.exit(run_checks(__doc__, CHECKS, sys.argv[1:]))
