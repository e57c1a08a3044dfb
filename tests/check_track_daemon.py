#!/usr/bin/env python3
"""Runs `serve --track` on folders that change, and asks what it has noticed.

usage: check_track_daemon.py PROGRAM
The last line is 'N passed, M failed'.
"""
from __future__ import annotations

import resource
import shutil
import signal
import subprocess
import sys
import time

from daemon import SECONDS, Daemon, failing, times_of, until
from harness import differs, run_checks

EMPTY = b"panad: usb: folder is empty, nothing reported; --empty if it is meant\n"


class Folders:
    """A laptop's folder, a stick's, and a journal beside them."""

    def __init__(self, program, room):
        self.program, self.laptop, self.usb, self.journal = program, room / "laptop", room / "usb", room / "journal"
        self.laptop.mkdir()
        self.usb.mkdir()

    def write(self, name, text, *folders):
        for folder in folders or (self.laptop, self.usb):
            (folder / name).write_text(text)

    def serve(self, *words, track="--track", **how):
        roots = (f"laptop={self.laptop}", f"usb={self.usb}")
        return Daemon(self.program, "--journal", str(self.journal), *words, track, *roots, **how)


def rows(client):
    """What is obsolete or in conflict, and what to take or to merge with."""
    place = lambda it: f"{it['device']}:{it['path']}"
    return sorted((it["state"], place(it), place(it["with"])) for it in client.ask("desk", "status", **{"from": 1})["status"])


def held(client, device):
    return sorted(it["path"] for it in client.ask("desk", "holdings", device=device)["holdings"])


def comes_to(client, wanted, *names):
    """Says what the rows are after a while, where they aren't these, and, where names are given, which ones both folders have."""
    wanted = [wanted] + [list(names)] * (2 if names else 0)
    look = lambda: [rows(client)] + [held(client, it) for it in ("laptop", "usb") if names]
    return differs(until(wanted, look), wanted)


def noticed(program, room):
    """After each newline what was edited, copied, renamed or removed is noticed by contents, as `track` does."""
    at = Folders(program, room)
    at.write("plan.txt", "one")
    at.write("notes.txt", "notes")
    with at.serve() as daemon, daemon.client() as client:
        yield from comes_to(client, [], "notes.txt", "plan.txt")
        at.write("plan.txt", "two", at.laptop)
        daemon.tick()
        yield from comes_to(client, [("obsolete", "usb:plan.txt", "laptop:plan.txt")])
        shutil.copy(at.laptop / "plan.txt", at.usb / "plan.txt")
        daemon.tick()
        yield from comes_to(client, [])
        at.write("plan.txt", "three", at.laptop)
        at.write("plan.txt", "four", at.usb)
        daemon.tick()
        yield from comes_to(client, [("conflict", "laptop:plan.txt", "usb:plan.txt"), ("conflict", "usb:plan.txt", "laptop:plan.txt")])
        at.write("plan.txt", "both")
        (at.laptop / "notes.txt").rename(at.laptop / "new.txt")
        (at.usb / "notes.txt").rename(at.usb / "new.txt")
        daemon.tick()
        yield from comes_to(client, [], "new.txt", "plan.txt")
        families = client.ask("desk", "families")["families"]
        yield from differs([(it["copies"], it["newest"]) for it in families], [(2, 2), (2, 2)])
        (at.laptop / "new.txt").unlink()
        (at.usb / "new.txt").unlink()
        daemon.tick()
        yield from comes_to(client, [], "plan.txt")


def while_it_was_down(program, room):
    """What changed while no daemon ran is noticed by the next one, and carried copies are no conflict."""
    at = Folders(program, room)
    for name in ("carried.txt", "edited.txt", "gone.txt", "same.txt"):
        at.write(name, name)
    with at.serve() as daemon, daemon.client() as client:
        yield from comes_to(client, [], "carried.txt", "edited.txt", "gone.txt", "same.txt")
        daemon.run.send_signal(signal.SIGKILL)
        daemon.run.wait()
    at.write("carried.txt", "both")
    at.write("edited.txt", "new", at.usb)
    for folder in (at.laptop, at.usb):
        (folder / "gone.txt").unlink()
    with at.serve() as daemon, daemon.client() as client:
        yield from comes_to(client, [("obsolete", "laptop:edited.txt", "usb:edited.txt")], "carried.txt", "edited.txt", "same.txt")
        daemon.run.send_signal(signal.SIGKILL)
        daemon.run.wait()
    # `track` goes on where the daemon was.
    words = [program, "track", "--quiet", "--journal", at.journal, f"laptop={at.laptop}", f"usb={at.usb}"]
    yield from differs(subprocess.run(words, capture_output=True, timeout=SECONDS).returncode, 1)


def after_a_time(program, room):
    """With --every it looks again after so many seconds, also where standard input has ended, and sleeps in between."""
    at = Folders(program, room)
    at.write("plan.txt", "one")
    with at.serve("--every", "1") as daemon, daemon.client() as client:
        daemon.end_input()
        yield from comes_to(client, [], "plan.txt")
        for number in range(2):
            at.write("plan.txt", f"more {number}", at.usb)
            yield from comes_to(client, [("obsolete", "laptop:plan.txt", "usb:plan.txt")])
            shutil.copy(at.usb / "plan.txt", at.laptop / "plan.txt")
            yield from comes_to(client, [])
        before = times_of(daemon.run.pid)
        time.sleep(3)
        yield from differs(times_of(daemon.run.pid) - before < 30, True)
        yield from differs(daemon.run.poll(), None)


def at_a_newline(program, room):
    """With --every a newline still comes first."""
    at = Folders(program, room)
    at.write("plan.txt", "one")
    with at.serve("--every", "3600") as daemon, daemon.client() as client:
        yield from comes_to(client, [], "plan.txt")
        at.write("plan.txt", "two", at.usb)
        daemon.tick()
        yield from comes_to(client, [("obsolete", "laptop:plan.txt", "usb:plan.txt")])


def ends(program, room):
    """Where so many sessions are wanted it ends after them and standard input, also with --every; without --every too."""
    at = Folders(program, room)
    at.write("plan.txt", "one")
    for words in ((), ("--every", "3600"), ("--every", "1")):
        with at.serve("--sessions", "1", *words) as daemon:
            with daemon.client() as client:
                yield from comes_to(client, [], "plan.txt")
            daemon.end_input()
            yield from differs(daemon.ended(), (0, b"", b""))


def lost_journal(program, room):
    """Where a sync fails it ends with status 1, though a time is given and standard input is open."""
    at = Folders(program, room)
    at.write("plan.txt", "one", at.laptop)
    # Four syncs open a new file, and each report makes two: the second report's fails. A folder alone, since the syncs of
    # two that are read at the same time may be one.
    words = ("--journal", str(at.journal), "--every", "3600", "--track", f"laptop={at.laptop}")
    with Daemon(program, *words, env=failing(room, 7)) as daemon:
        with daemon.client() as client:
            yield from differs(until(["plan.txt"], lambda: held(client, "laptop")), ["plan.txt"])
        at.write("plan.txt", "two", at.laptop)
        daemon.tick()
        yield from differs(daemon.ended(), (1, b"", b"panad: journal failed\n"))


def full_disk(program, room):
    """A report that can't be kept breaks a look off, and that is printed; with room again the next look reports it."""
    at = Folders(program, room)
    at.write("plan.txt", "one")
    ignore = lambda: signal.signal(signal.SIGXFSZ, signal.SIG_IGN)
    limit = lambda size: resource.prlimit(daemon.run.pid, resource.RLIMIT_FSIZE, (size, resource.RLIM_INFINITY))
    with at.serve(restore_signals=False, preexec_fn=ignore) as daemon, daemon.client() as client:
        yield from comes_to(client, [], "plan.txt")
        limit(at.journal.stat().st_size)
        at.write("plan.txt", "two", at.usb)
        daemon.tick()
        yield from differs(daemon.run.stderr.readline(), b"panad: usb: report not kept, nothing more reported\n")
        yield from differs(rows(client), [])
        limit(resource.RLIM_INFINITY)
        daemon.tick()
        yield from comes_to(client, [("obsolete", "laptop:plan.txt", "usb:plan.txt")])


def unmounted(program, room):
    """Of a folder that is empty nothing is reported, and that is printed once; what it has is noticed once it is back."""
    at = Folders(program, room)
    at.write("plan.txt", "one")
    with at.serve() as daemon, daemon.client() as client:
        yield from comes_to(client, [], "plan.txt")
        (at.usb / "plan.txt").unlink()
        at.write("plan.txt", "two", at.laptop)
        daemon.tick()
        yield from comes_to(client, [("obsolete", "usb:plan.txt", "laptop:plan.txt")], "plan.txt")
        daemon.tick()
        time.sleep(0.5)
        at.write("plan.txt", "three", at.usb)
        daemon.tick()
        yield from comes_to(client, [("conflict", "laptop:plan.txt", "usb:plan.txt"), ("conflict", "usb:plan.txt", "laptop:plan.txt")])
        daemon.run.send_signal(signal.SIGKILL)
        yield from differs(daemon.ended()[2], EMPTY)


def passed_over(program, room):
    """The journal, what .panadignore lists and what --ignore says are passed over, and that the first is, is printed."""
    at = Folders(program, room)
    at.journal = at.laptop / "files [1].journal"
    at.write(".panadignore", "*.tmp\n", at.laptop)
    for name in ("a.tmp", "b.bak", "plan.txt"):
        at.write(name, name, at.laptop)
    at.write("plan.txt", "plan.txt", at.usb)
    with at.serve("--ignore", "*.bak") as daemon, daemon.client() as client:
        wanted = [".panadignore", "plan.txt"], ["plan.txt"]
        yield from differs(until(wanted, lambda: (held(client, "laptop"), held(client, "usb"))), wanted)
        daemon.run.send_signal(signal.SIGKILL)
        yield from differs(daemon.ended()[2], b"panad: laptop: the journal is passed over\n")


def refused_words(program, room):
    """Folders that lie within each other, and a root that is a file, are refused before anything is read; a bad word is reported."""
    at = Folders(program, room)
    at.write("plan.txt", "one")
    (at.laptop / "inner").mkdir()
    rows = (
        ([f"a={at.laptop}", f"b={at.laptop / 'inner'}"], 2, b"one within the other"),
        ([f"a={at.laptop / 'plan.txt'}"], 2, b"is no folder"),
        ([f"a={at.laptop}", f"a={at.usb}"], 1, b"panad: bad root a="),
        ([f"A={at.laptop}"], 1, b"panad: bad root A="),
    )
    for roots, status, said in rows:
        words = [program, "serve", "--port", "0", "--journal", at.journal, "--track", *roots]
        done = subprocess.run(words, stdin=subprocess.DEVNULL, capture_output=True, timeout=SECONDS)
        yield from differs((done.returncode, done.stdout, said in done.stderr), (status, b"", True))
        yield from differs(at.journal.exists(), False)


CHECKS = (noticed, while_it_was_down, after_a_time, at_a_newline, ends, lost_journal, full_disk, unmounted, passed_over, refused_words)


if __name__ == "__main__":
    sys.exit(run_checks(__doc__, CHECKS, sys.argv[1:]))
