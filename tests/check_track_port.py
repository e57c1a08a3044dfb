#!/usr/bin/env python3
"""Runs `track --port` on folders that change, and `status --port`, against a daemon, and against servers that are none.

usage: check_track_port.py PROGRAM
The last line is 'N passed, M failed'.
"""
from __future__ import annotations

import json
import os
import shutil
import socket
import subprocess
import sys
import threading

from daemon import SECONDS, Daemon, pages
from harness import differs, run_checks

ALL_WELL = "nothing is obsolete or in conflict\n"
OBSOLETE = "STATE     COPY          WHAT TO DO\nobsolete  usb:plan.txt  take laptop:plan.txt\n"
SILENT = "panad: the daemon gives no answer\n"
# What `status` says below its table, of all copies and of those at some places.
COUNTS = "4 copies on 2 devices: 1 obsolete, 0 in conflict\n"
ONE, NONE = "1 obsolete, 0 in conflict\n", "0 obsolete, 0 in conflict\n"


class Folders:
    """A laptop's folder and a stick's, and what runs of `track` print of them."""

    def __init__(self, program, room):
        self.program, self.room, self.laptop, self.usb = program, room, room / "laptop", room / "usb"
        self.laptop.mkdir()
        self.usb.mkdir()

    def write(self, name, text, *folders):
        for folder in folders or (self.laptop, self.usb):
            (folder / name).write_text(text)

    def track(self, *words, devices=("laptop", "usb")):
        """The status of a run, what it prints, and what it reports on standard error."""
        words = [self.program, "track", *map(str, words), *(f"{it}={self.room / it}" for it in devices)]
        done = subprocess.run(words, stdin=subprocess.DEVNULL, capture_output=True, timeout=SECONDS)
        return done.returncode, done.stdout.decode(), done.stderr.decode()


class Server:
    """Something that listens: it gives the answers to the first lines, one each, and closes the connection."""

    def __init__(self, *answers):
        self.answers, self.lines = answers, []
        self.listener = socket.create_server(("127.0.0.1", 0))
        self.port = self.listener.getsockname()[1]
        self.thread = threading.Thread(target=self.serve)

    def serve(self):
        connection, _ = self.listener.accept()
        connection.settimeout(SECONDS)
        with connection, connection.makefile("rb") as reader:
            for it in self.answers:
                self.lines.append(reader.readline())
                connection.sendall(it)

    def __enter__(self):
        self.thread.start()
        return self

    def __exit__(self, *_):
        self.thread.join(timeout=SECONDS)
        self.listener.close()


def as_to_a_journal(program, room):
    """What is reported to a daemon is what is reported to a journal, entry by entry, and the tables are the same."""
    at, journal = Folders(program, room), room / "files.journal"
    with Daemon(program) as daemon:
        both = lambda *words: (at.track("--port", daemon.port, *words), at.track("--journal", journal, *words))
        steps = (
            (lambda: at.write("plan.txt", "one"), (0, ALL_WELL, "")),
            (lambda: at.write("plan.txt", "two", at.laptop), (1, OBSOLETE, "")),
            (lambda: shutil.copy(at.laptop / "plan.txt", at.usb / "plan.txt"), (0, ALL_WELL, "")),
            (lambda: (at.laptop / "plan.txt").rename(at.laptop / "new \u202e\n\"\\ name".replace("\n", "")), (0, ALL_WELL, "")),
            (lambda: (at.usb / "plan.txt").unlink(), (3, ALL_WELL, "panad: usb: folder is empty, nothing reported; --empty if it is meant\n")),
            (lambda: at.write("a" * 200, "more"), (0, ALL_WELL, "")),
        )
        for change, wanted in steps:
            change()
            for got in both():
                yield from differs(got, wanted)
        at.write("plan.txt", "one", at.laptop)
        at.write("plan.txt", "one", at.usb)
        both("--quiet")
        at.write("plan.txt", "two", at.laptop)
        (_, one, _), (_, other, _) = both("--json")
        yield from differs((one, "obsolete" in one), (other, True))
        with daemon.client() as client:
            entries = [entry for page in pages(client) for entry in page["entries"]]
        line = b'{"by":"desk","do":"journal","from":1}\n'
        kept = subprocess.run([program, "run", "--journal", journal], input=line, capture_output=True, timeout=SECONDS)
        yield from differs(entries, json.loads(kept.stdout)["entries"])


def two_machines(program, room):
    """Each device may be tracked by a run of its own: the daemon compares them."""
    at = Folders(program, room)
    at.write("plan.txt", "one")
    with Daemon(program, "--journal", str(room / "journal")) as daemon:
        yield from differs(at.track("--port", daemon.port, devices=["laptop"]), (0, ALL_WELL, ""))
        yield from differs(at.track("--port", daemon.port, devices=["usb"]), (0, ALL_WELL, ""))
        at.write("plan.txt", "two", at.laptop)
        yield from differs(at.track("--port", daemon.port, devices=["laptop"]), (1, OBSOLETE, ""))
        yield from differs(at.track("--port", daemon.port, devices=["usb"]), (1, OBSOLETE, ""))


def asked_by_status(program, room):
    """`status --port` shows what a daemon knows, of all places and of some; where nobody answers that is reported."""
    at = Folders(program, room)
    at.write("plan.txt", "one")
    at.write("notes.txt", "one")

    def status(port, *words):
        done = subprocess.run([program, "status", "--port", str(port), *words], stdin=subprocess.DEVNULL, capture_output=True, timeout=SECONDS)
        return done.returncode, done.stdout.decode(), done.stderr.decode()

    with Daemon(program, "--journal", str(room / "journal")) as daemon:
        yield from differs(status(daemon.port), (0, f"{ALL_WELL}0 copies on 0 devices: {NONE}", ""))
        at.track("--port", daemon.port)
        at.write("plan.txt", "two", at.laptop)
        at.track("--port", daemon.port)
        yield from differs(status(daemon.port), (1, OBSOLETE + COUNTS, ""))
        for words in (("usb:",), ("usb:plan.txt", "laptop:")):
            yield from differs((words, status(daemon.port, *words)), (words, (1, OBSOLETE + ONE, "")))
        for words in (("laptop:",), ("usb:notes.txt",), ("usb:plan",)):
            yield from differs((words, status(daemon.port, *words)), (words, (0, ALL_WELL + NONE, "")))
        yield from differs(status(daemon.port, "--quiet", "usb:"), (1, "", ""))
        # The journal is the daemon's, and can be read beside it.
        done = subprocess.run([program, "status", "--journal", room / "journal"], capture_output=True, text=True, timeout=SECONDS)
        yield from differs((done.returncode, done.stdout, done.stderr), (1, OBSOLETE + COUNTS, ""))
    yield from differs(status(daemon.port), (3, "", f"panad: cannot connect to port {daemon.port}\n"))
    for bad in (b"", b'{"status":[]} \n', b'{"fault":"NotJson"}\n'):
        for before in ((), (b'{"status":[]}\n',)):
            with Server(*before, bad) as server:
                yield from differs((before, status(server.port)), (before, (3, "", SILENT)))


def many_files(program, room):
    """Folders of 400 files are reported, and what isn't changed is known the next time."""
    at = Folders(program, room)
    for number in range(400):
        at.write(f"{number}", f"{number}")
    with Daemon(program) as daemon:
        yield from differs(at.track("--port", daemon.port), (0, ALL_WELL, ""))
        held = daemon.ask("desk", "holdings", device="usb")["holdings"]
        yield from differs(len(held), 400)
        yield from differs(at.track("--port", daemon.port), (0, ALL_WELL, ""))
        with daemon.client() as client:
            yield from differs(sum(len(page["entries"]) for page in pages(client)), 800)


def goes_on(program, room):
    """Where the daemon is killed in the middle nothing that was done is lost, and the next run goes on."""
    at, journal = Folders(program, room), str(room / "journal")
    for number in range(500):
        at.write(f"{number}", f"{number}")
    with Daemon(program, "--journal", journal) as daemon:
        words = [program, "track", "--port", str(daemon.port), f"laptop={at.laptop}", f"usb={at.usb}"]
        with subprocess.Popen(words, stdin=subprocess.DEVNULL, stdout=subprocess.PIPE, stderr=subprocess.PIPE) as run, daemon.client() as client:
            while len(client.ask("desk", "holdings", device="laptop")["holdings"]) < 50:
                pass
            daemon.run.kill()
            yield from differs((run.stdout.read(), run.stderr.read().decode(), run.wait(timeout=SECONDS)), (b"", SILENT, 3))
    with Daemon(program, "--journal", journal) as daemon:
        before = daemon.ask("desk", "holdings", device="laptop")["holdings"]
        yield from differs(len(before) >= 50, True)
        yield from differs(at.track("--port", daemon.port), (0, ALL_WELL, ""))
        after = daemon.ask("desk", "holdings", device="laptop")["holdings"]
        yield from differs((after[: len(before)], len(after)), (before, 500))


def sums(program, room):
    """--sums names the file that keeps sums, for the owner alone; it is passed over where it lies in a folder, and files aren't read again."""
    at = Folders(program, room)
    at.write("plan.txt", "one")
    old = 1_000_000_000
    for folder in (at.laptop, at.usb):
        os.utime(folder / "plan.txt", (old, old))
    file = at.laptop / "my sums"
    with Daemon(program) as daemon:
        words = ("--port", daemon.port, "--sums", file)
        said = "panad: laptop: the file of sums is passed over\n"
        yield from differs(at.track(*words), (0, ALL_WELL, said))
        yield from differs((file.stat().st_mode & 0o777, sorted(it.name for it in room.iterdir())), (0o600, ["laptop", "usb"]))
        yield from differs([it["path"] for it in daemon.ask("desk", "holdings", device="laptop")["holdings"]], ["plan.txt"])
        size = file.stat().st_size
        yield from differs(at.track(*words), (0, ALL_WELL, said))
        yield from differs(file.stat().st_size, size)
        # Another file isn't lost, nor a folder, nor a journal.
        other = room / "thesis"
        for it in (other, at.usb, room / "kept"):
            other.write_text("my thesis")
            words = ("--journal", room / "kept") if it == room / "kept" else ("--port", daemon.port)
            at.track("--journal", room / "kept")
            before = it.read_bytes() if it.is_file() else b""
            yield from differs(at.track(*words, "--sums", it), (3, "", f"panad: {it} is no file of sums\n"))
            yield from differs((it.is_dir(), it.read_bytes() if it.is_file() else b""), (it == at.usb, before))
        for it in (other, room / "kept", room / "kept.sums"):
            it.unlink()
        # Sums beside a journal that go elsewhere leave nothing beside it.
        journal = room / "journal"
        yield from differs(at.track("--journal", journal, "--sums", file)[:2], (0, ALL_WELL))
        yield from differs(sorted(it.name for it in room.iterdir()), ["journal", "laptop", "usb"])


def no_daemon(program, room):
    """A port where nobody listens is reported before a folder is read; a journal and a port exclude each other, and one has to be there."""
    at = Folders(program, room)
    with socket.create_server(("127.0.0.1", 0)) as closed:
        port = closed.getsockname()[1]
    yield from differs(at.track("--port", port), (3, "", f"panad: cannot connect to port {port}\n"))
    for words in (("--port", port, "--journal", room / "journal"), (), ("--port", "65536"), ("--port", "x")):
        status, out, err = at.track(*words)
        yield from differs((status, out, err != ""), (2, "", True))
    yield from differs((room / "journal").exists(), False)


def no_answers(program, room):
    """What answers otherwise than a daemon does, or not at all, is reported, and no table is printed."""
    at = Folders(program, room)
    at.write("plan.txt", "one")
    known = b'{"holdings":[]}\n'
    bad = (b"", b"\n", b"{}\n", b"{", b"nonsense\n", b'{"fault":"NotJson"}\n', b'{"holdings":[]} \n', b'{"holdings":[]}', b'{"holdings":[],"more":1}\n', b"\xff\n", b"[" * 100_000 + b"\n")
    for answers in [(it,) for it in bad] + [(known, it) for it in bad] + [(known, b'{"did":"register","done":1}\n', it) for it in bad]:
        with Server(*answers) as server:
            yield from differs(at.track("--port", server.port, devices=["laptop"]), (3, "", SILENT))
    with Server(known, b'{"did":"register","done":1}\n', b'{"known":1}\n', b'{"status":[]}\n') as server:
        yield from differs(at.track("--port", server.port, devices=["laptop"]), (0, ALL_WELL, ""))
    digest = "7692c3ad3540bb803c020b3aee66cd8887123234ea0c6e7143c0add73ff431ed"
    found = {"by": "laptop", "device": "laptop", "do": "found", "path": "plan.txt", "sum": digest}
    wanted = [{"by": "laptop", "device": "laptop", "do": "holdings"}, found, found, {"by": "panad", "do": "status", "from": 1}]
    yield from differs([{name: it for name, it in json.loads(line).items() if it is not None} for line in server.lines], wanted)


def refused_reports(program, room):
    """A report that the daemon refuses is reported with its cause, and the rest goes on."""
    at = Folders(program, room)
    at.write("plan.txt", "one")
    with Server(b'{"holdings":[]}\n', b'{"code":1,"refused":"JournalFull"}\n', b'{"status":[]}\n') as server:
        got = at.track("--port", server.port, devices=["laptop"])
    yield from differs(got, (3, ALL_WELL, "panad: laptop: 1 reports refused, the first JournalFull\n"))
    with Server(b'{"holdings":[]}\n', b'{"code":14,"refused":"NotKept"}\n', b'{"status":[]}\n') as server:
        got = at.track("--port", server.port, devices=["laptop"])
    yield from differs(got, (3, ALL_WELL, "panad: laptop: report not kept, nothing more reported\n"))


CHECKS = (as_to_a_journal, two_machines, asked_by_status, many_files, goes_on, sums, no_daemon, no_answers, refused_reports)


if __name__ == "__main__":
    sys.exit(run_checks(__doc__, CHECKS, sys.argv[1:]))
