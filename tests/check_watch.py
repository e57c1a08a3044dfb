#!/usr/bin/env python3
"""Asks a daemon questions that wait for an entry, and runs `watch` on daemons and on servers that are none.

usage: check_watch.py PROGRAM
The last line is 'N passed, M failed'.
"""
from __future__ import annotations

import contextlib
import os
import socket
import subprocess
import sys
import threading
import time

from check_track_port import SILENT, Server
from daemon import HERE, SECONDS, Client, Daemon, line_of
from harness import Broken, differs, run_checks

WORKERS = 16
# How many clients report while an entry is kept.
OTHERS = 8
PLAN = {"device": "usb", "path": "plan.txt"}
FIRST = {"by": "usb", "device": "usb", "do": "register", "number": 1, "path": "plan.txt"}


def awaiting(client, number, seconds):
    """A client that has sent a question which waits."""
    client.send(line_of("desk", "journal", **{"from": number, "wait": seconds}))
    return client


def silent(client, seconds):
    """Says it where an answer comes within the time."""
    client.socket.settimeout(seconds)
    try:
        yield f"there was an answer: {client.socket.recv(100)!r}"
    except socket.timeout:
        client.socket.settimeout(SECONDS)


class Watch:
    """A run of `watch`."""

    def __init__(self, program, port, *words):
        words = [program, "watch", "--port", str(port), *words]
        self.run = subprocess.Popen(words, stdin=subprocess.DEVNULL, stdout=subprocess.PIPE, stderr=subprocess.PIPE)

    def __enter__(self):
        return self

    def __exit__(self, *_):
        self.run.kill()
        self.run.wait()
        self.run.stdout.close()
        self.run.stderr.close()

    def lines(self, count):
        """The next lines that it prints."""
        timer = threading.Timer(SECONDS, self.run.kill)
        timer.start()
        try:
            lines = [self.run.stdout.readline().decode() for _ in range(count)]
        finally:
            timer.cancel()
        if not all(lines):
            raise Broken(f"watch ended after {sum(map(bool, lines))} of {count} lines with status {self.run.wait()} and {self.run.stderr.read()!r:.200}")
        return lines

    def ended(self):
        out, err = self.run.communicate(timeout=SECONDS)
        return self.run.returncode, out.decode(), err.decode()


def begun(daemon, watch):
    """Reports entries until a watch that shows those behind the last one shows one, and returns its number."""
    said = []
    reader = threading.Thread(target=lambda: said.extend(watch.lines(1)))
    reader.start()
    number = 0
    end = time.monotonic() + SECONDS
    while reader.is_alive() and time.monotonic() < end:
        number = daemon.ask("usb", "register", device="begin", path=str(number + 1))["done"]
        reader.join(0.1)
    if not said:
        raise Broken("it showed nothing")
    shown = int(said[0].split()[0])
    # Those that were reported since are shown too.
    watch.lines(number - shown)
    return number


def answers(program, _):
    """A question that waits is answered at once where the entry is there, when it comes, and after its time."""
    with Daemon(program) as daemon, daemon.client() as client:
        began = time.monotonic()
        yield from differs(client.ask("desk", "journal", **{"from": 1, "wait": 0}), {"entries": []})
        yield from differs(client.ask("desk", "journal", **{"from": 1, "wait": 1}), {"entries": []})
        if not 1 <= time.monotonic() - began < 10:
            yield f"a second took {time.monotonic() - began:.2f} s"
        awaiting(client, 1, 3600)
        yield from silent(client, 0.5)
        yield from differs(daemon.ask("usb", "register", **PLAN), {"done": 1})
        yield from differs(client.answer(), {"entries": [FIRST]})
        began = time.monotonic()
        yield from differs(client.ask("desk", "journal", **{"from": 1, "wait": 3600}), {"entries": [FIRST]})
        yield from differs(client.ask("desk", "journal", **{"from": 0, "wait": 3600}), {"entries": [FIRST]})
        if time.monotonic() - began > 10:
            yield "an entry that was there was waited for"
        # One that comes before the entry that is waited for is no answer.
        awaiting(client, 3, 3600)
        yield from differs(daemon.ask("usb", "edit", copy=1), {"done": 2})
        yield from silent(client, 0.5)
        yield from differs(daemon.ask("usb", "found", **PLAN, sum="0" * 64), {"did": "note", "done": 3})
        yield from differs([it["number"] for it in client.answer()["entries"]], [3])


def kept(program, room):
    """The entries that a journal has at the start are known."""
    journal = str(room / "files.journal")
    subprocess.run([program, "run", "--journal", journal], input=line_of("usb", "register", **PLAN), check=True, stdout=subprocess.DEVNULL, timeout=SECONDS)
    with Daemon(program, "--journal", journal) as daemon, daemon.client() as client:
        yield from differs(client.ask("desk", "journal", **{"from": 1, "wait": 3600}), {"entries": [FIRST]})
        awaiting(client, 2, 3600)
        yield from silent(client, 0.3)
        yield from differs(daemon.ask("usb", "edit", copy=1), {"done": 2})
        yield from differs([it["number"] for it in client.answer()["entries"]], [2])


def make_way(program, _):
    """Where all workers wait for entries, one of them makes way for each further client, once it has waited for a second."""
    with Daemon(program) as daemon, contextlib.ExitStack() as stack:
        waiting = [awaiting(stack.enter_context(daemon.client()), 1, 3600) for _ in range(WORKERS)]
        yield from silent(waiting[0], 0.3)
        began = time.monotonic()
        yield from differs(daemon.ask("desk", "families"), {"families": []})
        if time.monotonic() - began > 10:
            yield f"it took {time.monotonic() - began:.2f} s"
        yield from differs(daemon.ask("usb", "register", **PLAN), {"done": 1})
        got = sorted(it.reader.readline() for it in waiting)
        entry = b'{"entries":[{"by":"usb","device":"usb","do":"register","number":1,"path":"plan.txt"}]}\n'
        yield from differs((got[0], got[-1]), (b'{"entries":[]}\n', entry))
        # At most one for each of the two.
        if got.count(entry) < WORKERS - 2:
            yield f"{got.count(entry)} waited on"
        # What made way is closed, and the others aren't.
        ended = 0
        for it in waiting:
            it.socket.settimeout(0.2)
            try:
                ended += it.socket.recv(1) == b""
            except socket.timeout:
                yield from differs(it.ask("desk", "families")["families"], [{"copies": 1, "family": 1, "newest": 1, "split": False}])
        yield from differs(ended, WORKERS - got.count(entry))


def goes_on(program, room):
    """Where an entry comes while a wait makes way, it is answered with that and its connection goes on; else it ends."""
    library = room / "slow.so"
    subprocess.run(["cc", "-shared", "-fPIC", "-o", library, HERE / "slow_sync.c"], check=True, timeout=SECONDS)
    slow = {**os.environ, "LD_PRELOAD": str(library), "SLOW_SYNC": "1500"}
    with Daemon(program, "--journal", str(room / "journal"), env=slow) as daemon, contextlib.ExitStack() as stack:
        first, *clients = [stack.enter_context(daemon.client()) for _ in range(WORKERS)]
        others, waiting = clients[:OTHERS], clients[OTHERS:]
        for it in waiting:
            awaiting(it, 2, 3600)
        yield from silent(waiting[0], 0.3)
        # While the first entry is kept no call is made. Behind it come the others' entries and the wait that makes way, in any
        # order, so nearly always an entry is there before that wait is asked.
        first.send(line_of("usb", "register", **PLAN))
        yield from silent(first, 0.3)
        for number, it in enumerate(others):
            it.send(line_of("usb", "register", device="usb", path=str(number)))
        yield from silent(others[0], 0.5)
        further = stack.enter_context(daemon.client())
        further.send(line_of("desk", "families"))
        yield from differs(first.answer(), {"done": 1})
        yield from differs(sorted(it.answer()["done"] for it in others), [*range(2, OTHERS + 2)])
        got = [(it, [entry["number"] for entry in it.answer()["entries"]]) for it in waiting]
        yield from differs(sum(not numbers for _, numbers in got) <= 1, True)
        for it, numbers in got:
            if numbers:
                yield from differs(numbers, [*range(2, numbers[-1] + 1)])
                yield from differs(len(it.ask("desk", "families")["families"]), OTHERS + 1)
            else:
                yield from differs(it.socket.recv(1), b"")
        first.close()
        yield from differs("families" in further.answer(), True)


def shown(program, _):
    """Each kind of entry has its line, and families that become split or whole are shown; so they are from an entry on."""
    lines = [
        ("laptop", "register", {"device": "laptop", "path": "a b.txt"}),
        ("usb", "duplicate", {"copy": 1, "device": "usb", "path": "a b.txt"}),
        ("usb", "edit", {"copy": 2}),
        ("laptop", "edit", {"copy": 1}),
        ("laptop", "reconcile", {"a": 1, "b": 2}),
        ("laptop", "note", {"copy": 1, "sum": "0" * 64}),
        ("laptop", "edit", {"copy": 1}),
        ("usb", "edit", {"copy": 2}),
        ("usb", "merge", {"a": 2, "b": 1}),
        ("usb", "relocate", {"copy": 2, "device": "usb", "path": "c.txt"}),
        ("laptop", "edit", {"copy": 1}),
        ("usb", "edit", {"copy": 2}),
        ("usb", "withdraw", {"entry": 12}),
        ("laptop", "confirm", {"entry": 11}),
        ("desk", "duplicate", {"copy": 2, "device": "desk", "path": "d"}),
        ("desk", "remove", {"copy": 15, "heir": 1}),
        ("usb", "remove", {"copy": 2}),
    ]
    wanted = """\
1 register by laptop: laptop:a b.txt
2 duplicate by usb: copy 1 to usb:a b.txt
3 edit by usb: copy 2
4 edit by laptop: copy 1
family 1 is split
5 reconcile by laptop: copies 1 and 2
family 1 is whole
6 note by laptop: copy 1
7 edit by laptop: copy 1
8 edit by usb: copy 2
family 1 is split
9 merge by usb: copies 2 and 1
family 1 is whole
10 relocate by usb: copy 2 to usb:c.txt
11 edit by laptop: copy 1
12 edit by usb: copy 2
family 1 is split
13 withdraw by usb: entry 12
family 1 is whole
14 confirm by laptop: entry 11
15 duplicate by desk: copy 2 to desk:d
16 remove by desk: copy 15, heir 1
17 remove by usb: copy 2
""".splitlines(keepends=True)
    with Daemon(program) as daemon, Watch(program, daemon.port, "--from", "1") as watch:
        rest, got = list(wanted), []
        with daemon.client() as client:
            for number, (by, do, fields) in enumerate(lines, 1):
                yield from differs(client.ask(by, do, **fields), {"done": number})
                # Each is shown with its change before the next one is reported, so that no change is passed over.
                count = 1 + (len(rest) > 1 and rest[1].startswith("family"))
                got += watch.lines(count)
                del rest[:count]
        # The board for an entry without a change may have been asked for once the next one was there.
        for of_family in (False, True):
            yield from differs([it for it in got if it.startswith("family") == of_family], [it for it in wanted if it.startswith("family") == of_family])
        # All of it was, before the next one began: its families are known as they are.
        with Watch(program, daemon.port, "--from", "4") as later:
            yield from differs(later.lines(14), [it for it in wanted if not it.startswith("family")][3:])


def behind(program, _):
    """Without a number it begins behind the last entry."""
    with Daemon(program) as daemon:
        with daemon.client() as client:
            for it in range(250):
                client.ask("usb", "register", device="usb", path=str(it))
        with Watch(program, daemon.port) as watch:
            number = begun(daemon, watch)
            yield from differs(daemon.ask("usb", "edit", copy=1), {"done": number + 1})
            yield from differs(watch.lines(1), [f"{number + 1} edit by usb: copy 1\n"])


def all_see_all(program, _):
    """16 watchers beside 16 reporters: each sees every entry once and in order."""
    each, entries = 5, WORKERS * 5 + WORKERS

    def report(port, device):
        with Client(port) as client:
            copy = client.ask(device, "register", device=device, path="plan.txt")["done"]
            for _ in range(each):
                client.ask(device, "edit", copy=copy)

    with Daemon(program) as daemon, contextlib.ExitStack() as stack:
        watches = [stack.enter_context(Watch(program, daemon.port, "--from", "1")) for _ in range(WORKERS)]
        reporters = [threading.Thread(target=report, args=(daemon.port, f"d{it}")) for it in range(WORKERS)]
        for it in reporters:
            it.start()
        shown = [it.lines(entries) for it in watches]
        for it in reporters:
            it.join()
        for it in shown[1:]:
            yield from differs(it, shown[0])
        yield from differs([int(it.split()[0]) for it in shown[0]], list(range(1, entries + 1)))
        for device in range(WORKERS):
            yield from differs(sum(f" edit by d{device}: " in it for it in shown[0]), each)


def gone(program, _):
    """A daemon that is killed ends it with status 3, after the lines so far."""
    with Daemon(program) as daemon, Watch(program, daemon.port, "--from", "1") as watch:
        daemon.ask("usb", "register", **PLAN)
        yield from differs(watch.lines(1), ["1 register by usb: usb:plan.txt\n"])
        daemon.run.kill()
        yield from differs(watch.ended(), (3, "", SILENT))


def no_daemon(program, _):
    """What is no daemon ends it with status 3: nothing that listens, and answers that are none to what is asked."""
    with socket.create_server(("127.0.0.1", 0)) as listener:
        port = listener.getsockname()[1]
    with Watch(program, port) as watch:
        yield from differs(watch.ended(), (3, "", f"panad: cannot connect to port {port}\n"))
    entry = b'{"entries":[{"by":"usb","device":"usb","do":"register","number":%d,"path":"plan.txt"}]}\n'
    none, line = b'{"families":[]}\n', "1 register by usb: usb:plan.txt\n"
    for replies, wanted in (
        ([b"nonsense\n"], ""),
        ([entry % 1], ""),
        ([none, none], ""),
        # An entry is left out, or comes again.
        ([none, entry % 2], ""),
        ([none, entry % 1, none], line),
    ):
        with Server(*replies) as server, Watch(program, server.port, "--from", "1") as watch:
            yield from differs(watch.ended(), (3, wanted, SILENT))


CHECKS = (answers, kept, make_way, goes_on, shown, behind, all_see_all, gone, no_daemon)


if __name__ == "__main__":
    sys.exit(run_checks(__doc__, CHECKS, sys.argv[1:]))
