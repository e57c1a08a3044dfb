#!/usr/bin/env python3
"""Runs `serve --journal` through kills, a full disk, failed syncs and files that it can't have.

usage: check_kept_daemon.py PROGRAM
The last line is 'N passed, M failed'.
"""
from __future__ import annotations

import json
import os
import random
import resource
import signal
import subprocess
import sys
import threading
import time
from concurrent.futures import ThreadPoolExecutor

from daemon import HERE, SECONDS, Daemon, failing, line_of, pages, times_of, until
from harness import Broken, differs, run_checks

KILLS = 400
DAEMONS = 4
CLIENTS = 8
REPORTERS = 14
NOT_KEPT = {"code": 14, "refused": "NotKept"}


def kept(program, file, *words, **how):
    """A daemon whose hall the file keeps."""
    return Daemon(program, "--journal", str(file), *words, **how)


def register(client, by, path):
    return client.ask(by, "register", device=by, path=path)


def entries(client):
    return [entry for page in pages(client) for entry in page["entries"]]


def two_starts(program, room):
    """What sessions and a scanner reported is there after the daemon was killed, and it goes on from there."""
    file = room / "journal"
    (room / "usb").mkdir()
    (room / "usb" / "b").write_text("one")
    with kept(program, file, f"usb={room}/usb") as daemon, daemon.client() as client:
        end = time.monotonic() + SECONDS
        while not client.ask("x", "holdings", device="usb")["holdings"] and time.monotonic() < end:
            time.sleep(0.02)
        yield from differs(client.ask("desk", "duplicate", copy=1, device="desk", path="b"), {"done": 2})
        yield from differs(client.ask("desk", "edit", copy=2), {"done": 3})
        before = entries(client)
        daemon.run.send_signal(signal.SIGKILL)
        daemon.run.wait()
    yield from differs(oct(file.stat().st_mode & 0o777), "0o600")
    with kept(program, file) as daemon, daemon.client() as client:
        yield from differs(entries(client), before)
        yield from differs(client.ask("desk", "pair", a=1, b=2), {"pair": "Older"})
        yield from differs(client.ask("desk", "reconcile", a=1, b=2), {"done": 4})
    loaded = subprocess.run([program, "load", file], capture_output=True, timeout=SECONDS)
    shown = subprocess.run([program, "show", "--journal", file], capture_output=True, timeout=SECONDS)
    yield from differs((loaded.returncode, loaded.stdout), (0, shown.stdout))
    yield from differs(b"usb" in shown.stdout and b"desk" in shown.stdout, True)


def report(daemon, by, done):
    """Reports edits until the daemon is gone, and notes the number of each that was acknowledged."""
    try:
        with daemon.client() as client:
            copy = register(client, by, "own")["done"]
            done.append(copy)
            while True:
                done.append(client.ask(by, "edit", copy=copy)["done"])
    except (OSError, Broken, ValueError):
        pass


def killed(program, file, seconds):
    """Kills a daemon under load, and says what differs in its file from what it had acknowledged."""
    done = {f"c{it}": [] for it in range(CLIENTS)}
    with kept(program, file) as daemon:
        threads = [threading.Thread(target=report, args=(daemon, *it)) for it in done.items()]
        for it in threads:
            it.start()
        time.sleep(seconds)
        daemon.run.send_signal(signal.SIGKILL)
        for it in threads:
            it.join()
    with kept(program, file) as daemon, daemon.client() as client:
        by = {entry["number"]: entry["by"] for entry in entries(client)}
    return [
        *differs(sorted(by), list(range(1, len(by) + 1))),
        *(fault for name, numbers in done.items() for fault in differs([by.get(it) for it in numbers], [name] * len(numbers))),
    ]


def killed_under_load(program, room):
    """However it is killed while eight clients report, the file opens, and has each report that was acknowledged."""
    with ThreadPoolExecutor(DAEMONS) as pool:
        for faults in pool.map(lambda number: killed(program, room / str(number), random.uniform(0, 0.3)), range(KILLS)):
            yield from faults


def slow_disk(program, room):
    """Where syncs take 100 ms, reports of many are kept together, a request waits for those before it, and who waits sleeps."""
    library, took = room / "slow.so", [[] for _ in range(REPORTERS)]
    # To settle takes two syncs, and each other client may be before one; the rest is for a busy machine.
    most = 0.2 * REPORTERS + 4
    subprocess.run(["cc", "-shared", "-fPIC", "-o", library, HERE / "slow_sync.c"], check=True, timeout=SECONDS)
    found, end = {**os.environ, "LD_PRELOAD": str(library), "SLOW_SYNC": "100"}, time.monotonic() + 12
    with kept(program, room / "journal", env=found) as daemon, daemon.client() as asker:
        copies = [register(asker, "a", str(it))["done"] for it in range(REPORTERS)]
        before = times_of(daemon.run.pid)
        threads = [threading.Thread(target=edit_until, args=(daemon, *it, end)) for it in zip(copies, took)]
        for it in threads:
            it.start()
        time.sleep(0.5)
        while time.monotonic() < end - 1:
            took_of(asker, "x", "families", waited := [])
            yield from differs(waited[0] < most or waited, True)
        for it in threads:
            it.join()
        spent = times_of(daemon.run.pid) - before
        # Who doesn't sleep takes as long as all of this does, and a hundred of these are a second.
        yield from differs(spent < 300 or spent, True)
    yield from differs([max(it) < most or max(it) for it in took], [True] * REPORTERS)
    # Kept one by one there would be 5 a second.
    made = sum(len(it) for it in took)
    yield from differs(made > 90 or made, True)


def took_of(client, by, do, took, **fields):
    begun = time.monotonic()
    client.ask(by, do, **fields)
    took.append(time.monotonic() - begun)


def edit_until(daemon, copy, took, end):
    """Reports edits until this moment, and notes how long each took."""
    with daemon.client() as client:
        while time.monotonic() < end:
            took_of(client, "a", "edit", took, copy=copy)


def full_disk(program, room):
    """Where there is no room a report is NotKept, for sessions and questions alike nothing has changed, and later ones work."""
    file = room / "journal"
    ignore = lambda: signal.signal(signal.SIGXFSZ, signal.SIG_IGN)
    with kept(program, file, restore_signals=False, preexec_fn=ignore) as daemon, daemon.client() as client:
        yield from differs(register(client, "a", "f"), {"done": 1})
        process, size = daemon.run.pid, file.stat().st_size
        resource.prlimit(process, resource.RLIMIT_FSIZE, (size, resource.RLIM_INFINITY))
        yield from differs([client.ask("a", "edit", copy=1) for _ in range(3)], [NOT_KEPT] * 3)
        yield from differs(client.ask("a", "edit", copy=9), {"code": 2, "copy": 9, "refused": "UnknownCopy"})
        yield from differs(daemon.ask("b", "edit", copy=1), NOT_KEPT)
        yield from differs(len(entries(client)), 1)
        resource.prlimit(process, resource.RLIMIT_FSIZE, (resource.RLIM_INFINITY, resource.RLIM_INFINITY))
        yield from differs(daemon.ask("b", "edit", copy=1), {"done": 2})
    with kept(program, file) as daemon, daemon.client() as client:
        yield from differs(len(entries(client)), 2)


def failed_sync(program, room):
    """Once a sync has failed, no session gets an answer any more, to no report and no question; the file has all that was done."""
    file = room / "journal"
    # Four syncs open a new file, and each report makes two: here the last fails, once the third report is in the file.
    for number in (9, 10):
        file.unlink(missing_ok=True)
        with kept(program, file, "--sessions", "4", env=failing(room, number)) as daemon:
            with daemon.client() as client:
                yield from differs([register(client, "a", it) for it in "fg"], [{"done": 1}, {"done": 2}])
                client.send(line_of("a", "edit", copy=1))
                yield from differs(client.rest(), b"")
            for line in (line_of("a", "edit", copy=1), line_of("x", "pair", a=1, b=1), line_of("a", "edit", copy=9)):
                with daemon.client() as client:
                    client.send(line)
                    yield from differs(client.rest(), b"")
            daemon.end_input()
            yield from differs(daemon.ended(), (1, b"", b"panad: journal failed\n"))
        with kept(program, file) as daemon, daemon.client() as client:
            yield from differs(len(entries(client)) in (2, 3), True)


def ends_for_itself(program, room):
    """Without --sessions a daemon whose sync fails takes no more clients, and ends with the last of its sessions, in 10 s."""
    (room / "usb").mkdir()
    for number, roots in enumerate(([], [f"usb={room}/usb"])):
        for waits in (False, True):
            file = room / f"{number}{waits}"
            with kept(program, file, *roots, env=failing(room, 5)) as daemon:
                with daemon.client() as asker, daemon.client() as reporter:
                    yield from differs(asker.ask("x", "families"), {"families": []})
                    reporter.send(line_of("a", "register", device="a", path="f"))
                    yield from differs(reporter.rest(), b"")
                    begun = time.monotonic()
                    yield from differs(until(True, lambda: is_refused(daemon)), True)
                    if not waits:
                        asker.send(line_of("x", "families"))
                    yield from differs(asker.rest(), b"")
                yield from differs(daemon.ended(), (1, b"", b"panad: journal failed\n"))
                yield from differs(time.monotonic() - begun < 11, True)


def is_refused(daemon):
    try:
        daemon.client().close()
        return False
    except ConnectionError:
        return True


def other_files(program, room):
    """A file that is in use, is no journal or can't be opened is reported; it isn't touched, and nobody listens."""
    file, other = room / "journal", room / "text"
    other.write_text("some text\n")
    with kept(program, file):
        cases = [(file, f"journal {file} is in use"), (other, f"journal {other}: not a journal"), (room, f"cannot open journal {room}")]
        for name, text in cases:
            words = [program, "serve", "--port", "0", "--journal", name]
            done = subprocess.run(words, stdin=subprocess.DEVNULL, capture_output=True, timeout=SECONDS)
            yield from differs((done.returncode, done.stdout, done.stderr), (1, b"", f"panad: {text}\n".encode()))
        run = subprocess.run([program, "run", "--journal", file], input=b"", capture_output=True, timeout=SECONDS)
        yield from differs((run.returncode, run.stderr), (1, f"panad: journal {file} is in use\n".encode()))
    yield from differs(other.read_text(), "some text\n")
    run = subprocess.run([program, "run", "--journal", file], input=line_of("a", "families"), capture_output=True, timeout=SECONDS)
    yield from differs((run.returncode, json.loads(run.stdout)), (0, {"families": []}))


CHECKS = (two_starts, killed_under_load, slow_disk, full_disk, failed_sync, ends_for_itself, other_files)


if __name__ == "__main__":
    sys.exit(run_checks(__doc__, CHECKS, sys.argv[1:]))
