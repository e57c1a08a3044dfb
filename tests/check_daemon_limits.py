#!/usr/bin/env python3
"""Runs `serve` where something runs short: sessions, descriptors, threads, newlines that outrun scans, a terminal.

usage: check_daemon_limits.py PROGRAM
The last line is 'N passed, M failed'.
"""
from __future__ import annotations

import ctypes
import os
import pty
import resource
import signal
import socket
import struct
import subprocess
import sys
import time
from pathlib import Path

from daemon import LISTENING, SECONDS, Client, Daemon, line_of, times_of, until
from harness import differs, run_checks

HERE = Path(__file__).resolve().parent
SESSIONS = 16
OPENED, CLOSED, IS_FOLDER = 0x20, 0x10, 0x40000000
EVENT = struct.Struct("iIII")
SLOW = 16 << 20
# How many threads a daemon with one root makes before it listens: one stays, and the others, as many as there will be, end.
TRIED = SESSIONS + 4
DEAF = b"panad: cannot take a connection; trying again\n"


class Watch:
    """Counts what is opened and closed, files and folders, as the system reports it."""

    def __init__(self, *paths):
        self.system = ctypes.CDLL(None, use_errno=True)
        self.source = self.system.inotify_init1(os.O_NONBLOCK)
        self.paths = {self.system.inotify_add_watch(self.source, bytes(it), OPENED | CLOSED): it for it in paths}
        self.seen = []

    def __enter__(self):
        return self

    def __exit__(self, *_):
        os.close(self.source)

    def events(self):
        """All that has come so far of the paths themselves: each path, and whether it was opened."""
        try:
            while data := os.read(self.source, 1 << 16):
                while data:
                    path, mask, _, length = EVENT.unpack_from(data)
                    data = data[EVENT.size + length :]
                    if not length:
                        self.seen.append((self.paths[path], bool(mask & OPENED)))
        except BlockingIOError:
            pass
        return self.seen

    def opened(self, path):
        return self.events().count((path, True))


def settled(look):
    """What a look gives once it gives the same for half a second."""
    got, since = look(), time.monotonic()
    while time.monotonic() - since < 0.5:
        time.sleep(0.05)
        if (now := look()) != got:
            got, since = now, time.monotonic()
    return got


def scans_counted(program, room):
    """One newline is one scan; many that come during one are one more, also where standard input has ended."""
    (room / "a").write_text("abc")
    with Watch(room) as watch, Daemon(program, f"usb={room}", "--sessions", "1") as daemon:
        scans = lambda: watch.opened(room)
        yield from differs(settled(scans), 1)
        daemon.tick()
        yield from differs(settled(scans), 2)
        before = times_of(daemon.run.pid)
        daemon.run.stdin.write(b"\n" * 100_000)
        daemon.end_input()
        yield from differs(settled(scans) < 200, True)
        daemon.ask("x", "families")
        yield from differs(daemon.ended(), (0, b"", b""))


def slow_roots(program, room):
    """Two roots are scanned at the same time: the second's file is opened before the first's is done."""
    files = [room / name / "slow" for name in ("usb", "desk")]
    for it in files:
        it.parent.mkdir()
        with open(it, "wb") as file:
            file.truncate(SLOW)
    with Watch(*files) as watch, Daemon(program, *(f"{it.parent.name}={it.parent}" for it in files)):
        until(4, lambda: len(watch.events()))
        yield from differs([is_open for _, is_open in watch.events()], [True, True, False, False])


def is_served(daemon):
    """Whether a further client is answered within its time."""
    with daemon.client() as client:
        return client.ask("x", "holdings", device="y") == {"holdings": []}


def ended_of(clients):
    """How many of the clients' connections have been closed."""
    count = 0
    for it in clients:
        it.socket.settimeout(0.05)
        try:
            count += it.socket.recv(1 << 20, socket.MSG_PEEK) == b""
        except ConnectionError:
            count += 1
        except socket.timeout:
            pass
    return count


def silent_clients(program, _):
    """Of 16 clients that send nothing, one makes way for a 17th after a while, and others don't where nobody waits."""
    with Daemon(program, "--hurry", "1", "--idle", "600") as daemon:
        clients = [daemon.client() for _ in range(SESSIONS)]
        time.sleep(2.5)
        yield from differs(ended_of(clients), 0)
        yield from differs(is_served(daemon), True)
        yield from differs(1 <= ended_of(clients) <= 2, True)


def slow_clients(program, _):
    """So does one of 16 that send a line byte by byte, and one of 16 that read no answer."""
    with Daemon(program, "--hurry", "1", "--idle", "600") as daemon:
        clients = [daemon.client() for _ in range(SESSIONS)]
        with daemon.client() as waiting:
            waiting.send(line_of("x", "families"))
            waiting.socket.settimeout(0.2)
            got, end = b"", time.monotonic() + SECONDS
            while not got and time.monotonic() < end:
                for it in clients:
                    try:
                        it.send(b"{")
                    except OSError:
                        pass
                try:
                    got = waiting.socket.recv(100)
                except socket.timeout:
                    pass
            yield from differs(got, b'{"families":[]}\n')
    with Daemon(program, "--hurry", "1", "--idle", "600") as daemon:
        with daemon.client() as client:
            for number in range(100):
                client.ask("x", "register", device="x", path=f"{number:0200}")
        clients = [daemon.client(room=4096) for _ in range(SESSIONS)]
        for it in clients:
            it.socket.settimeout(0.3)
            try:
                it.send(line_of("deaf", "journal", **{"from": 1}) * 2000)
            except socket.timeout:
                pass
        yield from differs(is_served(daemon), True)


def idle_sessions(program, _):
    """Sessions that had a line have the longer time, and end after it only where another connection waits."""
    with Daemon(program, "--hurry", "1", "--idle", "3") as daemon:
        clients = [daemon.client() for _ in range(SESSIONS)]
        for it in clients:
            it.ask("x", "families")
        time.sleep(4)
        yield from differs(ended_of(clients), 0)
        for it in clients:
            it.socket.settimeout(SECONDS)
            it.ask("x", "families")
        begun = time.monotonic()
        yield from differs(is_served(daemon), True)
        yield from differs(time.monotonic() - begun > 2, True)


def no_descriptors(program, _):
    """Where no descriptor is left a client waits until one is, for which no worker ends; that is printed once."""
    with Daemon(program, "--sessions", "3") as daemon:
        process, limits = daemon.run.pid, resource.prlimit(daemon.run.pid, resource.RLIMIT_NOFILE)
        daemon.ask("x", "families")
        time.sleep(0.5)
        resource.prlimit(process, resource.RLIMIT_NOFILE, (3, limits[1]))
        with daemon.client() as first, daemon.client() as second:
            # The call that waits for the first one has its descriptor already.
            first.ask("x", "families")
            second.send(line_of("x", "families"))
            before = times_of(process)
            time.sleep(3)
            yield from differs(times_of(process) - before < 20, True)
            yield from differs(ended_of([first, second]), 0)
            resource.prlimit(process, resource.RLIMIT_NOFILE, limits)
            second.socket.settimeout(SECONDS)
            yield from differs(second.answer(), {"families": []})
        yield from differs(daemon.ended(), (0, b"", DEAF))


def last_session(program, room):
    """Once all sessions that are wanted have begun, further connections are refused."""
    with Daemon(program, "--sessions", "2", f"usb={room}") as daemon:
        with daemon.client() as first, daemon.client() as second:
            for it in (first, second):
                it.ask("x", "families")
            yield from differs(until(None, lambda: port_of(daemon)), None)
        yield from differs(port_of(daemon), None)
        daemon.end_input()
        yield from differs(daemon.ended(), (0, b"", b""))


def port_of(daemon):
    """The port, where it takes connections."""
    try:
        daemon.client().close()
        return daemon.port
    except ConnectionError:
        return None


def background(program, room):
    """A daemon without a root, in the background of a terminal, doesn't read it, and so isn't stopped."""
    out, number = room / "out", room / "number"
    shell = 'set -m; "$0" serve --port 0 >"$1" & echo "$!" >"$2"; wait'
    pid, terminal = pty.fork()
    if not pid:
        os.execvp("bash", ["bash", "-c", shell, program, str(out), str(number)])
    try:
        until(True, lambda: out.exists() and number.exists() and bool(LISTENING.fullmatch(out.read_bytes())))
        client = Client(int(LISTENING.fullmatch(out.read_bytes())[1]))
        yield from differs(client.ask("x", "families"), {"families": []})
        time.sleep(0.2)
        yield from differs(state_of(int(number.read_text())) in "SR", True)
        client.close()
    finally:
        os.kill(int(number.read_text()), signal.SIGKILL)
        os.close(terminal)
        os.waitpid(pid, 0)


def state_of(process):
    return Path(f"/proc/{process}/stat").read_text().rpartition(")")[2].split()[0]


def closed_streams(program, _):
    """Where standard streams are closed at the start, no connection is taken for one of them."""
    words = [program, "serve", "--port", "0"]
    how = {"stdin": subprocess.PIPE, "stdout": subprocess.PIPE, "stderr": subprocess.DEVNULL}
    run = subprocess.Popen(words, preexec_fn=lambda: [os.close(it) for it in (0, 2)], **how)
    try:
        with Client(int(LISTENING.fullmatch(run.stdout.readline())[1])) as client:
            client.ask("x", "families")
            kept = [os.readlink(f"/proc/{run.pid}/fd/{it}") for it in (0, 2)]
            yield from differs(kept, ["/dev/null"] * 2)
    finally:
        run.kill()
        run.wait()
        run.stdin.close()
        run.stdout.close()


def without_threads(program, library, number, *roots):
    """A daemon to which from this thread on, counted from 1, none is given."""
    how = {"stdin": subprocess.DEVNULL, "stdout": subprocess.PIPE, "stderr": subprocess.PIPE}
    found = {**os.environ, "LD_PRELOAD": str(library), "FAILING_THREAD": str(number)}
    return subprocess.Popen([program, "serve", "--port", "0", *roots], env=found, **how)


def no_threads(program, room):
    """Where not all threads can be made nobody listens, and that is the fault; also some seconds later, where they are
    gone after all, and then no folder was read."""
    library, root = room / "failing.so", room / "root"
    subprocess.run(["cc", "-shared", "-fPIC", "-o", library, HERE / "failing_threads.c"], check=True, timeout=SECONDS)
    root.mkdir()
    message = b"panad: cannot make threads\n"
    with Watch(root) as watch, without_threads(program, library, TRIED + 1, f"usb={root}") as late:
        for number in (1, 2, 17):
            with without_threads(program, library, number) as early:
                said = early.communicate(timeout=SECONDS)
                yield from differs((early.returncode, *said), (1, b"", message))
        out, said = late.communicate(timeout=SECONDS)
        yield from differs((late.returncode, bool(LISTENING.fullmatch(out)), said), (1, True, message))
        yield from differs(watch.opened(root), 0)


CHECKS = (scans_counted, slow_roots, silent_clients, slow_clients, idle_sessions, no_descriptors, last_session)
CHECKS += (background, closed_streams, no_threads)


if __name__ == "__main__":
    sys.exit(run_checks(__doc__, CHECKS, sys.argv[1:]))
