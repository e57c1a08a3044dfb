"""The daemon, started for a test, and its clients."""
from __future__ import annotations

import json
import os
import re
import socket
import subprocess
import time
from pathlib import Path

from harness import Broken

HERE = Path(__file__).resolve().parent
SECONDS = 30
WAIT = 0.02
LISTENING = re.compile(rb"listening 127\.0\.0\.1:(\d+)\n")


def line_of(by, do, **fields):
    """The bytes of a line."""
    return json.dumps({"by": by, "do": do, **fields}, separators=(",", ":")).encode() + b"\n"


class Client:
    """A connection to the daemon, which takes in so many bytes, or as many as the system chooses, before they are read."""

    def __init__(self, port, room=None):
        self.socket = socket.socket()
        if room:
            self.socket.setsockopt(socket.SOL_SOCKET, socket.SO_RCVBUF, room)
        self.socket.settimeout(SECONDS)
        self.socket.connect(("127.0.0.1", port))
        self.socket.setsockopt(socket.IPPROTO_TCP, socket.TCP_NODELAY, 1)
        self.reader = self.socket.makefile("rb")

    def __enter__(self):
        return self

    def __exit__(self, *_):
        self.close()

    def send(self, data):
        self.socket.sendall(data)

    def answer(self):
        """The next answer, as it is parsed."""
        line = self.reader.readline()
        if not line.endswith(b"\n"):
            raise Broken(f"an answer is missing, or cut: {line!r:.200}")
        return json.loads(line)

    def ask(self, by, do, **fields):
        self.send(line_of(by, do, **fields))
        return self.answer()

    def rest(self):
        """All that comes until the daemon closes the connection."""
        try:
            return self.reader.read()
        except ConnectionResetError:
            return b""

    def end_input(self):
        self.socket.shutdown(socket.SHUT_WR)

    def close(self):
        self.reader.close()
        self.socket.close()


class Daemon:
    """A run of `serve` on a port that the system chooses, or on the given one."""

    def __init__(self, program, *words, port=0, **how):
        self.words, self.how = [program, "serve", "--port", str(port), *words], how

    def __enter__(self):
        pipe = subprocess.PIPE
        self.run = subprocess.Popen(self.words, stdin=pipe, stdout=pipe, stderr=pipe, bufsize=0, **self.how)
        line = self.run.stdout.readline()
        found = LISTENING.fullmatch(line)
        if not found:
            self.run.kill()
            raise Broken(f"it began with {line!r} and {self.run.stderr.read()!r:.200}")
        self.port = int(found[1])
        return self

    def __exit__(self, *_):
        self.run.kill()
        self.run.wait()
        for it in (self.run.stdin, self.run.stdout, self.run.stderr):
            it.close()

    def client(self, room=None):
        return Client(self.port, room)

    def ask(self, *words, **fields):
        """The answer to a client of its own."""
        with self.client() as client:
            return client.ask(*words, **fields)

    def tick(self):
        self.run.stdin.write(b"\n")

    def end_input(self):
        self.run.stdin.close()

    def ended(self):
        """The status with which it ends by itself, and what it has written since it began to listen."""
        self.run.wait(timeout=SECONDS)
        return self.run.returncode, self.run.stdout.read(), self.run.stderr.read()


def pages(client, by="tester"):
    """The pages of the journal, each an answer."""
    number = 1
    while True:
        page = client.ask(by, "journal", **{"from": number})
        if not page["entries"]:
            return
        yield page
        number += len(page["entries"])


def until(wanted, look):
    """What a look gives at last: what is wanted, or after a while something else."""
    end = time.monotonic() + SECONDS
    while (got := look()) != wanted and time.monotonic() < end:
        time.sleep(WAIT)
    return got


def failing(room, number):
    """The environment in which the sync with this number fails."""
    library = room / "failing.so"
    subprocess.run(["cc", "-shared", "-fPIC", "-o", library, HERE / "failing_sync.c"], check=True, timeout=SECONDS)
    return {**os.environ, "LD_PRELOAD": str(library), "FAILING_SYNC": str(number)}


def times_of(process):
    """The ticks of processor time that a process has used."""
    fields = Path(f"/proc/{process}/stat").read_text().rpartition(")")[2].split()
    return int(fields[11]) + int(fields[12])
