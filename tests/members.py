"""Members of etcd, started for a test, what they keep, and made-up ones."""
from __future__ import annotations

import base64
import contextlib
import http.client
import json
import os
import random
import shutil
import socket
import subprocess
import threading
import time

from daemon import SECONDS, WAIT
from harness import Broken

INSTALL = (("apt-get", "update"), ("apt-get", "install", "-y", "--no-install-recommends", "etcd-server"))
# Below the ports that the system chooses for connections: else one of them may be a member's that is down.
PORTS = range(20_000, 32_000)
# For how long a made-up member keeps a request to itself.
LATE = 6.5


def has_etcd():
    """Whether etcd is there, installed where that can be done."""
    if not shutil.which("etcd") and os.geteuid() == 0:
        with contextlib.suppress(OSError, subprocess.SubprocessError):
            for it in INSTALL:
                subprocess.run(it, capture_output=True, timeout=10 * SECONDS, env={**os.environ, "DEBIAN_FRONTEND": "noninteractive"})
    return shutil.which("etcd") is not None


def free_ports(number):
    """Ports on which nothing listens."""
    found = set()
    while len(found) < number:
        port = random.choice(PORTS)
        with contextlib.suppress(OSError), socket.create_server(("127.0.0.1", port)):
            found.add(port)
    return sorted(found)


def in_base64(text):
    return base64.b64encode(text.encode()).decode()


def key_of(name, number):
    return f"{name}/{number:010}"


def post(port, path, body):
    """The status and the body of a member's answer."""
    connection = http.client.HTTPConnection("127.0.0.1", port, timeout=SECONDS)
    with contextlib.closing(connection):
        connection.request("POST", path, body, {"Content-Type": "application/json"})
        answer = connection.getresponse()
        return answer.status, answer.read()


class Members:
    """A cluster of so many members, with their data in a folder, started with these words beside others."""

    def __init__(self, room, number, *words):
        ports = free_ports(2 * number)
        self.words = words
        self.ports, self.peers, self.runs, self.room = ports[:number], ports[number:], [None] * number, room

    def __enter__(self):
        for at in range(len(self.ports)):
            self.start(at)
        for at in range(len(self.ports)):
            self.wait(at)
        return self

    def __exit__(self, *_):
        for at in range(len(self.ports)):
            self.kill(at)

    def start(self, at):
        own, others = f"http://127.0.0.1:{self.ports[at]}", f"http://127.0.0.1:{self.peers[at]}"
        words = ["etcd", *self.words, "--name", f"m{at}", "--data-dir", str(self.room / f"m{at}"), "--log-level", "error", "--logger", "zap"]
        words += ["--listen-client-urls", own, "--advertise-client-urls", own, "--listen-peer-urls", others, "--initial-advertise-peer-urls", others]
        words += ["--initial-cluster", ",".join(f"m{it}=http://127.0.0.1:{port}" for it, port in enumerate(self.peers))]
        self.runs[at] = subprocess.Popen(words, stdin=subprocess.DEVNULL, stdout=subprocess.DEVNULL, stderr=subprocess.DEVNULL)

    def kill(self, at):
        if self.runs[at]:
            self.runs[at].kill()
            self.runs[at].wait()
            self.runs[at] = None

    def wait(self, at):
        """Waits until a member answers, which it does by a majority."""
        end = time.monotonic() + SECONDS
        while time.monotonic() < end:
            with contextlib.suppress(OSError, http.client.HTTPException):
                if post(self.ports[at], "/v3/kv/range", json.dumps({"key": in_base64("none")}))[0] == 200:
                    return
            time.sleep(WAIT)
        raise Broken(f"member {at} of etcd doesn't answer")

    def address(self, name, *before):
        """The address of a log, with the ports of other members before these."""
        return "etcd://" + ",".join(f"127.0.0.1:{it}" for it in (*before, *self.ports)) + f"/{name}"

    def ask(self, path, **body):
        status, answer = post(self.ports[0], path, json.dumps(body))
        if status != 200:
            raise Broken(f"etcd answers {status}, {answer!r:.200}")
        return json.loads(answer)

    def values(self, name):
        """All that stands below a name, by key."""
        answer = self.ask("/v3/kv/range", key=in_base64(f"{name}/"), range_end=in_base64(f"{name}0"))
        text = lambda data: base64.b64decode(data).decode()
        return {text(it["key"]): text(it.get("value", "")) for it in answer.get("kvs", ())}

    def revisions(self, name):
        """The revision of each thing that stands below a name, by key: those of one transaction have one."""
        answer = self.ask("/v3/kv/range", key=in_base64(f"{name}/"), range_end=in_base64(f"{name}0"))
        return [it["mod_revision"] for it in answer.get("kvs", ())]

    def put(self, key, text):
        self.ask("/v3/kv/put", key=in_base64(key), value=in_base64(text))

    def delete(self, key):
        self.ask("/v3/kv/deleterange", key=in_base64(key))


def whole(body, status="200 OK"):
    return f"HTTP/1.1 {status}\r\nContent-Type: application/json\r\nContent-Length: {len(body)}\r\n\r\n".encode() + body


def chunked(body):
    pieces = [body[it : it + 7] for it in range(0, len(body), 7)]
    return b"HTTP/1.1 200 OK\r\nTransfer-Encoding: chunked\r\n\r\n" + b"".join(b"%x\r\n%b\r\n" % (len(it), it) for it in (*pieces, b""))


class MadeUp:
    """A made-up member that passes requests on to a real one, and gives the answers in a way of its own."""

    def __init__(self, way, port=0):
        self.way, self.real, self.asked, self.over = way, port, 0, threading.Event()
        self.listener = socket.create_server(("127.0.0.1", 0))
        self.port = self.listener.getsockname()[1]

    def __enter__(self):
        threading.Thread(target=self.listen, daemon=True).start()
        return self

    def __exit__(self, *_):
        self.over.set()
        self.listener.close()

    def listen(self):
        with contextlib.suppress(OSError):
            while True:
                threading.Thread(target=self.serve, args=self.listener.accept()[:1], daemon=True).start()

    def serve(self, connection):
        """Answers the requests of a connection, up to one behind which it is closed."""
        connection.settimeout(SECONDS)
        with contextlib.suppress(OSError), connection, connection.makefile("rb") as reader:
            while first := reader.readline():
                length = 0
                while (header := reader.readline().strip()) != b"":
                    name, _, value = header.partition(b":")
                    length = int(value) if name.lower() == b"content-length" else length
                self.asked += 1
                if getattr(self, f"gives_{self.way}")(connection, first.split()[1].decode(), reader.read(length)):
                    return

    def passed_on(self, path, body):
        return post(self.real, path, body)[1]

    def gives_slow(self, connection, path, body):
        time.sleep(0.3)
        connection.sendall(whole(self.passed_on(path, body)))

    def gives_pieces(self, connection, path, body):
        for it in whole(self.passed_on(path, body)):
            connection.sendall(bytes([it]))
            time.sleep(0.0002)

    def gives_chunks(self, connection, path, body):
        connection.sendall(chunked(self.passed_on(path, body)))

    def gives_to_the_end(self, connection, path, body):
        connection.sendall(b"HTTP/1.1 200 OK\r\n\r\n" + self.passed_on(path, body))
        return True

    def gives_every_second(self, connection, path, body):
        """Each other answer is lost, and what was asked for is done."""
        answer = self.passed_on(path, body)
        if self.asked % 2:
            return True
        connection.sendall(whole(answer))

    def gives_late(self, connection, path, body):
        """What is asked for is done once nobody waits for it any more."""
        time.sleep(LATE)
        self.passed_on(path, body)
        return True

    def gives_never(self, connection, path, body):
        self.over.wait(4 * SECONDS)
        return True

    def gives_blanks(self, connection, path, body):
        connection.sendall(b"HTTP/1.1 200 OK\r\nContent-Length: 1000000\r\n\r\n")
        while not self.over.wait(0.05):
            connection.sendall(b" ")

    def gives_heads(self, connection, path, body):
        while not self.over.wait(0.01):
            connection.sendall(b"HTTP/1.1 100 Continue\r\n\r\n" * 100)

    def gives_500(self, connection, path, body):
        connection.sendall(whole(b"{}", "500 Internal Server Error"))

    def gives_503(self, connection, path, body):
        connection.sendall(whole(b'{"header":{"revision":"1"},"succeeded":true}', "503 Service Unavailable"))

    def gives_nonsense(self, connection, path, body):
        connection.sendall(b"hello there\r\n\r\n" * 100)

    def gives_no_json(self, connection, path, body):
        connection.sendall(whole(b"nonsense"))

    def gives_no_answer(self, connection, path, body):
        connection.sendall(whole(b"{}"))

    def gives_a_part(self, connection, path, body):
        connection.sendall(whole(b'{"header":{"revision":"1"},"succeeded":true}')[:-5])
        return True

    def gives_nothing(self, connection, path, body):
        return True
