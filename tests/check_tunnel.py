#!/usr/bin/env python3
"""Runs `track --port` through a tunnel of ssh, as several machines share one daemon.

usage: check_tunnel.py PROGRAM
It needs a server of ssh: as root it installs Debian's, and where there is none the check is skipped, which is printed.
The last line is 'N passed, M failed'.
"""
from __future__ import annotations

import os
import re
import shlex
import socket
import subprocess
import sys
import time
from pathlib import Path

from daemon import SECONDS, Daemon, pages
from harness import Broken, differs, run_checks

SHARE = Path(__file__).resolve().parent.parent / "share"
SERVER = "/usr/sbin/sshd"
INSTALL = (("apt-get", "update"), ("apt-get", "install", "-y", "--no-install-recommends", "openssh-server"))
ALL_WELL = "nothing is obsolete or in conflict\n"
SILENT = "panad: the daemon gives no answer\n"


def has_server():
    """Whether there is a server, installed where that can be done."""
    if not os.path.exists(SERVER) and os.geteuid() == 0:
        for it in INSTALL:
            subprocess.run(it, capture_output=True, timeout=10 * SECONDS, env={**os.environ, "DEBIAN_FRONTEND": "noninteractive"})
    return os.path.exists(SERVER)


def free_port():
    with socket.create_server(("127.0.0.1", 0)) as found:
        return found.getsockname()[1]


def waits_for(port, process):
    """Waits until something listens on the port, as this process is to."""
    end = time.monotonic() + SECONDS
    while time.monotonic() < end and process.poll() is None:
        with socket.socket() as tried:
            if not tried.connect_ex(("127.0.0.1", port)):
                return
        time.sleep(0.05)
    raise Broken(f"nothing listens on port {port}; {process.args[0]} ended with {process.poll()}")


class Home:
    """A server of ssh on a port of its own, whose one key is in the room."""

    def __init__(self, room):
        self.room, self.port = room, free_port()
        for it in ("host", "key"):
            subprocess.run(["ssh-keygen", "-q", "-t", "ed25519", "-N", "", "-f", room / it], check=True, timeout=SECONDS)
        (room / "key.pub").rename(room / "keys")
        settings = f"""
            Port {self.port}
            ListenAddress 127.0.0.1
            HostKey {room}/host
            AuthorizedKeysFile {room}/keys
            PidFile none
            UsePAM no
            StrictModes no
            PasswordAuthentication no
        """
        (room / "settings").write_text(settings)

    def __enter__(self):
        os.makedirs("/run/sshd", exist_ok=True)
        self.run = subprocess.Popen([SERVER, "-D", "-e", "-f", self.room / "settings"], stderr=subprocess.DEVNULL)
        waits_for(self.port, self.run)
        return self

    def __exit__(self, *_):
        self.run.terminate()
        self.run.wait()

    def tunnel(self, daemon):
        """The words of the service, to this server, and the port at which the tunnel begins."""
        line = re.search(r"^ExecStart=(.*)$", (SHARE / "panad-tunnel.service").read_text(), re.MULTILINE)[1]
        here = free_port()
        first, _, last = line.partition("-L ")
        words = shlex.split(first) + ["-o", f"IdentityFile={self.room}/key", "-o", "StrictHostKeyChecking=no", "-o", f"UserKnownHostsFile={self.room}/known", "-p", str(self.port)]
        ends = last.replace("${PANAD_PORT}", str(here), 1).replace("${PANAD_PORT}", str(daemon.port)).replace("${PANAD_HOME}", "127.0.0.1")
        run = subprocess.Popen([*words, "-L", *shlex.split(ends)], stdin=subprocess.DEVNULL, stderr=subprocess.DEVNULL)
        waits_for(here, run)
        return run, here


def through_a_tunnel(program, room):
    """Through a tunnel a folder is tracked as on the daemon's machine; one that breaks in the middle loses nothing, and the next run goes on."""
    folder = room / "laptop"
    folder.mkdir()
    for number in range(400):
        (folder / f"{number}").write_text(f"{number}")
    words = lambda port: [program, "track", "--port", str(port), f"laptop={folder}"]
    with Home(room) as home, Daemon(program, "--journal", str(room / "journal")) as daemon:
        tunnel, port = home.tunnel(daemon)
        with subprocess.Popen(words(port), stdin=subprocess.DEVNULL, stdout=subprocess.PIPE, stderr=subprocess.PIPE, text=True) as run, daemon.client() as client:
            while len(client.ask("desk", "holdings", device="laptop")["holdings"]) < 50:
                pass
            tunnel.kill()
            tunnel.wait()
            yield from differs((run.stdout.read(), run.stderr.read(), run.wait(timeout=SECONDS)), ("", SILENT, 3))
            kept = len(client.ask("desk", "holdings", device="laptop")["holdings"])
        tunnel, port = home.tunnel(daemon)
        done = subprocess.run(words(port), stdin=subprocess.DEVNULL, capture_output=True, text=True, timeout=SECONDS)
        yield from differs((done.returncode, done.stdout, done.stderr), (0, ALL_WELL, ""))
        with daemon.client() as client:
            entries = [entry for page in pages(client) for entry in page["entries"]]
        yield from differs((kept >= 50, len(entries), {it["do"] for it in entries}), (True, 400, {"register"}))
        tunnel.terminate()
        tunnel.wait()


if __name__ == "__main__":
    if len(sys.argv) == 2 and not has_server():
        print("skipped: there is no server of ssh\n0 passed, 0 failed")
        sys.exit(0)
    sys.exit(run_checks(__doc__, (through_a_tunnel,), sys.argv[1:]))
