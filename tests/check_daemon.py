#!/usr/bin/env python3
"""Runs `serve`, and talks to it over loopback as well and as badly as clients do.

usage: check_daemon.py PROGRAM
The last line is 'N passed, M failed'.
"""
from __future__ import annotations

import socket
import struct
import subprocess
import sys
import time

from daemon import SECONDS, WAIT, Daemon, line_of, times_of, until
from harness import differs, run_checks

SESSIONS = 16
WINDOWS = 25
GOOD_END = (0, b"", b"")
REPORT = line_of("page", "register", device="page", path="page.txt")


def client_hello(ticket):
    """What a browser begins an https connection with, where it has this session ticket."""
    extension = struct.pack(">HH", 0x23, len(ticket)) + ticket
    body = b"\x03\x03" + bytes(32) + b"\x00" + b"\x00\x02\x13\x01" + b"\x01\x00" + struct.pack(">H", len(extension)) + extension
    hello = b"\x01" + struct.pack(">I", len(body))[1:] + body
    return b"\x16\x03\x01" + struct.pack(">H", len(hello)) + hello


# What begins no session, each with a report behind it.
OTHERS = (
    b"POST / HTTP/1.1\r\nHost: 127.0.0.1\r\nContent-Type: text/plain\r\n\r\n" + REPORT,
    b"GET / HTTP/1.1\r\n\r\n" + REPORT,
    b" \t\rGET\n" + REPORT,
    b"\n" + REPORT,
    b"[]\n" + REPORT,
    b"\x00" + REPORT,
    client_hello(b"\n" + REPORT),
)


def ended(*words, **how):
    """How the program ends that is given no input, and what it wrote."""
    done = subprocess.run([*words], stdin=subprocess.DEVNULL, capture_output=True, timeout=SECONDS, **how)
    return done.returncode, done.stdout, done.stderr


def appear(file, text):
    """Makes a file that has its whole text from the start, also for a scan that is on its way."""
    beside = file.parent.with_name(f"{file.name}.new")
    beside.write_text(text)
    beside.rename(file)


def paths_on(daemon, device):
    """The paths of the copies on a device, with what touched them last."""
    return [(it["path"], it["touch"]) for it in daemon.ask("tester", "holdings", device=device)["holdings"]]


def roots(program, room):
    """A root is scanned at the start and at each newline of standard input: what appears, changes or goes is reported."""
    (room / "usb").mkdir()
    (room / "usb" / "b").write_text("one")
    with Daemon(program, f"usb={room}/usb", f"gone={room}/gone") as daemon:
        yield from differs(until([("b", 1)], lambda: paths_on(daemon, "usb")), [("b", 1)])
        (room / "usb" / "a").write_text("abc")
        (room / "usb" / "b").write_text("two")
        daemon.tick()
        wanted = [("b", 3), ("a", 2)]
        yield from differs(until(wanted, lambda: paths_on(daemon, "usb")), wanted)
        board = daemon.ask("tester", "board", family=2)
        copy = {"conflict": 0, "copy": 2, "device": "usb", "equal": 0, "newer": 0, "older": 0, "path": "a"}
        yield from differs(board, {"board": {"copies": [copy], "family": 2, "newest": [2], "split": False}})
        (room / "usb" / "b").unlink()
        daemon.tick()
        yield from differs(until([("a", 2)], lambda: paths_on(daemon, "usb")), [("a", 2)])
        yield from differs(paths_on(daemon, "gone"), [])


def each_root(program, room):
    """Of two roots each is scanned at the start and at each newline, and its files are reported as its device's."""
    for name in ("usb", "desk"):
        (room / name).mkdir()
        (room / name / f"on-{name}").write_text(name)
    with Daemon(program, f"usb={room}/usb", f"desk={room}/desk") as daemon:
        look = lambda: [[path for path, _ in paths_on(daemon, it)] for it in ("usb", "desk")]
        wanted = [["on-usb"], ["on-desk"]]
        yield from differs(until(wanted, look), wanted)
        for name in ("usb", "desk"):
            appear(room / name / "more", name)
        daemon.tick()
        wanted = [["on-usb", "more"], ["on-desk", "more"]]
        yield from differs([sorted(it) for it in until(wanted, look)], [sorted(it) for it in wanted])


def sent_together(program, _):
    """Lines that are sent together are answered at once: their answers don't wait for the client's acknowledgements."""
    with Daemon(program) as daemon, daemon.client() as client:
        took = []
        for _ in range(WINDOWS):
            begun = time.monotonic()
            client.send(line_of("x", "families") * 16)
            for _ in range(16):
                yield from differs(client.answer(), {"families": []})
            took.append(time.monotonic() - begun)
        # Held back, they would take 40 ms a window.
        yield from differs(sorted(took)[WINDOWS // 2] < 0.02, True)


def reported_by_hand(program, room):
    """A copy that was reported by hand isn't registered a second time, and a change that was reported isn't either."""
    root = room / "usb"
    root.mkdir()
    (root / "plan").write_text("one")
    with Daemon(program, f"usb={root}") as daemon:
        until([("plan", 1)], lambda: paths_on(daemon, "usb"))
        (root / "plan").write_text("two")
        (root / "more").write_text("more")
        daemon.ask("usb", "edit", copy=1)
        daemon.ask("usb", "register", device="usb", path="more")
        daemon.tick()
        appear(root / "last", "last")
        daemon.tick()
        wanted = [("plan", 2), ("more", 3), ("last", 4)]
        yield from differs(until(wanted, lambda: paths_on(daemon, "usb")), wanted)


def gone_in_a_line(program, _):
    """A client that goes away in the middle of a line, or before its answers, leaves its whole lines; others go on."""
    with Daemon(program) as daemon:
        with daemon.client() as other:
            other.ask("other", "register", device="other", path="a")
            for number in range(3):
                with daemon.client() as client:
                    client.send(line_of("gone", "register", device="gone", path=str(number)) + b'{"by":"gone","do":"re')
                yield from differs(until(number + 1, lambda: len(paths_on(daemon, "gone"))), number + 1)
                yield from differs(other.ask("other", "edit", copy=1), {"done": 2 * number + 3})
        yield from differs(daemon.run.poll(), None)


def reset_by_clients(program, _):
    """Clients that reset their connections while answers are on their way end their own sessions alone."""
    with Daemon(program, "--sessions", "41") as daemon:
        for _ in range(40):
            client = daemon.client()
            client.socket.setsockopt(socket.SOL_SOCKET, socket.SO_LINGER, struct.pack("ii", 1, 0))
            client.send(line_of("x", "families") * 500)
            client.close()
        yield from differs(daemon.ask("x", "families"), {"families": []})
        daemon.end_input()
        yield from differs(daemon.ended(), GOOD_END)


def never_reads(program, _):
    """A client that never reads holds up no other."""
    with Daemon(program) as daemon, daemon.client() as deaf:
        deaf.socket.settimeout(1)
        sent = 0
        try:
            while sent < 200_000_000:
                sent += deaf.socket.send(line_of("deaf", "families") * 1000)
            yield "what it sent was taken, though it read no answer"
        except socket.timeout:
            pass
        with daemon.client() as other:
            yield from differs(other.ask("other", "register", device="other", path="a"), {"done": 1})
            yield from differs(other.ask("other", "edit", copy=1), {"done": 2})


def other_streams(program, _):
    """A connection whose first byte that isn't a blank isn't `{` is closed: it gets no byte and makes no call."""
    with Daemon(program) as daemon:
        for stream in OTHERS:
            with daemon.client() as other:
                other.send(stream)
                yield from differs(other.rest(), b"")
        for start in (b"POST ", b"   \r\t P"):
            with daemon.client() as other:
                for byte in start:
                    try:
                        other.send(bytes([byte]))
                    except OSError:
                        break
                    time.sleep(WAIT)
                yield from differs(other.rest(), b"")
        yield from differs(daemon.ask("x", "journal", **{"from": 1}), {"entries": []})


def faulty_lines(program, _):
    """Lines of a session that begin with capitals, with a blank, or with a newline are faulty lines, and answered."""
    with Daemon(program) as daemon:
        for later in (b"GET\n", b" GET / HTTP/1.1\r\n", b"\n", b"POST\t/\n", b"get / HTTP/1.1\r\n", b"\x16\x03\n"):
            with daemon.client() as client:
                client.send(b" \t\r " + line_of("x", "families") + later + REPORT)
                client.end_input()
                yield from differs("families" in client.answer(), True)
                yield from differs(client.answer(), {"fault": "NotJson"})
                yield from differs(set(client.answer()) <= {"done", "code", "copy", "refused"}, True)
                yield from differs(client.rest(), b"")
        for only in (b"{", b"{\n", b" {GET"):
            with daemon.client() as client:
                client.send(only)
                client.end_input()
                yield from differs(client.rest(), b'{"fault":"NotJson"}\n')


def ports(program, _):
    """A port that is in use is reported; the daemon listens on 127.0.0.1 alone, and the next one may have its port."""
    with Daemon(program, "--sessions", "2") as daemon:
        port = str(daemon.port)
        yield from differs(ended(program, "serve", "--port", port), (1, b"", f"panad: cannot listen on port {port}\n".encode()))
        try:
            socket.create_connection(("127.0.0.2", daemon.port), timeout=1).close()
            yield "it listens on 127.0.0.2"
        except OSError:
            pass
        for _ in range(2):
            daemon.ask("x", "families")
        daemon.end_input()
        yield from differs(daemon.ended(), GOOD_END)
    with Daemon(program, port=daemon.port) as again:
        yield from differs(again.ask("x", "families"), {"families": []})


def bad_roots(program, room):
    """The first bad root is reported, before the port is tried; eight roots are fine, and a folder with `=` in its name."""
    most = [f"d{it}={room}" for it in range(8)]
    cases = [(["x"], "x"), (["="], "="), (["=d"], "=d"), (["A=d"], "A=d"), (["a="], "a="), (["a/b=d"], "a/b=d")]
    cases += [(["a=/", "b=/", "a=/x", "x"], "a=/x"), (["a=/", "", "x"], ""), ([*most, "e=/", "x"], "e=/")]
    cases += [([*most[:7], "d0=x", "x"], "d0=x"), (["a" * 33 + "=/"], "a" * 33 + "=/")]
    with Daemon(program, *most, "--sessions", "0") as daemon:
        port = str(daemon.port)
        for words, bad in cases:
            yield from differs(ended(program, "serve", "--port", port, *words), (1, b"", f"panad: bad root {bad}\n".encode()))
        daemon.end_input()
        yield from differs(daemon.ended(), GOOD_END)
    with Daemon(program, "a=/missing=b", "--sessions", "0") as daemon:
        daemon.end_input()
        yield from differs(daemon.ended(), GOOD_END)


def ends(program, room):
    """It ends with status 0 after its sessions and, where there is a root, the end of standard input, and not before."""
    with Daemon(program, "--sessions", "2") as daemon:
        daemon.end_input()
        first, second = daemon.client(), daemon.client()
        yield from differs(first.ask("x", "families"), {"families": []})
        first.close()
        time.sleep(5 * WAIT)
        yield from differs(daemon.run.poll(), None)
        yield from differs(second.ask("x", "families"), {"families": []})
        second.close()
        yield from differs(daemon.ended(), GOOD_END)
    with Daemon(program, "--sessions", "1", f"usb={room}") as daemon:
        daemon.ask("x", "families")
        time.sleep(5 * WAIT)
        yield from differs(daemon.run.poll(), None)
        daemon.end_input()
        yield from differs(daemon.ended(), GOOD_END)
    for number in (0, 1):
        # Without a root standard input isn't read, and its end isn't waited for.
        with Daemon(program, "--sessions", str(number)) as daemon:
            for _ in range(number):
                daemon.ask("x", "families")
            yield from differs(daemon.ended(), GOOD_END)
    with Daemon(program) as daemon:
        daemon.end_input()
        time.sleep(5 * WAIT)
        for _ in range(SESSIONS + 2):
            yield from differs(daemon.ask("x", "families"), {"families": []})
        yield from differs(daemon.run.poll(), None)


def last_newlines(program, room):
    """Newlines that came before the end of standard input are followed by a scan, also where it ends at once."""
    (room / "a").write_text("abc")
    with Daemon(program, f"usb={room}", "--sessions", "1") as daemon, daemon.client() as client:
        daemon.run.stdin.write(b"\n" * 10)
        daemon.end_input()
        held = lambda: [it["path"] for it in client.ask("x", "holdings", device="usb")["holdings"]]
        yield from differs(until(["a"], held), ["a"])
        client.close()
        yield from differs(daemon.ended(), GOOD_END)


def one_more(program, _):
    """Of 17 clients 16 are served, and the last one as soon as one of them is gone."""
    with Daemon(program) as daemon:
        served = [daemon.client() for _ in range(SESSIONS)]
        for it in served:
            it.ask("x", "families")
        with daemon.client() as waiting:
            waiting.send(line_of("x", "families"))
            waiting.socket.settimeout(0.2)
            try:
                yield f"it was served: {waiting.socket.recv(100)!r}"
            except socket.timeout:
                waiting.socket.settimeout(SECONDS)
            served.pop().close()
            yield from differs(waiting.socket.recv(100), b'{"families":[]}\n')
        for it in served:
            it.close()


def writes(program, _):
    """Where the line about the port can't be printed, that is the fault."""
    words = [program, "serve", "--port", "0", "--sessions", "0"]
    with open("/dev/full", "wb") as full:
        done = subprocess.run(words, stdin=subprocess.DEVNULL, stdout=full, stderr=subprocess.PIPE, timeout=SECONDS)
    yield from differs((done.returncode, done.stderr), (1, b"panad: write failed\n"))
    # A closed pipe: no signal ends it.
    with subprocess.Popen(["true"], stdin=subprocess.PIPE) as reader:
        reader.wait()
        done = subprocess.run(words, stdin=subprocess.DEVNULL, stdout=reader.stdin, stderr=subprocess.PIPE, timeout=SECONDS)
        yield from differs((done.returncode, done.stderr), (1, b"panad: write failed\n"))


def idle(program, room):
    """A daemon with nothing to do uses no processor time."""
    with Daemon(program, f"usb={room}") as daemon, daemon.client() as client:
        client.ask("x", "families")
        until([], lambda: client.ask("x", "holdings", device="usb")["holdings"])
        time.sleep(0.2)
        before = times_of(daemon.run.pid)
        time.sleep(1)
        yield from differs(times_of(daemon.run.pid), before)


CHECKS = (roots, each_root, sent_together, reported_by_hand, gone_in_a_line, reset_by_clients, never_reads, other_streams, faulty_lines, ports)
CHECKS += (bad_roots, ends, last_newlines, one_more, writes, idle)


if __name__ == "__main__":
    sys.exit(run_checks(__doc__, CHECKS, sys.argv[1:]))
