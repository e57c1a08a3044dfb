#!/usr/bin/env python3
"""Runs `serve` with its Nth allocation failing, for N = 1, 2, .. until none fails: a root with a file is scanned, a client
reports, says what it saw and asks, two more files are scanned, and the first is changed and scanned again.

usage: sweep_daemon.py PROGRAM

The daemon may end with 'panad: out of memory' and status 1 before it listens, or say that it cannot make threads; also
some seconds later, before it takes a connection, where what its sessions or threads take isn't there after all. From then
on it stays. An answer must be the one that a run with no failed allocation gives, or OutOfMemory: the journal is
then as it was, and the same line, sent again, gets that answer. A session may end in place of an answer; then the next
one finds the journal as it was, or with the entry of that line. A scan may be left undone, and the next one does it.
The last line is 'N passed, M failed'.
"""
from __future__ import annotations

import json
import socket
import subprocess
import sys
import tempfile
import time
from collections import Counter
from concurrent.futures import ProcessPoolExecutor
from dataclasses import dataclass, field
from pathlib import Path

HERE = Path(__file__).resolve().parent
sys.path.insert(0, str(HERE.parent))
import failing  # noqa: E402
from daemon import LISTENING, SECONDS, Client, line_of  # noqa: E402
from harness import Broken  # noqa: E402

PROCESSES = 4
SHOWN = 5
MOST = 5000
PATIENCE = 1
LONGEST = 8
OUT_OF_MEMORY = ({"code": 9, "refused": "OutOfMemory"}, {"fault": "OutOfMemory"})
ENDS = (b"panad: out of memory\n", b"panad: cannot make threads\n")
ONE, OTHER = "1" * 64, "2" * 64
LINES = (
    line_of("desk", "duplicate", copy=1, device="desk", path="a"),
    line_of("desk", "edit", copy=2),
    b"{\n",
    line_of("desk", "pair", a=1, b=2),
    line_of("desk", "board", family=1),
    line_of("desk", "edit", copy=9),
    # a note, and then it is known; a register, a duplicate and a remove; and, of two equal copies with unlike contents, two edits
    line_of("desk", "found", device="desk", path="a", sum=ONE),
    line_of("desk", "found", device="desk", path="a", sum=ONE),
    line_of("desk", "found", device="desk", path="d", sum=ONE),
    line_of("desk", "found", device="disk", path="d", sum=ONE),
    line_of("desk", "missing", device="disk", path="d"),
    line_of("desk", "missing", device="disk", path="d"),
    line_of("desk", "register", device="desk", path="e"),
    line_of("desk", "duplicate", copy=8, device="disk", path="e", sum=ONE),
    line_of("desk", "found", device="desk", path="e", sum=OTHER),
)
# How many entries there are then.
ENTRIES = 11


def is_sighting(line):
    """Whether the line says what was found or is missing."""
    return json.loads(line)["do"] in ("found", "missing")


class Deaf(Exception):
    """The daemon answers nobody, or scans nothing, and an allocation has failed: it is to end."""


@dataclass
class Run:
    """One run: the daemon, its one allocation that fails, and the client's connection."""

    daemon: subprocess.Popen
    report: failing.Report
    port: int
    client: Client | None = None
    answers: list = field(default_factory=list)

    def has_failed(self):
        return bool(self.report.counts()[1])

    def ask(self, line):
        """The answer to a line, or None where the session has ended, which an allocation has to be the cause of."""
        try:
            if self.client is None:
                self.client = Client(self.port)
                self.client.socket.settimeout(LONGEST)
            self.client.send(line)
            return self.client.answer()
        except socket.timeout as error:
            raise (Deaf if self.has_failed() else Broken)(f"{line!r} is not answered") from error
        except (Broken, ConnectionError) as error:
            if self.client:
                self.client.close()
            self.client = None
            if not self.has_failed():
                raise
            if self.daemon.poll() is not None:
                raise Deaf(f"{line!r} finds no daemon") from error
            return None

    def ask_surely(self, line):
        """The answer to a question: at most one allocation fails, so one of three tries is answered, or the daemon ends."""
        for _ in range(3):
            answer = self.ask(line)
            if answer is not None and answer not in OUT_OF_MEMORY:
                return answer
        raise (Deaf if self.has_failed() else Broken)(f"{line!r} is not answered")

    def journal(self):
        return self.ask_surely(line_of("x", "journal", **{"from": 1}))["entries"]

    def report_line(self, line):
        """Sends a line of the session, and judges and notes its answer."""
        before = self.journal()
        for _ in range(2):
            answer = self.ask(line)
            if answer is None and len(after := self.journal()) > len(before):
                answer = {**({"did": after[-1]["do"]} if is_sighting(line) else {}), "done": len(after)}
            if answer is not None and answer not in OUT_OF_MEMORY:
                self.answers.append(answer)
                return
            if not self.has_failed() or self.journal() != before:
                raise Broken(f"after {answer} to {line!r} the journal isn't as it was")
        raise Broken(f"{line!r} is answered with {answer}")

    def scan_until(self, length):
        """Waits until scans have brought the journal to this length. A scan that an allocation left undone is asked for anew."""
        end, tick = time.monotonic() + LONGEST, time.monotonic() + PATIENCE
        while (found := len(self.journal())) != length:
            if time.monotonic() > end or found > length:
                raise (Deaf if self.has_failed() and not found else Broken)(f"scans bring the journal to {found} entries, not {length}")
            if time.monotonic() > tick and self.has_failed():
                self.daemon.stdin.write(b"\n")
                tick += PATIENCE
            time.sleep(0.01)


def talked_through(run, room):
    """What the journal has at the end, and what was answered."""
    run.scan_until(1)
    for line in LINES:
        run.report_line(line)
    # Once the second of two more files is found, a whole scan has noted what the first file holds.
    for length, (name, text) in enumerate((("b", "one"), ("c", "one"), ("a", "two")), ENTRIES + 1):
        (room / name).write_text(text)
        run.daemon.stdin.write(b"\n")
        run.scan_until(length)
    return run.answers, run.journal()


def late_fault(daemon, error):
    """What is wrong with the end of a daemon that answers nobody, or None."""
    try:
        ended = daemon.wait(timeout=SECONDS), daemon.stderr.read()
        return None if ended in ((1, it) for it in ENDS) else f"{error}: it ended with {ended}"
    except subprocess.TimeoutExpired:
        return f"{error}: it goes on"


def failing_run(program, library, at):
    """A run with allocation number `at` failing: how many failed, what it gave or how it ended, and its fault."""
    pipe = subprocess.PIPE
    with tempfile.TemporaryDirectory(prefix="root-") as name, failing.Report() as report:
        room = Path(name)
        (room / "a").write_text("one")
        words = [program, "serve", "--port", "0", f"usb={room}"]
        how = {"env": report.environment(library, at), "pass_fds": [report.number], "bufsize": 0}
        with subprocess.Popen(words, stdin=pipe, stdout=pipe, stderr=pipe, **how) as daemon:
            line = daemon.stdout.readline()
            try:
                if found := LISTENING.fullmatch(line):
                    run = Run(daemon, report, int(found[1]))
                    given = talked_through(run, room)
                    daemon.kill()
                    return report.counts()[1], given, None if daemon.stderr.read() == b"" else "it wrote on standard error"
                ended = (line, daemon.stderr.read(), daemon.wait(timeout=SECONDS))
                fault = None if ended in ((b"", it, 1) for it in ENDS) else f"it ended with {ended}"
                return report.counts()[1], "ended", fault
            except Deaf as error:
                return report.counts()[1], "ended late", late_fault(daemon, error)
            except (Broken, OSError, ValueError, KeyError) as error:
                daemon.kill()
                return report.counts()[1], None, f"{type(error).__name__}: {error}; {daemon.stderr.read()!r:.200}"
            finally:
                daemon.kill()


def outcomes(program, library):
    """What came of each failed allocation, in order, until none fails: how the run ended or what it gave, and its fault."""
    numbers = range(1, MOST)
    with ProcessPoolExecutor(PROCESSES) as pool:
        for at, (failed, given, fault) in zip(numbers, pool.map(failing_run, *zip(*((program, library, it) for it in numbers)))):
            if not failed and not fault:
                pool.shutdown(wait=False, cancel_futures=True)
                return
            yield at, given, fault


def main(program):
    with tempfile.TemporaryDirectory(prefix="sweep-") as room:
        library = failing.compiled(room)
        if library is None:
            print("FAILED: failing.c does not compile", "0 passed, 1 failed", sep="\n")
            return 1
        _, wanted, fault = failing_run(program, library, 0)
        faults, kinds = [f"with no failed allocation: {fault}"] if fault else [], Counter()
        for at, given, fault in outcomes(program, library):
            kind = given if isinstance(given, str) else "served"
            kinds[kind] += 1
            if kind == "served" and not fault and given != wanted:
                fault = f"{given!r:.300}, wanted {wanted!r:.300}"
            if fault:
                faults.append(f"allocation {at} failed: {fault}")
            if len(faults) >= SHOWN:
                break
    text = ", ".join(f"{count} {kind}" for kind, count in sorted(kinds.items()))
    print(f"{'FAILED' if faults else 'ok'}: of the failed allocations {text}", *faults, sep="\n    ")
    print(f"{int(not faults)} passed, {int(bool(faults))} failed")
    return int(bool(faults))


if __name__ == "__main__":
    if len(sys.argv) != 2:
        print(__doc__, file=sys.stderr)
        sys.exit(2)
    sys.exit(main(str(Path(sys.argv[1]).resolve())))
