#!/usr/bin/env python3
"""Proves the libraries of the program and then the program, links it, and tries it on an empty session.

usage: prove.py KIT BUILT
KIT is the kit's folder. In the folder BUILT stand then the libraries, rlib/NAME.rlib, the program, panad.new, and what the
kit has printed, build.log. As many crates are proved at a time as this machine can, where none uses another. On standard
error stands how far it is: on a terminal one line that changes, elsewhere a line for each crate. What stands in BUILT is
taken over where nothing that it was made of has changed, so a run that is interrupted is gone on with by the next. Behind a
run that has built the program each library is packed, in a seventh of the bytes.
"""
from __future__ import annotations

import os
import resource
import selectors
import signal
import subprocess
import sys
import time

from crates import PROGRAM, TOP, Waiting, lines, most_at_once, with_those_below
from libraries import BuildFolder, each

WIDEST = 79
INTERRUPTED = 130
# A crate of fewer lines has one prover, since two share little there but what they read; the program is proved when nothing else is.
FEW_LINES = 300


class Prover:
    """A crate that the kit proves and builds, in processes of its own. They keep what this one holds open, so a lock is held until they end."""

    def __init__(self, folder, name, jobs):
        self.name, self.jobs, self.made_of = name, jobs, folder.sum(name)
        self.begun, self.printed, self.took = time.monotonic(), b"", ""
        how = {"stdin": subprocess.DEVNULL, "stdout": subprocess.PIPE, "stderr": subprocess.STDOUT, "close_fds": False, "start_new_session": True}
        folder.clear(name)
        self.process = subprocess.Popen(folder.words(name, jobs), cwd=TOP / "crates" / name, **how)

    def fileno(self):
        return self.process.stdout.fileno()

    def read(self):
        """Takes what the kit has printed; false where it has ended."""
        more = os.read(self.fileno(), 65536)
        self.printed += more
        return bool(more)

    def is_built(self):
        """Waits until the prover has ended, and notes what it took."""
        self.process.stdout.close()
        before = resource.getrusage(resource.RUSAGE_CHILDREN)
        self.process.wait()
        after = resource.getrusage(resource.RUSAGE_CHILDREN)
        used = after.ru_utime - before.ru_utime + after.ru_stime - before.ru_stime
        self.took = f"{minutes(time.monotonic() - self.begun)} min, {minutes(used)} of processors, jobs={self.jobs}"
        return self.process.returncode == 0

    def was_killed(self):
        """Whether it was ended by the system, most likely since memory ran out."""
        return self.process.returncode == -signal.SIGKILL

    def stop(self):
        os.killpg(self.process.pid, signal.SIGTERM)
        self.is_built()

    def write_to(self, log):
        print(f"== {self.name}: {self.took}", self.printed.decode(errors="replace"), sep="\n", end="", file=log, flush=True)


def minutes(seconds):
    return f"{int(seconds) // 60}:{int(seconds) % 60:02}"


class Progress:
    """Shows on standard error how far the crates are."""

    def __init__(self, count):
        self.count, self.done, self.start = count, 0, time.monotonic()
        self.is_terminal = sys.stderr.isatty()
        columns = os.get_terminal_size(sys.stderr.fileno()).columns if self.is_terminal else 0
        self.width = min(columns or WIDEST, WIDEST) - 1

    def show(self, provers):
        """Puts the changing line on a terminal."""
        if self.is_terminal:
            at = ", ".join(it.name for it in provers)
            text = f"panad: {minutes(time.monotonic() - self.start)} min, {self.done} of {self.count} crates, {at}"
            print(f"\r{text[: self.width]:{self.width}}", end="", file=sys.stderr, flush=True)

    def end(self, prover, is_built):
        """Says that a crate is done, and that it is at fault where it is."""
        self.done += is_built
        if not self.is_terminal:
            took, what = minutes(time.monotonic() - prover.begun), "is proved" if is_built else "failed"
            print(f"panad: {prover.name} {what}, crate {self.done} of {self.count} ({took} min)", file=sys.stderr, flush=True)

    def clear(self):
        if self.is_terminal:
            print(f"\r{'':{self.width}}\r", end="", file=sys.stderr, flush=True)


class Build:
    """The crates that are waited for, and those that are being proved."""

    def __init__(self, folder, names):
        self.folder, self.waiting, self.running = folder, Waiting(names), selectors.DefaultSelector()
        self.progress, self.most = Progress(len(names)), most_at_once()

    def provers(self):
        return [it.fileobj for it in self.running.get_map().values()]

    def jobs(self, name, ready):
        """How many provers a crate has: one, since two of a crate take more time together, and with them those that no other
        crate could have. That with the longest chain behind it has two, since it decides when the last is proved."""
        idle = self.most - sum(it.jobs for it in self.provers())
        jobs = max(idle - ready + 1, 2 if self.waiting.leads(name) else 1)
        return 1 if lines(name) < FEW_LINES and name != PROGRAM else min(jobs, self.most)

    def begin(self):
        """Begins as many as may run, so that there are about as many provers as processors."""
        while ready := self.waiting.ready():
            name, running = ready[0], sum(it.jobs for it in self.provers())
            if self.folder.has(name):
                self.waiting.take_over(name)
                self.progress.done += 1
            elif running < self.most:
                self.running.register(Prover(self.folder, name, self.jobs(name, len(ready))), selectors.EVENT_READ)
                self.waiting.begin(name)
            else:
                return

    def ended(self):
        """Waits a second at most, and returns those that have ended."""
        ended = [it.fileobj for it, _ in self.running.select(1) if not it.fileobj.read()]
        for it in ended:
            self.running.unregister(it)
        return ended

    def goes_on(self, prover, log):
        """Notes that a prover has ended; whether the others can go on. One that the system killed is begun again, beside fewer others."""
        is_built = prover.is_built()
        prover.write_to(log)
        if prover.was_killed() and self.most > 1:
            self.most -= 1
            self.waiting.again(prover.name)
            return True
        self.progress.end(prover, is_built)
        if is_built:
            self.folder.keep(prover.name, prover.made_of)
            self.waiting.end(prover.name)
        return is_built

    def run(self, log, signals):
        """Proves and builds all; whether each was built. Where one isn't, or a signal comes, the others are left for the caller to stop."""
        self.begin()
        while self.provers():
            self.progress.show(self.provers())
            if not all([self.goes_on(it, log) for it in self.ended()]) or signals.have_come:
                return False
            self.begin()
        return True

    def stop(self):
        for it in self.provers():
            it.stop()
        self.progress.clear()


def is_linked(folder, log):
    """Whether the program can be linked, and answers nothing where nothing is asked."""
    how = {"stdin": subprocess.DEVNULL, "stdout": log, "stderr": subprocess.STDOUT}
    return all(subprocess.run(words, **how).returncode == 0 for words in (folder.link_words(), [folder.program, "run"]))


class Signals:
    """Notes that this process is to end. The build asks between two steps, so that no prover is begun and then forgotten."""

    def __init__(self):
        self.have_come = False
        for it in (signal.SIGINT, signal.SIGTERM, signal.SIGHUP):
            signal.signal(it, self.note)

    def note(self, *_):
        self.have_come = True


def main(kit, built):
    folder, signals = BuildFolder(kit, built), Signals()
    folder.libraries.mkdir(parents=True, exist_ok=True)
    names = with_those_below([PROGRAM])
    each(folder.unpack, names)
    build = Build(folder, names)
    with open(folder.log, "w", encoding="utf-8") as log:
        try:
            is_built = build.run(log, signals) and is_linked(folder, log)
        finally:
            build.stop()
    if signals.have_come:
        print("panad: interrupted; what is proved is kept, and the next start goes on from there", file=sys.stderr)
        return INTERRUPTED
    if is_built:
        each(folder.pack, names[:-1])
    return 0 if is_built else 1


if __name__ == "__main__":
    sys.exit(main(*sys.argv[1:]))
