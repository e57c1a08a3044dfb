"""The crates of the repository: what each uses, what it is proved from, and in which order they are best proved."""
from __future__ import annotations

import hashlib
import os
import re
from pathlib import Path

TOP = Path(__file__).resolve().parent.parent
PARTS = ("src", "specs", "proofs")
PROGRAM = "panad"
# For as many lines of code one crate more counts that a crate uses. Of what was tried this has the last crate proved first.
LINES_A_CRATE = 130
# How many crates are proved at the same time where memory allows, and where not; and for how much of it each counts: a prover
# has been seen to take 2.9 gigabytes.
MANY, FEW, BYTES_A_PROVER = 4, 2, 3_750_000_000
AVAILABLE = re.compile(r"^MemAvailable:\s+(\d+) kB$", re.MULTILINE)


def uses():
    """Each crate of crates.txt, and the names of what it uses."""
    lines = (it.split("#")[0] for it in (TOP / "crates.txt").read_text(encoding="utf-8").splitlines())
    heads = (it.partition(":") for it in lines if it.strip())
    return {name.split()[0]: below.split() for name, _, below in heads}


def with_those_below(names):
    """The crates and those of the repository that they use, each after what it uses itself."""
    listed, found = uses(), []

    def add(name):
        if name in listed and name not in found:
            for it in listed[name]:
                add(it)
            found.append(name)

    for it in names:
        add(it)
    return found


def sources(name):
    """The files that the crate is proved from."""
    folder = TOP / "crates" / name
    return sorted(it for part in PARTS for it in (folder / part).glob("**/*") if it.is_file())


def sum_of(files, *more):
    """One sum of some files, by path and content, and of more; it is the same wherever the repository lies."""
    total = hashlib.sha256(repr(more).encode())
    for it in files:
        total.update(repr((os.path.relpath(it, TOP) if TOP in it.parents else it.name, it.read_bytes())).encode())
    return total.hexdigest()


def lines(name):
    """The lines of a crate's code."""
    return sum(it.read_bytes().count(b"\n") for it in (TOP / "crates" / name / "src").rglob("*") if it.is_file())


def weight(name):
    """What goes for how long a crate takes, in lines of code: its functions take most of the time, whatever their proofs are
    like, and the more the more crates they may speak of."""
    return lines(name) + LINES_A_CRATE * len(uses()[name])


def most_at_once():
    """How many crates this machine can prove at the same time: one for each processor, as far as memory goes."""
    try:
        found = AVAILABLE.search(Path("/proc/meminfo").read_text(encoding="ascii"))
    except OSError:
        found = None
    fitting = int(found[1]) * 1024 // BYTES_A_PROVER if found else FEW
    return min(os.cpu_count() or 1, max(FEW, min(MANY, fitting)))


class Waiting:
    """The crates that aren't begun yet: those with the longest chain of others behind them come first."""

    def __init__(self, names):
        self.below, self.done = {it: {*uses()[it]} & {*names} for it in names}, set()
        behind = dict.fromkeys(names, 0)
        for name in reversed(names):
            behind[name] += weight(name)
            for it in self.below[name]:
                behind[it] = max(behind[it], behind[name])
        self.behind = behind
        self.left = sorted(names, key=lambda it: -behind[it])

    def ready(self):
        """Those that use nothing that isn't done."""
        return [it for it in self.left if self.below[it] <= self.done]

    def leads(self, name):
        """Whether no crate that isn't done has a longer chain behind it."""
        return all(self.behind[name] >= chain for it, chain in self.behind.items() if it not in self.done)

    def begin(self, name):
        self.left.remove(name)

    def again(self, name):
        """Has a crate wait that was begun."""
        self.left.insert(0, name)

    def end(self, name):
        self.done.add(name)

    def take_over(self, name):
        """Passes over a crate that was done before."""
        self.begin(name)
        self.end(name)
