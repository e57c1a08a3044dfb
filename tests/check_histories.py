#!/usr/bin/env python3
"""Tracks folders in which files are changed at random, and compares what `panad` says of each two copies with what was done.

usage: check_histories.py PROGRAM [HISTORIES [SEED]]
Files of three devices are written, copied from one to another, renamed, removed and exchanged, many times between two
looks, and `track` looks at some of the folders or at all. Each time, of any two copies of a file: where one is equal to
the other, both were seen with the same content; where one is older, its content is that of the other, or at some place
came before it. Once all folders were looked at twice with nothing changed between, no two copies with the same content
are in conflict, and a further look changes nothing.
The last line is 'N passed, M failed', a check for each tenth of the histories.
"""
from __future__ import annotations

import json
import random
import subprocess
import sys
import tempfile
from itertools import combinations
from pathlib import Path

HISTORIES = 500
SEED = 29
SECONDS = 60
DEVICES = ("laptop", "usb", "desk")
NAMES = ("plan.txt", "notes.txt", "old/plan.txt")
LOOKS = 5
MOST_CHANGES = 4


class Contents:
    """Which content came before which, at any place."""

    def __init__(self):
        self.count, self.before = 0, {}

    def new(self):
        self.count += 1
        return f"content {self.count}\n"

    def replaced(self, old, new):
        if old is not None and new is not None:
            self.before.setdefault(new, set()).add(old)

    def is_before(self, old, new):
        """Whether the one is the other, or came before it."""
        found, left = {new}, [new]
        while left:
            more = self.before.get(left.pop(), set()) - found
            found |= more
            left += more
        return old in found


class History:
    """Folders that are changed, and a journal of what is seen of them."""

    def __init__(self, program, at, chance):
        self.program, self.at, self.chance = program, at, chance
        self.contents, self.held, self.seen = Contents(), {}, {}
        self.done = []
        for it in DEVICES:
            (at / it / "old").mkdir(parents=True)
            # A folder without any file would be taken for a disk that isn't mounted.
            (at / it / "here").write_text("")

    def put(self, place, content):
        """Gives a file this content, or takes it away."""
        self.contents.replaced(self.held.get(place), content)
        file = self.at / place[0] / place[1]
        if content is None:
            file.unlink(missing_ok=True)
            self.held.pop(place, None)
        else:
            file.write_text(content)
            self.held[place] = content

    def change(self):
        """Does something to a file."""
        device = self.chance.choice(DEVICES)
        place = device, self.chance.choice(NAMES)
        files = [it for it in self.held if it != place]
        kind = self.chance.choice(("write", "write", "copy", "copy", "copy", "rename", "remove", "same", "back"))
        if kind == "write" or not files:
            self.put(place, self.contents.new())
        elif kind == "copy":
            # Mostly the same file of another device.
            alike = [it for it in files if it[1] == place[1]]
            self.put(place, self.held[self.chance.choice(alike or files)])
        elif kind == "rename":
            source = self.chance.choice([it for it in files if it[0] == device] or [None])
            if source:
                content = self.held[source]
                self.put(source, None)
                self.put(place, content)
        elif kind == "remove":
            self.put(place, None)
        elif kind == "same":
            content = self.contents.new()
            for it in DEVICES[:2]:
                self.put((it, place[1]), content)
        else:
            older = sorted(self.contents.before.get(self.held.get(place), ()))
            self.put(place, self.chance.choice(older) if older else None)
        self.done.append(f"{kind} {place[0]}:{place[1]}")

    def look(self, devices):
        """Has the folders of these devices tracked."""
        roots = [f"{it}={self.at / it}" for it in devices]
        words = [self.program, "track", "--quiet", "--journal", self.at / "journal", *roots]
        ran = subprocess.run(words, stdin=subprocess.DEVNULL, capture_output=True, timeout=SECONDS)
        if ran.returncode not in (0, 1) or ran.stderr:
            raise ValueError(f"track ended with {ran.returncode} and {ran.stderr.decode()!r}")
        for place in [(device, name) for device in devices for name in NAMES]:
            self.contents.replaced(self.seen.get(place), self.held.get(place))
            self.seen[place] = self.held.get(place)
        self.done.append(f"look {' '.join(devices)}")

    def ask(self, queries):
        lines = "".join(json.dumps({"by": "desk", **it}) + "\n" for it in queries)
        words = [self.program, "run", "--journal", self.at / "journal"]
        ran = subprocess.run(words, input=lines.encode(), capture_output=True, timeout=SECONDS)
        return [json.loads(it) for it in ran.stdout.splitlines()]

    def relations(self):
        """Each two copies of a file, by what was seen of each, and how the first relates to the second."""
        copies = {}
        for device, answer in zip(DEVICES, self.ask({"do": "holdings", "device": it} for it in DEVICES)):
            for it in answer["holdings"]:
                if it["path"] != "here":
                    copies.setdefault(it["family"], []).append((it["copy"], (device, it["path"])))
        pairs = [(one, other) for family in copies.values() for one, other in combinations(family, 2)]
        answers = self.ask({"do": "pair", "a": one[0], "b": other[0]} for one, other in pairs)
        return [(one[1], other[1], it["pair"]) for (one, other), it in zip(pairs, answers, strict=True)]

    def wrong(self, is_settled):
        """What is said of two copies and isn't so."""
        for one, other, relation in self.relations():
            a, b = self.seen[one], self.seen[other]
            older, newer = (b, a) if relation == "Newer" else (a, b)
            if relation == "Equal" and a != b:
                yield f"{one} and {other} are {relation} with {a!r} and {b!r}"
            elif relation in ("Older", "Newer") and not self.contents.is_before(older, newer):
                yield f"{one} is {relation} than {other} with {a!r} and {b!r}"
            elif relation == "Conflict" and is_settled and a == b:
                yield f"{one} and {other} are in conflict, and both have {a!r}"


def faults(program, number, seed):
    """What is wrong in a history."""
    chance = random.Random(f"{seed} {number}")
    with tempfile.TemporaryDirectory(prefix="history-") as room:
        history = History(program, Path(room), chance)
        found = []
        for _ in range(LOOKS):
            for _ in range(chance.randint(1, MOST_CHANGES)):
                history.change()
            history.look(DEVICES if chance.random() < 0.5 else chance.sample(DEVICES, chance.randint(1, 2)))
            found += history.wrong(False)
        for _ in range(2):
            history.look(DEVICES)
        found += history.wrong(True)
        kept = (history.at / "journal").read_bytes()
        history.look(DEVICES)
        if (history.at / "journal").read_bytes() != kept:
            found.append("a look at folders that didn't change has changed the journal")
    return [f"history {number}: {it}, after {'; '.join(history.done)}" for it in found]


def main(program, histories=HISTORIES, seed=SEED):
    histories, outcomes = int(histories), []
    for tenth in range(10):
        numbers = range(tenth * histories // 10, (tenth + 1) * histories // 10)
        found = [it for number in numbers for it in faults(program, number, seed)]
        print(f"{'FAILED' if found else 'ok'} histories {numbers.start} to {numbers.stop - 1}", *found[:5], sep="\n    ", flush=True)
        outcomes.append(not found)
    print(f"{outcomes.count(True)} passed, {outcomes.count(False)} failed")
    return 1 if outcomes.count(False) else 0


if __name__ == "__main__":
    sys.exit(main(*sys.argv[1:]))
