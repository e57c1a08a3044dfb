#!/usr/bin/env python3
"""Has 16 clients make 200 calls each at one daemon, all at once, and looks whether one journal explains every reply.

usage: check_clients.py PROGRAM
Each client waits for each answer. The numbers of `done` must be 1 to the journal's length, each once, and each client's
in its order; each must be the entry that the client reported. The journal, loaded as a dump, must give the tables that
the daemon's reports give. And one single session that is given all calls one after another, the journal's entries in
order and each client's calls in its order, must give every reply.
The last line is 'N passed, M failed'.
"""
from __future__ import annotations

import json
import random
import subprocess
import sys
import tempfile
import threading
from pathlib import Path

from daemon import SECONDS, Daemon, line_of, pages
from harness import Broken

CLIENTS = 16
CALLS = 200
# Few merges and reconciles: each divides ids anew, and ids that many share become large.
KINDS = ("edit", "own", "pair", "board", "holdings", "taken", "same") * 4 + ("merge", "reconcile")
FIRST = {"by": "tester", "do": "register", "device": "tester", "path": "shared"}


def name_of(number):
    return f"c{number:02}"


def calls_of(number, count):
    """So many calls of a client, each made from what its own copy is, once that is known."""
    chance, by = random.Random(number), name_of(number)
    yield {"by": by, "do": "duplicate", "copy": 1, "device": by, "path": "shared"}
    for nth in range(count - 1):
        kind = chance.choice(KINDS)
        if kind == "edit":
            yield {"by": by, "do": "edit", "copy": "mine"}
        elif kind in ("merge", "reconcile", "pair"):
            yield {"by": by, "do": kind, "a": "mine", "b": 1}
        elif kind == "board":
            yield {"by": by, "do": "board", "family": 1}
        elif kind == "holdings":
            yield {"by": by, "do": "holdings", "device": by}
        elif kind == "taken":
            yield {"by": by, "do": "register", "device": by, "path": "shared"}
        elif kind == "same":
            yield {"by": by, "do": "remove", "copy": "mine", "heir": "mine"}
        else:
            yield {"by": by, "do": "register", "device": by, "path": str(nth)}


def talk(client, number, made, count):
    """Makes a client's calls, and puts each with its reply into a list."""
    mine = 0
    for call in calls_of(number, count):
        call = {name: mine if value == "mine" else value for name, value in call.items()}
        reply = client.ask(**call)
        if call["do"] == "duplicate":
            mine = reply["done"]
        made.append((call, reply))


def run_clients(clients, count):
    """What each client has asked and got by so many calls, all of them at once."""
    made = [[] for _ in clients]
    threads = [threading.Thread(target=talk, args=(it, *of, count)) for it, of in zip(clients, enumerate(made))]
    for it in threads:
        it.start()
    for it in threads:
        it.join()
    for it in clients:
        it.close()
    return made


def entry_of(number, call):
    """The entry that a call makes, as the journal has it."""
    return {**call, "number": number}


def in_order(made, entries):
    """Says where the numbers aren't 1 to the journal's length, each client's rising, each that of its own report."""
    numbers = [[reply["done"] for _, reply in of if "done" in reply] for of in made]
    if sorted([1, *(it for of in numbers for it in of)]) != [*range(1, len(entries) + 1)]:
        yield "the numbers aren't 1 to the journal's length, each once"
    if any(of != sorted(of) for of in numbers):
        yield "a client's numbers don't rise"
    for call, reply in ((call, reply) for of in made for call, reply in of if "done" in reply):
        if (found := entries[reply["done"] - 1 : reply["done"]]) != [entry_of(reply["done"], call)]:
            yield f"entry {reply['done']} isn't {call}, but {found}"


class Session:
    """A single session of the program, which is asked lines."""

    def __init__(self, program):
        pipe = subprocess.PIPE
        self.run = subprocess.Popen([program, "run"], stdin=pipe, stdout=pipe, stderr=pipe)

    def __enter__(self):
        return self

    def __exit__(self, *_):
        self.run.kill()
        self.run.communicate()

    def answers(self, calls):
        self.run.stdin.write(b"".join(line_of(**it) for it in calls))
        self.run.stdin.flush()
        return [json.loads(self.run.stdout.readline() or b"null") for _ in calls]


def advance(session, made, at):
    """Passes over all calls that the single session answers now as the daemon did; these change nothing."""
    waiting = [it for it, of in enumerate(made) if at[it] < len(of) and "done" not in of[at[it]][1]]
    while waiting:
        answers = session.answers([made[it][at[it]][0] for it in waiting])
        passed = [it for it, answer in zip(waiting, answers) if answer == made[it][at[it]][1]]
        for it in passed:
            at[it] += 1
        waiting = [it for it in passed if at[it] < len(made[it]) and "done" not in made[it][at[it]][1]]


def unexplained(program, made, entries):
    """Says which reply isn't that of one single session, in which each client's calls are in its order."""
    at, owner = [0] * len(made), {reply["done"]: it for it, of in enumerate(made) for _, reply in of if "done" in reply}
    with Session(program) as session:
        for entry in entries:
            number = entry["number"]
            got = session.answers([{name: value for name, value in entry.items() if name != "number"}])
            if got != [{"done": number}]:
                yield f"a single session answers entry {number} by {got}"
                return
            client = owner.get(number)
            if client is not None:
                if at[client] == len(made[client]) or made[client][at[client]][1] != {"done": number}:
                    yield f"before entry {number} nothing explains {made[client][at[client] : at[client] + 1]}"
                    return
                at[client] += 1
            advance(session, made, at)
    for it, of in enumerate(made):
        if at[it] < len(of):
            yield f"at the end nothing explains {of[at[it]]}"


def loads(program, dump, entries):
    """Says where the journal doesn't load as a dump to the tables that its entries give."""
    lines = [json.dumps({name: value for name, value in it.items() if name != "number"}) + "\n" for it in entries]
    shown = subprocess.run([program, "show"], input="".join(lines).encode(), capture_output=True, timeout=SECONDS)
    with tempfile.NamedTemporaryFile() as file:
        file.write(b"".join(json.dumps(it).encode() + b"\n" for it in dump))
        file.flush()
        loaded = subprocess.run([program, "load", file.name], capture_output=True, timeout=SECONDS)
    if (loaded.returncode, loaded.stdout, loaded.stderr) != (0, shown.stdout, b"") or not shown.stdout:
        yield f"the dump loads with {loaded.returncode}, {loaded.stderr!r:.200}, or to other tables"


def main(words):
    if len(words) != 1:
        print(__doc__, file=sys.stderr)
        return 2
    program = str(Path(words[0]).resolve())
    try:
        with Daemon(program) as daemon:
            daemon.ask(**FIRST)
            made = run_clients([daemon.client() for _ in range(CLIENTS)], CALLS)
            with daemon.client() as client:
                dump = [*pages(client)]
            entries = [it for page in dump for it in page["entries"]]
        counted = [] if all(len(of) == CALLS for of in made) else ["a client has lost its session"]
        parts = (counted, in_order(made, entries), loads(program, dump, entries), unexplained(program, made, entries))
        outcomes = [[*it] for it in parts]
    except (OSError, subprocess.SubprocessError, ValueError, KeyError, Broken) as error:
        outcomes = [[f"{type(error).__name__}: {error}"]]
    for faults in filter(None, outcomes):
        print("FAILED", *faults, sep="\n  ")
    failed = sum(map(bool, outcomes))
    print(f"{len(outcomes) - failed} passed, {failed} failed")
    return int(failed != 0)


if __name__ == "__main__":
    sys.exit(main(sys.argv[1:]))
