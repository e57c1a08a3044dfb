#!/usr/bin/env python3
"""Runs `serve --log` on journals in etcd: several daemons on one, folders that they track, members and daemons that are killed, and none.

usage: check_etcd_daemon.py PROGRAM [SECONDS]
Daemons and members are killed for so many seconds, 12 where there is no number. It needs etcd, as check_etcd.py does.
The last line is 'N passed, M failed'.
"""
from __future__ import annotations

import contextlib
import sys
import tempfile
import threading
import time
from pathlib import Path

import check_clients
import check_etcd
from check_clients import FIRST
from check_etcd import LONGEST, PATIENCE, Roaming, entries_of, is_line, unanswered
from check_track_daemon import comes_to
from daemon import SECONDS, WAIT, Client, Daemon, line_of, until
from harness import Broken, differs, run_with
from members import Members, free_ports, has_etcd, key_of

# The calls of each of the clients that are there at once, and the lines that come together.
CALLS, LINES = 40, 300
# How many daemons share a journal whose members are killed, how many clients each has, and the time between two kills.
DAEMONS, CLIENTS, BETWEEN = 3, 8, 2.0
SILENT, AGAIN = b"panad: the log gives no answer; trying again\n", b"panad: the log answers again\n"


class Setting(check_etcd.Setting):
    """The program, a member that runs all the time, and for how long others are killed."""

    def __init__(self, program, one, seconds):
        self.program, self.one, self.seconds = program, one, seconds

    def serve(self, address, *words, **how):
        return Daemon(self.program, "--log", address, *words, **how)


def clients_at_once(setting, room):
    """One journal explains each answer of clients of several daemons, some of two in turn, and each sees at once what another has answered as done."""
    address = setting.one.address("daemons")
    with contextlib.ExitStack() as open_:
        daemons = [open_.enter_context(setting.serve(address)) for _ in range(3)]
        first, second, third = (open_.enter_context(it.client()) for it in daemons)
        first.ask(**FIRST)
        clients = [it.client() for it in daemons for _ in range(3)] + [Roaming(*(it.client() for it in daemons)) for _ in range(3)]
        made = check_clients.run_clients(clients, CALLS)
        entries = entries_of(first)
        yield from differs([len(it) for it in made], [CALLS] * len(clients))
        yield from differs((entries_of(second), entries_of(third)), (entries, entries))
        yield from check_clients.in_order(made, entries)
        yield from check_clients.loads(setting.program, [{"entries": entries}], entries)
        yield from check_clients.unexplained(setting.program, made, entries)
        for at, other in [(first, second), (second, third), (third, first)] * 5:
            done = at.ask("a", "edit", copy=1)["done"]
            yield from differs([it["number"] for it in other.ask("b", "journal", **{"from": done})["entries"]], [done])


def lines_together(setting, room):
    """Lines that come together are put together by each of two daemons, also where others' come between: each is answered, in order, and stands in the journal once."""
    address = setting.one.address("together")
    with setting.serve(address) as first, setting.serve(address) as second, first.client() as one, second.client() as other:
        reports = lambda by, count: b"".join(line_of(by, "register", device=by, path=f"f{it}") for it in range(count))
        one.send(reports("a", LINES))
        yield from differs([one.answer() for _ in range(LINES)], [{"done": it + 1} for it in range(LINES)])
        yield from differs(len({*setting.one.revisions("together")}) <= LINES // 10, True)
        senders = [threading.Thread(target=client.send, args=(reports(by, LINES),)) for client, by in ((one, "b"), (other, "c"))]
        for it in senders:
            it.start()
        done = {by: [client.answer().get("done") for _ in range(LINES)] for client, by in ((one, "b"), (other, "c"))}
        for it in senders:
            it.join()
        entries = entries_of(other)
        yield from differs(entries_of(one), entries)
        for by, numbers in done.items():
            yield from differs([(it["number"], it["path"]) for it in entries if it["by"] == by], [(number, f"f{it}") for it, number in enumerate(numbers)])


def awaited(setting, room):
    """Who waits at one daemon for an entry that is made at another gets it within some seconds."""
    address = setting.one.address("awaited")
    with setting.serve(address) as first, setting.serve(address) as second, first.client() as waits, second.client() as makes:
        makes.ask(**FIRST)
        begun = time.monotonic()
        waits.send(line_of("a", "journal", **{"from": 2, "wait": 20}))
        time.sleep(0.3)
        makes.ask("a", "edit", copy=1)
        found = waits.answer()["entries"]
        while not found and time.monotonic() < begun + SECONDS:
            found = waits.ask("a", "journal", **{"from": 2, "wait": 20})["entries"]
        yield from differs(([it["number"] for it in found], time.monotonic() - begun < 10), ([2], True))


def folders(setting, room):
    """Two daemons that track a folder each say of both what is obsolete; and each goes on from what the other has noticed."""
    address = setting.one.address("folders")
    places = [room / "laptop", room / "usb"]
    for it in places:
        it.mkdir()
        (it / "plan.txt").write_text("one")
    with contextlib.ExitStack() as open_:
        serve = lambda it: open_.enter_context(setting.serve(address, "--track", "--every", "1", f"{it.name}={it}"))
        one, other = map(serve, places)
        clients = [open_.enter_context(it.client()) for it in (one, other)]
        for it in clients:
            yield from comes_to(it, [], "plan.txt")
        (places[0] / "plan.txt").write_text("two")
        for it in clients:
            yield from comes_to(it, [("obsolete", "usb:plan.txt", "laptop:plan.txt")], "plan.txt")
        (places[1] / "plan.txt").write_text("three")
        found = [("conflict", "laptop:plan.txt", "usb:plan.txt"), ("conflict", "usb:plan.txt", "laptop:plan.txt")]
        for it in clients:
            yield from comes_to(it, found, "plan.txt")


def silence(setting, room):
    """Without a majority a call has no answer and its session ends; the daemon stays, and once the members are back it answers, and reports what has changed meanwhile."""
    folder = room / "usb"
    folder.mkdir()
    (folder / "plan.txt").write_text("one")
    with Members(room, 3) as members, setting.serve(members.address("silent"), "--track", "--every", "1", f"usb={folder}") as daemon:
        with daemon.client() as client:
            yield from differs(until(["plan.txt"], lambda: [it["path"] for it in client.ask("a", "holdings", device="usb")["holdings"]]), ["plan.txt"])
            for at in (0, 1):
                members.kill(at)
            begun = time.monotonic()
            client.send(line_of("a", "register", device="a", path="own"))
            yield from differs((client.rest(), PATIENCE < time.monotonic() - begun < LONGEST), (b"", True))
        # Behind one that had no answer the next one has a second.
        with daemon.client() as client:
            begun = time.monotonic()
            client.send(line_of("a", "families"))
            yield from differs((client.rest(), time.monotonic() - begun < PATIENCE), (b"", True))
        (folder / "plan.txt").write_text("two")
        (folder / "later.txt").write_text("later")
        for at in (0, 1):
            members.start(at)
        for at in (0, 1):
            members.wait(at)

        def held():
            with contextlib.suppress(OSError, Broken), daemon.client() as client:
                return [it["path"] for it in client.ask("a", "holdings", device="usb")["holdings"]]

        yield from differs(until(["plan.txt", "later.txt"], held), ["plan.txt", "later.txt"])
        with daemon.client() as client:
            entries = entries_of(client)
        made = [(it["do"], it["by"]) for it in entries]
        yield from differs([do for do, by in made if by == "usb"], ["register", "register", "edit"])
        # The client's report may have been made, once.
        yield from differs([it for it in made if it[1] == "a"] in ([], [("register", "a")]) or made, True)
        daemon.run.kill()
        said = daemon.run.stderr.read()
        # An election may take an answer more than one time.
        yield from differs((said.startswith(SILENT), said.endswith(AGAIN), said.replace(SILENT, b"").replace(AGAIN, b""), said.count(SILENT)), (True, True, b"", said.count(AGAIN)))


def stale(setting, room):
    """With `--stale` questions are answered from what was read, which is a second old or so, and has all reports of the daemon's own; without a majority too, where reports aren't, nor questions of another daemon."""
    counts = lambda copies, devices: {"counts": {"copies": copies, "devices": devices}}
    with Members(room, 3) as members:
        serve = lambda *words: setting.serve(members.address("stale"), "--patience", "1", *words)
        with serve("--stale") as daemon, serve() as other:
            with daemon.client() as client, other.client() as makes:
                makes.ask(**FIRST)
                yield from differs(until(counts(1, 1), lambda: client.ask("a", "counts")), counts(1, 1))
                makes.ask("a", "register", device="a", path="other")
                yield from differs(client.ask("a", "register", device="a", path="own"), {"done": 3})
                yield from differs(client.ask("a", "counts"), counts(3, 2))
            for at in range(3):
                members.kill(at)
            begun = time.monotonic()
            with daemon.client() as client:
                yield from differs([client.ask("a", "counts") for _ in range(100)], [counts(3, 2)] * 100)
                yield from differs(time.monotonic() - begun < PATIENCE, True)
                client.send(line_of("a", "edit", copy=1))
                yield from differs(client.rest(), b"")
            with other.client() as client:
                client.send(line_of("a", "counts"))
                yield from differs(client.rest(), b"")
            with daemon.client() as client:
                yield from differs(client.ask("a", "counts"), counts(3, 2))


def foreign(setting, room):
    """A daemon that meets what is no entry ends with status 1, and writes nothing behind it."""
    name = "later"
    with setting.serve(setting.one.address(name)) as daemon, daemon.client() as client:
        yield from differs(client.ask(**FIRST), {"done": 1})
        setting.one.put(key_of(name, 2), "some text")
        before = setting.one.values(name)
        client.send(line_of("a", "edit", copy=1))
        yield from differs(client.rest(), b"")
        status, out, err = daemon.ended()
        yield from differs((status, out, is_line(err.decode()) or err), (1, b"", True))
        yield from differs(setting.one.values(name), before)


def begins(setting, room):
    """Where no member answers, or what stands there is no journal, a line is printed, and the daemon doesn't begin to listen."""
    down = f"etcd://{','.join(f'127.0.0.1:{it}' for it in free_ports(3))}/none"
    yield from unanswered(setting, ("serve", "--port", "0"), down)
    setting.one.put(key_of("begins", 1), "some text")
    status, out, err = setting.run("serve", "--port", "0", "--log", setting.one.address("begins"))
    yield from differs((status, out, is_line(err, r"entry 1\b") or err), (1, "", True))
    begun = time.monotonic()
    status, out, err = setting.run("serve", "--port", "0", "--log", down, "--patience", "1")
    yield from differs((status, out, is_line(err) or err, time.monotonic() - begun < PATIENCE), (3, "", True, True))


class Reporter(threading.Thread):
    """A client that reports edits of a copy of its own until it is to end, and asks for it, and notes what comes of each. Where it loses its daemon it goes to the next one, or, one client of two, waits for it: so no daemon has more clients than it serves."""

    def __init__(self, ports, at, over):
        super().__init__()
        self.ports, self.turn, self.by, self.over = ports, at, f"c{at}", over
        self.moves = at // DAEMONS % 2
        self.steps, self.client, self.copy = [], None, 0

    def connect(self):
        while not self.over.is_set():
            with contextlib.suppress(OSError):
                self.client = Client(self.ports[self.turn % len(self.ports)])
                return
            time.sleep(WAIT)

    def register(self):
        self.connect()
        self.copy = self.client.ask(self.by, "register", device=self.by, path="own")["done"]
        self.steps.append(("done", self.copy))

    def run(self):
        while not self.over.is_set():
            try:
                self.steps.append(("done", self.client.ask(self.by, "edit", copy=self.copy)["done"]))
                self.steps.append(("seen", self.client.ask(self.by, "holdings", device=self.by)["holdings"][0]["touch"]))
            except (OSError, Broken):
                self.steps.append(("lost", 0))
                self.client.close()
                self.turn += self.moves
                self.connect()
        self.client.close()

    def faults(self, own):
        """What differs from: the entries of its own are those that were answered as done, and at most one for each call without an answer."""
        place, unknown = 0, 0
        for kind, number in self.steps:
            if kind == "lost":
                unknown += 1
            elif kind == "done":
                skipped = [it for it in own[place:] if it < number]
                unknown, place = unknown - len(skipped), place + len(skipped)
                yield from differs((self.by, own[place : place + 1], unknown >= 0), (self.by, [number], True))
                place += 1
            else:
                yield from differs((self.by, number in own[place - 1 : place + unknown] or number), (self.by, True))
        yield from differs((self.by, len(own) - place <= unknown), (self.by, True))


def killed(setting, room):
    """While members and daemons are killed and started again, one after another, one journal has each report that was answered, once, and at most once each of the others."""
    over, ports = threading.Event(), free_ports(DAEMONS)
    with contextlib.ExitStack() as open_:
        members = open_.enter_context(Members(room, 3))
        address = members.address("killed")
        serve = lambda at: open_.enter_context(setting.serve(address, port=ports[at]))
        daemons = [serve(at) for at in range(DAEMONS)]
        reporters = [Reporter(ports, at, over) for at in range(DAEMONS * CLIENTS)]
        open_.callback(over.set)
        for it in reporters:
            it.register()
        for it in reporters:
            it.start()
        end, at = time.monotonic() + setting.seconds, 0
        while time.monotonic() < end:
            members.kill(at % 3)
            daemons[at % DAEMONS].run.kill()
            daemons[at % DAEMONS].run.wait()
            time.sleep(BETWEEN / 2)
            members.start(at % 3)
            members.wait(at % 3)
            daemons[at % DAEMONS] = serve(at % DAEMONS)
            time.sleep(BETWEEN / 2)
            at += 1
        over.set()
        for it in reporters:
            it.join()
        journals = []
        for daemon in daemons:
            with daemon.client() as client:
                journals.append(entries_of(client))
        entries = journals[0]
        yield from differs(journals, [entries] * DAEMONS)
        yield from differs(len(members.values("killed")), len(entries))
    yield from differs([it["number"] for it in entries], [*range(1, len(entries) + 1)])
    yield from check_clients.loads(setting.program, [{"entries": entries}], entries)
    for it in reporters:
        yield from it.faults([entry["number"] for entry in entries if entry["by"] == it.by])
    done = [sum(kind == "done" for kind, _ in it.steps) for it in reporters]
    yield from differs(min(done) > 2 or done, True)


CHECKS = (clients_at_once, lines_together, awaited, folders, silence, stale, foreign, begins, killed)


def main(words):
    if not 0 < len(words) < 3:
        print(__doc__, file=sys.stderr)
        return 2
    if not has_etcd():
        print("skipped: there is no etcd\n0 passed, 0 failed")
        return 0
    seconds = float(words[1]) if len(words) > 1 else 12
    with tempfile.TemporaryDirectory() as room, Members(Path(room), 1) as one:
        return run_with(Setting(str(Path(words[0]).resolve()), one, seconds), CHECKS)


if __name__ == "__main__":
    sys.exit(main(sys.argv[1:]))
