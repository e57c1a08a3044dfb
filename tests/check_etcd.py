#!/usr/bin/env python3
"""Runs the program on journals in etcd: by one member, by three that are killed, by made-up ones, and by none.

usage: check_etcd.py PROGRAM
It needs etcd: as root it installs Debian's, and where there is none these checks are skipped, which is printed.
The last line is 'N passed, M failed'.
"""
from __future__ import annotations

import contextlib
import itertools
import json
import re
import subprocess
import sys
import tempfile
import threading
import time
from concurrent.futures import ThreadPoolExecutor
from pathlib import Path

import check_clients
from check_clients import FIRST
from daemon import SECONDS, line_of, pages
from harness import Broken, differs, faults_of, run_with
from members import MadeUp, Members, free_ports, has_etcd, key_of

# The calls of each of the sessions that are there at once.
CALLS = 40
# How many times a member is killed, the pause after each time, and that before the next one.
KILLS, DOWN, UP = 6, 1.0, 0.5
# For how many seconds an answer is waited for at least where none comes, and at most on a busy machine.
PATIENCE, LONGEST = 9, 25
# For how many seconds a call waits while members of a busy machine choose a leader.
CHOICE = 40
LAPTOP, USB, DESK = "laptop:plan.txt", "usb:plan.txt", "desk:notes.txt"
LINES = (
    line_of("laptop", "register", device="laptop", path="plan.txt"),
    line_of("laptop", "duplicate", copy=1, device="usb", path="plan.txt", sum="4355a46b19d348dc2f57c046f8ef63d4538ebb936000f3c9ee954a27460dd865"),
    line_of("laptop", "edit", copy=1),
)
LATER = (
    line_of("usb", "edit", copy=9),
    line_of("usb", "edit", copy=2),
    line_of("desk", "found", device="desk", path="notes.txt", sum="0" * 64),
    line_of("desk", "found", device="desk", path="notes.txt", sum="0" * 64),
    b"no line\n",
    line_of("desk", "status", **{"from": 1}),
    line_of("desk", "journal", **{"from": 1}),
)
# Words of commands, and whether folders are behind them.
COMMANDS = (
    ("show",),
    ("show", "--split"),
    ("show", "--family", "1"),
    ("show", "--family", "9"),
    ("status",),
    ("status", "--all", "usb:"),
    ("status", "--json"),
    ("why", LAPTOP, USB),
    ("why", LAPTOP, "usb:none"),
    ("history", USB),
    ("may-overwrite", LAPTOP, "--by", USB),
    ("report", "merge", LAPTOP, USB),
    ("report", "edit", "usb:none"),
    ("report", "register", LAPTOP),
    ("report", "found", DESK, "--sum", "1" * 64),
    ("may-overwrite", LAPTOP, "--by", USB),
    ("report", "withdraw", "6", "--by", "laptop"),
    ("history", LAPTOP),
    ("status", "--quiet"),
)


class Run:
    """A session by a run of its own on a log, with these words beside."""

    def __init__(self, program, address, *words):
        pipe = subprocess.PIPE
        self.run = subprocess.Popen([program, "run", "--log", address, *words], stdin=pipe, stdout=pipe, stderr=pipe, bufsize=0)

    def __enter__(self):
        return self

    def __exit__(self, *_):
        self.close()

    def send(self, data):
        self.run.stdin.write(data)

    def answer(self):
        """The next answer, as it is parsed."""
        line = self.run.stdout.readline()
        if not line.endswith(b"\n"):
            raise Broken(f"an answer is missing, or cut: {line!r:.200}")
        return json.loads(line)

    def ask(self, by, do, **fields):
        self.send(line_of(by, do, **fields))
        return self.answer()

    def ended(self):
        """The status with which it ends by itself, and what it has written by then that wasn't read."""
        rest = self.run.stdout.read()
        self.run.wait(timeout=SECONDS)
        return self.run.returncode, rest, self.run.stderr.read().decode()

    def printed(self):
        """What it has printed on standard error, once it has ended, by itself or not."""
        self.run.stdin.close()
        with contextlib.suppress(subprocess.TimeoutExpired):
            self.run.wait(timeout=1)
        self.run.kill()
        return self.run.stderr.read().decode()

    def close(self):
        self.run.kill()
        self.run.wait()
        for it in (self.run.stdin, self.run.stdout, self.run.stderr):
            it.close()


class Roaming:
    """A client of several sessions, which makes its calls at each in turn."""

    def __init__(self, *sessions):
        self.sessions, self.turns = sessions, itertools.cycle(sessions)

    def ask(self, *words, **fields):
        return next(self.turns).ask(*words, **fields)

    def close(self):
        for it in self.sessions:
            it.close()


class Setting:
    """The program, and a member that runs all the time."""

    def __init__(self, program, one, pool):
        self.program, self.one = program, one
        # What waits longest runs beside the other checks.
        self.waiting = pool.submit(faults_of, no_answers, self)

    def session(self, address, *words):
        return Run(self.program, address, *words)

    def run(self, *words, given=b""):
        """The status of a run, what it prints, and what it reports on standard error."""
        done = subprocess.run([self.program, *map(str, words)], input=given, capture_output=True, timeout=3 * SECONDS)
        return done.returncode, done.stdout.decode(), done.stderr.decode()


def is_line(text, what=""):
    """Whether a text is one line of the program that has these words."""
    return re.fullmatch(rf"panad: [^\n]*{what}[^\n]*\n", text) is not None


def as_a_file(setting, room):
    """With a log each command prints what it prints with a journal's file, and the next one goes on from there."""
    file, log, shared = room / "journal", ("--log", setting.one.address("file")), {}
    both = lambda *words, **how: [setting.run(*words, *keeper, **how) for keeper in (log, ("--journal", file))]
    # Logs whose names begin alike are others.
    for it in ("file.b", "file-b", "file0", "fil", "FILE"):
        setting.one.put(key_of(it, 1), "some text")
    folders = [room / "laptop", room / "usb"]
    for it in folders:
        it.mkdir()
        (it / "plan.txt").write_text("A plan.\n")
    of_folders = [f"{it.name}={it}" for it in folders]
    by_log, by_file = both("run", given=b"".join(LINES))
    yield from differs(by_log, (0, '{"done":1}\n{"done":2}\n{"done":3}\n', ""))
    yield from differs(by_log, by_file)
    rows = [(("run",), b"".join(LATER)), *((it, b"") for it in COMMANDS), (("track", *of_folders), b""), (("track", *of_folders, "--json"), b"")]
    for words, given in rows:
        by_log, by_file = both(*words, given=given)
        yield from differs((words, by_log), (words, by_file))
    (folders[0] / "plan.txt").write_text("A plan for two.\n")
    by_log, by_file = both("track", *of_folders)
    yield from differs((by_log[1:], by_log[0]), (by_file[1:], 1))
    # Each entry stands under its key, in a line of a dump.
    values = setting.one.values("file")
    entries = [entry for line in [*file.read_bytes().split(b"\0")[0].splitlines()] for entry in json.loads(line)["entries"]]
    yield from differs([*values], [key_of("file", number) for number in range(1, len(entries) + 1)])
    yield from differs([json.loads(it)["entries"] for it in values.values()], [[it] for it in entries])
    (room / "dump").write_text("".join(f"{it}\n" for it in values.values()))
    yield from differs(setting.run("load", room / "dump"), setting.run("show", "--journal", file))


def copied(setting, room):
    """A journal is copied from a file into etcd, and back, entry by entry; a target that isn't empty is refused, and stays as it is."""
    file, back, other = room / "journal", room / "back", room / "other"
    address, empty = setting.one.address("copied"), setting.one.address("never")
    setting.run("run", "--journal", file, given=b"".join((*LINES, *LATER, line_of("usb", "withdraw", entry=4))))
    setting.run("run", "--journal", other, given=LINES[0])
    dump = lambda *keeper: setting.run("run", *keeper, given=LATER[-1])
    count = len(json.loads(dump("--journal", file)[1])["entries"])
    copy = lambda source, target: setting.run("log", "copy", "--from", source, "--to", target)
    for source, target, keeper in ((file, address, "--log"), (address, back, "--journal")):
        yield from differs(copy(source, target), (0, f"copied {count} entries\n", ""))
        yield from differs(dump(keeper, target), dump("--journal", file))
        yield from differs(setting.run("show", keeper, target), setting.run("show", "--journal", file))
    for source, target in ((other, address), (address, other), (file, file), (address, address)):
        yield from differs((source, target, *copy(source, target)), (source, target, 3, "", "panad: the target isn't empty\n"))
    yield from differs((dump("--log", address), len(setting.one.values("copied"))), (dump("--journal", file), count))
    yield from differs(copy(empty, room / "none"), (0, "copied 0 entries\n", ""))
    for words in (("--from", file), ("--to", address), ("--from", file, "--to", "etcd://a"), ("--from", "etcd://", "--to", file)):
        status, out, err = setting.run("log", "copy", *words)
        yield from differs((words, status, out, err[:7]), (words, 2, "", "error: "))


def copied_in_groups(setting, room):
    """A longer journal is put into etcd 100 entries at once, in order, each once."""
    file, address = room / "journal", setting.one.address("groups")
    setting.run("run", "--journal", file, given=b"".join(line_of("a", "register", device="a", path=f"f{it}") for it in range(250)))
    yield from differs(setting.run("log", "copy", "--from", file, "--to", address), (0, "copied 250 entries\n", ""))
    revisions = setting.one.revisions("groups")
    yield from differs((sizes(revisions), revisions), ([100, 100, 50], sorted(revisions)))
    yield from differs(setting.run("show", "--log", address), setting.run("show", "--journal", file))


def sizes(revisions):
    """How many entries each transaction has put, in the order of these."""
    return [revisions.count(it) for it in sorted({*revisions})]


def reported_in_groups(setting, room):
    """The lines of a file, questions and faults among them, and the files of a folder are put into etcd 100 entries at once, and answered as with a journal's file."""
    lines = [line_of("a", "register", device="a", path=f"f{it}") for it in range(250)]
    for it in range(20, 250, 50):
        lines[it:it] = [line_of("a", "counts"), b"no line\n", line_of("a", "edit", copy=it + 200), line_of("a", "edit", copy=1)]
    (room / "lines").write_bytes(b"".join(lines))
    folder = room / "a"
    folder.mkdir()
    for it in range(250):
        (folder / f"f{it:03}").write_text(f"File {it}.\n")
    # A file may need two entries, so the last of a hundred has a transaction of its own.
    for name, words, least in (("lines", ("run",), 3), ("folder", ("track", f"a={folder}"), 5)):
        made = []
        for keeper in (("--log", setting.one.address(name)), ("--journal", room / name[0])):
            with open(room / "lines", "rb") as given:
                done = subprocess.run([setting.program, *words, *map(str, keeper)], stdin=given, capture_output=True, timeout=3 * SECONDS)
            made.append((done.returncode, done.stdout, done.stderr))
        yield from differs(made[0], made[1])
        revisions = setting.one.revisions(name)
        yield from differs((revisions, len({*revisions}) <= least + 1, max(sizes(revisions)) <= 100), (sorted(revisions), True, True))
        yield from differs(setting.run("show", "--log", setting.one.address(name)), setting.run("show", "--journal", room / name[0]))


def words_refused(setting, room):
    """What is no address of a log is refused with a line, and so is a log beside a journal or a daemon, and an option for a log without one or of a command that has none."""
    port = setting.one.ports[0]
    addresses = ("", "etcd", "http://127.0.0.1:2379/a", f"etcd://127.0.0.1:{port}", f"etcd://127.0.0.1:{port}/", f"etcd://127.0.0.1:{port}/a/b", "etcd:///a", "etcd://127.0.0.1/a")
    addresses += ("etcd://127.0.0.1:x/a", "etcd://127.0.0.1:65536/a", "etcd://127.0.0.1:02379/a", f"etcd://127.0.0.1:{port},/a", f"etcd://a@127.0.0.1:{port}/a", f"etcd://:b@127.0.0.1:{port}/a", f"etcd://a:@127.0.0.1:{port}/a", f"etcd://a:b@c@127.0.0.1:{port}/a", f"etcd://127.0.0.1:{port}/{'a' * 101}")
    addresses += (f"etcd://{','.join([f'127.0.0.1:{port}'] * 10)}/a", f"etcd://127.0.0.1:{port}/a b")
    for address, word in itertools.product(addresses, ("run", "status", "serve")):
        got, out, err = setting.run(word, *(("--port", "0") if word == "serve" else ()), "--log", address)
        yield from differs((address, word, got, out, err.startswith(f"error: log {address.rpartition('@')[2]}: ") or err), (address, word, 2, "", True))
    address = setting.one.address("words")
    rows = (("run", "--journal", room / "a"), ("status", "--journal", room / "a"), ("status", "--port", "7"), ("report", "edit", USB, "--port", "7"), ("show", "--port", "7"), ("serve", "--port", "0", "--journal", room / "a"))
    for words in (*rows, ("run", "--patience", "x"), ("run", "--patience", "3", "--journal", room / "a")):
        status, out, err = setting.run(*words, "--log", address)
        yield from differs((words, status, out, err[:7]), (words, 2, "", "error: "))
    alone = (("run", "--stale"), ("run", "--patience", "3"), ("run", "--stale", "--journal", room / "a"), ("serve", "--port", "0", "--stale"))
    patient = (("run", "--journal", room / "a"), ("serve", "--port", "0", "--journal", room / "a"), ("status", "--journal", room / "a"), ("status", "--port", "7"), ("show", "--port", "7"))
    for words in (*alone, *((*words, "--patience", "3") for words in patient), ("status", "--log", address, "--stale"), ("report", "edit", USB, "--log", address, "--stale")):
        status, out, err = setting.run(*words)
        yield from differs((words, status, out, err[:7]), (words, 2, "", "error: "))
    yield from differs((setting.one.values("words"), (room / "a").exists()), ({}, False))


def entries_of(session):
    return [entry for page in pages(session) for entry in page["entries"]]


def sessions_at_once(setting, room):
    """One journal explains each answer of sessions by runs of their own, some clients of two in turn, and each sees at once what another has answered as done."""
    address = setting.one.address("once")
    session = lambda: setting.session(address)
    with session() as first, session() as second:
        first.ask(**FIRST)
        made = check_clients.run_clients([*(session() for _ in range(6)), *(Roaming(session(), session()) for _ in range(2))], CALLS)
        entries = entries_of(first)
        yield from differs([len(it) for it in made], [CALLS] * 8)
        yield from differs(entries_of(second), entries)
        yield from check_clients.in_order(made, entries)
        yield from check_clients.loads(setting.program, [{"entries": entries}], entries)
        yield from check_clients.unexplained(setting.program, made, entries)
        for at, other in [(first, second), (second, first)] * 10:
            done = at.ask("a", "edit", copy=1)["done"]
            yield from differs([it["number"] for it in other.ask("b", "journal", **{"from": done})["entries"]], [done])


class Reporter(threading.Thread):
    """A client that reports edits of a copy of its own until it is to end, and notes each number that was answered as done."""

    def __init__(self, session, by, over):
        super().__init__()
        self.session, self.by, self.over, self.done, self.faults, self.longest = session, by, over, [], [], 0

    def run(self):
        try:
            copy = self.session.ask(self.by, "register", device=self.by, path="own")["done"]
            self.done.append(copy)
            while not self.over.is_set():
                begun = time.monotonic()
                self.done.append(self.session.ask(self.by, "edit", copy=copy)["done"])
                found = self.session.ask(self.by, "holdings", device=self.by)["holdings"]
                self.faults += differs(found[0]["touch"], self.done[-1])
                self.longest = max(self.longest, time.monotonic() - begun)
        except (OSError, Broken, ValueError, KeyError) as error:
            self.faults.append(f"{self.by} ended after {len(self.done)} reports: {error!r:.200}, {self.session.printed()!r:.200}")


def killed(setting, room):
    """While members are killed and started again, one at a time, and one run is killed too, each call is answered; all that was done is there, once."""
    over = threading.Event()
    with contextlib.ExitStack() as open_:
        members = open_.enter_context(Members(room, 3))
        address = members.address("killed")
        sessions = [open_.enter_context(setting.session(address, "--patience", str(CHOICE))) for _ in range(7)]
        reporters = [Reporter(it, f"c{at}", over) for at, it in enumerate(sessions)]
        open_.callback(over.set)
        for it in reporters:
            it.start()
        for at in range(KILLS):
            members.kill(at % 3)
            time.sleep(DOWN)
            members.start(at % 3)
            members.wait(at % 3)
            time.sleep(UP)
            if at == 2:
                sessions[6].run.kill()
        over.set()
        for it in reporters:
            it.join()
        for it in reporters[:6]:
            yield from it.faults
        entries = entries_of(sessions[0])
        yield from differs(entries_of(sessions[1]), entries)
        yield from differs(len(members.values("killed")), len(entries))
    yield from differs([it["number"] for it in entries], [*range(1, len(entries) + 1)])
    for it in reporters:
        own = [entry["number"] for entry in entries if entry["by"] == it.by]
        if it.session is sessions[6]:
            # Its last report may have been put, and has no answer.
            yield from differs((it.by, len(own) - len(it.done) in (0, 1) or own), (it.by, True))
            own = own[: len(it.done)]
        yield from differs((it.by, it.done), (it.by, own))
    # Who is answered at all is answered between the kills too.
    least = min(len(it.done) for it in reporters[:6])
    yield from differs(least > 2 or least, True)


def other_values(setting, room):
    """What isn't the next entry of a journal is reported by its number, status not 0, and nothing is written behind it."""
    one = setting.one
    setting.run("run", "--log", one.address("good"), given=b"".join(LINES))
    good = one.values("good")
    third = good[key_of("good", 3)]
    rows = (
        ("foreign", 4, "some text"),
        ("empty", 4, ""),
        ("cut", 2, good[key_of("good", 2)][:-9]),
        ("hole", 4, third.replace('"number":3', '"number":5')),
        ("missing", 2, None),
        ("first", 1, None),
        ("other", 4, third),
        ("unknown", 4, third.replace('"number":3', '"number":4').replace('"copy":1', '"copy":9')),
        ("writer", 3, json.dumps({"entries": json.loads(third)["entries"]})),
        ("key", 4, "beside"),
    )
    for name, number, text in rows:
        address = one.address(name)
        for at in (1, 2, 3):
            one.put(key_of(name, at), good[key_of("good", at)])
        at = {"hole": key_of(name, 5), "key": f"{name}/more"}.get(name, key_of(name, number))
        one.delete(at) if text is None else one.put(at, text)
        before = one.values(name)
        for words, status in ((("run",), 1), (("show",), 1), (("report", "edit", LAPTOP), 3), (("status",), 3)):
            got, out, err = setting.run(*words, "--log", address, given=line_of("laptop", "edit", copy=1))
            yield from differs((name, words, got, out, is_line(err, rf"entry {number}\b") or err), (name, words, status, "", True))
        yield from differs((name, one.values(name)), (name, before))


def other_value_later(setting, room):
    """A run that meets such a value answers nothing any more and names it; what was done before stays."""
    for name, line in (("later-report", line_of("a", "edit", copy=1)), ("later-question", line_of("a", "families")), ("later-refused", line_of("a", "edit", copy=9))):
        with setting.session(setting.one.address(name)) as session:
            for it in LINES:
                session.send(it)
            yield from differs([session.answer() for _ in LINES], [{"done": it} for it in (1, 2, 3)])
            setting.one.put(key_of(name, 4), "some text")
            before = setting.one.values(name)
            session.send(line)
            yield from differs((name, *session.ended()), (name, 1, b"", "panad: log: what stands at 4 is no entry\n"))
        status, out, err = setting.run("run", "--log", setting.one.address(name))
        yield from differs((name, status, out, is_line(err, r"entry 4\b") or err), (name, 1, "", True))
        yield from differs(setting.one.values(name), before)


def full(setting, room):
    """Where etcd has no room a report is NotKept, nothing has changed, and questions are answered."""
    with Members(room, 1, "--quota-backend-bytes", "3000000") as one, setting.session(one.address("full")) as client:
        yield from differs(client.ask("a", "register", device="a", path="f"), {"done": 1})
        with contextlib.suppress(Broken):
            for it in range(30):
                one.put(f"other/{it}", "x" * 500_000)
        refusal = {"code": 14, "refused": "NotKept"}
        yield from differs([client.ask("a", "edit", copy=it) for it in (1, 2, 1)], [refusal, {"code": 2, "copy": 2, "refused": "UnknownCopy"}, refusal])
        yield from differs((len(entries_of(client)), len(one.values("full"))), (1, 1))


def logged_in(setting, room):
    """Where etcd wants a password the one in the address counts, also for a member that has forgotten who logged in; without it nothing is answered, and it is never printed."""
    with Members(room, 1) as one:
        for path, body in (("user/add", {"name": "root", "password": "se:cret"}), ("user/grant", {"user": "root", "role": "root"}), ("enable", {})):
            one.ask(f"/v3/auth/{path}", **body)
        plain = one.address("inside")
        address = plain.replace("//", "//root:se:cret@")
        with setting.session(address) as client:
            yield from differs(client.ask("a", "register", device="a", path="f"), {"done": 1})
            one.kill(0)
            one.start(0)
            yield from differs(client.ask("a", "edit", copy=1), {"done": 2})
        yield from differs(setting.run("run", "--log", address, given=line_of("a", "edit", copy=1)), (0, '{"done":3}\n', ""))
        for it in (plain, plain.replace("//", "//root:other@"), plain.replace("//", "//none:se:cret@")):
            status, out, err = setting.run("run", "--log", it, "--patience", "1")
            yield from differs((it, status, out, is_line(err, plain.partition("//")[2]) or err), (it, 3, "", True))


def unanswered(setting, words, address):
    """What differs from a run that gets no answer: one line, after the patience for one, and no more."""
    begun = time.monotonic()
    got, out, err = setting.run(*words, "--log", address, given=LINES[0])
    took = time.monotonic() - begun
    return [*differs((words, address, got, out, is_line(err) or err, PATIENCE < took < LONGEST or took), (words, address, 3, "", True, True))]


def by_made_up(setting, way, is_alone):
    """What differs from answers where a made-up member is asked first, and then a real one, which a good one needs not."""
    name = f"{'alone' if is_alone else 'first'}-{way}"
    with MadeUp(way, setting.one.ports[0]) as member:
        address = f"etcd://127.0.0.1:{member.port}/{name}" if is_alone else setting.one.address(name, member.port)
        got = setting.run("run", "--log", address, given=b"".join((*LINES, *LATER[:2])))
        found = setting.run("run", "--log", address, given=LATER[-1])
    answers = [{"done": 1}, {"done": 2}, {"done": 3}, {"code": 2, "copy": 9, "refused": "UnknownCopy"}, {"done": 4}]
    wanted = (0, "".join(json.dumps(it, separators=(",", ":")) + "\n" for it in answers), "")
    values = [json.loads(it) for it in setting.one.values(name).values()]
    yield from differs((name, got), (name, wanted))
    yield from differs((name, found[0], json.loads(found[1] or "null")), (name, 0, {"entries": [entry for it in values for entry in it["entries"]]}))
    yield from differs((name, len(values), len({(it["writer"], it["turn"]) for it in values})), (name, 4, 4))


def no_majority(setting, room):
    """What differs where two of three members are killed: nothing is answered, the runs end, and once the members are back all is there."""
    lines = (LINES[2], line_of("a", "families"))
    with Members(room, 3) as members, contextlib.ExitStack() as open_:
        address = members.address("three")
        sessions = [open_.enter_context(setting.session(address)) for _ in lines]
        # Each has read the log before the members are killed.
        yield from differs(sessions[0].ask("laptop", "register", device="laptop", path="plan.txt"), {"done": 1})
        yield from differs(len(sessions[1].ask("a", "families")["families"]), 1)
        for at in (0, 1):
            members.kill(at)
        begun = time.monotonic()
        for session, line in zip(sessions, lines):
            session.send(line)
        for session in sessions:
            yield from differs((session.ended(), PATIENCE < time.monotonic() - begun < LONGEST), ((1, b"", "panad: the log gives no answer\n"), True))
        for at in (0, 1):
            members.start(at)
        for at in (0, 1):
            members.wait(at)
        status, out, err = setting.run("run", "--log", address, given=LATER[-1])
        yield from differs((status, len(json.loads(out)["entries"]) in (1, 2), err), (0, True, ""))


def no_answers(setting, room):
    """What `waited` is about."""
    commands = [("run",), ("show",), ("status",), ("report", "edit", LAPTOP), ("why", LAPTOP, USB), ("history", USB), ("may-overwrite", LAPTOP, "--by", USB), ("track", f"usb={room}")]
    down = [f"127.0.0.1:{it}" for it in free_ports(3)]
    good, bad = ("slow", "pieces", "chunks", "to_the_end", "every_second"), ("late", "never", "blanks", "heads", "500", "503", "nonsense", "no_json", "no_answer", "a_part", "nothing")
    (room / "three").mkdir()
    with contextlib.ExitStack() as open_, ThreadPoolExecutor(50) as pool:
        tries = [pool.submit(lambda: [*no_majority(setting, room / "three")])]
        for it in commands:
            tries.append(pool.submit(unanswered, setting, it, f"etcd://{','.join(down)}/none"))
        for way in bad[1:]:
            port = open_.enter_context(MadeUp(way, setting.one.ports[0])).port
            tries.append(pool.submit(unanswered, setting, ("run",), f"etcd://127.0.0.1:{port}/none"))
        for way, is_alone in [*((it, True) for it in good), *((it, False) for it in (*good, *bad))]:
            tries.append(pool.submit(lambda way=way, is_alone=is_alone: [*by_made_up(setting, way, is_alone)]))
        for it in tries:
            yield from it.result()
    yield from differs(setting.one.values("none"), {})


def waited(setting, room):
    """Where no member, no majority or a made-up member answers, one line is printed and nothing else; else the answers come by any member that gives them."""
    yield from setting.waiting.result()


CHECKS = (as_a_file, copied, copied_in_groups, reported_in_groups, logged_in, words_refused, sessions_at_once, killed, other_values, other_value_later, full, waited)


def main(words):
    if len(words) != 1:
        print(__doc__, file=sys.stderr)
        return 2
    if not has_etcd():
        print("skipped: there is no etcd\n0 passed, 0 failed")
        return 0
    with tempfile.TemporaryDirectory() as room, Members(Path(room), 1) as one, ThreadPoolExecutor() as pool:
        return run_with(Setting(str(Path(words[0]).resolve()), one, pool), CHECKS)


if __name__ == "__main__":
    sys.exit(main(sys.argv[1:]))
