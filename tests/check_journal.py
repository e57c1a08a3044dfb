#!/usr/bin/env python3
"""Runs `run --journal` through kills, cuts, flipped bits, and files that are no journals.

usage: check_journal.py PROGRAM [quick]
With quick fewer kills, cuts and flips are made. The last line is 'N passed, M failed'.
"""
from __future__ import annotations

import contextlib
import hashlib
import json
import os
import random
import shutil
import subprocess
import sys
import threading
from concurrent.futures import ThreadPoolExecutor
from dataclasses import dataclass
from pathlib import Path

import scenario
from journals import BOARD, EDIT, REGISTER, Session, answers, each_command, entries, line, made, pages, ran, reported
from harness import differs, run_with

NOBODY = 65534
MOST_LINES = 3000
# How many entries may be kept of which no answer was read: those of the lines that came by one read, of 65,536 bytes.
MOST_WAITING = 2000
JOURNALS = 4


@dataclass(frozen=True)
class Setting:
    """What is checked, and how often it is killed and cut."""

    program: str
    kills: int
    starts: int
    every: int

    def lengths(self, whole):
        """To which lengths it is cut: to each, or to some."""
        return range(0, len(whole) + 1, self.every)

    def bits(self, whole):
        """Which bits are flipped, each by its byte's place and its number: all, or some."""
        return [(at, bit) for at in range(len(whole)) for bit in range(8)][:: self.every]


class Reader(threading.Thread):
    """Reads a program's answers until it ends."""

    def __init__(self, stream):
        super().__init__()
        self.stream, self.read = stream, []
        self.start()

    def run(self):
        for answer in self.stream:
            if answer.endswith(b"\n"):
                self.read.append(answer)


def load_until_killed(program, file, first, seconds):
    """Reports edits until the program is killed, and returns how many entries were acknowledged."""
    words = [program, "run", "--journal", str(file)]
    with subprocess.Popen(words, stdin=subprocess.PIPE, stdout=subprocess.PIPE, stderr=subprocess.DEVNULL) as started:
        reader = Reader(started.stdout)
        killer = threading.Timer(seconds, started.kill)
        killer.start()
        with contextlib.suppress(BrokenPipeError):
            while started.poll() is None:
                started.stdin.write(b"".join(line(by=f"d{random.randrange(9)}", do="edit", copy=1) for _ in range(20)))
                started.stdin.flush()
        killer.join()
        with contextlib.suppress(BrokenPipeError):
            started.stdin.close()
        reader.join()
    for number, answer in enumerate(reader.read, first):
        if answer != b'{"done":%d}\n' % number:
            raise ValueError(f"entry {number} of {first} and more is answered {answer!r:.200}")
    return first + len(reader.read) - 1


def killed_again_and_again(program, room, count):
    """Kills runs on one journal at random moments: how often that left bytes behind the last entry, and what is wrong."""
    file = room / "journal"
    room.mkdir()
    there, torn, faults = len(answers(program, file, REGISTER)), 0, []
    for number in range(count):
        if there > MOST_LINES:
            file.unlink()
            there = len(answers(program, file, REGISTER))
        least = load_until_killed(program, file, there + 1, random.uniform(0.005, 0.25))
        status, out, err = ran(program, "run", "--journal", file, given=pages(least + MOST_WAITING + 100))
        found = [entry for page in out.splitlines() for entry in json.loads(page)["entries"]]
        torn += b"cut off" in err
        if status or len(found) < least or [entry["number"] for entry in found] != [*range(1, len(found) + 1)]:
            faults.append(f"kill {number}: {least} were acknowledged, {len(found)} are there; {status} {err!r}")
        there = len(found)
    return torn, faults


def kills(it, room):
    """Killed at random moments, the file opens each time, and every Done that was read is there."""
    with ThreadPoolExecutor(JOURNALS) as pool:
        found = list(pool.map(lambda at: killed_again_and_again(it.program, room / str(at), it.kills // JOURNALS), range(JOURNALS)))
    for _, faults in found:
        yield from faults
    print(f"  {it.kills} kills, {sum(torn for torn, _ in found)} left bytes behind the last entry")


def cuts(it, room):
    """Cut to each length, a journal opens where its last line is whole, and else is reported and stays as it is."""
    file, cut = room / "journal", room / "cut"
    all_of = made(it.program, file, 2)
    whole = file.read_bytes()
    ends = [0, *(at + 1 for at, byte in enumerate(whole) if byte == 10), len(whole)]
    for length in it.lengths(whole):
        cut.write_bytes(whole[:length])
        if length in ends:
            lines = max(0, whole[:length].count(b"\n") - 1)
            yield from differs(entries(it.program, cut, 3), all_of[:lines])
            yield from differs(answers(it.program, cut, BOARD)[0].get("refused"), None if lines else "UnknownFamily")
        else:
            for found in each_command(it.program, cut):
                yield from differs(found, reported(b"", f"journal {cut}: the last line has no newline"))
            yield from differs(cut.read_bytes(), whole[:length])


def flips(it, room):
    """With any of its bits flipped, a journal isn't opened, by no command, and stays as it is."""
    file, other = room / "journal", room / "other"
    made(it.program, file, 1)
    whole = file.read_bytes()
    damaged = 0
    for at, bit in it.bits(whole):
        held = bytearray(whole)
        held[at] ^= 1 << bit
        other.write_bytes(held)
        for words in (("run", "--journal"), ("show", "--journal"), ("load",)):
            status, out, err = ran(it.program, *words, other, given=REGISTER)
            if (status, out, err.count(b"\n")) != (1, b"", 1):
                yield f"bit {bit} of byte {at}, {words[0]}: {status} {out!r:.80} {err!r:.80}"
            damaged += b": Damaged" in err
        yield from differs(other.read_bytes(), bytes(held))
    print(f"  {damaged} times it was reported as Damaged")


def bytes_behind(it, room):
    """What a commit in progress may leave behind the end is cut off and counted, and other bytes are reported and stay."""
    file, other = room / "journal", room / "other"
    all_of = made(it.program, file, 3)
    whole = file.read_bytes()
    for length in (1, 2, 50, 5000):
        for more in (random.randbytes(length), b"\n" * length, whole[1:30]):
            other.write_bytes(whole + more)
            error = b"panad: journal %s: %d bytes behind the last entry were cut off\n" % (os.fsencode(other), len(more))
            yield from differs(entries(it.program, other, 4, error), all_of)
            yield from differs(other.read_bytes(), whole)
    for more in (b"\n" + whole, b"x" * 1_048_578):
        other.write_bytes(whole + more)
        for found in (*each_command(it.program, other), ran(it.program, "load", other)):
            yield from differs(found, reported(b"", f"journal {other}: not a journal"))
        yield from differs(other.read_bytes(), whole + more)


def names_that_lead_elsewhere(it, room):
    """Once its name leads to another file, or to none, the journal has failed, and no entry is acknowledged."""
    for change in (Path.unlink, lambda name: name.rename(room / "moved"), lambda name: (room / "new").rename(name)):
        file = room / "journal"
        (room / "new").write_bytes(b"")
        file.unlink(missing_ok=True)
        session = Session(it.program, file)
        yield from differs(session.ask(REGISTER), {"done": 1})
        change(file)
        yield from differs(session.ask(EDIT), "nothing")
        yield from differs(session.end(), reported(b"", "journal failed"))


def dumps(it, room):
    """A dump becomes a journal, whose further lines are sealed; with any bit flipped but in that field's name it isn't loaded."""
    file, dump = room / "journal", room / "dump"
    all_of = made(it.program, file, 2)
    dump.write_bytes(b"".join(json.dumps({"entries": [entry]}, separators=(",", ":")).encode() + b"\n" for entry in all_of))
    yield from differs(answers(it.program, dump, EDIT), [{"done": 4}])
    whole = dump.read_bytes()
    yield from differs(whole.count(b'"sha256":'), 1)
    name = whole.index(b',"sha256":"')
    named = range(name, name + 11)
    for at, bit in it.bits(whole[:-1]):
        held = bytearray(whole)
        held[at] ^= 1 << bit
        dump.write_bytes(held)
        status, out, err = ran(it.program, "load", dump)
        if (status, out, err.count(b"\n")) != (1, b"", 1) and at not in named:
            yield f"bit {bit} of byte {at}: {status} {out!r:.80} {err!r:.80}"


def groups(it, room):
    """Lines that come together are one line of the file, cut to whose lengths a journal has all of them, or is reported."""
    file, cut = room / "journal", room / "cut"
    answers(it.program, file, REGISTER + EDIT * 2)
    first = file.read_bytes().split(b"\0")[0]
    answers(it.program, file, EDIT * 3)
    whole = file.read_bytes().split(b"\0")[0]
    yield from differs([len(json.loads(text)["entries"]) for text in whole.splitlines()], [0, 3, 3])
    for length in it.lengths(whole):
        cut.write_bytes(whole[:length])
        if length >= len(first) and length in (len(first), len(whole)):
            yield from differs(len(entries(it.program, cut, 6)), 6 if length == len(whole) else 3)
        elif len(first) < length < len(whole) - 1:
            # Without its newline alone the last line is whole, as that of a dump.
            yield from differs(ran(it.program, "load", cut)[0], 1)


def sealed_lines(it, room):
    """Each line but the first ends with the SHA-256 of all the bytes before its digits, by Python's own."""
    file = room / "journal"
    made(it.program, file, 3)
    whole, at = file.read_bytes().split(b"\0")[0], 0
    for number, text in enumerate(whole.splitlines(keepends=True)):
        if number == 0:
            yield from differs(text, b'{"entries":[],"journal":1}\n')
        else:
            start = at + len(text) - 67
            yield from differs(whole[start : start + 64].decode(), hashlib.sha256(whole[:start]).hexdigest())
            yield from differs(json.loads(text)["sha256"], whole[start : start + 64].decode())
        at += len(text)


def starts_at_once(it, room):
    """Of three that start at once on a missing file one has it, and the others report that it is in use."""
    for number in range(it.starts):
        file = room / f"journal{number}"
        started = [Session(it.program, file) for _ in range(3)]
        found = sorted(session.end() for session in started)
        used = reported(b"", f"journal {file} is in use")
        if any(one not in ((0, b"", b""), used) for one in found) or (0, b"", b"") not in found:
            yield f"{found!r:.300}"


def second_process(it, room):
    """A second process is refused while the first goes on, and the lock goes with the first, however it ends."""
    file = room / "journal"
    first = Session(it.program, file)
    yield from differs(first.ask(REGISTER), {"done": 1})
    second = ran(it.program, "run", "--journal", file, given=REGISTER)
    yield from differs(second, reported(b"", f"journal {file} is in use"))
    yield from differs(first.ask(EDIT), {"done": 2})
    first.started.kill()
    first.end()
    yield from differs(len(entries(it.program, file, 2)), 2)


def new_file(it, room):
    """A file that isn't there is made for its owner alone, and one that is empty is taken."""
    file, empty = room / "journal", room / "empty"
    empty.touch()
    for name in (file, empty):
        yield from differs(answers(it.program, name, REGISTER), [{"done": 1}])
        yield from differs(answers(it.program, name, EDIT), [{"done": 2}])
    yield from differs(file.stat().st_mode & 0o777, 0o600)
    yield from differs(file.read_bytes(), empty.read_bytes())


def other_files(it, room):
    """A file of another program, a bad line, a folder and a missing folder are reported in one line and not touched."""
    file = room / "file"
    good = b'{"entries":[{"by":"a","device":"a","do":"register","number":1,"path":"p"}]}\n'
    twice = good + good
    for held, why in (
        (b'{"name":"x","version":"1.0.0"}', "not a journal"),
        (b"\0\0\0\x18ftypmp42\0\0\0\0mp42isom", "not a journal"),
        (b"\0\1\0\0\0\x12\1\0\0\4\0\x20OS/2", "not a journal"),
        (good[:-1], "the last line has no newline"),
        (twice[:-40], "the last line has no newline"),
        (b"a photograph\n", "not a journal"),
        (b"{torn}\nwith more\n", "not a journal"),
        (b"\n", "not a journal"),
        (b"{}\n" + good, "line 1: BadField entries"),
        (good + b"{\xff}\n\0torn", "line 2: NotUtf8"),
        (good + b"{nonsense}\n" + good, "line 2: NotJson"),
        (twice + b"\0", "entry 2: OutOfOrder"),
        (twice.replace(b'"number":1', b'"number":2', 2).replace(b'2', b'1', 1), "entry 2: PlaceTaken 1"),
    ):
        file.write_bytes(held)
        for words in (("run", "--journal", file), ("show", "--journal", file)):
            yield from differs(ran(it.program, *words, given=REGISTER), reported(b"", f"journal {file}: {why}"))
        yield from differs(file.read_bytes(), held)
    os.mkfifo(room / "fifo")
    for name in (room, room / "missing" / "journal", room / "file" / "journal", room / "fifo"):
        for found in each_command(it.program, name):
            yield from differs(found, reported(b"", f"cannot open journal {name}"))


def permissions(it, room):
    """Where a folder or a file may not be written, one line is reported, and nothing is made or changed."""
    program, folder = room / "panad", room / "theirs"
    shutil.copy2(it.program, program)
    program.chmod(0o755)
    room.chmod(0o755)
    folder.mkdir(mode=0o755)
    made(it.program, folder / "journal", 2)
    held = (folder / "journal").read_bytes()
    (folder / "journal").chmod(0o444)
    user = {"user": NOBODY, "group": NOBODY, "extra_groups": []} if os.geteuid() == 0 else {}
    folder.chmod(0o555)
    for name in (folder / "new", folder / "journal"):
        done = ran(str(program), "run", "--journal", name, given=REGISTER, **user)
        yield from differs(done, reported(b"", f"cannot open journal {name}"))
    status, out, _ = ran(str(program), "show", "--journal", folder / "journal", **user)
    yield from differs((status, out[:8]), (0, b"family 1"))
    folder.chmod(0o755)
    yield from differs([(it.name, it.read_bytes()) for it in folder.iterdir()], [("journal", held)])


def tables(it, room):
    """`load` and `show --journal` print the tables of a journal's file, also while it is in use, and of one cut short."""
    file = room / "journal"
    session = Session(it.program, file)
    for given in (REGISTER, line(do="duplicate", copy=1, device="usb", path="plan.txt"), EDIT):
        session.ask(given)
    loaded = ran(it.program, "load", file)
    yield from differs((loaded[0], loaded[1].splitlines()[0]), (0, b"family 1: copies 2, newest 1, split no"))
    yield from differs(ran(it.program, "show", "--journal", file), loaded)
    session.end()
    file.write_bytes(file.read_bytes() + b"torn\n{torn")
    yield from differs(ran(it.program, "load", file), loaded)
    yield from differs(ran(it.program, "show", "--journal", file), loaded)
    yield from differs(ran(it.program, "show", "--journal", room / "none"), reported(b"", f"cannot open journal {room / 'none'}"))


def sessions():
    """The scenarios that are a session of a program with no words but run."""
    for folder in scenario.folders():
        case = scenario.read(folder)
        run = case.runs[0]
        if case.is_session and run.args == ["run"] and run.given.count(b"\n") <= MOST_LINES:
            yield case.name, run


def same_answers(it, room):
    """Each session of the scenarios is answered the same with a journal, which then loads to the same tables."""
    compared = 0
    for name, run in sessions():
        file = room / name
        kept = ran(it.program, "run", "--journal", file, given=run.given)
        if kept != (run.status, run.output, run.error):
            yield f"{name}: {kept!r:.300}"
        yield from differs(ran(it.program, "show", "--journal", file)[1], ran(it.program, "show", given=run.given)[1])
        compared += 1
    print(f"  {compared} sessions compared")


CHECKS = (new_file, groups, sealed_lines, other_files, permissions, second_process, starts_at_once)
CHECKS += (names_that_lead_elsewhere, bytes_behind, cuts, flips, dumps, kills, tables, same_answers)


def main(words):
    if not words or words[1:] not in ([], ["quick"]):
        print(__doc__, file=sys.stderr)
        return 2
    program = str(Path(words[0]).resolve())
    return run_with(Setting(program, 20, 5, 17) if words[1:] else Setting(program, 400, 30, 1), CHECKS)


if __name__ == "__main__":
    sys.exit(main(sys.argv[1:]))
