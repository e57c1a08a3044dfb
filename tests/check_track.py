#!/usr/bin/env python3
"""Runs `track` on folders that change between two runs, and compares what it prints with what it has to.

usage: check_track.py PROGRAM
The last line is 'N passed, M failed'.
"""
from __future__ import annotations

import hashlib
import json
import os
import resource
import shutil
import signal
import socket
import stat
import struct
import subprocess
import sys
import time
from pathlib import Path

from harness import differs, run_checks

SECONDS = 60
ALL_WELL = "nothing is obsolete or in conflict\n"
EMPTY = "panad: usb: folder is empty, nothing reported; --empty if it is meant\n"


class Room:
    """A laptop's folder, a stick's, and a journal beside them."""

    def __init__(self, program, at):
        self.program, self.at = program, at
        self.laptop, self.usb, self.journal = at / "laptop", at / "usb", at / "files.journal"
        self.laptop.mkdir()
        self.usb.mkdir()

    def track(self, *options, roots=(), within=()):
        """The status of a run, started by other words where they are given, what it prints, and what it reports on standard error.
        It looks at everything: what an earlier run has printed is tried by check_rest.py."""
        Path(f"{self.journal}.last").unlink(missing_ok=True)
        roots = roots or (f"laptop={self.laptop}", f"usb={self.usb}")
        words = [*within, self.program, "track", "--journal", str(self.journal), *options, *roots]
        done = subprocess.run(words, stdin=subprocess.DEVNULL, capture_output=True, timeout=SECONDS)
        return done.returncode, done.stdout.decode(), done.stderr.decode()

    def asked(self, **query):
        """What a session on the journal answers to a question."""
        line = json.dumps({"by": "desk", **query}) + "\n"
        words = [self.program, "run", "--journal", str(self.journal)]
        done = subprocess.run(words, input=line.encode(), capture_output=True, timeout=SECONDS)
        return json.loads(done.stdout)


def table(*rows):
    """The table of these rows: the state, the copy, and what to do about it."""
    width = max([4, *(len(it[1]) for it in rows)])
    return "".join(f"{state:8}  {copy:{width}}  {advice}\n" for state, copy, advice in [("STATE", "COPY", "WHAT TO DO"), *rows])


def one_family(room):
    """Files that two folders hold alike are one family of two equal copies, and a further run changes nothing."""
    for folder in (room.laptop, room.usb):
        (folder / "plan.txt").write_text("one")
    yield from differs(room.track(), (0, ALL_WELL, ""))
    families = {"families": [{"copies": 2, "family": 1, "newest": 2, "split": False}]}
    yield from differs(room.asked(do="families"), families)
    kept = room.journal.read_bytes()
    yield from differs(room.track(), (0, ALL_WELL, ""))
    if room.journal.read_bytes() != kept:
        yield "a run on folders that didn't change has changed the journal"


def edited_and_copied(room):
    """A file that was edited makes the other copy obsolete, until it is copied over by any tool, times kept or not."""
    for folder in (room.laptop, room.usb):
        (folder / "plan.txt").write_text("one")
    room.track()
    (room.laptop / "plan.txt").write_text("two")
    yield from differs(room.track(), (1, table(("obsolete", "usb:plan.txt", "take laptop:plan.txt")), ""))
    shutil.copy2(room.laptop / "plan.txt", room.usb / "plan.txt")
    yield from differs(room.track(), (0, ALL_WELL, ""))


def copied_unseen(room):
    """A file that was edited and copied over before anybody looked is no conflict."""
    for folder in (room.laptop, room.usb):
        (folder / "plan.txt").write_text("one")
    room.track()
    (room.laptop / "plan.txt").write_text("two")
    shutil.copy(room.laptop / "plan.txt", room.usb / "plan.txt")
    yield from differs(room.track(), (0, ALL_WELL, ""))


def copied_then_edited(room):
    """A copy that was replaced and then edited is newer than the one that it was replaced by."""
    for folder in (room.laptop, room.usb):
        (folder / "plan.txt").write_text("one")
    room.track()
    (room.laptop / "plan.txt").write_text("two")
    room.track()
    shutil.copy(room.laptop / "plan.txt", room.usb / "plan.txt")
    room.track()
    (room.usb / "plan.txt").write_text("three")
    yield from differs(room.track(), (1, table(("obsolete", "laptop:plan.txt", "take usb:plan.txt")), ""))


def edited_apart_and_merged(room):
    """Files that were edited apart are in conflict, until both hold the same."""
    for folder in (room.laptop, room.usb):
        (folder / "plan.txt").write_text("one")
    room.track()
    (room.laptop / "plan.txt").write_text("two")
    (room.usb / "plan.txt").write_text("three")
    rows = ("conflict", "laptop:plan.txt", "merge with usb:plan.txt"), ("conflict", "usb:plan.txt", "merge with laptop:plan.txt")
    yield from differs(room.track(), (1, table(*rows), ""))
    for folder in (room.laptop, room.usb):
        (folder / "plan.txt").write_text("two and three")
    yield from differs(room.track(), (0, ALL_WELL, ""))


def renamed(room):
    """A file that was renamed is the same copy, at another place, and what it was related to it stays related to."""
    for folder in (room.laptop, room.usb):
        (folder / "plan.txt").write_text("one")
    room.track()
    (room.laptop / "plan.txt").rename(room.laptop / "new plan.txt")
    yield from differs(room.track(), (0, ALL_WELL, ""))
    (room.laptop / "new plan.txt").write_text("two")
    yield from differs(room.track(), (1, table(("obsolete", "usb:plan.txt", "take laptop:new plan.txt")), ""))
    held = room.asked(do="holdings", device="laptop")["holdings"]
    yield from differs(tuple((it["copy"], it["path"]) for it in held), ((1, "new plan.txt"),))


def unmounted(room):
    """Of a folder that is empty, or isn't there, nothing is reported, where its device has copies, but where that is meant."""
    for folder in (room.laptop, room.usb):
        (folder / "plan.txt").write_text("one")
    room.track()
    (room.usb / "plan.txt").unlink()
    yield from differs(room.track(), (3, ALL_WELL, EMPTY))
    room.usb.rmdir()
    yield from differs(room.track(), (3, ALL_WELL, "panad: usb: cannot list folder, nothing reported\n"))
    yield from differs(len(room.asked(do="holdings", device="usb")["holdings"]), 1)
    room.usb.mkdir()
    yield from differs(room.track("--empty"), (0, ALL_WELL, ""))
    yield from differs(room.asked(do="holdings", device="usb"), {"holdings": []})


def removed(room):
    """A file that is gone from a folder with others is no copy any more."""
    for name in ("plan.txt", "notes.txt"):
        for folder in (room.laptop, room.usb):
            (folder / name).write_text(name)
    room.track()
    (room.usb / "plan.txt").unlink()
    yield from differs(room.track(), (0, ALL_WELL, ""))
    yield from differs(tuple(it["path"] for it in room.asked(do="holdings", device="usb")["holdings"]), ("notes.txt",))


def forms(room):
    """With --json a line of JSON for each copy stands in place of the table, and with --quiet nothing does."""
    for folder in (room.laptop, room.usb):
        (folder / "plan.txt").write_text("one")
    yield from differs(room.track("--json"), (0, "", ""))
    (room.usb / "plan.txt").write_text("two")
    row = '{"copy":1,"device":"laptop","path":"plan.txt","state":"obsolete","with":{"copy":2,"device":"usb","path":"plan.txt"}}'
    yield from differs(room.track("--json"), (1, f'{{"status":[{row}]}}\n', ""))
    yield from differs(room.track("--quiet"), (1, "", ""))


def journal_in_a_folder(room):
    """A journal in a folder that is tracked is passed over, and that is reported."""
    room.journal = room.laptop / "files.journal"
    (room.laptop / "plan.txt").write_text("one")
    said = "panad: laptop: the journal is passed over\n"
    yield from differs(room.track(roots=[f"laptop={room.laptop}"]), (0, ALL_WELL, said))
    yield from differs(tuple(it["path"] for it in room.asked(do="holdings", device="laptop")["holdings"]), ("plan.txt",))


def ignored(room):
    """What a folder's .panadignore or --ignore lists is passed over: it is never registered, and no folder of it is entered."""
    (room.laptop / ".panadignore").write_text("# made anew\n*.tmp\n!keep.tmp\n/build/\n")
    (room.laptop / "build").mkdir()
    (room.laptop / "src" / "build").mkdir(parents=True)
    for name in ("a.tmp", "build/a.txt", "keep.tmp", "plan.txt", "src/a.tmp", "src/build/b.txt", "src/old.bak"):
        (room.laptop / name).write_text(name)
    (room.usb / "plan.txt").write_text("plan.txt")
    (room.usb / "a.tmp").write_text("a.tmp")
    yield from differs(room.track("--ignore", "*.bak"), (0, ALL_WELL, ""))
    for device, wanted in (("laptop", [".panadignore", "keep.tmp", "plan.txt", "src/build/b.txt"]), ("usb", ["a.tmp", "plan.txt"])):
        held = room.asked(do="holdings", device=device)["holdings"]
        yield from differs(sorted(it["path"] for it in held), wanted)


def ignored_later(room):
    """A copy whose path is ignored from now on stays as it is: changed, renamed or removed, nothing of it is reported or shown."""
    for folder in (room.laptop, room.usb):
        for name in ("a.log", "b.log", "c.log", "plan.txt"):
            (folder / name).write_text(name)
    room.track()
    (room.laptop / "plan.txt").write_text("two")
    (room.usb / "a.log").write_text("two")
    room.track()
    held = room.asked(do="holdings", device="usb")
    for folder in (room.laptop, room.usb):
        (folder / ".panadignore").write_text("*.log\n")
    (room.usb / "a.log").write_text("three")
    (room.usb / "b.log").unlink()
    (room.usb / "c.log").rename(room.usb / "c.txt")
    yield from differs(room.track(), (1, table(("obsolete", "usb:plan.txt", "take laptop:plan.txt")), ""))
    after = room.asked(do="holdings", device="usb")["holdings"]
    yield from differs([it for it in after if it in held["holdings"]], held["holdings"])
    yield from differs(sorted(it["path"] for it in after if it not in held["holdings"]), [".panadignore", "c.txt"])
    (room.usb / "plan.txt").write_text("two")
    yield from differs(room.track(), (0, ALL_WELL, ""))


def last_pattern(room):
    """Patterns of the command line decide before those of the file, the last of all first."""
    (room.laptop / ".panadignore").write_text("*.txt\n")
    for name in ("a.txt", "b.txt"):
        (room.laptop / name).write_text(name)
    room.track("--ignore", "!*.txt", "--ignore", "b.txt")
    held = room.asked(do="holdings", device="laptop")["holdings"]
    yield from differs(sorted(it["path"] for it in held), [".panadignore", "a.txt"])


def wrong_patterns(room):
    """Of a folder whose .panadignore can't be taken nothing is reported; one that is a link or a folder is none."""
    (room.laptop / "plan.txt").write_text("one")
    (room.usb / "plan.txt").write_text("one")
    rows = (
        (b"\n" * 10_001, "panad: laptop: .panadignore has more than 10,000 lines, nothing reported\n"),
        (b"a\n" + b"x" * 4_097, "panad: laptop: .panadignore, line 2 is longer than 4,096 bytes, nothing reported\n"),
        (b"x" * 1_048_577, "panad: laptop: cannot read .panadignore, nothing reported\n"),
    )
    for text, message in rows:
        (room.laptop / ".panadignore").write_bytes(text)
        yield from differs(room.track(), (3, ALL_WELL, message))
        yield from differs(room.asked(do="holdings", device="laptop"), {"holdings": []})
    (room.laptop / ".panadignore").unlink()
    (room.laptop / "patterns").write_text("plan.txt\n")
    (room.laptop / ".panadignore").symlink_to("patterns")
    (room.usb / ".panadignore").mkdir()
    yield from differs(room.track(), (0, ALL_WELL, ""))
    held = room.asked(do="holdings", device="laptop")["holdings"]
    yield from differs(sorted(it["path"] for it in held), ["patterns", "plan.txt"])


HEAD = b"panad sums 1\n"
RECORD = 80
SETTLED = 2.1


def records(room):
    """The records of the sums beside the journal, by device and inode."""
    bytes_of = Path(f"{room.journal}.sums").read_bytes()
    body = bytes_of[len(HEAD) : -32]
    if not bytes_of.startswith(HEAD) or hashlib.sha256(bytes_of[:-32]).digest() != bytes_of[-32:] or len(body) % RECORD:
        raise ValueError("the sums aren't whole")
    return {body[at : at + 16]: body[at : at + RECORD] for at in range(0, len(body), RECORD)}


def write_records(room, found):
    text = HEAD + b"".join(found)
    Path(f"{room.journal}.sums").write_bytes(text + hashlib.sha256(text).digest())


def record_of(file, content):
    """The record that the file has to have, with the sum of this content."""
    it = file.stat()
    times = (divmod(ns, 10**9) for ns in (it.st_mtime_ns, it.st_ctime_ns))
    return struct.pack(">QQQ", it.st_dev, it.st_ino, it.st_size) + b"".join(struct.pack(">qI", *time) for time in times) + hashlib.sha256(content).digest()


def kept_sums(room):
    """The sums of files that have stood for two seconds are kept, of each as it is; those of others aren't."""
    (room.laptop / "plan.txt").write_text("one")
    (room.usb / "plan.txt").write_text("one")
    room.track()
    yield from differs(records(room), {})
    time.sleep(SETTLED)
    (room.usb / "new.txt").write_text("new")
    room.track()
    wanted = [record_of(folder / "plan.txt", b"one") for folder in (room.laptop, room.usb)]
    yield from differs(sorted(records(room).values()), sorted(wanted))
    if stat.S_IMODE(Path(f"{room.journal}.sums").stat().st_mode) != 0o600:
        yield "others may read the sums"


def unread(room):
    """A file whose signature has a sum isn't read, but with --read-all; sums that aren't whole are passed over."""
    for folder in (room.laptop, room.usb):
        (folder / "plan.txt").write_text("one")
    time.sleep(SETTLED)
    yield from differs(room.track(), (0, ALL_WELL, ""))
    obsolete = table(("obsolete", "usb:plan.txt", "take laptop:plan.txt"))
    # Sums that no run has written show whether the file was read.
    forged = [record_of(room.laptop / "plan.txt", b"two"), record_of(room.usb / "plan.txt", b"one")]
    write_records(room, forged)
    whole = Path(f"{room.journal}.sums").read_bytes()
    for at in (0, len(HEAD), len(HEAD) + 20, len(HEAD) + 60, len(whole) - 1):
        Path(f"{room.journal}.sums").write_bytes(whole[:at] + bytes([whole[at] ^ 1]) + whole[at + 1 :])
        yield from differs(room.track(), (0, ALL_WELL, ""))
    for text in (b"", whole[:-1], whole + b"\0", whole[:-32]):
        Path(f"{room.journal}.sums").write_bytes(text)
        yield from differs(room.track(), (0, ALL_WELL, ""))
    Path(f"{room.journal}.sums").unlink()
    yield from differs(room.track(), (0, ALL_WELL, ""))
    write_records(room, forged)
    yield from differs(room.track("--read-all"), (0, ALL_WELL, ""))
    write_records(room, forged)
    yield from differs(room.track(), (1, obsolete, ""))


def unmounted_sums(room):
    """Of a folder that is empty for a while, or wasn't named, sums are kept: its files aren't read again."""
    for folder in (room.laptop, room.usb):
        (folder / "plan.txt").write_text("one")
    time.sleep(SETTLED)
    yield from differs(room.track(), (0, ALL_WELL, ""))
    # A sum that no run has written shows that the file isn't read.
    write_records(room, [record_of(room.laptop / "plan.txt", b"one"), record_of(room.usb / "plan.txt", b"two")])
    away = room.usb.rename(room.at / "away")
    room.usb.mkdir()
    yield from differs(room.track(), (3, ALL_WELL, EMPTY))
    room.usb.rmdir()
    yield from differs(room.track(roots=[f"laptop={room.laptop}"]), (0, ALL_WELL, ""))
    away.rename(room.usb)
    yield from differs(room.track(), (1, table(("obsolete", "laptop:plan.txt", "take usb:plan.txt")), ""))
    yield from differs(len(records(room)), 2)


def changed_unseen(room):
    """A file that was changed, with its size and the time of its change put back, is read; so is one that another has replaced."""
    for folder in (room.laptop, room.usb):
        (folder / "plan.txt").write_text("one")
    time.sleep(SETTLED)
    room.track()
    obsolete = table(("obsolete", "usb:plan.txt", "take laptop:plan.txt"))
    before = (room.laptop / "plan.txt").stat()
    (room.laptop / "plan.txt").write_text("two")
    os.utime(room.laptop / "plan.txt", ns=(before.st_atime_ns, before.st_mtime_ns))
    yield from differs(room.track(), (1, obsolete, ""))
    shutil.copy2(room.laptop / "plan.txt", room.usb / "other")
    (room.usb / "other").rename(room.usb / "plan.txt")
    yield from differs(room.track(), (0, ALL_WELL, ""))


def no_files(room):
    """Links, pipes and sockets are passed over, and the sums beside a journal in a folder with it."""
    (room.laptop / "plan.txt").write_text("one")
    os.mkfifo(room.laptop / "pipe")
    (room.laptop / "link").symlink_to("plan.txt")
    (room.laptop / "nowhere").symlink_to("gone")
    room.journal = room.laptop / "files.journal"
    time.sleep(SETTLED)
    for _ in range(2):
        yield from differs(room.track(), (0, ALL_WELL, "panad: laptop: the journal is passed over\n"))
    yield from differs(sorted(it["path"] for it in room.asked(do="holdings", device="laptop")["holdings"]), ["plan.txt"])


def hard_links(room):
    """Two names of one file are two copies: what is written by one name is an edit of both."""
    (room.laptop / "plan.txt").write_text("one")
    os.link(room.laptop / "plan.txt", room.laptop / "same.txt")
    paths = lambda: [it["path"] for it in room.asked(do="holdings", device="laptop")["holdings"]]
    roots = [f"laptop={room.laptop}"]
    yield from differs((*room.track(roots=roots), paths()), (0, ALL_WELL, "", ["plan.txt", "same.txt"]))
    (room.laptop / "same.txt").write_text("two")
    yield from differs((*room.track(roots=roots), paths()), (0, ALL_WELL, "", ["plan.txt", "same.txt"]))
    edits = [it["copy"] for it in room.asked(do="journal", **{"from": 1})["entries"] if it["do"] == "edit"]
    yield from differs(sorted(edits), [1, 2])


def one_file_system(room):
    """With --one-file-system a folder of another file system isn't entered, and without it it is."""
    inner, roots = room.laptop / "inner", [f"laptop={room.laptop}"]
    inner.mkdir()
    (room.laptop / "plan.txt").write_text("one")
    mounting = 'mount -t tmpfs none "$0" && echo two > "$0/other.txt" && exec "$@"'
    mounted = ["unshare", "-m", "sh", "-c", mounting, str(inner)]
    paths = lambda: [it["path"] for it in room.asked(do="holdings", device="laptop")["holdings"]]
    yield from differs(room.track("--one-file-system", roots=roots, within=mounted), (0, ALL_WELL, ""))
    yield from differs(paths(), ["plan.txt"])
    yield from differs(room.track(roots=roots, within=mounted), (0, ALL_WELL, ""))
    yield from differs(paths(), ["plan.txt", "inner/other.txt"])


def named(room):
    """With --verbose what is passed over is named, each name once and with the reason, and without it it is counted at most."""
    folder, roots = room.laptop / "in", [f"laptop={room.laptop}"]
    for inner in (folder, folder / "more", room.laptop / "left"):
        inner.mkdir()
    (room.laptop / "plan.txt").write_text("one")
    for name in (b"caf\xe9.txt", b"\xff", b"in/more/\xc3\xa9\xc3.txt", b"in/more/line\nbreak", b"in/" + b"n" * 250):
        Path(os.fsdecode(os.fsencode(room.laptop) + b"/" + name)).touch()
    long = folder / "more"
    while len(os.fsencode(long.relative_to(room.laptop))) < 1000:
        long /= "f" * 100
    long.mkdir(parents=True)
    (long / ("n" * 40)).touch()
    (room.laptop / "link").symlink_to("plan.txt")
    os.mkfifo(folder / "run")
    (room.laptop / "left" / "o.txt").touch()
    with socket.socket(socket.AF_UNIX) as bound:
        bound.bind(os.path.relpath(folder / "bound"))
        counted = "panad: laptop: 5 names skipped\n"
        yield from differs(room.track("--ignore", "left", roots=roots), (0, ALL_WELL, counted))
        status, out, err = room.track("--verbose", "--ignore", "left", roots=roots)
    rows = (
        "caf\\xe9.txt: the name isn't UTF-8",
        "\\xff: the name isn't UTF-8",
        "in/more/\u00e9\\xc3.txt: the name isn't UTF-8",
        "in/more/line\\nbreak: its path has a control character",
        f"{long.relative_to(room.laptop)}/{'n' * 40}: its path is longer than 1,024 bytes",
        "link: a symbolic link",
        "in/run: a pipe",
        "in/bound: a socket",
    )
    yield from differs((status, out), (0, ALL_WELL))
    yield from differs(sorted(err.splitlines()), sorted([*(f"panad: laptop: {it}" for it in rows), counted.rstrip()]))


def named_elsewhere(room):
    """So is a folder of another file system, where none is entered."""
    inner, roots = room.laptop / "inner", [f"laptop={room.laptop}"]
    inner.mkdir()
    (room.laptop / "plan.txt").write_text("one")
    mounting = 'mount -t tmpfs none "$0" && exec "$@"'
    mounted = ["unshare", "-m", "sh", "-c", mounting, str(inner)]
    named = "panad: laptop: inner: of another file system\n"
    yield from differs(room.track("--verbose", "--one-file-system", roots=roots, within=mounted), (0, ALL_WELL, named))
    yield from differs(room.track("--verbose", roots=roots, within=mounted), (0, ALL_WELL, ""))


def wrong_words(room):
    """Two roots of a device, a root within another, a file as a root, and a word that is none are refused before anything is made."""
    (room.laptop / "inner").mkdir()
    (room.laptop / "plan.txt").write_text("one")
    for roots in (
        [f"usb={room.usb}", f"usb={room.laptop}"],
        [f"laptop={room.laptop}", f"usb={room.laptop}/inner"],
        [f"laptop={room.laptop}/inner", f"usb={room.laptop}"],
        [f"laptop={room.laptop}", f"usb={room.laptop}/../laptop"],
        [f"laptop={room.laptop}/plan.txt"],
        ["laptop"],
        ["Laptop=x"],
    ):
        status, out, err = room.track(roots=roots)
        if (status, out) != (2, "") or not err.startswith("error: ") or room.journal.exists():
            yield f"{roots}: status {status}, {out!r}, {err!r}, journal {room.journal.exists()}"


KILLS = 20


def interrupted(room):
    """A run that is killed at any moment leaves a journal that the next one goes on with, and in the end all is tracked once."""
    for number in range(400):
        for folder in (room.laptop, room.usb):
            (folder / f"{number:03}").write_text(str(number))
    roots = f"laptop={room.laptop}", f"usb={room.usb}"
    words = [room.program, "track", "--quiet", "--journal", str(room.journal), *roots]
    for number in range(KILLS):
        started = subprocess.Popen(words, stdin=subprocess.DEVNULL, stdout=subprocess.DEVNULL, stderr=subprocess.PIPE)
        time.sleep(0.004 * number)
        started.send_signal((signal.SIGKILL, signal.SIGTERM, signal.SIGINT)[number % 3])
        _, error = started.communicate(timeout=SECONDS)
        if started.returncode not in (0, -signal.SIGKILL, -signal.SIGTERM, -signal.SIGINT) or (error and b"behind the last entry were cut off" not in error):
            yield f"after {number} times 4 ms it ended with {started.returncode} and {error!r}"
    if room.track("--quiet")[0] != 0:
        yield "the last run finds something obsolete or in conflict"
    families = room.asked(do="families")["families"]
    yield from differs((len(families), {it["copies"] for it in families}), (400, {2}))


def full_disk(room):
    """Where the journal's disk is full a report isn't kept, and the status is 3; with room again nothing is lost."""
    for number in range(100):
        (room.laptop / f"{number:03}").write_text(str(number))
    room.track("--quiet")
    size = room.journal.stat().st_size
    for number in range(100):
        (room.usb / f"{number:03}").write_text(str(number))
    limited = lambda: (signal.signal(signal.SIGXFSZ, signal.SIG_IGN), resource.setrlimit(resource.RLIMIT_FSIZE, (size + 4000, resource.RLIM_INFINITY)))
    roots = f"laptop={room.laptop}", f"usb={room.usb}"
    words = [room.program, "track", "--quiet", "--journal", str(room.journal), *roots]
    done = subprocess.run(words, stdin=subprocess.DEVNULL, capture_output=True, timeout=SECONDS, preexec_fn=limited, restore_signals=False)
    yield from differs((done.returncode, done.stderr), (3, b"panad: usb: report not kept, nothing more reported\n"))
    held = room.asked(do="holdings", device="laptop")["holdings"]
    yield from differs(len(held), 100)
    yield from differs(room.track("--quiet"), (0, "", ""))
    yield from differs(len(room.asked(do="holdings", device="usb")["holdings"]), 100)


def many_copies(room):
    """More copies than a page of a question has are all shown."""
    for number in range(250):
        for folder in (room.laptop, room.usb):
            (folder / f"{number:03}").write_text(str(number))
    yield from differs(room.track(), (0, ALL_WELL, ""))
    for number in range(250):
        (room.laptop / f"{number:03}").write_text(f"{number} anew")
    rows = [("obsolete", f"usb:{number:03}", f"take laptop:{number:03}") for number in range(250)]
    yield from differs(room.track(), (1, table(*rows), ""))


CHECKS = (
    one_family,
    edited_and_copied,
    copied_unseen,
    copied_then_edited,
    edited_apart_and_merged,
    renamed,
    unmounted,
    removed,
    forms,
    journal_in_a_folder,
    ignored,
    ignored_later,
    last_pattern,
    wrong_patterns,
    kept_sums,
    unread,
    unmounted_sums,
    changed_unseen,
    no_files,
    hard_links,
    one_file_system,
    named,
    named_elsewhere,
    wrong_words,
    interrupted,
    full_disk,
    many_copies,
)


def in_room(check):
    """The check in a room of the program's."""
    tried = lambda program, at: check(Room(program, at))
    tried.__doc__, tried.__name__ = check.__doc__, check.__name__
    return tried


if __name__ == "__main__":
    sys.exit(run_checks(__doc__, [*map(in_room, CHECKS)], sys.argv[1:]))
