#!/usr/bin/env python3
"""Runs `may-overwrite`, `why`, `history`, `report`, `show` and `status` by a journal and by a daemon, and against servers that are none.

usage: check_ask.py PROGRAM
The last line is 'N passed, M failed'.
"""
from __future__ import annotations

import json
import re
import subprocess
import sys
from xml.etree import ElementTree

from check_track_port import SILENT, Server
from daemon import SECONDS, Daemon, pages
from harness import differs, run_checks

SUM = "4355a46b19d348dc2f57c046f8ef63d4538ebb936000f3c9ee954a27460dd865"
UNKNOWN = "unknown: no copy is at {}\n"
LAPTOP, USB, DESK = "laptop:plan.txt", "usb:plan.txt", "desk:a b/\u00e9:\u202e.txt"
MARKED = "usb:<b>&\"c\" 'd'\uffff.txt"

# Words of `report`, what it prints, and its status: a history of two files.
HISTORY = (
    (("register", LAPTOP), "entry 1\n", 0),
    (("register", LAPTOP), "refused: PlaceTaken 1\n", 1),
    (("duplicate", LAPTOP, USB, "--sum", SUM), "entry 2\n", 0),
    (("duplicate", "desk:none", USB), UNKNOWN.format("desk:none"), 1),
    (("edit", USB), "entry 3\n", 0),
    (("edit", LAPTOP, "--sum", SUM, "--by", "desk"), "entry 4\n", 0),
    (("merge", LAPTOP, USB), "entry 5\n", 0),
    (("merge", LAPTOP, LAPTOP), "refused: SameCopy\n", 1),
    (("merge", "desk:none", "desk:other"), UNKNOWN.format("desk:none"), 1),
    (("merge", USB, "desk:other"), UNKNOWN.format("desk:other"), 1),
    (("withdraw", "5", "--by", "usb"), "refused: NotYours\n", 1),
    (("withdraw", "5", "--by", "laptop"), "entry 6\n", 0),
    (("reconcile", USB, LAPTOP, "--sum", SUM), "entry 7\n", 0),
    (("relocate", USB, DESK), "entry 8\n", 0),
    (("relocate", USB, DESK), UNKNOWN.format(USB), 1),
    (("note", DESK, "--sum", SUM), "entry 9\n", 0),
    (("confirm", "9", "--by", "desk"), "entry 10\n", 0),
    (("confirm", "99", "--by", "desk"), "refused: UnknownEntry\n", 1),
    (("remove", DESK, "--heir", LAPTOP), "entry 11\n", 0),
    (("remove", DESK), UNKNOWN.format(DESK), 1),
    (("remove", LAPTOP, "--heir", DESK), UNKNOWN.format(DESK), 1),
    (("remove", LAPTOP), "entry 12\n", 0),
    (("found", USB, "--sum", SUM), "register, entry 13\n", 0),
    (("found", USB, "--sum", SUM), "known\n", 0),
    (("found", USB, "--sum", "0" * 64), "edit, entry 14\n", 0),
    (("missing", USB), "remove, entry 15\n", 0),
    (("missing", USB), "known\n", 0),
)

# The entries that these make, as a journal answers them.
ENTRIES = (
    {"by": "laptop", "device": "laptop", "do": "register", "number": 1, "path": "plan.txt"},
    {"by": "laptop", "copy": 1, "device": "usb", "do": "duplicate", "number": 2, "path": "plan.txt", "sum": SUM},
    {"by": "usb", "copy": 2, "do": "edit", "number": 3},
    {"by": "desk", "copy": 1, "do": "edit", "number": 4, "sum": SUM},
    {"a": 1, "b": 2, "by": "laptop", "do": "merge", "number": 5},
    {"by": "laptop", "do": "withdraw", "entry": 5, "number": 6},
    {"a": 2, "b": 1, "by": "usb", "do": "reconcile", "number": 7, "sum": SUM},
    {"by": "usb", "copy": 2, "device": "desk", "do": "relocate", "number": 8, "path": DESK[5:]},
    {"by": "desk", "copy": 2, "do": "note", "number": 9, "sum": SUM},
    {"by": "desk", "do": "confirm", "entry": 9, "number": 10},
    {"by": "desk", "copy": 2, "do": "remove", "heir": 1, "number": 11},
    {"by": "laptop", "copy": 1, "do": "remove", "number": 12},
    {"by": "usb", "device": "usb", "do": "register", "number": 13, "path": "plan.txt", "sum": SUM},
    {"by": "usb", "copy": 13, "do": "edit", "number": 14, "sum": "0" * 64},
    {"by": "usb", "copy": 13, "do": "remove", "number": 15},
)

# Reports of a file and one of another, and the file's history.
REPORTS = (
    ("register", LAPTOP),
    ("duplicate", LAPTOP, USB),
    ("edit", USB),
    ("edit", LAPTOP, "--by", "desk"),
    ("merge", LAPTOP, USB),
    ("withdraw", "5", "--by", "laptop"),
    ("reconcile", USB, LAPTOP),
    ("relocate", USB, DESK),
    ("note", DESK, "--sum", SUM),
    ("confirm", "9", "--by", "desk"),
    ("register", "desk:other"),
    ("remove", DESK, "--heir", LAPTOP),
    ("duplicate", LAPTOP, MARKED),
    ("duplicate", LAPTOP, USB),
    ("withdraw", "14", "--by", "laptop"),
    ("remove", LAPTOP),
)
GRAPH = (
    ("o      ", "copy 1 gone"),
    ("  o    ", "copy 2 gone"),
    ("    o  ", f"copy 13 {MARKED}"),
    ("      o", "copy 14 gone"),
    ("*      ", f"1 register by laptop of {LAPTOP}"),
    ("| *    ", f"2 duplicate by laptop of {LAPTOP} to {USB}"),
    ("| *    ", f"3 edit by usb of {USB}"),
    ("* |    ", f"4 edit by desk of {LAPTOP}"),
    ("x x    ", f"5 merge by laptop of {LAPTOP} and {USB} (withdrawn by 6)"),
    ("| |    ", "6 withdraw by laptop of 5"),
    ("* *    ", f"7 reconcile by usb of {USB} and {LAPTOP}"),
    ("| *    ", f"8 relocate by usb of {USB} to {DESK}"),
    ("| *    ", f"9 note by desk of {DESK}"),
    ("| |    ", "10 confirm by desk of 9"),
    ("| *    ", f"12 remove by desk of {DESK} with heir {LAPTOP}"),
    ("|   *  ", f"13 duplicate by laptop of {LAPTOP} to {MARKED}"),
    ("|   | x", f"14 duplicate by laptop of {LAPTOP} to {USB} (withdrawn by 15)"),
    ("|   |  ", "15 withdraw by laptop of 14"),
    ("*   |  ", f"16 remove by laptop of {LAPTOP}"),
)

# Reports, and then how each place compares with each.
VERDICTS = (
    ((("register", LAPTOP), ("duplicate", LAPTOP, USB)), "yes\n", "yes\n"),
    ((("edit", LAPTOP),), f"newer: {LAPTOP} has changes that {USB} lacks\n", "yes\n"),
    ((("edit", USB),), f"conflict: {LAPTOP} has changes that {USB} lacks\n", f"conflict: {USB} has changes that {LAPTOP} lacks\n"),
    ((("reconcile", LAPTOP, USB),), "yes\n", "yes\n"),
    ((("remove", USB),), UNKNOWN.format(USB), UNKNOWN.format(USB)),
    ((("register", USB),), f"unrelated: {LAPTOP} and {USB} are copies of two files\n", f"unrelated: {USB} and {LAPTOP} are copies of two files\n"),
    ((("remove", USB), ("remove", LAPTOP)), UNKNOWN.format(LAPTOP), UNKNOWN.format(USB)),
)


def run(program, *words):
    """The status of a run, what it prints, and what it reports on standard error."""
    done = subprocess.run([program, *map(str, words)], stdin=subprocess.DEVNULL, capture_output=True, timeout=SECONDS)
    return done.returncode, done.stdout.decode(), done.stderr.decode()


def history(program, room):
    """Each report is the entry that its words say, by the device of its first place; what is refused or unknown is none. A daemon and a journal have the same."""
    journal = room / "files.journal"
    with Daemon(program) as daemon:
        for words, line, status in HISTORY:
            for keeper in (("--port", daemon.port), ("--journal", journal)):
                yield from differs((words, run(program, "report", *words, *keeper)), (words, (status, line, "")))
        with daemon.client() as client:
            yield from differs([entry for page in pages(client) for entry in page["entries"]], [*ENTRIES])
    line = b'{"by":"desk","do":"journal","from":1}\n'
    kept = subprocess.run([program, "run", "--journal", journal], input=line, capture_output=True, timeout=SECONDS)
    yield from differs(json.loads(kept.stdout)["entries"], [*ENTRIES])


def verdicts(program, room):
    """Whether a copy may be overwritten follows from what both know, by a daemon and by a journal, and nothing is reported."""
    journal = room / "files.journal"
    with Daemon(program) as daemon:
        keepers = (("--port", daemon.port), ("--journal", journal))
        for reports, *wanted in VERDICTS:
            for keeper, words in ((keeper, words) for keeper in keepers for words in reports):
                yield from differs((words, run(program, "report", *words, *keeper)[0]), (words, 0))
            before = journal.read_bytes()
            for keeper in keepers:
                for (target, source), line in zip(((LAPTOP, USB), (USB, LAPTOP)), wanted):
                    got = run(program, "may-overwrite", target, "--by", source, *keeper)
                    yield from differs((target, got), (target, (int(line != "yes\n"), line, "")))
                yield from differs(journal.read_bytes(), before)
        for keeper in keepers:
            run(program, "report", "register", USB, *keeper)
            yield from differs(run(program, "may-overwrite", USB, "--by", USB, *keeper), (0, "yes\n", ""))


def refused_words(program, room):
    """Words that say no report, and names of no place, are refused, and no journal is made."""
    journal = room / "files.journal"
    rows = (
        (("report", "change", USB), "bad word change"),
        (("report", "edit", "usb"), "bad place usb"),
        (("report", "edit", "USB:a"), "bad place USB:a"),
        (("report", "edit", "usb:"), "bad place usb:"),
        (("report", "edit", USB, LAPTOP), "edit is about one place"),
        (("report", "merge", USB), "merge is about two places"),
        (("report", "withdraw", "1", "2", "--by", "usb"), "withdraw is about one entry"),
        (("report", "withdraw", "x", "--by", "usb"), "bad entry x"),
        (("report", "withdraw", "01", "--by", "usb"), "bad entry 01"),
        (("report", "withdraw", "+1", "--by", "usb"), "bad entry +1"),
        (("report", "withdraw", "18446744073709551616", "--by", "usb"), "bad entry 18446744073709551616"),
        (("report", "withdraw", "1"), "--by has to name the device that reports"),
        (("report", "edit", USB, "--by", "USB"), "--by has to name the device that reports"),
        (("report", "edit", USB, "--sum", "0"), "bad sum 0"),
        (("report", "note", USB), "note needs --sum"),
        (("report", "found", USB), "found needs --sum"),
        (("report", "missing", USB, "--sum", SUM), "missing takes no --sum"),
        (("report", "edit", USB, "--heir", LAPTOP), "edit takes no --heir"),
        (("report", "remove", USB, "--heir", "laptop"), "bad place laptop"),
        (("may-overwrite", "usb", "--by", LAPTOP), "bad place usb"),
        (("may-overwrite", USB, "--by", "laptop"), "bad place laptop"),
    )
    for words, reason in rows:
        status, out, err = run(program, *words, "--journal", journal)
        yield from differs((words, status, out, err.split("\n")[0]), (words, 2, "", f"error: {reason}"))
    yield from differs(journal.exists(), False)


def no_answer(program, room):
    """What answers otherwise than a daemon does, or not at all, is reported, and what answers another call too."""
    at = b'{"at":{"conflict":0,"copy":1,"equal":0,"family":1,"newer":0,"older":0,"state":"newest"}}\n'
    report, ask = ("report", "edit", USB), ("may-overwrite", USB, "--by", LAPTOP)
    rows = [(words, answers, (3, "", SILENT)) for words in (report, ask) for answers in ((b"",), (b"{}\n",), (at, b""), (at, b'{"fault":"NotJson"}\n'))]
    rows += [(ask, (at, at, b""), (3, "", SILENT)), (report, (at, b'{"status":[]}\n'), (3, "", SILENT))]
    rows += [(words, (b'{"status":[]}\n',), (3, "", "panad: out of memory\n")) for words in (report, ask)]
    rows += [
        (report, (at, b'{"done":7}\n'), (0, "entry 7\n", "")),
        (report, (at, b'{"code":14,"refused":"NotKept"}\n'), (1, "refused: NotKept\n", "")),
        (ask, (at, at, b'{"code":2,"copy":1,"refused":"UnknownCopy"}\n'), (1, UNKNOWN.format(USB), "")),
        (ask, (at, at.replace(b'"copy":1', b'"copy":2'), b'{"code":2,"copy":2,"refused":"UnknownCopy"}\n'), (1, UNKNOWN.format(LAPTOP), "")),
    ]
    for words, answers, wanted in rows:
        with Server(*answers) as server:
            yield from differs((words, answers, run(program, *words, "--port", server.port)), (words, answers, wanted))
        port = server.port
    for words in (report, ask):
        yield from differs(run(program, *words, "--port", port), (3, "", f"panad: cannot connect to port {port}\n"))
    missing = room / "none"
    yield from differs(run(program, *ask, "--journal", missing), (3, "", f"panad: cannot open journal {missing}\n"))
    missing.write_text("no journal\n")
    for words in (report, ask):
        yield from differs(run(program, *words, "--journal", missing), (3, "", f"panad: journal {missing}: not a journal\n"))


def differences(program, room):
    """What each copy knows that the other lacks is said of journals of several pages, by a daemon and by a journal; what is none of a journal is reported."""
    journal = room / "files.journal"
    edit = {"by": "laptop", "copy": 1, "do": "edit"}
    lines = [{"by": "laptop", "device": "laptop", "do": "register", "path": LAPTOP[7:]}, {"by": "laptop", "copy": 1, "device": "usb", "do": "duplicate", "path": USB[4:]}]
    lines += [edit] * 100 + [{"by": "usb", "copy": 2, "do": "edit"}] + [edit] * 97
    given = "".join(json.dumps(it) + "\n" for it in lines).encode()
    subprocess.run([program, "run", "--journal", journal], input=given, stdout=subprocess.DEVNULL, timeout=SECONDS, check=True)
    of_laptop = "".join(f"{LAPTOP} has {number} edit by laptop\n" for number in (*range(3, 103), *range(104, 201)))
    of_usb = f"{USB} has 103 edit by usb\n"
    graph = f"o    copy 1 {LAPTOP}\n  o  copy 2 {USB}\n*    1 register by laptop of {LAPTOP}\n| *  2 duplicate by laptop of {LAPTOP} to {USB}\n"
    graph += "".join(f"| *  {number} edit by usb of {USB}\n" if number == 103 else f"* |  {number} edit by laptop of {LAPTOP}\n" for number in range(3, 201))
    with Daemon(program, "--journal", journal) as daemon:
        yield from differs(run(program, "why", LAPTOP, USB, "--port", daemon.port), (0, of_laptop + of_usb, ""))
        yield from differs(run(program, "history", USB, "--port", daemon.port), (0, graph, ""))
    yield from differs(run(program, "why", USB, LAPTOP, "--journal", journal), (0, of_usb + of_laptop, ""))
    yield from differs(run(program, "history", LAPTOP, "--journal", journal), (0, graph, ""))
    questions = (("why", LAPTOP, USB), ("history", LAPTOP), ("history", LAPTOP, "--svg", room / "none.svg"))
    for words in questions:
        yield from differs(run(program, *words, "--port", daemon.port), (3, "", f"panad: cannot connect to port {daemon.port}\n"))
    entry = b'{"entries":[{"by":"laptop","copy":1,"do":"edit","number":%d}]}\n'
    rows = (
        (b"", SILENT),
        (b"{}\n", SILENT),
        (b'{"fault":"NotJson"}\n', SILENT),
        (b'{"status":[]}\n', "panad: out of memory\n"),
        (entry % 1, "panad: what came is no journal: entry 1: UnknownCopy 1\n"),
        (entry % 2, "panad: what came is no journal: entry 1: OutOfOrder\n"),
    )
    rows = [(answer, (3, "", wanted)) for answer, wanted in rows] + [(b'{"entries":[]}\n', (1, UNKNOWN.format(LAPTOP), ""))]
    for words, (answer, wanted) in ((words, row) for words in questions for row in rows):
        with Server(answer) as server:
            yield from differs((words, answer, run(program, *words, "--port", server.port)), (words, answer, wanted))
    yield from differs((room / "none.svg").exists(), False)


def drawn(file):
    """The rows of a picture: what is drawn in each lane, as in a line of text, and its text, which is struck or not."""
    picture = ElementTree.fromstring(file.read_bytes())
    for group in (it for it in picture if it.tag.endswith("}g")):
        lines, *shapes, words = group
        lanes = {}
        for x, from_, length in re.findall(r"M(\d+) (\d+)v(\d+)", lines.get("d")):
            lanes[x] = "|" if from_ == "0" else " "
        for shape in shapes:
            x = shape.get("cx") or shape.get("d")[1:].split()[0]
            lanes[x] = {("circle", None): "*", ("circle", "n"): "o", ("path", "x"): "x"}[shape.tag.split("}")[1], shape.get("class")]
        last = int(words.get("x")) - 20
        yield " ".join(lanes.get(str(x), " ") for x in range(16, last + 1, 16)), words.text, group.get("class") == "w"


def graphs(program, room):
    """The history of a file is the same by a daemon and by a journal, and in a picture; a file that is none is left as it is."""
    journal, picture = room / "files.journal", room / "graph.svg"
    wanted = (0, "".join(f"{lanes}  {text}\n" for lanes, text in GRAPH), "")
    struck = [(lanes, text.replace("\u202e", "\\u{202e}").replace("\uffff", "\ufffd"), "(withdrawn by" in text) for lanes, text in GRAPH]
    with Daemon(program) as daemon:
        keepers = (("--port", daemon.port), ("--journal", journal))
        for keeper, words in ((keeper, words) for keeper in keepers for words in REPORTS):
            yield from differs((words, run(program, "report", *words, *keeper)[0]), (words, 0))
        before = journal.read_bytes()
        for keeper in keepers:
            yield from differs(run(program, "history", MARKED, *keeper), wanted)
            yield from differs(run(program, "history", MARKED, "--svg", picture, *keeper), (0, "", ""))
            yield from differs([*drawn(picture)], struck)
            yield from differs(run(program, "history", LAPTOP, *keeper), (1, UNKNOWN.format(LAPTOP), ""))
            status, out, err = run(program, "history", "laptop", *keeper)
            yield from differs((status, out, err.split("\n")[0]), (2, "", "error: bad place laptop"))
    ours = ("--journal", journal)
    yield from differs(run(program, "history", MARKED, "--svg", journal, *ours), (3, "", f"panad: {journal} is no picture\n"))
    for file in ("/dev/full", room, room / "none" / "graph.svg"):
        yield from differs(run(program, "history", MARKED, "--svg", file, *ours), (3, "", f"panad: cannot write {file}\n"))
    text = picture.read_text()
    picture.write_text(text + text)
    yield from differs(run(program, "history", MARKED, "--svg", picture, *ours), (0, "", ""))
    yield from differs((picture.read_text(), run(program, "history", MARKED, "--svg", "/dev/stdout", *ours)), (text, (0, text, "")))
    yield from differs(journal.read_bytes(), before)


def tables(program, room):
    """`show` prints the same tables of a daemon and of a journal: of all families, of one, and of those in conflict."""
    journal = room / "files.journal"
    head = "COPY  PLACE            STATE     NEWER  OLDER  EQUAL  CONFLICT\n"
    first = "family 1: copies 2, newest 2, split yes\n" + head + f"   1  {LAPTOP}  conflict      0      0      0         1\n   2  {USB}     conflict      0      0      0         1\n"
    second = "family 5: copies 1, newest 1, split no\nCOPY  PLACE      STATE     NEWER  OLDER  EQUAL  CONFLICT\n   5  desk:soup  newest        0      0      0         0\n"
    reports = (("register", LAPTOP), ("duplicate", LAPTOP, USB), ("edit", LAPTOP), ("edit", USB), ("register", "desk:soup"))
    with Daemon(program) as daemon:
        for keeper in (("--port", daemon.port), ("--journal", journal)):
            for words in reports:
                run(program, "report", *words, *keeper)
            rows = (((), first + "\n" + second), (("--split",), first), (("--family", "5"), second), (("--family", "1"), first))
            for words, wanted in rows:
                yield from differs((words, run(program, "show", *keeper, *words)), (words, (0, wanted, "")))
            yield from differs(run(program, "show", *keeper, "--family", "2"), (1, "", "panad: UnknownFamily\n"))
            for words in (("--split", "--family", "1"), ("--family", "x"), ("FILE",)):
                status, out, err = run(program, "show", *keeper, *words)
                yield from differs((words, status, out, err != ""), (words, 2, "", True))
    yield from differs(run(program, "show", "--port", daemon.port), (1, "", f"panad: cannot connect to port {daemon.port}\n"))
    for words in (("--split",), ("--family", "1")):
        status, out, err = run(program, "show", *words)
        yield from differs((status, out, err.split("\n")[0]), (2, "", "error: --family and --split need --journal, --log or --port"))
    for answers in ((b"",), (b'{"families":[{"copies":1,"family":1,"newest":1,"split":false}]}\n', b"")):
        with Server(*answers) as server:
            yield from differs(run(program, "show", "--port", server.port), (1, "", SILENT))


def counted(program, room):
    """`status` says how many copies there are, and with `--all` it lists the newest too, of a daemon and of a journal."""
    journal = room / "files.journal"
    reports = (("register", LAPTOP), ("duplicate", LAPTOP, USB), ("edit", LAPTOP), ("register", "desk:a"), ("register", "desk:b"), ("duplicate", "desk:b", "usb:b"), ("edit", "desk:b"), ("edit", "usb:b"))
    head = "STATE     COPY             WHAT TO DO\n"
    work = f"obsolete  {USB}     take {LAPTOP}\nconflict  desk:b           merge with usb:b\nconflict  usb:b            merge with desk:b\n"
    newest = f"newest    {LAPTOP}\nnewest    desk:a\n"
    rows = (
        (("--all",), 1, head + work + newest + "5 copies on 3 devices: 1 obsolete, 2 in conflict\n"),
        (("--all", "desk:"), 1, "STATE     COPY    WHAT TO DO\nconflict  desk:b  merge with usb:b\nnewest    desk:a\n0 obsolete, 1 in conflict\n"),
        (("--all", "desk:a", "laptop:"), 0, head + newest + "0 obsolete, 0 in conflict\n"),
        (("--all", "desk:none"), 0, "nothing is obsolete or in conflict\n0 obsolete, 0 in conflict\n"),
        (("--all", "--quiet"), 1, ""),
        (("usb:b",), 1, "STATE     COPY   WHAT TO DO\nconflict  usb:b  merge with desk:b\n0 obsolete, 1 in conflict\n"),
    )
    with Daemon(program) as daemon:
        for keeper in (("--port", daemon.port), ("--journal", journal)):
            for words in reports:
                run(program, "report", *words, *keeper)
            for words, status, wanted in rows:
                yield from differs((words, run(program, "status", *keeper, *words)), (words, (status, wanted, "")))
            status, out, err = run(program, "status", *keeper, "--all", "--json")
            yield from differs((status, out, err != ""), (2, "", True))
    # A comma stands before each three digits.
    for number, total in ((1, "1 copy on 1 device"), (999, "999 copies on 1 device"), (1204, "1,204 copies on 1 device")):
        given = "".join(json.dumps({"by": "usb", "device": "usb", "do": "register", "path": str(path)}) + "\n" for path in range(number)).encode()
        journal = room / f"{number}.journal"
        subprocess.run([program, "run", "--journal", journal], input=given, stdout=subprocess.DEVNULL, timeout=SECONDS, check=True)
        yield from differs(run(program, "status", "--journal", journal), (0, f"nothing is obsolete or in conflict\n{total}: 0 obsolete, 0 in conflict\n", ""))
    # What goes away between two questions is reported.
    for answers in ((b'{"status":[]}\n', b""), (b'{"status":[]}\n', b'{"families":[{"copies":1,"family":1,"newest":1,"split":false}]}\n', b""), (b'{"status":[]}\n', b'{"families":[]}\n', b"")):
        with Server(*answers) as server:
            yield from differs((answers, run(program, "status", "--all", "--port", server.port)), (answers, (3, "", SILENT)))


CHECKS = (history, verdicts, refused_words, no_answer, differences, graphs, tables, counted)


if __name__ == "__main__":
    sys.exit(run_checks(__doc__, CHECKS, sys.argv[1:]))
