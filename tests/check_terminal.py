#!/usr/bin/env python3
"""Has the program write to a terminal and to a pipe: characters that would act on one, tables that are wider than it, and colours.

usage: check_terminal.py PROGRAM
The last line is 'N passed, M failed'.
"""
from __future__ import annotations

import json
import os
import pty
import subprocess
import sys
import tty
from unicodedata import east_asian_width

from harness import differs, run_checks

SECONDS = 60
# A control sequence introducer, an override of the direction of writing, and a separator of lines.
HIDDEN = {"\u009b": "\\u{9b}", "\u202e": "\\u{202e}", "\u2028": "\\u{2028}"}
RAW = "a" + "".join(HIDDEN) + "é日"
SHOWN = "a" + "".join(HIDDEN.values()) + "é日"
REGISTER = json.dumps({"by": "usb", "do": "register", "device": "usb", "path": RAW}, ensure_ascii=False) + "\n"
HOLDINGS = '{"by":"usb","do":"holdings","device":"usb"}\n'


def ran(program, *words, given=""):
    """The status of a run, and what pipes have of its standard output and standard error."""
    done = subprocess.run([program, *words], input=given.encode(), capture_output=True, timeout=SECONDS)
    return done.returncode, done.stdout.decode(), done.stderr.decode()


def on_terminal(stream, program, *words, given="", **environment):
    """What a terminal gets of a run whose standard output or standard error it is, with more in its environment."""
    ours, theirs = pty.openpty()
    tty.setraw(theirs)
    streams = {"stdout": subprocess.DEVNULL, "stderr": subprocess.DEVNULL, stream: theirs}
    without = {name: value for name, value in os.environ.items() if name not in ("NO_COLOR", "COLUMNS")}
    with subprocess.Popen([program, *words], stdin=subprocess.PIPE, env={**without, **environment}, **streams) as started:
        os.close(theirs)
        started.stdin.write(given.encode())
        started.stdin.close()
        got, more = b"", True
        while more:
            try:
                more = os.read(ours, 65536)
            except OSError:
                more = b""
            got += more
        started.wait(timeout=SECONDS)
    os.close(ours)
    return got.decode()


def tables(program, room):
    """A table shows codes wherever it goes, and its columns are counted over them."""
    (room / "lines").write_text(REGISTER)
    wide = len(SHOWN) + 1  # the last of its letters takes two columns
    table = (
        "family 1: copies 1, newest 1, split no\n"
        f"COPY  {'PLACE':<{wide + 4}}  STATE     NEWER  OLDER  EQUAL  CONFLICT\n"
        f"   1  usb:{SHOWN}  newest        0      0      0         0\n"
    )
    yield from differs(ran(program, "show", str(room / "lines")), (0, table, ""))
    yield from differs(on_terminal("stdout", program, "show", str(room / "lines")), table)


def answers(program, _):
    """A session's answers are shown on a terminal, and go elsewhere as they are."""
    held = lambda path: f'{{"done":1}}\n{{"holdings":[{{"copy":1,"family":1,"path":"{path}","touch":1}}]}}\n'
    given = REGISTER + HOLDINGS
    yield from differs(ran(program, "run", given=given), (0, held(RAW), ""))
    yield from differs(on_terminal("stdout", program, "run", given=given), held(SHOWN))


def kept_answers(program, room):
    """So are those of a session with a journal, whose file has the path as it is."""
    file = room / "journal"
    shown = on_terminal("stdout", program, "run", "--journal", str(file), given=REGISTER + HOLDINGS)
    yield from differs(SHOWN in shown and RAW not in shown, True)
    yield from differs(RAW in file.read_text(), True)


def scans(program, room):
    """So are the lines of a scan."""
    (room / RAW).write_text("")
    line = '{{"by":"usb","device":"usb","do":"register","path":"{}"}}\n'
    yield from differs(ran(program, "scan", "usb", str(room)), (0, line.format(RAW), ""))
    yield from differs(on_terminal("stdout", program, "scan", "usb", str(room)), line.format(SHOWN))


def messages(program, room):
    """So are messages, and what is wrong with the words of the command line."""
    text = "panad: cannot read {}\n"
    name, shown = str(room / RAW), str(room / SHOWN)
    yield from differs(ran(program, "load", name), (1, "", text.format(name)))
    yield from differs(on_terminal("stderr", program, "load", name), text.format(shown))
    for words in (("show", "--journal", name), ("serve", "--port", "0", RAW), ("show", f"--{RAW}")):
        raw, shown = ran(program, *words)[2], on_terminal("stderr", program, *words)
        yield from differs(RAW in raw, True)
        yield from differs(shown, raw.replace(RAW, SHOWN))


def colours(program, room):
    """What is in conflict is red on a terminal, and what is obsolete yellow; not elsewhere, nor where the user wants none."""
    journal = str(room / "journal")
    for words in ("register laptop:a", "duplicate laptop:a usb:a", "register laptop:conflict", "duplicate laptop:conflict usb:b", "edit laptop:a", "edit laptop:conflict", "edit usb:b"):
        ran(program, "report", *words.split(), "--journal", journal)
    rows = (("", "STATE     COPY             WHAT TO DO"), ("33", "obsolete  usb:a            take laptop:a"), ("31", "conflict  laptop:conflict  merge with usb:b"), ("31", "conflict  usb:b            merge with laptop:conflict"))
    rows += (("", "4 copies on 2 devices: 1 obsolete, 2 in conflict"),)
    boards = (
        ("", "family 1: copies 2, newest 1, split no"),
        ("", "COPY  PLACE     STATE     NEWER  OLDER  EQUAL  CONFLICT"),
        ("", "   1  laptop:a  newest        0      1      0         0"),
        ("33", "   2  usb:a     obsolete      1      0      0         0"),
        ("", ""),
        ("31", "family 3: copies 2, newest 2, split yes"),
        ("", "COPY  PLACE            STATE     NEWER  OLDER  EQUAL  CONFLICT"),
        ("31", "   3  laptop:conflict  conflict      0      0      0         1"),
        ("31", "   4  usb:b            conflict      0      0      0         1"),
    )
    for words, status, lines in ((("status", "--journal", journal), 1, rows), (("show", "--journal", journal), 0, boards)):
        plain = "".join(f"{line}\n" for _, line in lines)
        yield from differs(ran(program, *words), (status, plain, ""))
        yield from differs(on_terminal("stdout", program, *words), "".join(f"\x1b[{code}m{line}\x1b[0m\n" if code else f"{line}\n" for code, line in lines))
        yield from differs(on_terminal("stdout", program, *words, NO_COLOR="1"), plain)
    # What looks like a row but is none has no colour.
    yield from differs(on_terminal("stdout", program, "why", "laptop:conflict", "usb:b", "--journal", journal), "laptop:conflict has 6 edit by laptop\nusb:b has 7 edit by usb\n")


def columns(text):
    """How many columns of a terminal the widest line takes, of letters that take one or two."""
    return max(sum(2 if east_asian_width(letter) == "W" else 1 for letter in line) for line in text.splitlines())


def narrow(program, room):
    """Where a terminal says that it has 60 columns the tables fit it: long places lose their middle. Elsewhere they don't."""
    journal = str(room / "journal")
    path = "photos/2024/beach.jpg"
    for words in (f"register laptop:{path}", f"duplicate laptop:{path} usb:{path}", f"edit laptop:{path}", f"edit usb:{path}"):
        ran(program, "report", *words.split(), "--journal", journal)
    for words, lines in (
        # Beside the state, the words and the blanks 37 columns are left for two places, 18 for each.
        (("status",), ("STATE     COPY                WHAT TO DO", "conflict  laptop:ph…each.jpg  merge with usb:photo…each.jpg", "conflict  usb:photo…each.jpg  merge with laptop:ph…each.jpg", "2 copies on 2 devices: 0 obsolete, 2 in conflict")),
        # The other columns leave 13.
        (("show",), ("family 1: copies 2, newest 2, split yes", "COPY  PLACE          STATE     NEWER  OLDER  EQUAL  CONFLICT", "   1  laptop…ch.jpg  conflict      0      0      0         1", "   2  usb:ph…ch.jpg  conflict      0      0      0         1")),
    ):
        words += ("--journal", journal)
        whole = ran(program, *words)[1]
        on = lambda **more: on_terminal("stdout", program, *words, NO_COLOR="1", **more)
        yield from differs(on(COLUMNS="60"), "".join(f"{line}\n" for line in lines))
        yield from differs(columns(on(COLUMNS="60")) <= 60 < columns(whole), True)
        for more in ({}, {"COLUMNS": "200"}, {"COLUMNS": ""}, {"COLUMNS": "0"}, {"COLUMNS": "-60"}, {"COLUMNS": "sixty"}):
            yield from differs((more, on(**more)), (more, whole))
        os.environ["COLUMNS"] = "60"
        yield from differs(ran(program, *words)[1], whole)
        del os.environ["COLUMNS"]
        # Places keep 12 columns, also where the lines are too long then.
        yield from differs(on(COLUMNS="1"), on(COLUMNS="20"))
    # Letters of two columns, and a folder that is tracked.
    for device in ("laptop", "usb"):
        (room / device).mkdir()
        (room / device / ("日記" * 20)).write_text("one")
    track = ("track", "--journal", str(room / "tracked"), f"laptop={room / 'laptop'}", f"usb={room / 'usb'}")
    ran(program, *track)
    (room / "laptop" / ("日記" * 20)).write_text("two")
    table = on_terminal("stdout", program, *track, NO_COLOR="1", COLUMNS="60")
    yield from differs((columns(table) <= 60, table.count("…")), (True, 2))


def help_texts(program, _):
    """Help is the same on a terminal."""
    yield from differs(on_terminal("stdout", program, "--help"), ran(program, "--help")[1])


CHECKS = (tables, answers, kept_answers, scans, messages, colours, narrow, help_texts)


if __name__ == "__main__":
    sys.exit(run_checks(__doc__, CHECKS, sys.argv[1:]))
