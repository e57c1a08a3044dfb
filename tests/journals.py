"""A program that keeps a journal, run for a test, and what it answers."""
from __future__ import annotations

import contextlib
import json
import subprocess

SECONDS = 60


def line(by="laptop", **said):
    return (json.dumps({"by": by, **said}) + "\n").encode()


REGISTER = line(do="register", device="laptop", path="plan.txt")
EDIT = line(do="edit", copy=1)
BOARD = line(do="board", family=1)


def pages(count):
    """Lines that ask for so many entries, and for one behind them."""
    return b"".join(line(do="journal", **{"from": at}) for at in range(1, count + 2, 100))


def ran(program, *words, given=b"", **how):
    """The status of a run, and what it wrote on standard output and standard error."""
    done = subprocess.run([program, *map(str, words)], input=given, capture_output=True, timeout=SECONDS, **how)
    return done.returncode, done.stdout, done.stderr


def answers(program, file, given, error=b""):
    """What a run on the journal answers, which ends well."""
    status, out, err = ran(program, "run", "--journal", file, given=given)
    if status or (error is not None and err != error):
        raise ValueError(f"status {status}, standard error {err!r:.300}, wanted {error!r:.300}")
    return [json.loads(it) for it in out.splitlines()]


def entries(program, file, most, error=b""):
    """The entries that the program finds in a journal, asked for by pages."""
    return [it for page in answers(program, file, pages(most), error) for it in page["entries"]]


def reported(out, text):
    """What a run gives that does nothing but report this."""
    return 1, out, f"panad: {text}\n".encode()


def made(program, file, edits):
    """Makes a journal with a copy and its edits, a line for each, and returns its entries."""
    asked(program, file, REGISTER, *[EDIT] * edits)
    return entries(program, file, edits + 1)


def asked(program, file, *lines, **how):
    """What a run answers that is asked line by line, up to the first that has no answer, and how it ended."""
    session, found = Session(program, file, **how), []
    with contextlib.suppress(BrokenPipeError):
        for it in lines:
            found.append(session.ask(it))
            if found[-1] == "nothing":
                break
    return [it for it in found if it != "nothing"], session.end()


def each_command(program, name):
    """What `run` and `show` report of a journal that they don't open."""
    for words in (("run", "--journal", name), ("show", "--journal", name)):
        yield ran(program, *words, given=REGISTER)


class Session:
    """A run on a journal that is asked line by line."""

    def __init__(self, program, file, **how):
        streams = {"stdin": subprocess.PIPE, "stdout": subprocess.PIPE, "stderr": subprocess.PIPE}
        self.started = subprocess.Popen([program, "run", "--journal", str(file)], **streams, **how)

    def ask(self, given):
        self.started.stdin.write(given)
        self.started.stdin.flush()
        return json.loads(self.started.stdout.readline() or b'"nothing"')

    def end(self):
        out, err = self.started.communicate(timeout=SECONDS)
        return self.started.returncode, out, err
