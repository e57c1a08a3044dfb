#!/usr/bin/env python3
"""Checks ./panad and ./test over a kit that is made up: what they print, what they count, and their status.

usage: check_scripts.py
The made-up rt proves nothing. It does what the file `does` beside it says, a command of the shell for each of its
commands. The last line is 'N passed, M failed'.
"""
from __future__ import annotations

import os
import pty
import shutil
import signal
import subprocess
import sys
import tempfile
import time
from pathlib import Path

TOP = Path(__file__).resolve().parent.parent
SECONDS = 30
CRATES = "low:\npanad: low clap\nhigh: low\n"
RT = """#!/usr/bin/env bash
kit=$(dirname -- "$(dirname -- "$0")")
printf '%s %s\\n' "$(basename -- "$PWD")" "$*" >>"$kit/calls"
. "$kit/does"
"""
# Of the compiler's words the first counts, and the last, which is where what is built goes.
RATTLE = RT.replace("$*", "$1").replace('. "', 'to=${*: -1}\n. "')
LINK = """#!/usr/bin/env bash
while [ "$1" != -o ]; do shift; done
printf '#!/bin/sh\\necho answers\\n' >"$2"
chmod +x "$2"
"""
# What a library is follows from its crate's code, less the comments. The kit writes none onto a part of one.
BUILD = """case $to in *.o) touch "$to" ;; *) [ ! -e "$to" ] || [ -e "$to/format" ] || { echo "not an earlier rlib"; exit 1; }; mkdir -p "$to"; cat src/*.rt | grep -v '^//' >"$to/format" ;; esac; echo logic=proved"""
PROGRAM = "mkdir -p out; printf '#!/bin/sh\\necho answers\\n' >out/panad; chmod +x out/panad"
# What becomes of an edit is what its file says, or else what the file `all` beside `does` says.
EDITS = """passed=2 failed=0
for it in crates/*/must-fail/*.edit; do
  [ -f "$it" ] || continue
  crate=${it#crates/} crate=${crate%%/*}
  name=$crate/${it##*/}
  case " $* " in " must-fail"*" $crate "*|" ci "*) ;; *) continue ;; esac
  printf '%s\\n' "$name" >>"$kit/tried"
  case $(cat "$kit/all" "$it" 2>/dev/null | head -n 1) in
    refused) said='refused, as it must be: ./src/lib.rt:1:1: error' passed=$((passed + 1)) ;;
    hollow) said='refused, as it must be (only because a proof file names what the edit took away): ./proofs/A.antt:8:67: error' passed=$((passed + 1)) ;;
    bad) said='BAD EDIT: it changes nothing' ;;
    *) said='NOT REFUSED: the crate is still proved with this edit' failed=$((failed + 1)) ;;
  esac
  printf 'rt: must-fail %s: %s\\n' "$name" "$said"
done"""
CI = f"""{EDITS}
(cd crates/panad; {PROGRAM})
printf '%s passed, %s failed\\n' "$passed" "$failed"
[ "$failed" -eq 0 ]"""
WELL = f'case "$1" in build) {BUILD} ;; run) {PROGRAM} ;; ci) {CI} ;; must-fail) {EDITS} ;; esac'
STUB = "print('1 passed, 0 failed')\n"
PROMISE = "use {}::Count;\n\npub fn sum() -> Count\n    ensures {{ result ≡ {} }}\n{{\n    {}\n}}\n"
PRIVATE = "use low::other::one;\n\nfn more() -> u64\n    ensures { result ≡ 1 }\n{\n    one()\n}\n"
CALLER = "use low::{plain, sum};\n\npub fn high() -> u64\n    ensures { result ≡ 4 }\n{\n    sum()\n}\n"
PLAIN = "\npub fn plain() -> u64 {{\n    {}\n}}\n"
OTHER = "\npub fn other() -> u64\n    ensures { result ≡ 1 }\n{\n    1\n}\n"
# What is no stub: the scripts that the checks look at.
REAL = {"edits.py", "gate.py", "parts.py", "promises.py", "quick.py", "try_edits.py"}


class Kit:
    """A repository of three crates and a kit that is made up, in a folder of their own."""

    def __init__(self, room, does):
        self.repository, self.kit = Path(room) / "repository", Path(room) / "kit"
        for name in ("panad", "test"):
            self.repository.mkdir(exist_ok=True)
            shutil.copy2(TOP / name, self.repository / name)
        shutil.copytree(TOP / "tools", self.repository / "tools")
        (self.repository / "crates.txt").write_text(CRATES)
        for name in ("low", "panad", "high"):
            (self.repository / "crates" / name / "src").mkdir(parents=True)
            (self.repository / "crates" / name / "src" / "lib.rt").write_text("//! Nothing.\n")
        for it in (TOP / "tests").glob("**/*.py"):
            stub = self.repository / it.relative_to(TOP)
            if "scenarios" not in it.parts:
                stub.parent.mkdir(parents=True, exist_ok=True)
                stub.write_text(it.read_text() if it.name in REAL else STUB)
        (self.kit / "bin").mkdir(parents=True)
        (self.kit / "KIT-ID").write_text("made up\n")
        for name, does_so in (("rt", RT), ("rattle", RATTLE), ("rattle-link", LINK)):
            (self.kit / "bin" / name).write_text(does_so)
            (self.kit / "bin" / name).chmod(0o755)
        self.has_rt_do(does)

    def has_rt_do(self, does):
        (self.kit / "does").write_text(does)

    def has_edits(self, count, says):
        """Gives the crates low and high together so many must-fail edits, each of which says what becomes of it."""
        for at in range(count):
            it = self.repository / "crates" / ("low" if at % 2 else "high") / "must-fail" / f"edit_{at}.edit"
            it.parent.mkdir(exist_ok=True)
            it.write_text(f"{says}\n")

    def tried(self):
        """The edits that rt has tried since this was last asked."""
        file = self.kit / "tried"
        found = file.read_text().split() if file.exists() else []
        file.unlink(missing_ok=True)
        return found

    def record(self):
        """The record of edits that were refused, and its file."""
        file = self.repository / "tests" / "edits-tried"
        return file.read_text().splitlines() if file.exists() else []

    def has_crates(self, listed):
        """Gives the repository these crates as well, by their lines of crates.txt."""
        (self.repository / "crates.txt").write_text(listed)
        for line in listed.splitlines():
            source = self.repository / "crates" / line.partition(":")[0] / "src"
            source.mkdir(parents=True, exist_ok=True)
            (source / "lib.rt").write_text("//! Nothing.\n")

    def calls(self):
        """How rt was called, without the number of jobs."""
        lines = (self.kit / "calls").read_text().splitlines() if (self.kit / "calls").exists() else []
        return [" ".join(it for it in line.split() if not it.startswith("--jobs=")) for line in lines]

    def start(self, *words, **how):
        path = f"{self.kit / 'bin'}:{os.environ.get('PATH', os.defpath)}"
        environment = {**os.environ, "PATH": path}
        how = {"stdin": subprocess.DEVNULL, "stdout": subprocess.PIPE, "stderr": subprocess.PIPE, **how}
        return subprocess.Popen(words, cwd=self.repository, env=environment, start_new_session=True, **how)

    def run(self, *words):
        """The status of a run, and what it wrote on standard output and standard error."""
        with self.start(*words) as started:
            output, error = started.communicate(timeout=SECONDS)
        return started.returncode, output.decode(), error.decode()


def other_arguments(kit):
    """./test refuses other arguments with a usage line, and proves nothing."""
    for words in (["walk"], ["quick", "quick"], [""]):
        status, output, error = kit.run("./test", *words)
        if status != 2 or output or not error.startswith("usage: ./test"):
            yield f"./test {words} ended with {status}, {output!r}, {error!r}"
    if (kit.kit / "calls").exists():
        yield f"rt was called: {kit.calls()}"


def first_use(kit):
    """A first use proves the crates of the program in order, with a line for each on standard error; the next starts at once."""
    status, output, error = kit.run("./panad", "run")
    if (status, output) != (0, "answers\n"):
        yield f"it ended with {status} and {output!r}"
    if kit.calls() != ["low build", "panad build"]:
        yield f"the kit was called: {kit.calls()}"
    lines = [it.split(" (")[0] for it in error.splitlines()]
    wanted = ["panad: low is proved, crate 1 of 2", "panad: panad is proved, crate 2 of 2", "panad: built"]
    if not lines[0].startswith("panad: first use") or lines[1:] != wanted:
        yield f"standard error has {error!r}"
    if kit.run("./panad", "run") != (0, "answers\n", "") or len(kit.calls()) != 2:
        yield "a second use isn't quiet, or proves again"


def on_a_terminal(kit):
    """On a terminal one line changes: the minutes so far, and the crates that are being proved."""
    ours, theirs = pty.openpty()
    with kit.start("./panad", "run", stderr=theirs) as started:
        os.close(theirs)
        shown, more = b"", True
        while more:
            try:
                more = os.read(ours, 65536)
            except OSError:
                more = b""
            shown += more
    os.close(ours)
    text = shown.decode().replace("\r\n", "\n")
    if "\rpanad: 0:00 min, 0 of 2 crates, low " not in text or text.count("\n") != 2:
        yield f"the terminal has {text!r}"


def failed_proof(kit):
    """A crate that isn't proved ends the build with status 1 and the end of the log; there is no program."""
    kit.has_rt_do("echo 'error: not proved'; exit 1")
    status, output, error = kit.run("./panad", "run")
    if status != 1 or output or "error: not proved" not in error or "the build failed" not in error:
        yield f"it ended with {status}, {output!r}, {error!r}"
    if (kit.repository / ".build" / "panad").exists() or kit.calls() != ["low build"]:
        yield "it went on"


def two_at_a_time(kit):
    """Two crates that don't use each other are proved at the same time, and none before what it uses; where one fails, the other is stopped."""
    kit.has_crates("panad: left right\nleft: low\nright: low\nlow:\n")
    begun = 'touch "$kit/$(basename "$PWD")"'
    waits = "for _ in $(seq 100); do [ -e $kit/left ] && [ -e $kit/right ] && break; sleep 0.05; done; [ -e $kit/left ] && [ -e $kit/right ]"
    both = f'case $PWD in */left|*/right) {begun}; {waits} ;; esac'
    kit.has_rt_do(f"{both} && {{ {WELL}; }}")
    status, output, error = kit.run("./panad", "run")
    calls = kit.calls()
    if (status, output) != (0, "answers\n") or [calls[0], *sorted(calls[1:3]), calls[3]] != ["low build", "left build", "right build", "panad build"]:
        yield f"it ended with {status}, {output!r}, {error!r}, and the kit was called: {calls}"
    (kit.repository / "crates" / "low" / "src" / "lib.rt").write_text("something\n")
    kit.has_rt_do(f"{both}; case $PWD in */left) until [ -e $kit/waits ]; do sleep 0.05; done; exit 1 ;; */right) trap 'echo ended >>$kit/calls; exit 1' TERM; touch $kit/waits; sleep 60 & wait ;; esac; {WELL}")
    status, output, error = kit.run("./panad", "run")
    if status != 1 or output or kit.calls()[-1] != "ended" or kit.calls().count("panad build") != 1:
        yield f"where one fails it ended with {status}, {output!r}, {error!r}, and the kit was called: {kit.calls()}"


def wait_for_call(kit, call):
    """Waits until the kit was called so."""
    end = time.monotonic() + SECONDS
    while not (kit.kit / "calls").exists() or call not in kit.calls():
        if time.monotonic() > end:
            raise ValueError(f"the kit was never called so: {call}")
        time.sleep(0.05)


def interrupted(kit):
    """An interrupted first use ends with status 130, and the next goes on."""
    kit.has_rt_do(f"case $PWD in */panad) sleep 60 ;; esac; {WELL}")
    with kit.start("./panad", "run") as started:
        wait_for_call(kit, "panad build")
        os.killpg(started.pid, signal.SIGINT)
        _, error = started.communicate(timeout=SECONDS)
    if started.returncode not in (130, -signal.SIGINT) or "interrupted" not in error.decode():
        yield f"it ended with {started.returncode} and {error.decode()!r}"
    kit.has_rt_do(WELL)
    if kit.run("./panad", "run")[:2] != (0, "answers\n") or kit.calls() != ["low build", "panad build", "panad build"]:
        yield f"the next use didn't go on: the kit was called: {kit.calls()}"


def ended_alone(kit):
    """Where tools/prove.py is ended by itself, the prover is ended too."""
    kit.has_rt_do("trap 'kill $! 2>/dev/null; echo ended >>$kit/calls; exit 1' TERM; sleep 60 & echo waits >>$kit/calls; wait")
    with kit.start("python3", "-B", "tools/prove.py", kit.kit, kit.repository / ".build") as started:
        wait_for_call(kit, "waits")
        started.terminate()
        started.communicate(timeout=SECONDS)
    wait_for_call(kit, "ended")
    if started.returncode != 130:
        yield f"it ended with {started.returncode}"


def left_over(kit):
    """What a build that was broken off has written of a library is gone before its crate is proved again."""
    (kit.repository / ".build" / "rlib" / "low.rlib" / "lang").mkdir(parents=True)
    status, output, error = kit.run("./panad", "run")
    if (status, output) != (0, "answers\n"):
        yield f"it ended with {status}, {output!r}, {error!r}"


def gate_that_passes(kit):
    """./test adds up its parts, and keeps the program that rt ci has built."""
    status, output, _ = kit.run("./test")
    if status or not output.splitlines()[-1].endswith(" passed, 0 failed") or kit.calls() != ["repository ci"]:
        yield f"it ended with {status}, called {kit.calls()} and printed {output[-400:]!r}"
    if kit.run("./panad", "run") != (0, "answers\n", ""):
        yield "the program isn't kept"


def taken_over(kit):
    """Only what was made of something else is proved again: a crate's files, a library below that is another now, or the kit. Libraries are packed."""
    low, panad = (kit.repository / "crates" / name / "src" / "lib.rt" for name in ("low", "panad"))
    changes = (
        (lambda: None, "low panad"),
        (lambda: panad.write_text("one\n"), "panad"),
        (lambda: low.write_text("// a comment\n"), "low panad"),
        (lambda: low.write_text("two\n"), "low panad"),
        (lambda: (kit.repository / ".build" / "rlib" / "low.tgz").unlink() or panad.write_text("three\n"), "low panad"),
        (lambda: (kit.kit / "KIT-ID").write_text("another\n"), "low panad"),
    )
    for number, (change, wanted) in enumerate(changes):
        before = len(kit.calls())
        change()
        status, output, error = kit.run("./panad", "run")
        if (status, output) != (0, "answers\n") or kit.calls()[before:] != [f"{it} build" for it in wanted.split()]:
            yield f"after change {number} it ended with {status}, {output!r}, {error!r}, and the kit was called: {kit.calls()[before:]}"
        left = sorted(it.name for it in (kit.repository / ".build" / "rlib").iterdir())
        if left != ["low.stamp", "low.tgz"]:
            yield f"after change {number} the libraries have {left}"


def three_crates(kit):
    """A library that is made again and is as it was has nothing above it proved again but the program."""
    kit.has_crates("panad: middle\nmiddle: low\nlow:\n")
    kit.run("./panad", "run")
    (kit.repository / "crates" / "low" / "src" / "lib.rt").write_text("// a comment\n")
    kit.run("./panad", "run")
    if kit.calls() != ["low build", "middle build", "panad build", "low build", "panad build"]:
        yield f"the kit was called: {kit.calls()}"


def changed_meanwhile(kit):
    """What changes while it is proved is proved again, and nothing is kept of it."""
    kit.has_rt_do(f"case $PWD in */low) echo more >>src/lib.rt ;; esac; {WELL}")
    status, output, error = kit.run("./panad", "run")
    kit.has_rt_do(WELL)
    if status != 1 or output or "the sources changed" not in error or (kit.repository / ".build" / "panad").exists():
        yield f"it ended with {status}, {output!r}, {error!r}"
    if kit.run("./panad", "run")[:2] != (0, "answers\n") or kit.calls().count("low build") != 2:
        yield f"the next use didn't prove it again: the kit was called: {kit.calls()}"


def killed_prover(kit):
    """A prover that the system kills is begun again where others ran beside it, and ends the build where none did."""
    kit.has_rt_do(f"if [ ! -e $kit/once ]; then touch $kit/once; kill -9 $$; fi; {WELL}")
    wanted = (0, "answers\n", ["low build", "low build", "panad build"]) if (os.cpu_count() or 1) > 1 else (1, "", ["low build"])
    status, output, _ = kit.run("./panad", "run")
    if (status, output, kit.calls()) != wanted:
        yield f"it ended with {status}, {output!r}, and the kit was called: {kit.calls()}"
    kit.has_rt_do("kill -9 $$")
    (kit.repository / "crates" / "low" / "src" / "lib.rt").write_text("more\n")
    if kit.run("./panad", "run")[0] != 1:
        yield "a prover that is killed each time doesn't end the build"


def text_first(kit):
    """./test and ./test quick end where a check that takes seconds fails, and prove nothing."""
    (kit.repository / "tests" / "check_repository.py").write_text("print('0 passed, 1 failed')\nraise SystemExit(1)\n")
    for words in ([], ["quick"], ["edits"]):
        status, output, _ = kit.run("./test", *words)
        if status != 1 or kit.calls() or "== scenarios" in output:
            yield f"./test {words} ended with {status}, called {kit.calls()} and printed {output[-400:]!r}"


def how_long(kit):
    """./test prints at its end what took how long, and of the edits how many were tried and taken over."""
    kit.has_edits(20, "refused")
    kit.run("./test")
    lines = kit.run("./test")[1].splitlines()
    table = lines[lines.index("== what took how long, in minutes") + 1 :]
    for wanted in ("rt ci: proofs, tests and must-fail edits", "must-fail edits: 1 tried, 19 taken over", "scenarios", "in all"):
        if not any(it.endswith(wanted) for it in table):
            yield f"the table has no line of {wanted!r}: {table}"


def untried_edits(kit):
    """./test tries the edits without a line in the record, writes the lines, and tries a twentieth of them the next time."""
    kit.has_edits(20, "refused")
    status, output, _ = kit.run("./test")
    passed = int(output.splitlines()[-1].split()[0])
    tried, record = kit.tried(), kit.record()
    if status or len(tried) != 20 or [it.split()[0] for it in record] != sorted(tried):
        yield f"it ended with {status}, tried {tried} and wrote {record}"
    status, output, _ = kit.run("./test")
    if status or len(kit.tried()) != 1 or kit.record() != record or output.splitlines()[-1] != f"{passed - 19} passed, 0 failed":
        yield f"the second time it ended with {status}, wrote {kit.record()} and printed {output[-200:]!r}"


def stale_edits(kit):
    """./test tries the edits again where their crate, what it comes to of one below, the edit or the kit has changed, or a line's sum is wrong, but for a kit that it had before, or what a crate below uses of it."""
    kit.has_edits(10, "refused")
    kit.run("./test")
    first = kit.record()
    low, high = ([it.split()[0] for it in first if it.startswith(crate)] for crate in ("low", "high"))
    file = kit.repository / "tests" / "edits-tried"
    source = kit.repository / "crates/low/src/lib.rt"
    changes = (
        (lambda: (kit.repository / "crates/high/src/lib.rt").write_text(CALLER), high),
        (lambda: source.write_text(f"//! Something.\n{PROMISE.format('low', 4, 4)}"), low + high),
        (lambda: source.write_text(f"//! Another thing.\n{PROMISE.format('low', 4, '2 + 2')}{PRIVATE}"), low),
        (lambda: source.write_text(f"//! Another thing.\n{PROMISE.format('low', 5, '2 + 2')}{PRIVATE}"), low + high),
        (lambda: source.write_text(f"//! Another thing.\n{PROMISE.format('low::whole', 5, '2 + 2')}{PRIVATE}"), low + high),
        (lambda: source.write_text(f"//! Another thing.\n{PROMISE.format('low::whole', 5, '2 + 2')}{OTHER}"), low),
        (lambda: source.write_text(f"{PROMISE.format('low', 4, 4)}{PLAIN.format(4)}"), low + high),
        (lambda: source.write_text(f"{PROMISE.format('low', 4, 4)}{PLAIN.format(5)}"), low),
        (lambda: (kit.repository / "crates" / low[0].replace("/", "/must-fail/")).write_text("refused\n\n"), low[:1]),
        (lambda: file.write_text("".join(f"{it.split()[0]} {'0' * 64 if it.startswith(high[0]) else it.split()[1]}\n" for it in kit.record())), high[:1]),
        (lambda: file.write_text("".join(f"{it}\n" for it in kit.record() if not it.startswith(high[1]))), high[1:2]),
        (lambda: (kit.repository / "crates.txt").write_text(CRATES.replace("low:\n", "low: clap\n")), low),
        (lambda: (kit.kit / "KIT-ID").write_text("another\n"), low + high),
    )
    kit.tried()
    before = (kit.kit / "KIT-ID").read_text()
    for number, (change, wanted) in enumerate(changes, 1):
        change()
        said = f"{len(wanted)} of 10 have no line in tests/edits-tried that holds"
        if said not in kit.run("./test", "quick")[1]:
            yield f"after change {number} ./test quick doesn't say: {said}"
        status, _, _ = kit.run("./test")
        tried, record = kit.tried(), kit.record()
        if status or {*wanted} - {*tried} or len({*tried} - {*wanted}) > 1 or len(record) != 10:
            yield f"after change {number} it ended with {status} and tried {tried} in place of {wanted}"
    if {*kit.record()} & {*first}:
        yield "a line is as it was, though the kit has changed"
    (kit.kit / "KIT-ID").write_text(before)
    said = "0 of 10 have no line in tests/edits-tried that holds"
    if said not in kit.run("./test", "quick")[1]:
        yield f"with the kit from before ./test quick doesn't say: {said}"


def wrong_record(kit):
    """A line of the record that is wrong comes out with the twentieth that is tried: ./test fails, names the edit and takes its line away."""
    kit.has_edits(20, "refused")
    kit.run("./test")
    kit.tried()
    (kit.kit / "all").write_text("missed\n")
    status, output, _ = kit.run("./test")
    tried = kit.tried()
    if status != 1 or len(tried) != 1 or f"must-fail {tried[0]}: NOT REFUSED" not in output:
        yield f"it ended with {status}, tried {tried} and printed {output[-400:]!r}"
    if len(kit.record()) != 19 or any(it.startswith(f"{tried[0]} ") for it in kit.record()):
        yield f"the record is {kit.record()}"
    if "== scenarios" not in output:
        yield "the scenarios weren't run, though the program is proved"


def edits_not_refused(kit):
    """./test fails on an edit that is not refused, that can't be read, or that only a proof file refuses, and writes no line of it."""
    passed = int(kit.run("./test")[1].splitlines()[-1].split()[0])
    for says, why in (("missed", "NOT REFUSED"), ("bad", "it cannot be applied"), ("hollow", "a proof file names what this edit takes away")):
        kit.has_edits(1, says)
        for _ in range(2):
            status, output, _ = kit.run("./test")
            if status != 1 or output.splitlines()[-1] != f"{passed} passed, 1 failed" or why not in output or kit.record():
                yield f"an edit that is {says}: it ended with {status}, {output.splitlines()[-1]!r}, and the record {kit.record()}"


def edits_of_failed_crates(kit):
    """./test fails where rt ci says nothing of an edit that it was to try."""
    kit.has_edits(3, "refused")
    kit.has_rt_do('case "$1" in ci) printf "2 passed, 0 failed\\n" ;; esac')
    status, output, _ = kit.run("./test")
    if status != 1 or "3 must-fail edits were not tried" not in output or kit.record():
        yield f"it ended with {status}, the record {kit.record()} and printed {output[-400:]!r}"


def all_edits(kit):
    """./test edits tries every edit and writes the record, and runs no scenario."""
    kit.has_edits(10, "refused")
    for _ in range(2):
        status, output, _ = kit.run("./test", "edits")
        if status or len(kit.tried()) != 10 or len(kit.record()) != 10 or "== scenarios" in output:
            yield f"it ended with {status}, the record {kit.record()} and printed {output[-400:]!r}"


def edits_of_crates(kit):
    """./test edits CRATE tries the edits of that crate alone, without rt ci, and writes their lines; one that is not refused fails, and a crate without edits too."""
    kit.has_edits(4, "refused")
    status, output, _ = kit.run("./test", "edits", "high")
    tried, calls = kit.tried(), kit.calls()
    if status or len(tried) != 2 or [it.split()[0] for it in kit.record()] != sorted(tried) or calls != ["repository must-fail high"]:
        yield f"it ended with {status}, called {calls}, tried {tried}, and the record is {kit.record()}: {output[-400:]!r}"
    if kit.run("./test")[0] or len(kit.tried()) > 3:
        yield "./test tries them again"
    (kit.kit / "all").write_text("missed\n")
    status, output, _ = kit.run("./test", "edits", "high", "panad")
    if status != 1 or "panad is no crate with must-fail edits" not in output or any(it.startswith("high/") for it in kit.record()):
        yield f"it ended with {status}, the record {kit.record()} and printed {output[-400:]!r}"


def quick(kit):
    """./test quick doesn't call rt ci, and keeps the program that is built by then."""
    made = kit.repository / "crates" / "panad" / "out" / "panad"
    made.parent.mkdir()
    made.write_text("#!/bin/sh\necho answers\n")
    made.chmod(0o755)
    status, output, _ = kit.run("./test", "quick")
    if kit.run("./panad", "run") != (0, "answers\n", ""):
        yield "the program isn't kept"
    if any(it.endswith(" ci") for it in kit.calls()):
        yield f"rt was called: {kit.calls()}"
    if status or "== scenarios" not in output:
        yield f"it ended with {status} and printed {output[-400:]!r}"


def passes(check):
    """Whether the check finds nothing in a new made-up kit; prints its line, and what it finds."""
    with tempfile.TemporaryDirectory(prefix="scripts-") as room:
        try:
            found = [*check(Kit(room, WELL))]
        except (OSError, ValueError, IndexError, subprocess.SubprocessError) as error:
            found = [f"the check could not run: {error!r}"]
    print(f"{'FAILED' if found else 'ok'} {check.__doc__.strip()}", *found, sep="\n    ", flush=True)
    return not found


CHECKS = (other_arguments, first_use, on_a_terminal, failed_proof, two_at_a_time, interrupted, ended_alone, left_over, gate_that_passes, quick)
CHECKS += (taken_over, three_crates, changed_meanwhile, killed_prover, text_first, how_long, untried_edits, stale_edits, wrong_record, edits_not_refused, edits_of_failed_crates, all_edits, edits_of_crates)


def main():
    # A shell starts what it runs in the background with this signal ignored, and so would be what is started here.
    signal.signal(signal.SIGINT, signal.default_int_handler)
    outcomes = [passes(it) for it in CHECKS]
    print(f"{outcomes.count(True)} passed, {outcomes.count(False)} failed")
    return 1 if outcomes.count(False) else 0


if __name__ == "__main__":
    sys.exit(main())
