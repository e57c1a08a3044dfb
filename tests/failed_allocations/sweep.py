#!/usr/bin/env python3
"""Runs the built program with its Nth allocation failing, for N = 1, 2, .. until none fails, on each
scenario that has a file sweep, and judges every run.

usage: sweep.py PROGRAM

The program is given a session line by line. The program's answer to a line must be the expected one, or OutOfMemory:
the line's fault, or the refusal of a call that allocates. After OutOfMemory the scenario's queries
must show the state from just before that line, and the same line, sent again, gets the expected
answer. At the end the queries must show the final state.
The program may end with 'panad: out of memory' and status 1 in two places: before its first answer,
and where a call was taken whose answer could not be encoded, so never at a faulty line.
What the queries must show is recorded in a run with no failed allocation, whose other answers must be the
scenario's output.
Each session of `run` is swept once more with a journal on disk, a new one for each run, which afterwards has to
load to as many entries as were answered as done, or, where the program ended after a call, with all that the call makes.
Of a scenario of several runs each is swept by itself: it must end as it says, or, where an allocation
failed, with status 1, no output, and one of the lines of the file sweep on standard error.
The last line is 'N passed, M failed', one for each scenario swept.
"""
from __future__ import annotations

import json
import os
import signal
import subprocess
import sys
import tempfile
from collections import Counter
from concurrent.futures import ProcessPoolExecutor
from dataclasses import dataclass, replace
from pathlib import Path

HERE = Path(__file__).resolve().parent
sys.path.insert(0, str(HERE.parent))
import failing  # noqa: E402
import scenario  # noqa: E402

PROCESSES = 4
SECONDS = 10
SHOWN = 5
WIDEST = 200
REFUSED = b'{"code":9,"refused":"OutOfMemory"}'
FAULT = b'{"fault":"OutOfMemory"}'
# Expected answers of lines that make no call, or whose call finds its answer with no allocation.
ALLOCATE_NOTHING = (b'{"fault"', b'{"code"', b'{"pair"')
# Answers with the number of the last entry that a call made.
DONE = (b'{"done"', b'{"did"')
LAST_WORDS = b"panad: out of memory\n"


class Broken(Exception):
    """A run that is not as it must be."""


@dataclass(frozen=True)
class Step:
    """A line, the answer to it, and what the queries show just before it."""

    line: bytes
    answer: bytes
    before: list[bytes]


@dataclass(frozen=True)
class Session:
    """What a run must do that is given its lines one by one."""

    command: list[str]
    library: str
    queries: list[bytes]
    steps: list[Step]
    is_kept: bool = False

    def judge(self, talk):
        kind, done, most = talk_through(talk, self)
        if self.is_kept:
            want_kept(self, talk.journal, done, most, kind.startswith("ended"))
        return kind


@dataclass(frozen=True)
class Single:
    """What a run must do that ends by itself, and which lines it may end with where an allocation failed."""

    command: list[str]
    library: str
    run: scenario.Run
    last_words: list[bytes]
    is_kept = False

    def judge(self, talk):
        return judge_single(talk, self)


def clipped(value):
    if isinstance(value, bytes) and len(value) > WIDEST:
        return f"{value[:WIDEST]!r}.. ({len(value)} bytes)"
    return repr(value)


def stop_hanging(*_):
    raise Broken(f"it hung: no end after {SECONDS} seconds")


class Talk:
    """A run of the program with one failing allocation (0: none), line by line, that ends after SECONDS at most."""

    def __init__(self, command, library, at, journal=None):
        self.report = failing.Report()
        self.held, self.journal = b"", journal
        if journal:
            command = [*command, "--journal", journal]
        pipes = {"stdin": subprocess.PIPE, "stdout": subprocess.PIPE, "stderr": subprocess.PIPE, "bufsize": 0}
        environment = self.report.environment(library, at)
        self.program = subprocess.Popen(command, env=environment, cwd="/", pass_fds=[self.report.number], **pipes)

    def __enter__(self):
        signal.signal(signal.SIGALRM, stop_hanging)
        signal.setitimer(signal.ITIMER_REAL, SECONDS)
        return self

    def __exit__(self, *_):
        signal.setitimer(signal.ITIMER_REAL, 0)
        self.program.kill()
        self.program.wait()
        for it in (self.program.stdin, self.program.stdout, self.program.stderr, self.report):
            it.close()

    def send(self, line):
        left = memoryview(line + b"\n")
        try:
            while left:
                left = left[self.program.stdin.write(left) :]
        except BrokenPipeError:
            pass  # it has ended, as its output will show

    def ask(self, line):
        """Sends a line and returns its answer, or None where the program's output ends."""
        self.send(line)
        while b"\n" not in self.held:
            more = self.program.stdout.read(65536)
            if not more:
                return None
            self.held += more
        answer, _, self.held = self.held.partition(b"\n")
        return answer

    def ask_each(self, lines):
        return [self.ask(it) for it in lines]

    def end(self):
        """Ends the input and returns the status, what else was written, and standard error."""
        self.program.stdin.close()
        rest = self.held + self.program.stdout.read()
        return self.program.wait(), rest, self.program.stderr.read()

    def counts(self):
        """How many allocations there were so far, and how many failed."""
        return self.report.counts()


def want(what, wanted, got):
    if wanted != got:
        raise Broken(f"{what}: {clipped(wanted)} is wanted, and it was {clipped(got)}")


def want_end(talk, status, error):
    ended, rest, said = talk.end()
    want("the output after the last answer", b"", rest)
    want("standard error", error, said)
    if ended != status:
        raise Broken(f"status {status} is wanted, and it ended with {ended}")


def want_same_state(talk, plan, step):
    for query, shown in zip(plan.queries, step.before):
        want(f"after OutOfMemory at {clipped(step.line)} the answer to {clipped(query)}", shown, talk.ask(query))


def entries_after(answer, before):
    """How many entries there are after an answer: its last entry's number, where it reports one."""
    return json.loads(answer)["done"] if answer.startswith(DONE) else before


def want_kept(plan, journal, done, most, may_have_more):
    """Holds a journal to the number of entries that were acknowledged, or that the last call would have left."""
    if not os.path.exists(journal) and done == 0:
        return
    pages = b"".join(b'{"by":"x","do":"journal","from":%d}\n' % at for at in range(1, most + 2, 100))
    words = [*plan.command, "--journal", journal]
    read = subprocess.run(words, input=pages, capture_output=True, timeout=SECONDS, check=False)
    want("what opening the journal reports", (0, b""), (read.returncode, read.stderr.partition(b" bytes behind")[0] if may_have_more else read.stderr))
    there = sum(len(json.loads(it)["entries"]) for it in read.stdout.splitlines())
    if there not in (done, most):
        raise Broken(f"{done} entries were answered as done, and the journal has {there}")


def judge_end(talk, step, is_first):
    """Judges a program that ended in place of an answer, and returns the kind of that end."""
    if not is_first and step.answer.startswith(b'{"fault"'):
        raise Broken(f"it ended at the faulty line {clipped(step.line)}, which makes no call")
    if is_first and talk.journal:
        status, rest, said = talk.end()
        opening = f"panad: journal {talk.journal}: out of memory\n".encode()
        want("an end before the first answer", (1, b"", True), (status, rest, said in (LAST_WORDS, opening)))
        return "ended before the first answer"
    want_end(talk, 1, LAST_WORDS)
    return "ended before the first answer" if is_first else "ended the program after a call"


def talk_through(talk, plan):
    """Sends all lines, judges each answer, and returns what came of the failed allocation, how many entries were
    answered as done, and how many there may be: more than that only where the program ended after a call."""
    kind, done = "left no trace", 0
    for at, step in enumerate(plan.steps):
        answer = talk.ask(step.line)
        if answer == FAULT or answer == REFUSED and not step.answer.startswith(ALLOCATE_NOTHING):
            if kind == "answered OutOfMemory" or not talk.counts()[1]:
                raise Broken(f"OutOfMemory at {clipped(step.line)}, and no allocation failed for it")
            kind = "answered OutOfMemory"
            want_same_state(talk, plan, step)
            answer = talk.ask(step.line)
        if answer is None:
            if kind == "answered OutOfMemory" or not talk.counts()[1]:
                raise Broken(f"it ended at {clipped(step.line)}, and no allocation failed for it: {talk.end()}")
            return judge_end(talk, step, at == 0), done, entries_after(step.answer, done)
        want(f"the answer to {clipped(step.line)}", step.answer, answer)
        done = entries_after(answer, done)
    want_end(talk, 0, b"")
    return kind, done, done


def judge_single(talk, plan):
    """Judges a run that ends by itself, and returns what came of the failed allocation."""
    status, output, error = talk.end()
    if (status, output, error) == (plan.run.status, plan.run.output, plan.run.error):
        return "left no trace"
    if not talk.counts()[1] or status != 1 or output or error not in plan.last_words:
        words = " ".join(plan.run.args).encode()
        raise Broken(f"{clipped(words)} ended with {status}, the output {clipped(output)}, and {clipped(error)}")
    return "reported on standard error"


def failing_run(plan, at):
    """One run with allocation number `at` failing: its allocations, the failed ones, what came of it, and its fault."""
    try:
        with tempfile.TemporaryDirectory(prefix="kept-") as room:
            journal = f"{room}/journal" if plan.is_kept else None
            with Talk(plan.command, plan.library, at, journal) as talk:
                kind, fault = "broke", None
                try:
                    kind = plan.judge(talk)
                except (Broken, ValueError, subprocess.SubprocessError) as error:
                    fault = str(error)
                return (*talk.counts(), kind, fault)
    except OSError as error:
        return 0, 0, "broke", f"it could not run: {error}"


def lines_of(given):
    """The lines of an input. The last is sent with a newline even where it has none."""
    lines = given.split(b"\n")
    return lines[:-1] if lines[-1] == b"" else lines


def want_output(run, steps):
    """Holds the answers of the recorded run to the output that is wanted."""
    wanted = lines_of(run.output)
    want("the number of answers", len(wanted), len(steps))
    for step, answer in zip(steps, wanted):
        want(f"with queries between the lines, the answer to {clipped(step.line)}", answer, step.answer)


def recorded(case, program, library):
    """Runs a session with no failed allocation, the queries after every line, and returns what later runs must do."""
    (run,), steps = case.runs, []
    with Talk([program, *run.args], library, 0) as talk:
        before = talk.ask_each(case.sweep)
        for line in lines_of(run.given):
            steps.append(Step(line, talk.ask(line), before))
            before = talk.ask_each(case.sweep)
        want_end(talk, 0, b"")
    want_output(run, steps)
    final = [Step(query, shown, before) for query, shown in zip(case.sweep, before)]
    return Session([program, *run.args], library, case.sweep, [*steps, *final])


def swept(plan):
    """Has each allocation of the plan's run fail in turn: the runs, what came of them, and their faults."""
    allocations, _, _, fault = failing_run(plan, 0)
    if fault or not allocations:
        return 1, Counter(), [f"with no failed allocation: {fault or 'no allocation was counted'}"]
    kinds, faults, runs = Counter(), [], 1
    numbers = range(1, allocations + 2)
    with ProcessPoolExecutor(PROCESSES) as pool:
        for at, outcome in zip(numbers, pool.map(failing_run, [plan] * len(numbers), numbers, chunksize=4)):
            _, failed, kind, fault = outcome
            runs += 1
            if not fault and failed != (at <= allocations):
                fault = f"{failed} allocations failed, of {allocations} that it makes"
            if fault:
                faults.append(f"allocation {at} failed: {fault}")
            elif failed:
                kinds[kind] += 1
            if len(faults) == SHOWN:
                pool.shutdown(wait=False, cancel_futures=True)
                break
    return runs, kinds, faults


def plans_of(case, program, library):
    """What the runs of a scenario must do."""
    if not case.sweep:
        raise Broken("its file sweep is empty")
    if case.is_session:
        plan = recorded(case, program, library)
        return [plan, replace(plan, is_kept=True)] if plan.command[1:] == ["run"] else [plan]
    if any(run.given or run.source or run.to for run in case.runs):
        raise Broken("a run that is swept has no input, and its output goes to no file")
    last_words = [it + b"\n" for it in case.sweep]
    return [Single([program, *run.args], library, run, last_words) for run in case.runs]


def sweep(folder, program, library):
    """Sweeps one scenario: its runs, its failed allocations, and whether all is as it must be."""
    try:
        outcomes = [swept(it) for it in plans_of(scenario.read(folder), program, library)]
        runs = sum(it for it, _, _ in outcomes)
        kinds = sum((it for _, it, _ in outcomes), Counter())
        faults = [fault for _, _, some in outcomes for fault in some]
    except (Broken, scenario.BadScenario, subprocess.SubprocessError, OSError, ValueError) as error:
        runs, kinds, faults = 0, Counter(), [f"it could not be swept: {error}"]
    kinds_text = ", ".join(f"{count} {kind}" for kind, count in sorted(kinds.items()))
    print(f"{'FAILED' if faults else 'ok'} {folder.name}: of the failed allocations {kinds_text or 'none'}", *faults, sep="\n    ", flush=True)
    return runs, sum(kinds.values()), not faults


def main(program):
    folders = [it for it in scenario.folders() if (it / "sweep").exists()]
    with tempfile.TemporaryDirectory(prefix="sweep-") as room:
        library = failing.compiled(room)
        if library is None or not folders:
            print("FAILED: failing.c does not compile" if folders else "FAILED: no scenario has a file sweep")
            print(f"0 passed, {max(len(folders), 1)} failed")
            return 1
        outcomes = [sweep(it, os.path.realpath(program), library) for it in folders]
    runs, failed, passed = (sum(it) for it in zip(*outcomes))
    print(f"{failed} allocations failed in {runs} runs of {len(folders)} scenarios")
    print(f"{passed} passed, {len(folders) - passed} failed")
    return 0 if passed == len(folders) else 1


if __name__ == "__main__":
    sys.exit(main(sys.argv[1]))
