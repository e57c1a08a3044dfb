"""Reads the scenario folders, tests/scenarios/GROUP/NAME/: what the program is given and what it must do.

about    one sentence: what the scenario shows
args     the arguments, one word a line (absent: run)
input    standard input (absent: empty), or input.py, which prints it
output   standard output, to the byte, or output.py, which prints it
error    standard error, to the byte (absent: empty)
status   the exit status (absent: 0)
runs     in place of these five several runs, a line of JSON each, or runs.py, which prints them:
         {"args": ["a", "b"], "input": "", "output": "", "error": "", "status": 0}, where what is
         absent is as here; "from" may name a file or folder for standard input, in place of "input",
         and "to" a file for standard output, each by its whole path
data     a folder with files for the runs: {data} in arguments and texts stands for its path
sweep    marks the scenario for the sweep of failed allocations: for a session query lines that show
         the state; for several runs the lines that may be reported where an allocation failed
"""
from __future__ import annotations

import json
import subprocess
import sys
from dataclasses import dataclass
from pathlib import Path

FOLDER = Path(__file__).resolve().parent / "scenarios"
SESSION = {"args", "input", "input.py", "output", "output.py", "error", "status"}
RUNS = {"runs", "runs.py"}
FILES = {"about", "data", "sweep", *SESSION, *RUNS}
DATA = "{data}"
PARTS = {"args": list, "input": str, "from": str, "output": str, "error": str, "status": int, "to": str}
# What Python leaves beside a file that it has read.
LEFT = "__pycache__"
SECONDS = 60


class BadScenario(Exception):
    """The folder does not hold a scenario."""


@dataclass(frozen=True)
class Run:
    args: list[str]
    given: bytes
    output: bytes
    error: bytes
    status: int
    source: str | None = None
    to: str | None = None


@dataclass(frozen=True)
class Scenario:
    name: str
    about: str
    is_session: bool
    runs: list[Run]
    sweep: list[bytes]


def folders():
    """The scenario folders by name."""
    return sorted((it for it in FOLDER.glob("*/*") if not it.name.startswith(".") and it.name != LEFT), key=lambda it: it.name)


def folder_of(name):
    """The folder of the scenario with this name."""
    found = [it for it in folders() if it.name == name]
    if len(found) != 1:
        raise BadScenario(f"{len(found)} folders are called {name}")
    return found[0]


def text_of(folder, name, default=None):
    """The bytes of a file of the folder, or those that its program NAME.py prints."""
    file, maker = folder / name, folder / f"{name}.py"
    if file.exists() and maker.exists():
        raise BadScenario(f"it has both {name} and {maker.name}")
    if file.exists():
        return file.read_bytes()
    if maker.exists():
        made = subprocess.run([sys.executable, "-B", "-I", maker], capture_output=True, timeout=SECONDS)
        if made.returncode:
            raise BadScenario(f"{maker.name} failed: {made.stderr.decode(errors='replace')[-600:]}")
        return made.stdout
    if default is None:
        raise BadScenario(f"it has no {name}")
    return default


def words_of(folder, words):
    """The arguments, where the folder with the files is named by its path."""
    return [it.replace(DATA, str(folder / "data")) for it in words]


def run_of(folder, line):
    """The run that a line of the file runs says."""
    try:
        said = json.loads(line)
    except ValueError as error:
        raise BadScenario(f"a run is no JSON: {error}") from error
    if not isinstance(said, dict) or any(not isinstance(said[it], PARTS.get(it, ())) for it in said) or "args" not in said:
        raise BadScenario(f"this says no run: {line.decode(errors='replace')}")
    source, to = said.get("from"), said.get("to")
    if "input" in said and source or any(it and not it.startswith("/") for it in (source, to)):
        raise BadScenario(f"its input or output is not named rightly: {line.decode(errors='replace')}")
    given, output, error = (words_of(folder, [said.get(it, "")])[0].encode() for it in ("input", "output", "error"))
    return Run(words_of(folder, said["args"]), given, output, error, said.get("status", 0), source, to)


def session_of(folder):
    """The one run that the files of a folder say."""
    status = text_of(folder, "status", b"0").decode().strip()
    if not status.isdigit():
        raise BadScenario("its status is no number")
    return Run(
        args=words_of(folder, text_of(folder, "args", b"run\n").decode().splitlines()),
        given=text_of(folder, "input", b""),
        output=text_of(folder, "output"),
        error=text_of(folder, "error", b""),
        status=int(status),
    )


def read(folder):
    """The scenario of a folder, or BadScenario."""
    names = {it.name for it in folder.iterdir()} - {LEFT}
    if names - FILES:
        raise BadScenario(f"it has files that nothing reads: {', '.join(sorted(names - FILES))}")
    if names & RUNS and names & SESSION:
        raise BadScenario(f"it has several runs, and beside them {', '.join(sorted(names & SESSION))}")
    about = text_of(folder, "about").decode().strip()
    if not about or "\n" in about:
        raise BadScenario("its about is not one sentence on one line")
    is_session = not names & RUNS
    runs = [session_of(folder)] if is_session else [run_of(folder, it) for it in text_of(folder, "runs").splitlines()]
    if not runs:
        raise BadScenario("it has no run")
    sweep = words_of(folder, [text_of(folder, "sweep", b"").decode()])[0].encode().splitlines()
    return Scenario(folder.name, about, is_session, runs, sweep)
