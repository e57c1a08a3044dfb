#!/usr/bin/env python3
"""Looks at the crates' texts as `rt ci` does before it proves them, in seconds: their layout and their words.

usage: check_text.py KIT
The layout is that of `rt fmt`. What rt ci refuses of a text without a proof, as a link, an unread file or a tactic in
a clause, is asked of the kit's own rt, whose functions this calls by name: where a kit has others, this fails and
says so.
The last line is 'N passed, M failed', one for each crate, and one for the repository.
"""
from __future__ import annotations

import contextlib
import importlib.machinery
import importlib.util
import inspect
import io
import os
import re
import subprocess
import sys
import tempfile
from pathlib import Path

import edits

SHOWN = 12


def loaded(kit):
    """The kit's rt as a module."""
    loader = importlib.machinery.SourceFileLoader("rt", str(Path(kit) / "bin" / "rt"))
    made = importlib.util.module_from_spec(importlib.util.spec_from_loader("rt", loader))
    loader.exec_module(made)
    return made


def stopped(call, *given):
    """What rt says where it stops in a call, or None, and what the call returns."""
    with contextlib.redirect_stderr(io.StringIO()) as said, contextlib.redirect_stdout(said):
        try:
            return None, call(*given)
        except SystemExit:
            return said.getvalue().strip() or "rt stopped and said nothing", None
        except Exception as error:
            return f"the check could not run with this kit: {error!r}", None


def crates_of(rt, top):
    """The crates, lowest first. Some kits move what stands in the crates' folders out/ to a folder that they are given: it goes back."""
    if "aside" not in inspect.signature(rt.crates_of).parameters:
        return rt.crates_of(top)
    built = Path(top) / ".build"
    built.mkdir(exist_ok=True)
    with tempfile.TemporaryDirectory(prefix="aside-", dir=built) as aside:
        try:
            return rt.crates_of(top, aside)
        finally:
            for it in Path(aside).iterdir():
                it.rename(Path(top) / "crates" / it.name / "out")


def repository(rt):
    """The crates, once the repository's files are as rt ci wants them."""
    top = str(edits.TOP)
    rt.Crate.allowed = rt.handles_of(top)
    crates = crates_of(rt, top)
    for name in os.listdir(top):
        if name not in (".git", ".build") and os.path.isdir(f"{top}/{name}"):
            rt.rtlib.stop_on_unread(f"{top}/{name}", crates)
    return crates


def read(rt, crate, crates):
    """Stops where rt ci refuses the crate's text."""
    rt.rtlib.stop_on_links(crate.folder)
    rt.rtlib.stop_on_unread(crate.folder, crates)
    rt.rtlib.stop_on_text(crate, "verdict")
    rt.stop_on_words(crate)
    code = rt.rtlib.code_of(crate.folder)
    beyond = [it for it, words in rt.REACHES.items() if it not in rt.Crate.allowed and re.search(words, code)]
    if beyond or re.search(rt.RENAMES, code) or re.search(rt.IGNORED, code):
        rt.rtlib.stop("it reaches past HANDLES, renames std, or ignores a test")


def misplaced(kit, name):
    """What the layout's check says of a crate, or None where each file is laid out."""
    files = [it for it in edits.sources(name) if it.suffix in (".rt", ".antt")]
    words = [Path(kit) / "bin" / "rattle", "fmt", "--check", *files]
    done = subprocess.run(words, stdin=subprocess.DEVNULL, capture_output=True, text=True, errors="replace")
    return None if done.returncode == 0 else "run rt fmt in its folder\n" + done.stdout + done.stderr


def passes(about, faults):
    """Prints the line of a check, and what it found."""
    found = [line for it in faults if it for line in it.splitlines()]
    print(f"{'FAILED' if found else 'ok'} {about}", *found[:SHOWN], sep="\n    ", flush=True)
    return not found


def main(kit):
    os.chdir(edits.TOP)
    fault, rt = stopped(loaded, kit)
    crates = []
    if not fault:
        fault, crates = stopped(repository, rt)
    outcomes = [passes("the files are where rt ci wants them", [fault])]
    for it in crates or []:
        outcomes.append(passes(f"{it.name} is laid out, and its text is one that rt ci takes", [stopped(read, rt, it, crates)[0], misplaced(kit, it.name)]))
    print(f"{outcomes.count(True)} passed, {outcomes.count(False)} failed")
    return 1 if outcomes.count(False) else 0


if __name__ == "__main__":
    sys.exit(main(sys.argv[1]))
