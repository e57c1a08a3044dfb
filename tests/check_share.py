#!/usr/bin/env python3
"""Looks at what goes into the packages beside the program: completions for shells, and the service of a user.

usage: check_share.py PROGRAM
What a shell or systemd makes of them is looked at where that is here; each shell's options are compared with the help anyhow.
The last line is 'N passed, M failed'.
"""
from __future__ import annotations

import os
import re
import shlex
import shutil
import subprocess
import sys
from pathlib import Path

import scenario
from daemon import SECONDS
from harness import differs, run_checks

TOP = Path(__file__).resolve().parent.parent
SHARE = TOP / "share"
COMMANDS = ("run", "show", "load", "scan", "compare", "track", "status", "may-overwrite", "why", "history", "report", "watch", "serve", "log")
OPTION = re.compile(r"^ +(?:-\w, )?(--[a-z-]+)", re.MULTILINE)
ZSH_OPTION = re.compile(r"--[a-z-]+(?=\[)")


def options_of(command):
    """The options in the help of a command."""
    return set(OPTION.findall((scenario.folder_of(f"help_of_{command.replace('-', '_')}") / "output").read_text()))


def ran(*words, **how):
    return subprocess.run(words, capture_output=True, text=True, timeout=SECONDS, stdin=subprocess.DEVNULL, **how)


def completed(room, line):
    """What bash completes the last word of a line to, its words as readline cuts them."""
    words = [it for it in re.split(r"([= ])", line) if it not in ("", " ")] + ([""] if line.endswith(" ") else [])
    given = " ".join(map(shlex.quote, words))
    script = f'. {SHARE}/completions/panad.bash; COMP_WORDS=({given}); COMP_CWORD={len(words) - 1}; _panad; printf "%s\\n" "${{COMPREPLY[@]}}"'
    return {it for it in ran("bash", "-c", script, cwd=room).stdout.split("\n") if it}


def bash(program, room):
    """bash completes commands, the options of each command, files of journals, and folders behind a device."""
    (room / "folder").mkdir()
    (room / "file").touch()
    yield from differs(completed(room, "panad "), {*COMMANDS, "--help", "--version"})
    for command in COMMANDS:
        yield from differs(completed(room, f"panad {command} --"), options_of(command))
    rows = (
        ("panad s", {"show", "scan", "status", "serve"}),
        ("panad track --o", {"--one-file-system"}),
        ("panad run --journal f", {"file", "folder"}),
        ("panad track --sums fi", {"file"}),
        ("panad serve --port ", set()),
        ("panad track --journal file usb=", {"folder"}),
        ("panad serve --port 7 usb=fo", {"folder"}),
        ("panad track laptop=x usb=fo", {"folder"}),
        ("panad show f", {"file", "folder"}),
        ("panad scan usb ", {"folder"}),
        ("panad scan u", set()),
        ("panad may", {"may-overwrite"}),
        ("panad report re", {"register", "reconcile", "relocate", "remove"}),
        ("panad report edit usb", set()),
    )
    for line, wanted in rows:
        yield from differs((line, completed(room, line)), (line, wanted))


def fish(program, room):
    """fish has the options of each command, and takes its file where it is here."""
    file = SHARE / "completions/panad.fish"
    found = {it: {"--help"} for it in COMMANDS}
    for commands, option in re.findall(r"-n '__panad_after ([a-z -]+)' -l ([a-z-]+)", file.read_text()):
        for it in commands.split():
            found[it].add(f"--{option}")
    yield from differs(found, {it: options_of(it) for it in COMMANDS})
    if shutil.which("fish"):
        shown = ran("fish", "-c", f'source {file}; complete -C "panad track --"', env={**os.environ, "HOME": str(room)})
        yield from differs(({it.split("\t")[0] for it in shown.stdout.splitlines()}, shown.stderr), (options_of("track"), ""))


def zsh(program, room):
    """zsh has the options of each command, and can read its file where it is here."""
    file = SHARE / "completions/_panad"
    text = file.read_text()
    named = dict(re.findall(r"^local (\w+)='(.*)'$", text, re.MULTILINE))
    for command in COMMANDS:
        body = re.search(rf"^ +{command}\)(.*?);;", text, re.MULTILINE | re.DOTALL)[1]
        body += "".join(named[it] for it in re.findall(r"\$(\w+)", body))
        yield from differs((command, set(ZSH_OPTION.findall(body))), (command, options_of(command)))
    if shutil.which("zsh"):
        read = ran("zsh", "-n", str(file))
        yield from differs((read.returncode, read.stderr), (0, ""))


def service(program, room):
    """The daemon takes the words that the service starts it with, and systemd can read the services where it is here."""
    text = (SHARE / "panad.service").read_text()
    settings = dict(it.split("=", 1) for it in (SHARE / "panad.env").read_text().splitlines() if not it.startswith("#"))
    line = re.search(r"^ExecStart=/usr/bin/panad (.*)$", text, re.MULTILINE)[1]
    state, papers = room / "state", room / "papers"
    (state / "panad").mkdir(parents=True)
    papers.mkdir()
    line = line.replace("${PANAD_PORT}", "0").replace("%S", str(state)).replace("$PANAD_WORDS", settings["PANAD_WORDS"].replace("/home/me/papers", str(papers)))
    begun = ran(program, *shlex.split(line), "--sessions", "0")
    yield from differs((begun.returncode, begun.stdout.startswith("listening 127.0.0.1:"), begun.stderr), (0, True, ""))
    yield from differs((settings["PANAD_PORT"].isdigit(), (state / "panad/files.journal").is_file()), (True, True))
    if shutil.which("systemd-analyze"):
        for it in sorted(SHARE.glob("*.service")):
            unit = room / it.name
            unit.write_text(re.sub(r"^ExecStart=\S+", f"ExecStart={program}", it.read_text(), flags=re.MULTILINE))
            read = ran("systemd-analyze", "--user", "--man=no", "verify", str(unit), env={**os.environ, "XDG_RUNTIME_DIR": str(room)})
            yield from differs((read.returncode, read.stderr), (0, ""))


CHECKS = (bash, fish, zsh, service)


if __name__ == "__main__":
    sys.exit(run_checks(__doc__, CHECKS, sys.argv[1:]))
