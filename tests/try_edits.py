#!/usr/bin/env python3
"""Tries the must-fail edits of some crates by `rt must-fail`, over what earlier checks have kept, and writes the record.

usage: try_edits.py KIT CRATE ..
It takes minutes where `rt ci` takes an hour, since the crates below are not proved anew. The edits are judged as gate.py
judges them, and those that a clause refuses get a line in tests/edits-tried.
The last line is 'N passed, M failed'.
"""
from __future__ import annotations

import subprocess
import sys
from pathlib import Path

import edits
import gate


def ran(kit, crates):
    """What rt prints of the edits of these crates."""
    how = {"stdin": subprocess.DEVNULL, "stdout": subprocess.PIPE, "stderr": subprocess.STDOUT}
    lines = []
    with subprocess.Popen([Path(kit) / "bin" / "rt", "must-fail", *crates], cwd=edits.TOP, errors="replace", text=True, **how) as rt:
        for line in rt.stdout:
            lines.append(line.rstrip("\n"))
            print(lines[-1], flush=True)
    return lines


def main(kit, *crates):
    before = edits.sums(kit)
    chosen = {it: sum for it, sum in before.items() if it.partition("/")[0] in crates}
    without = [it for it in crates if not any(name.startswith(f"{it}/") for name in chosen)]
    for it in without:
        print(f"FAILED: {it} is no crate with must-fail edits")
    lines = ran(kit, [it for it in crates if it not in without]) if chosen else []
    if edits.sums(kit) != before:
        print("FAILED: the sources changed while the edits were tried, so nothing is written\n0 passed, 1 failed")
        return 1
    refused, failed, faults = gate.judged(lines, chosen)
    edits.write({it: chosen[it] for it in refused}, failed | {*faults})
    for name, why in sorted(faults.items()):
        print(f"FAILED: must-fail {name}: {why}")
    others = len(chosen) - len(refused)
    print(f"{len(refused)} passed, {others + len(without)} failed")
    return 1 if others or without else 0


if __name__ == "__main__":
    sys.exit(main(*sys.argv[1:]))
