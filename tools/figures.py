#!/usr/bin/env python3
"""Prints how many lines of code, definitions and proofs each crate has, and how many files name a report.

    python3 -B tools/figures.py [REPORT]

A report (Reconcile unless another is named) stands for what a new one would touch: each file of a kind that has its name.
"""
import re
import sys
from pathlib import Path

CRATES = Path(__file__).resolve().parent.parent / "crates"
KINDS = ("src", "specs", "proofs")
FORM = "{:<16}{:>8}{:>8}{:>8}{:>8}"


def files(crate, kind):
    """The sources of a crate of one kind, by path."""
    return sorted(path for path in (crate / kind).rglob("*") if path.suffix in {".rt", ".antt"})


def lines(crate, kind):
    """How many lines they have together."""
    return sum(len(path.read_text(encoding="utf-8").splitlines()) for path in files(crate, kind))


def row(name, counts):
    """A line of the table: a name, the lines of each kind, and how many of the last two there are to one of the first."""
    code, *others = counts
    return FORM.format(name, *counts, f"{sum(others) / code:.2f}" if code else "-")


def main():
    report = sys.argv[1] if len(sys.argv) > 1 else "Reconcile"
    named = re.compile(rf"\b{re.escape(report)}\b", re.IGNORECASE)
    crates = sorted(path for path in CRATES.iterdir() if (path / "src").is_dir())
    counts = {crate.name: [lines(crate, kind) for kind in KINDS] for crate in crates}
    print(FORM.format("crate", *KINDS, "ratio"))
    for name, its in counts.items():
        print(row(name, its))
    both = [counts["pana_family"], counts["pana_hall"]]
    print(row("family and hall", [sum(kind) for kind in zip(*both)]))
    product = [its for name, its in counts.items() if not name.endswith("_tests")]
    print(row("all but tests", [sum(kind) for kind in zip(*product)]))
    touched = [
        sum(bool(named.search(path.read_text(encoding="utf-8"))) for crate in crates for path in files(crate, kind))
        for kind in KINDS
    ]
    print(FORM.format(f"name {report}", *touched, ""))


if __name__ == "__main__":
    main()
