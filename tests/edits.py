"""The must-fail edits, and the record of those that a clause refused: tests/edits-tried.

What becomes of an edit follows from its text, its crate, what of the crates below it can come to (promises.py), and the kit. So a line of the
record has the edit's name and one sum of all these, and the edit need not be tried again while its sum is the same.
Behind it stands the sum before, since machines may have two kits: each finds the sum of its own.
A line is written where a run saw the edit refused. A twentieth of those that need not be tried are tried all the same,
another twentieth each day, so that a line that is wrong comes out.
"""
from __future__ import annotations

import sys
import time
from pathlib import Path

sys.path.insert(0, str(Path(__file__).resolve().parent.parent / "tools"))
import promises  # noqa: E402
from crates import TOP, sources, sum_of, uses, with_those_below  # noqa: E402

RECORD = TOP / "tests" / "edits-tried"
TWENTIETHS = 20
SUMS_KEPT = 2
SECONDS_A_DAY = 86_400


def crate_sum(kit, name):
    """One sum of all that the crate's proof rests on: its files, those of the crates below, and the kit."""
    below = with_those_below([name])
    files = [file for it in below for file in sources(it)]
    return sum_of([Path(kit) / "KIT-ID", *files], [(it, uses()[it]) for it in below])


def edits_sum(kit, name):
    """One sum of all that the verdicts on the crate's edits rest on: its files and what it uses, what it comes to of what the crates below
    declare, and the kit. What they use of the kit stands in what they declare."""
    below = with_those_below([name])
    declared = [found for it in below if it != name for file in sources(it) for found in promises.declarations(file)]
    keys = promises.keys_of([*sources(name), *(TOP / "crates" / name / "must-fail").glob("*.edit")])
    used = [(it, [each for each in uses()[it] if it == name or each in uses()]) for it in below]
    return sum_of([Path(kit) / "KIT-ID", *sources(name)], promises.reached(keys, declared), used)


def names():
    """All edits, as `crate/name.edit`, by crate and name."""
    crates = [it for it in with_those_below(uses())]
    return [f"{crate}/{it.name}" for crate in crates for it in sorted((TOP / "crates" / crate / "must-fail").glob("*.edit"))]


def path_of(name):
    crate, _, edit = name.partition("/")
    return TOP / "crates" / crate / "must-fail" / edit


def sums(kit):
    """Each edit with its sum."""
    found = names()
    of_crates = {crate: edits_sum(kit, crate) for crate in {it.partition("/")[0] for it in found}}
    return {it: sum_of([path_of(it)], of_crates[it.partition("/")[0]]) for it in found}


def recorded():
    """The lines of the record: the sums at which each edit was refused, the last first. A line that is none counts for nothing."""
    lines = RECORD.read_text(encoding="utf-8").splitlines() if RECORD.is_file() else []
    return {words[0]: words[1:] for words in map(str.split, lines) if 1 < len(words) <= 1 + SUMS_KEPT}


def stale(kit):
    """The edits that have no line in the record, or one without their sum."""
    found = recorded()
    return [name for name, sum in sums(kit).items() if sum not in found.get(name, [])]


def of_the_day(day=None):
    """The twentieth of all edits that is tried today. They stand side by side, so most share the check that they begin with."""
    day = int(time.time()) // SECONDS_A_DAY if day is None else day
    found = names()
    return [it for at, it in enumerate(found) if at * TWENTIETHS // len(found) == day % TWENTIETHS]


def write(refused, others):
    """Writes a line for each edit that was refused, with its sum; those of others that were tried go, and of edits that are gone."""
    kept = {it: found for it, found in recorded().items() if it not in others and path_of(it).is_file()}
    for it, sum in refused.items():
        kept[it] = [sum, *(other for other in kept.get(it, []) if other != sum)][:SUMS_KEPT]
    new = RECORD.with_name(f"{RECORD.name}.new")
    new.write_text("".join(f"{' '.join([it, *kept[it]])}\n" for it in sorted(kept)), encoding="utf-8")
    new.replace(RECORD)
