"""What the program is given to be measured: lines, each workload made from a seed.

A workload is what comes before, which is the same for each measurement and isn't counted, and the lines that are.
"""
from __future__ import annotations

import json
import random
from dataclasses import dataclass

# As many copies as a family may have.
MOST_COPIES = 256


@dataclass
class Workload:
    name: str
    # What it shows, for the table.
    what: str
    before: list[bytes]
    lines: list[bytes]


def line_of(do, **fields):
    """A line by one device."""
    return json.dumps({"by": "laptop", "do": do, **fields}, separators=(",", ":")).encode() + b"\n"


def register(number):
    return line_of("register", device="laptop", path=f"folder/file-{number}.txt")


def duplicate(copy, device, path):
    return line_of("duplicate", copy=copy, device=device, path=path)


def edits(count, _):
    before = [register(1), duplicate(1, "usb", "file-1.txt")]
    return Workload("edits", "edits of one of two copies", before, [line_of("edit", copy=1)] * count)


def refused(count, _):
    return Workload("refused", "edits of a copy that isn't there", [register(1)], [line_of("edit", copy=9)] * count)


def registers(count, _):
    return Workload("registers", "first copies", [], [register(it) for it in range(count)])


def files_of_two(files):
    """Two copies of each of so many files, on two devices."""
    return [it for n in range(files) for it in (register(n), duplicate(2 * n + 1, "usb", f"file-{n}.txt"))]


def reports(a, b):
    """Reports of two copies of a file, any of which is accepted at any time."""
    return line_of("edit", copy=a), line_of("edit", copy=b), line_of("reconcile", a=a, b=b), line_of("merge", a=a, b=b)


def mixed(count, random):
    """Reports and questions of 200 files, of each of which there are two copies; one line in a hundred asks what a device holds."""
    files = 200
    lines = []
    for _ in range(count):
        a = 2 * random.randrange(files) + 1
        asked = random.choice((*reports(a, a + 1), line_of("pair", a=a, b=a + 1), line_of("board", family=a)))
        lines.append(line_of("holdings", device="usb") if random.random() < 0.01 else asked)
    return Workload("mixed", "reports and questions of families of two", files_of_two(files), lines)


def dump(count, random):
    """The lines that make a journal of at least so many entries, and then ask for all of them: the answers are its dump."""
    files = 1000
    made = files_of_two(files)
    while len(made) < count:
        made.append(random.choice(reports(a := 2 * random.randrange(files) + 1, a + 1)))
    return made, [line_of("journal", **{"from": first}) for first in range(1, len(made) + 1, 100)]


def whole_family():
    """A family of as many copies as there may be, each a duplicate of the first or of one of its duplicates."""
    copies = [duplicate((it + 1) // 2, f"device-{it % 20}", f"copies/{it}.txt") for it in range(1, MOST_COPIES)]
    return [register(0), *copies]


def boards(count, random):
    before = whole_family() + [line_of("edit", copy=random.randint(1, MOST_COPIES)) for _ in range(40)]
    return Workload("boards", "boards of 256 copies", before, [line_of("board", family=1)] * count)


def stamps(count, random):
    before = whole_family() + [line_of("edit", copy=it) for it in range(1, MOST_COPIES + 1)]
    before += [line_of("reconcile", a=it, b=it + 1) for it in range(1, MOST_COPIES)]
    return Workload("stamps", "stamps of 256 copies that know each other's edits", before, [line_of("stamps", family=1)] * count)


def conflicts(count, random):
    """All copies are edited, so each two are in conflict, and then edits, and reconciles of two in turn."""
    before = whole_family() + [line_of("edit", copy=it) for it in range(1, MOST_COPIES + 1)]
    lines = []
    for _ in range(count):
        a, b = random.sample(range(1, MOST_COPIES + 1), 2)
        lines.append(random.choice((line_of("edit", copy=a), line_of("edit", copy=b), line_of("reconcile", a=a, b=b))))
    return Workload("conflicts", "reports in a family of 256 copies in conflict", before, lines)


def families(count, _):
    return Workload("families", "lists of 5,000 families", [register(it) for it in range(5000)], [line_of("families")] * count)


def journal(count, random):
    entries = 20000
    before = [register(1), duplicate(1, "usb", "file-1.txt")] + [line_of("edit", copy=1 + it % 2) for it in range(entries)]
    return Workload("journal", "pages of 100 entries", before, [line_of("journal", **{"from": random.randrange(1, entries)}) for _ in range(count)])


# Each workload, and how many lines of it are made where the scale is 1.
LINE_WORKLOADS = (
    (edits, 200_000),
    (refused, 200_000),
    (registers, 60_000),
    (mixed, 100_000),
    (boards, 2_000),
    (families, 200),
    (journal, 20_000),
    (conflicts, 10_000),
    (stamps, 200),
)


def workloads(seed, scale, wanted):
    """The workloads with the wanted names, each from the seed alone."""
    for make, count in LINE_WORKLOADS:
        if not wanted or make.__name__ in wanted:
            yield make(max(1, int(count * scale)), random.Random(f"{seed} {make.__name__}"))


def folder(at, files, size, seed):
    """Fills a folder with files of this size."""
    source = random.Random(f"{seed} folder")
    for number in range(files):
        place = at / f"folder-{number % 100}"
        place.mkdir(parents=True, exist_ok=True)
        (place / f"file-{number}").write_bytes(source.randbytes(size))
