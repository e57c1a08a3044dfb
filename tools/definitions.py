#!/usr/bin/env python3
"""Prints which definitions the contracts of calls rest on, file by file: what a reader of these contracts has to believe.

    python3 -B tools/definitions.py [CRATE/FILE.rt:CALL ..]

Without a call, those of the headline. What a definition takes from another file it names in a `use` line there.
"""
import re
import sys
from pathlib import Path

CRATES = Path(__file__).resolve().parent.parent / "crates"
HEADLINE = [
    "pana_hall/src/hall.rt:apply",
    "pana_hall/src/hall.rt:apply_all",
    "pana_laws/src/laws.rt:daemon_is_one_run",
    "pana_daemon/src/daemon.rt:serve",
]
ITEM = re.compile(r"^(?:(?:abbrev|unfoldable|opaque) )?(?:pub )?(?:record |data )?(?P<name>\S+) (?:[({].* )?:(?:=)? ")
IMPORT = re.compile(r"^\s*(?:pub |ghost )*use Rattle\.(\w+)\.specs\.([\w.]+)\.\{([^}]*)\}", re.MULTILINE)
WORD = re.compile(r"[^\s(){}\[\],;`\"⟦⟧«»:.]+")


def imports_of(text):
    """The names that a text takes from definitions, each with its crate, its file and its name there."""
    taken = {}
    for crate, module, names in IMPORT.findall(text):
        for name in names.split(","):
            there, _, here = name.strip().partition(" as ")
            taken[here or there] = (crate, module, there)
    return taken


def items_of(text):
    """The definitions of a file: each name with its lines."""
    items, name, inside = {}, None, False
    for line in text.splitlines():
        inside = line.startswith("module ") or inside and line[:1] in ("", " ")
        line = line.removeprefix("  ") if inside else line
        if not line.strip() or line.startswith(("--", "use ", "pub use ", "mod ", "pub mod ", "#")):
            name = None if line.startswith("--") else name
            continue
        if not line.startswith(" "):
            found = ITEM.match(line)
            if found and (line.split()[0] in {"pub", "abbrev", "unfoldable", "opaque", "record", "data"}):
                name = found["name"]
        if name:
            items.setdefault(name, []).append(line)
    return items


def definitions():
    """All definitions by crate, file and name: their lines, and what their file takes from others."""
    found = {}
    for path in sorted(CRATES.glob("*/specs/**/*.antt")):
        crate = path.relative_to(CRATES).parts[0]
        module = ".".join(path.relative_to(CRATES / crate / "specs").with_suffix("").parts)
        text = path.read_text(encoding="utf-8")
        taken = imports_of(text)
        for name, lines in items_of(text).items():
            found[crate, module, name] = (lines, taken)
    return found


def clauses_of(call):
    """The names of definitions that stand in a call's contract."""
    path, _, name = call.partition(":")
    text = (CRATES / path).read_text(encoding="utf-8")
    begun = re.search(rf"^ *pub fn {re.escape(name)}\b", text, re.MULTILINE)
    if not begun:
        sys.exit(f"{path} has no public function {name}")
    ended = re.compile(r"^ *\{\}?$", re.MULTILINE).search(text, begun.start())
    taken = imports_of(text)
    return [taken[word] for word in WORD.findall(text[begun.start():ended.start()]) if word in taken]


def reached(known, names):
    """These definitions and all that they rest on."""
    seen, left = set(), list(names)
    while left:
        crate, module, name = key = left.pop()
        if key in seen or key not in known:
            continue
        seen.add(key)
        lines, taken = known[key]
        for word in WORD.findall("\n".join(lines)):
            if word in taken:
                left.append(taken[word])
            elif (crate, module, word) in known:
                left.append((crate, module, word))
    return seen


def main():
    known = definitions()
    seen = reached(known, [name for call in sys.argv[1:] or HEADLINE for name in clauses_of(call)])
    whole = 0
    for crate, module in sorted({key[:2] for key in seen}):
        there = [name for c, m, name in known if (c, m) == (crate, module)]
        used = [name for name in there if (crate, module, name) in seen]
        lines = sum(len(known[crate, module, name][0]) for name in used)
        whole += lines
        rest = " ".join(name for name in there if name not in used)
        print(f"{crate:<14}{module:<20}{len(used):>3} of {len(there):>3}{lines:>5} lines" + (f"  not {rest}" if rest else ""))
    print(f"{len(seen)} definitions, {whole} lines")


if __name__ == "__main__":
    main()
