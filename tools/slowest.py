#!/usr/bin/env python3
"""Lists what took the prover long in crates that were proved by one process, from the times of the files that it left.

usage: slowest.py CRATE ..
Of each crate it prints the seconds that passed until the last file of a proof was written, since the last one of the proof
before, for the longest of them. Where that stands behind `body`, the function has many ways through it, most often since
each `?` gives back what is held there: a function with fewer `?` and fewer values held takes a tenth of it.
The files are those in the crate's folder out/incremental, as `rt check` and `rt lib` leave them.
"""
from __future__ import annotations

import re
import sys
from pathlib import Path

CRATES = Path(__file__).resolve().parent.parent / "crates"
SHOWN = 15
# What the files of a function's body end with.
OF_BODY = re.compile(r"\.(Lts|Tie|Kinds|Key|Reads|Met|Statement|Symbol|Goals|TheLinks)\b.*")


def proofs_of(crate):
    """Each proof with the seconds that it took, the longest first."""
    files = sorted((it.stat().st_mtime, it.name) for it in (CRATES / crate / "out" / "incremental").glob("*/*.oantt"))
    taken, last = {}, files[0][0] if files else 0
    for time, name in files:
        name = re.sub(rf"^Rattle[-.]{crate}[-.]|\.oantt$", "", name)
        proof = OF_BODY.sub(" (body)", name)
        taken[proof] = taken.get(proof, 0) + time - last
        last = time
    return sorted(taken.items(), key=lambda it: -it[1])


def main(crates):
    if not crates:
        print(__doc__, file=sys.stderr)
        return 2
    for crate in crates:
        proofs = proofs_of(crate)
        print(f"{crate}: {sum(seconds for _, seconds in proofs):.0f} seconds in {len(proofs)} proofs")
        for proof, seconds in proofs[:SHOWN]:
            print(f"{seconds:8.1f}  {proof}")
    return 0


if __name__ == "__main__":
    sys.exit(main(sys.argv[1:]))
