"""The library that has an allocation fail (failing.c), and the report that it keeps of a run."""
from __future__ import annotations

import os
import struct
import subprocess
import tempfile
from pathlib import Path

SOURCE = Path(__file__).resolve().parent / "failing.c"
LAYOUT = struct.Struct("=QQ")


def compiled(room):
    """The library, made in the folder `room`, or None where it does not compile."""
    library = f"{room}/failing.so"
    ended = subprocess.run(["cc", "-O2", "-shared", "-fPIC", "-o", library, SOURCE])
    return None if ended.returncode else library


class Report:
    """What one run reports. The run has to be given the descriptor `number`."""

    def __init__(self):
        self.file = tempfile.TemporaryFile()
        self.file.write(bytes(LAYOUT.size))
        self.file.flush()
        self.number = self.file.fileno()

    def __enter__(self):
        return self

    def __exit__(self, *_):
        self.close()

    def close(self):
        self.file.close()

    def environment(self, library, failing):
        """The environment of a run in which this allocation fails (0: none)."""
        settings = {"LD_PRELOAD": library, "FAIL_AT": str(failing), "FAIL_REPORT": str(self.number)}
        return {"PATH": os.environ.get("PATH", os.defpath), **settings}

    def counts(self):
        """How many allocations there were so far, and how many failed."""
        return LAYOUT.unpack(os.pread(self.number, LAYOUT.size, 0))
