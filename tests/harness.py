"""What the scripts of the tests have in common: comparing, and running checks each in a folder of its own."""
from __future__ import annotations

import shutil
import subprocess
import sys
import tempfile
import time
from pathlib import Path


class Broken(Exception):
    """What is tried isn't as it must be, so the rest of a check can't be tried."""


def differs(got, wanted):
    """Says what came that isn't wanted."""
    if got != wanted:
        yield f"wanted {wanted!r:.400}, got {got!r:.400}"


def faults_of(check, setting):
    """What a check finds in a folder of its own, with what it is given beside."""
    room, found = Path(tempfile.mkdtemp()), []
    try:
        found.extend(check(setting, room))
    except (OSError, subprocess.SubprocessError, ValueError, KeyError, Broken) as error:
        found.append(f"{type(error).__name__}: {error}")
    finally:
        shutil.rmtree(room, ignore_errors=True)
    return found


def run_with(setting, checks):
    """Runs checks, says which failed and why, and how long the longer ones took, and returns the status."""
    passed, failed = 0, 0
    for check in checks:
        since = time.monotonic()
        faults = faults_of(check, setting)
        passed, failed = passed + (not faults), failed + bool(faults)
        if faults:
            print(f"FAILED: {check.__doc__}", *faults[:9], sep="\n  ", flush=True)
        elif (seconds := time.monotonic() - since) > 10:
            print(f"passed {check.__name__} ({seconds:.0f} s)", flush=True)
    print(f"{passed} passed, {failed} failed")
    return int(failed != 0)


def run_checks(usage, checks, words):
    """Runs checks of the program that the words name."""
    if len(words) != 1:
        print(usage, file=sys.stderr)
        return 2
    return run_with(str(Path(words[0]).resolve()), checks)
