#!/usr/bin/env python3
"""Makes the packages, unpacks one and installs the other, and runs its program in a root that has the C library and nothing else.

usage: check_package.py
It needs root, or a system that lets users make namespaces; where it has neither the runs fail, and are not skipped.
The last line is 'N passed, M failed'.
"""
from __future__ import annotations

import os
import re
import shutil
import subprocess
import sys
import tarfile
import tempfile
from pathlib import Path

import check_scenarios
import scenario

TOP = Path(__file__).resolve().parent.parent
SECONDS = 60
# What the program needs of a machine: the loader and the C library.
LIBRARIES = ("/lib64/ld-linux-x86-64.so.2", "libc.so.6")
WHERE = ("/lib/x86_64-linux-gnu", "/lib64", "/usr/lib64", "/usr/lib")
NEWEST_C = 34
WANTED = {"BUILT-FROM", "CHANGELOG.md", "README.md", "docs/CASES.md", "docs/CLOCKS.md", "docs/DECISIONS.md", "docs/MAP.md", "docs/PROMISES.md", "docs/PROTOCOL.md", "docs/USE.md", "panad", "panad.1"}
SHARED = {"completions/_panad", "completions/panad.bash", "completions/panad.fish", "panad.env", "panad.service", "panad-tunnel.service"}
INSTALLED = {
    "usr/bin/panad",
    "usr/lib/systemd/user/panad.service",
    "usr/lib/systemd/user/panad-tunnel.service",
    "usr/share/bash-completion/completions/panad",
    "usr/share/fish/vendor_completions.d/panad.fish",
    "usr/share/man/man1/panad.1.gz",
    "usr/share/zsh/vendor-completions/_panad",
    *(f"usr/share/doc/panad/{it}" for it in WANTED - {"panad", "panad.1"}),
    "usr/share/doc/panad/panad.env",
}
VERSION = re.compile(r'VERSION: &str = "(\S+) \((.*)\)";')
# A command in the help.
COMMAND = re.compile(r"^  (\w+) ", re.MULTILINE)


def packed(room, name):
    """Makes the packages in a folder of the room, and returns their files: the archive and that for Debian."""
    (room / name).mkdir()
    done = subprocess.run([TOP / "package", room / name], capture_output=True, text=True)
    made = sorted((room / name).iterdir())
    if done.returncode or [it.suffix for it in made] != [".gz", ".deb"]:
        raise ValueError(f"./package ended with {done.returncode}, made {made} and said: {done.stderr[-600:]}")
    return made


def library(name):
    """The file of a library of this machine."""
    found = [Path(it) for it in ([name] if "/" in name else [f"{at}/{name}" for at in WHERE]) if os.path.exists(it)]
    if not found:
        raise ValueError(f"this machine has no {name}")
    return found[0]


def empty_root(room, program):
    """A folder with the program, the loader and the C library, and nothing else."""
    root = room / "root"
    root.mkdir(parents=True)
    for it in map(library, LIBRARIES):
        to = root / it.relative_to("/")
        to.parent.mkdir(parents=True, exist_ok=True)
        shutil.copyfile(it.resolve(), to)
        to.chmod(0o755)
    shutil.copy(program, root / "panad")
    return root


def in_root(root, *words, given=b""):
    """Runs the program with the folder as its root."""
    path = f"{os.environ.get('PATH', os.defpath)}:/usr/sbin:/sbin"
    chroot, unshare = (shutil.which(it, path=path) or it for it in ("chroot", "unshare"))
    enter = [chroot, root] if os.geteuid() == 0 else [unshare, "-r", chroot, root]
    return subprocess.run([*enter, "/panad", *words], input=given, capture_output=True, env={}, timeout=SECONDS)


def names_and_texts(unpacked, version, kit):
    """The archive has the program, its pages, and a file that says what it was built from."""
    found = {str(it.relative_to(unpacked)) for it in unpacked.glob("**/*") if it.is_file()}
    if found != WANTED | {f"share/{it}" for it in SHARED}:
        yield f"it has {sorted(found)}"
    manual = (unpacked / "panad.1").read_text()
    if f"panad {version}" not in manual or "@" in manual:
        yield "panad.1 doesn't name the version"
    help_text = scenario.read(scenario.folder_of("help")).runs[0].output.decode()
    yield from (f"panad.1 lacks the command {it}" for it in COMMAND.findall(help_text) if it not in manual)
    said = dict(it.split(None, 1) for it in (unpacked / "BUILT-FROM").read_text().splitlines())
    sum, built_by = (TOP / ".build/stamp").read_text().splitlines()
    # the version names the kit's line, without the letter behind its number
    if re.sub(r"^(rattle-kit-\d+)[a-z]\b", r"\1", built_by) != kit:
        yield f"it was built by {built_by}, and the version names {kit}"
    sums = {"sources": sum.split()[0]}
    sums["program"] = subprocess.run(["sha256sum", unpacked / "panad"], capture_output=True, text=True).stdout.split()[0]
    if said != {"version": version, "kit": built_by, **sums}:
        yield f"BUILT-FROM says {said}"


def same_bytes(first, second):
    """Packed a second time they are the same."""
    for one, other in zip(first, second):
        if one.name != other.name or one.read_bytes() != other.read_bytes():
            yield f"{one.name} and {other.name} differ"


def files_below(folder):
    return {str(it.relative_to(folder)) for it in folder.glob("**/*") if it.is_file()}


def installed(package, root):
    """Debian's package is installed, runs, and leaves nothing where it is removed."""
    (root / "var/lib/dpkg/updates").mkdir(parents=True)
    for it in ("status", "available"):
        (root / "var/lib/dpkg" / it).touch()
    before = files_below(root)
    # What it depends on isn't installed in this root, but there.
    dpkg = [*([] if os.geteuid() == 0 else ["unshare", "-r"]), "dpkg", f"--root={root}", "--force-depends"]
    run = lambda *words: subprocess.run([*dpkg, *words], capture_output=True, text=True, timeout=SECONDS)
    done = run("--install", package)
    found = {it for it in files_below(root) - before if not it.startswith("var/")}
    if done.returncode or found != INSTALLED:
        yield f"dpkg ended with {done.returncode}, said {done.stderr[-600:]!r} and left {sorted(found ^ INSTALLED)}"
    program = root / "panad"
    program.unlink()
    program.hardlink_to(root / "usr/bin/panad")
    shown = in_root(root, "--version")
    if shown.returncode or not shown.stdout.startswith(b"panad "):
        yield f"it ended with {shown.returncode} and {shown.stderr!r}"
    done = run("--remove", "panad")
    left = {it for it in files_below(root) - before if not it.startswith("var/")}
    if done.returncode or left:
        yield f"removed it left {sorted(left)}; dpkg ended with {done.returncode} and {done.stderr[-600:]!r}"


def old_c_library(program):
    """The program asks for no C library newer than README says."""
    newest = max(int(it) for it in re.findall(rb"GLIBC_2\.(\d+)", program.read_bytes()))
    if newest > NEWEST_C or f"2.{NEWEST_C} or later" not in (TOP / "README.md").read_text():
        yield f"it needs version 2.{newest}"


def runs_alone(root, version, kit):
    """In a root with the C library alone the program answers, compares, and prints its version and help."""
    session = scenario.read(scenario.folder_of("three_devices")).runs[0]
    help_text = scenario.read(scenario.folder_of("help")).runs[0].output
    tried = [
        (["run"], session.given, session.output),
        (["compare", "((1,0),(0,1,0))", "((0,1),0)"], b"", b"Newer\n"),
        (["--version"], b"", f"panad {version} ({kit})\n".encode()),
        (["--help"], b"", help_text),
    ]
    for words, given, wanted in tried:
        done = in_root(root, *words, given=given)
        yield from check_scenarios.difference(" ".join(words), wanted, done.stdout)
        if done.returncode or done.stderr:
            yield f"{' '.join(words)} ended with {done.returncode} and {done.stderr[-600:]!r}"


def passes(check, *given):
    """Whether the check finds nothing; prints its line, and what it finds."""
    try:
        found = [*check(*given)]
    except (OSError, ValueError, subprocess.SubprocessError) as error:
        found = [f"the check could not run: {error}"]
    print(f"{'FAILED' if found else 'ok'} {check.__doc__.strip()}", *found, sep="\n    ")
    return not found


def checked(room):
    """What came of each check of the package."""
    version, kit = VERSION.search((TOP / "crates/pana_arguments/src/version.rt").read_text()).groups()
    first = packed(room, "first")
    archive, debian = first
    with tarfile.open(archive) as it:
        it.extractall(room / "unpacked")
    unpacked = room / "unpacked" / f"panad-{version}-x86_64-linux"
    return [
        passes(names_and_texts, unpacked, version, kit),
        passes(same_bytes, first, packed(room, "second")),
        passes(old_c_library, unpacked / "panad"),
        passes(runs_alone, empty_root(room / "alone", unpacked / "panad"), version, kit),
        passes(installed, debian, empty_root(room / "debian", unpacked / "panad")),
    ]


def main():
    with tempfile.TemporaryDirectory(prefix="package-") as room:
        try:
            outcomes = checked(Path(room))
        except (OSError, ValueError, tarfile.TarError, subprocess.SubprocessError) as error:
            print(f"FAILED: there is no package: {error}")
            outcomes = [False]
    print(f"{outcomes.count(True)} passed, {outcomes.count(False)} failed")
    return 1 if outcomes.count(False) else 0


if __name__ == "__main__":
    sys.exit(main())
