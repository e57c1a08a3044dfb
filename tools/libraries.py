"""What a build makes in its folder: the library of each crate, with a note of what it was made of, and the program.

A library is what the kit has written of a proved crate. Together they are some gigabytes, so they are packed where nothing
is being built.
"""
from __future__ import annotations

import os
import shutil
import subprocess
from concurrent.futures import ThreadPoolExecutor
from pathlib import Path

from crates import PROGRAM, sources, sum_of, uses, with_those_below

TARGET = "x86_64-unknown-linux-gnu"


def tar(how, packed, library):
    """Whether tar packs or unpacks the library so."""
    quiet = {"stdin": subprocess.DEVNULL, "stdout": subprocess.DEVNULL, "stderr": subprocess.DEVNULL}
    return subprocess.run(["tar", "-C", library.parent, "-I", "gzip -1", how, packed, library.name], **quiet).returncode == 0


def each(call, names):
    """Makes the call for each of these names, as many at a time as there are processors."""
    with ThreadPoolExecutor(os.cpu_count()) as pool:
        list(pool.map(call, names))


class BuildFolder:
    """Where what is built goes, and the kit that builds it."""

    def __init__(self, kit, built):
        self.kit, self.built = Path(kit), Path(built)
        self.libraries, self.log = self.built / "rlib", self.built / "build.log"
        self.object, self.program = self.built / f"{PROGRAM}.o", self.built / f"{PROGRAM}.new"

    def library(self, name):
        return self.libraries / f"{name}.rlib"

    def sum(self, name):
        """One sum of all that a crate's library is made of: its files, the libraries below, in whose `format` sums of theirs stand, and the kit."""
        below = [self.library(it) / "format" for it in with_those_below([name]) if it != name]
        return sum_of([self.kit / "KIT-ID", *sources(name), *below], uses()[name])

    def stamp(self, name):
        return self.libraries / f"{name}.stamp"

    def packed(self, name):
        return self.libraries / f"{name}.tgz"

    def clear(self, name):
        """Takes away the note of a crate's library, and of the library what a build that was broken off has left, onto which the kit writes none."""
        self.stamp(name).unlink(missing_ok=True)
        if not (self.library(name) / "format").is_file():
            shutil.rmtree(self.library(name), ignore_errors=True)

    def keep(self, name, made_of):
        """Notes of what a crate's library was made, where that is still what it would be made of."""
        if name != PROGRAM and self.sum(name) == made_of:
            self.stamp(name).write_text(made_of)

    def has(self, name):
        """Whether a crate's library is there, and of what it would be made of now."""
        stamp = self.stamp(name)
        return stamp.is_file() and (self.library(name) / "format").is_file() and stamp.read_text() == self.sum(name)

    def words(self, name, jobs):
        """The kit's command that proves a crate and, where it is proved, builds it. Of a library what others cite is kept, and no proof."""
        listed, kit = uses(), self.kit
        kinds = ["--statements", "-o", self.library(name)]
        if name == PROGRAM:
            kinds = ["--toolchain", kit / "toolchain", "--backend", "llvm", "-o", self.object]
        below = {it: self.library(it) if it in listed else kit / "rlibs" / f"{it}.rlib" for it in ["std", *listed[name]]}
        named = [word for it, library in below.items() for word in ("--extern", f"{it}={library}")]
        found = [word for it in (kit / "rlibs", self.libraries) for word in ("-L", f"dependency={it}")]
        logic = ["--antt-project", kit / "rattle/logic/antt-project.json", "--logic-built", kit / "logic_built"]
        root = "src/main.rt" if name == PROGRAM else "src/lib.rt"
        return [kit / "bin/rattle", "build", "--crate-name", name, root, *named, *found, *logic, "--links", f"{name}=", f"--jobs={jobs}", *kinds]

    def link_words(self):
        libraries = [self.kit / "c" / it for it in ("libos_c.a", "liblibc_c.a")]
        return [self.kit / "bin/rattle-link", "--target", TARGET, "--toolchain", self.kit / "toolchain", "-o", self.program, self.object, *libraries]

    def pack(self, name):
        """Packs a library. Where that fails, or is broken off, it stays as it is."""
        new = self.packed(name).with_suffix(".new")
        if tar("-cf", new, self.library(name)):
            new.replace(self.packed(name))
            shutil.rmtree(self.library(name))
        else:
            new.unlink(missing_ok=True)

    def unpack(self, name):
        """Unpacks a library that was packed. Where that fails it is proved again."""
        if self.packed(name).is_file():
            if not tar("-xf", self.packed(name), self.library(name)):
                self.stamp(name).unlink(missing_ok=True)
            self.packed(name).unlink()
