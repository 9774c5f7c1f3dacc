"""kept: what was seen proved or refused on this machine, for a kit whose rt ci keeps nothing.

An entry stands under the sum of all that it rests on: the kit, the handles allowed, the text of the crate, and each library
below it as it was built, byte by byte. What is not found whole under that sum is made anew. Entries are written aside and
then renamed, so that a run that is ended leaves none by half; the oldest go once all take more than ROOM.
"""
from __future__ import annotations

import hashlib
import os
import shutil
import tempfile
import time
from typing import Any, Iterable, Optional

# Raised where an entry says something else than before.
FORM = "1"
ROOM = 24_000_000_000
# How old what was written aside is, in seconds, before it is taken for what an ended run left.
ENDED = 14_400
FOLDER = f"{os.environ.get('XDG_CACHE_HOME') or os.path.expanduser('~/.cache')}/cithlwyran-gate"


def files_below(path: str) -> Iterable[str]:
    """Returns the files of a folder in order, or the file itself."""
    if os.path.isfile(path):
        yield path
    for at, folders, names in os.walk(path):
        folders.sort()
        yield from (f"{at}/{name}" for name in sorted(names))


def sum_of(*parts: str) -> str:
    return hashlib.sha256(repr(parts).encode()).hexdigest()


def sum_of_files(path: str) -> str:
    """Returns a sum of the names and bytes of all files at a path."""
    sum = hashlib.sha256()
    for it in files_below(path):
        with open(it, "rb") as file:
            sum.update(repr((os.path.relpath(it, path), os.path.getsize(it))).encode())
            while piece := file.read(1 << 20):
                sum.update(piece)
    return sum.hexdigest()


class Kept:
    """What earlier runs saw, and what this run adds; with anew, nothing of what they saw is taken."""

    def __init__(self, rt: Any, anew: bool, folder: str = FOLDER):
        self.rt, self.anew, self.folder = rt, anew, folder
        self.built: dict[str, str] = {}
        kit = [f"{rt.rtlib.KIT}/WHAT", rt.__file__, rt.rtlib.__file__]
        self.base = sum_of(FORM, repr(rt.Crate.allowed), *map(sum_of_files, kit))
        os.makedirs(folder, exist_ok=True)

    def library(self, crate: Any) -> str:
        """Returns a sum of a library as this run built it, or took it."""
        if crate.name not in self.built:
            self.built[crate.name] = sum_of_files(crate.rlib)
        return self.built[crate.name]

    def key(self, crate: Any) -> str:
        """Returns a sum of what a crate's verdict rests on; the libraries below it are built."""
        texts = [(os.path.relpath(it, crate.folder), sum_of_files(it)) for it in self.rt.rtlib.files_of(crate.folder)]
        below = [(it.name, self.library(it)) for it in crate.below()]
        return sum_of(self.base, repr(sorted(crate.said.items())), repr(texts), repr(below))

    def take(self, name: str, to: str) -> bool:
        """Puts what was kept under a name into a folder, and returns whether there was any."""
        entry = f"{self.folder}/{name}"
        if self.anew or not os.path.isdir(entry):
            return False
        shutil.copytree(entry, to, dirs_exist_ok=True)
        os.utime(entry)
        return True

    def keep(self, name: str, folder: str, parts: Iterable[str]) -> None:
        """Keeps these files and folders of a folder under a name."""
        room = tempfile.mkdtemp(prefix="aside-", dir=self.folder)
        for it in parts:
            path = f"{folder}/{it}"
            copy = shutil.copytree if os.path.isdir(path) else shutil.copy2
            os.makedirs(os.path.dirname(f"{room}/{it}"), exist_ok=True)
            copy(path, f"{room}/{it}")
        shutil.rmtree(f"{self.folder}/{name}", ignore_errors=True)
        try:
            os.rename(room, f"{self.folder}/{name}")
        except OSError:
            # (another run has just kept the same)
            shutil.rmtree(room, ignore_errors=True)

    def of_edit(self, path: str, key: str) -> str:
        """Returns the name under which the verdict on an edit is kept."""
        return sum_of("edit", key, os.path.basename(path), sum_of_files(path))

    def refused(self, name: str) -> Optional[str]:
        """Returns why an earlier run saw an edit refused, if one did."""
        if self.anew or not os.path.isfile(f"{self.folder}/{name}/why"):
            return None
        os.utime(f"{self.folder}/{name}")
        with open(f"{self.folder}/{name}/why", encoding="utf-8") as it:
            return it.read()

    def keep_refused(self, name: str, why: str) -> None:
        """Keeps that an edit was refused, and why."""
        with tempfile.TemporaryDirectory() as room:
            with open(f"{room}/why", "w", encoding="utf-8") as it:
                it.write(why)
            self.keep(name, room, ["why"])

    def drop_oldest(self) -> None:
        """Drops what was longest not asked for, down to ROOM, and what ended runs left."""
        held = 0
        for it in sorted(os.scandir(self.folder), key=lambda it: -it.stat().st_mtime):
            held += sum(map(os.path.getsize, files_below(it.path)))
            is_left = it.name.startswith("aside-") and time.time() - it.stat().st_mtime > ENDED
            if held > ROOM or is_left:
                shutil.rmtree(it.path, ignore_errors=True)
