"""Where the `pstore` program is, and which words it knows."""

from __future__ import annotations

import os
import shutil
import subprocess
import tempfile
from functools import lru_cache
from pathlib import Path
from typing import Optional

from .errors import ProgramMissing


def find_program(program: Optional[str] = None) -> str:
    """The program's path: the one that is given, else the environment's PSTORE, else one beside or above this package, else one on PATH.

    The script `pstore` at the top of a checkout isn't taken, since its first call builds the program.
    """
    named = program or os.environ.get("PSTORE")
    if named:
        found = shutil.which(named)
        if found is None:
            raise ProgramMissing(f"{named}: no program")
        return found
    here = Path(__file__).resolve().parent
    for folder in here.parents:
        built = folder / "crates" / "pstore" / "out" / "pstore"
        place = built if (folder / "crates.txt").exists() else folder / "pstore"
        if place.is_file() and os.access(place, os.X_OK):
            return str(place)
    found = shutil.which("pstore")
    if found is None:
        raise ProgramMissing("no pstore program: name it by PSTORE, or put it on PATH")
    return found


@lru_cache(maxsize=None)
def knows_look(program: str) -> bool:
    """Whether the program has the word `look`: one that hasn't ends with status 2."""
    with tempfile.TemporaryDirectory() as folder:
        missing = os.path.join(folder, "missing.pst")
        done = subprocess.run([program, "look", missing], stdin=subprocess.DEVNULL, stdout=subprocess.DEVNULL, stderr=subprocess.DEVNULL)
    return done.returncode != 2
