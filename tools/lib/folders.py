"""The cones of a directory, by the names of their files and the headers of their journals.

It knows nothing of the program.
"""

from __future__ import annotations

import re
from contextlib import suppress
from pathlib import Path
from typing import Sequence

from .cones import JOURNAL, SUFFIXES
from .formats import HEADER_LEN, BadNumbers, Left, header_of

NAME = re.compile(r"cone-[0-9]{3}")


def cones_in(folder: Path) -> list[Path]:
    """The cones of a directory, by their files without suffix, where at least one of the three is there."""
    names = {path.name for path in folder.iterdir()}
    found = {name.removesuffix(suffix) for name in names for suffix in SUFFIXES if name.endswith(suffix)}
    return [folder / name for name in sorted(found) if NAME.fullmatch(name)]


def number_of(cone: Path) -> int:
    """The number that a cone's files are named by."""
    return int(cone.name.removeprefix("cone-"))


def is_made(cone: Path) -> bool:
    """Whether one of its files has a byte."""
    files = [cone.with_suffix(suffix) for suffix in SUFFIXES]
    return any(file.exists() and file.stat().st_size > 0 for file in files)


def cone_count(cones: Sequence[Path]) -> int | None:
    """How many cones a run has, by the first journal with the header of its cone; None where there is none."""
    for cone in cones:
        journal = cone.with_suffix(SUFFIXES[JOURNAL])
        if journal.is_file():
            with journal.open("rb") as file, suppress(Left, BadNumbers):
                header = header_of(file.read(HEADER_LEN + 1))
                if header.cone == number_of(cone):
                    return 1 << header.cone_bits
    return None


def cones_due(folder: Path) -> list[Path]:
    """The cones that have to be sound: those of the run, be they there or not, and others of which a file has a byte.
    Where the settings aren't known, these are all that have files."""
    there = cones_in(folder)
    count = cone_count(there)
    if count is None:
        return there
    of_run = [folder / f"cone-{number:03}" for number in range(count)]
    return of_run + [cone for cone in there if number_of(cone) >= count and is_made(cone)]


def files_of(cone: Path) -> list[bytes]:
    """The three files of a cone."""
    return [cone.with_suffix(suffix).read_bytes() for suffix in SUFFIXES]
