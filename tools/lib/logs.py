"""The logs and the journals of a run, which may still go on, for those who show it."""

from __future__ import annotations

from pathlib import Path
from typing import Callable, TypeVar

from .cones import Log
from .definitions import levels_of
from .formats import HEADER_LEN, LOG_MAGIC, BadNumbers, Header, Left, begins_with, header_of
from .inputs import BadInput

Read = TypeVar("Read")


def in_file(path: Path, read: Callable[[], Read]) -> Read:
    """What `read` makes of a file. One that leaves its format is refused."""
    try:
        return read()
    except Left as left:
        raise BadInput(f"{path}, byte {left.at}: the file leaves its format") from None
    except BadNumbers as fault:
        raise BadInput(f"{path}, byte 8: {fault}") from None


class Cone:
    """A cone whose log is read as it grows."""

    def __init__(self, place: Path, header: Header) -> None:
        self.journal = place.with_suffix(".journal")
        self.path = place.with_suffix(".log")
        self.header = header
        self.log = Log(header, levels_of(header))
        self.gate = len(LOG_MAGIC)

    def read(self) -> None:
        """Takes the records that the log has by now."""
        with self.path.open("rb") as file:
            in_file(self.path, lambda: begins_with(file.read(len(LOG_MAGIC)), LOG_MAGIC))
            file.seek(self.gate)
            self.gate = in_file(self.path, lambda: self.log.follow(file.read(), self.gate))


def has_more(path: Path, length: int) -> bool:
    return path.is_file() and path.stat().st_size > length


def cones_of(folder: Path) -> list[Cone]:
    """The cones of a run. A directory in which the journal or the log of one isn't there yet is refused."""
    cones: list[Cone] = []
    count = 1
    while len(cones) < count:
        place = folder / f"cone-{len(cones):03}"
        for path, length in (place.with_suffix(".journal"), HEADER_LEN), (place.with_suffix(".log"), len(LOG_MAGIC)):
            if not has_more(path, length):
                raise BadInput(f"{folder}: there are no logs of a run: no {path.name}")
        with place.with_suffix(".journal").open("rb") as journal:
            header = in_file(place.with_suffix(".journal"), lambda: header_of(journal.read(HEADER_LEN + 1)))
        if header.cone != len(cones):
            raise BadInput(f"{place.with_suffix('.journal')}, byte 28: the header is that of cone {header.cone}")
        count = 1 << header.cone_bits
        cones.append(Cone(place, header))
    return cones
