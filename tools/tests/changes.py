"""What the files of cones are to damage: those that runs made, and changes of them.

It knows nothing of the program: what is due of a change stands in docs/FORMATS.md and the definitions.
"""

from __future__ import annotations

from typing import NamedTuple

from lib.cones import Cone
from lib.words import Settings
from recovery import Folder, files_in

Changes = dict[str, bytes | None]


class Run(NamedTuple):
    """A run that makes files: so many keys, and the status at its end. Its files come in the table, or but as they are
    and in drawn changes."""

    settings: Settings
    keys: int
    status: int
    is_in_table: bool = True


class Kept(NamedTuple):
    """The files that a run left, or that one might have left."""

    run: Run
    folder: Folder


class Case(NamedTuple):
    """Files of a run with some of them changed, or None for one that is taken away, opened with the run's settings or
    with others. The line is that which the table says to be due: that of a refusal, or an empty one where nothing
    changes. The kind is one of drawn changes."""

    name: str
    kept: Kept
    changed: Changes
    line: str | None = None
    others: Settings | None = None
    kind: str = "the table"

    def settings(self) -> Settings:
        return self.others or self.kept.run.settings

    def folder(self) -> Folder:
        both = {**self.kept.folder, **self.changed}
        return {name: data for name, data in both.items() if data is not None}


def cone_in(kept: Kept, cone: int) -> Cone:
    read = Cone(files_in(kept.folder, cone))
    read.read()
    return read


def put(data: bytes, at: int, *values: int) -> bytes:
    return data[:at] + bytes(values) + data[at + len(values) :]


def malformed(cone: int, file: int, at: int) -> str:
    return f"lert: cone {cone} file {file} malformed at {at}\n"


def other_settings(cone: int) -> str:
    return f"lert: cone {cone} has other settings\n"
