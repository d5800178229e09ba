"""What the files of a run say of it by now, be it closed, stopped or going on: how far its cones are, and its reports.

Journals are read packet by packet, and never whole. What stands behind an open gate is all there, also of a run that
goes on: the program opens a gate only behind the packet.
"""

from __future__ import annotations

import struct
from dataclasses import dataclass
from pathlib import Path
from typing import BinaryIO, Iterator

from .definitions import Report
from .formats import HEADER_LEN, KEY_LEN, OPEN, BadNumbers, Header, Item, Left, item_len, items_in, items_of
from .inputs import BadInput
from .loads import Load, room_of
from .logs import Cone, cones_of, in_file

HEAD = struct.Struct("<BI")
PACKET_LEN = 8


class Journal:
    """A journal that is read as it grows."""

    def __init__(self, path: Path, header: Header) -> None:
        self.path = path
        self.header = header
        self.gate = HEADER_LEN
        self.events = 0
        self.weight = 0

    def lengths(self, file: BinaryIO) -> Iterator[int]:
        """The length of the payload of each new packet, where the file stands then. It may be read or not."""
        while True:
            file.seek(self.gate)
            head = file.read(HEAD.size)
            if not head:
                raise Left(self.gate)
            if head[0] != OPEN:
                return
            if len(head) < HEAD.size:
                raise Left(self.gate + len(head))
            length = HEAD.unpack(head)[1]
            items, rest = divmod(length - PACKET_LEN, item_len(self.header.version))
            if rest or not 1 <= items <= 4 * self.header.packet:
                raise Left(self.gate + 1)
            yield length
            self.gate += HEAD.size + length
            self.events += items

    def load(self) -> Load:
        """How many events it has by now, and what they weigh."""
        with self.path.open("rb", buffering=0) as file:
            in_file(self.path, lambda: self.take(file))
        return Load(self.events, self.weight)

    def take(self, file: BinaryIO) -> None:
        for length in self.lengths(file):
            self.weight += self.weight_in(file, length)

    def weight_in(self, file: BinaryIO, length: int) -> int:
        """What the items of a packet weigh, at whose payload the file stands."""
        size = item_len(self.header.version)
        if size == KEY_LEN:
            return (length - PACKET_LEN) // size
        return sum(self.payload(file, length)[PACKET_LEN + KEY_LEN :: size])

    def payload(self, file: BinaryIO, length: int) -> bytes:
        payload = file.read(length)
        if len(payload) < length:
            raise Left(self.gate + HEAD.size + len(payload))
        return payload

    def packets(self) -> Iterator[tuple[Item, ...]]:
        """The items of each new packet."""
        with self.path.open("rb") as file:
            for length in self.lengths(file):
                payload = self.payload(file, length)
                yield tuple(items_in(self.header.version, items_of(self.header, self.gate + 1, payload)))


@dataclass
class Reported:
    """A report, with what the journal says of its key by now. Places count from 1; none of a place is 0."""

    cone: int
    key: int
    reported: int
    count: int = 0
    first: int = 0
    reached: int = 0

    def meet(self, at: int, weight: int, threshold: int) -> None:
        self.count += weight
        self.first = self.first or at
        if self.count - weight < threshold <= self.count:
            self.reached = at


@dataclass
class Part:
    """A cone of a run: its number, how many events it has and what they weigh, how much of both it takes, and how many
    reports it has."""

    cone: int
    load: Load
    room: Load
    reports: int
    closed: bool


class Run:
    """The files of a run."""

    def __init__(self, folder: Path) -> None:
        self.folder = folder
        self.cones = cones_of(folder)
        self.journals = [Journal(cone.journal, cone.header) for cone in self.cones]
        self.header = self.cones[0].header

    def read(self) -> None:
        """Takes what the logs have by now."""
        for cone in self.cones:
            cone.read()

    def parts(self) -> list[Part]:
        """How far each cone is, by its log as it was read, and by its journal as it is."""
        return [part_of(cone, journal.load()) for cone, journal in zip(self.cones, self.journals)]

    def is_closed(self) -> bool:
        return all(cone.log.closed for cone in self.cones)

    def reports(self) -> Iterator[Reported]:
        """The reports of the logs as they were read, with what the whole journals say of their keys, cone by cone."""
        for cone in self.cones:
            yield from reports_of(cone)


def part_of(cone: Cone, load: Load) -> Part:
    return Part(cone.header.cone, load, room_of(cone.header), len(cone.log.reports), cone.log.closed)


def reports_of(cone: Cone) -> list[Reported]:
    found = {report.key: reported(cone, report) for report in cone.log.reports}
    journal = Journal(cone.journal, cone.header)
    at = 0
    try:
        for items in journal.packets():
            for place, (key, weight) in enumerate(items, at + 1):
                if key in found:
                    found[key].meet(place, weight, cone.header.threshold)
            at += len(items)
    except Left as left:
        raise BadInput(f"{cone.journal}, byte {left.at}: the file leaves its format") from None
    return list(found.values())


def reported(cone: Cone, report: Report) -> Reported:
    return Reported(cone.header.cone, report.key, report.at)


def run_at(folder: Path) -> Run | None:
    """The run in a directory, with its logs read, or none where its files can't be read."""
    try:
        run = Run(folder)
        run.read()
    except (BadInput, BadNumbers, OSError):
        return None
    return run
