"""Files of cones that no run wrote: they are sound for drawn events by their formats and the definitions alone.

It knows nothing of the program.
"""

from __future__ import annotations

import random
import struct
from typing import Iterator, NamedTuple, Sequence

from lib.cones import CLOSING, FLUSH, FRAMES, JOURNAL, LOG
from lib.definitions import Levels, Report, counts_of, left_over, levels_of, look
from lib.formats import (
    HEADER_LEN,
    JOURNAL_HEAD,
    LOG_MAGIC,
    MOST_BY,
    MOST_TRACE,
    OPEN,
    Header,
    Item,
    Packet,
    cone_of,
    item_bytes,
    magic_of,
    mixed,
)
from lib.slots import frame_text, shape_of
from lib.words import Settings
from recovery import Files, Folder, file_name

THRESHOLDS = (3, 40, 600)
LEAST_EVENTS, MOST_EVENTS = 300, 600
# Some keys come often, and some weights are the least and the greatest.
KEYS = 40
WEIGHTS = (1, 1, 2, 255)


def gated(payload: bytes) -> bytes:
    return struct.pack("<BI", OPEN, len(payload)) + payload


class Made(NamedTuple):
    """What the files of a cone hold: its packets, the events before the last record of the log, and whether that is a
    closing."""

    header: Header
    packets: Sequence[Packet]
    n0: int
    closed: bool

    @property
    def levels(self) -> Levels:
        return levels_of(self.header)

    @property
    def events(self) -> list[Item]:
        return [item for packet in self.packets for item in packet.items]

    def begins(self) -> Iterator[tuple[int, int]]:
        """The gate of each packet, and the position of its first item."""
        gate, first = HEADER_LEN, 1
        for packet in self.packets:
            yield gate, first
            gate, first = self.header.behind(gate, len(packet.items)), first + len(packet.items)

    def journal(self) -> bytes:
        *numbers, version = self.header
        bodies = (struct.pack("<2I", one.by, one.trace) + item_bytes(version, one.items) for one in self.packets)
        head = magic_of(JOURNAL_HEAD, version) + struct.pack("<4I4BI", *numbers)
        return head + b"".join(map(gated, bodies)) + b"\0"

    def log(self) -> bytes:
        events, threshold = self.events, self.header.threshold
        looked, begins = look(self.levels, threshold, events), list(self.begins())
        records, told = [], 0
        for flush in self.levels.flushes(self.n0):
            records.append((FLUSH, flush, [one for one in looked if told < one.at <= flush]))
            told = flush
        if self.closed:
            behind = [one for one in looked if one.at > told]
            records.append((CLOSING, self.n0, behind + left_over(threshold, events, looked)))
        return LOG_MAGIC + b"".join(gated(self.record(*one, begins)) for one in records) + b"\0"

    def record(self, kind: int, n0: int, reports: Sequence[Report], begins: Sequence[tuple[int, int]]) -> bytes:
        edge = self.levels.edge(0, n0)
        offset, first = [one for one in begins if one[1] <= edge + 1][-1] if n0 else (HEADER_LEN, 1)
        rows = [[self.frame_of(level, low) for low, _high in self.levels.ranges(level, n0)] for level in self.numbers()]
        directory = b"".join(bytes([len(row), *row]) for row in rows)
        text = b"".join(struct.pack("<2Q", *one) for one in reports)
        return struct.pack("<B3Q", kind, n0, offset, first) + directory + struct.pack("<I", len(reports)) + text

    def numbers(self) -> range:
        return range(1, self.header.levels + 1)

    def frame_of(self, level: int, low: int) -> int:
        """The frame of the bin above a position, which is that of no other one of its level."""
        return low // self.levels.span(level) % (self.header.bins + 1)

    def frames(self) -> bytes:
        data, tails, version = bytearray(), 1 << (64 - self.header.cone_bits), self.header.version
        for level in self.numbers():
            shape = shape_of(self.levels.span(level), self.header.cone_bits, version)
            for low, high in self.levels.ranges(level, self.n0):
                counts = counts_of(self.events[low:high])
                text = frame_text(shape, sorted((mixed(key) % tails, count) for key, count in counts.items()))
                place = self.levels.frame_place(version, level, self.frame_of(level, low))
                data += bytes(max(0, place + len(text) - len(data)))
                data[place : place + len(text)] = text
        return bytes(data)

    def files(self) -> Files:
        files = {JOURNAL: self.journal(), LOG: self.log(), FRAMES: self.frames()}
        return tuple(files[file] for file in sorted(files))


# --- drawn ones


def drawn_items(version: int, draw: random.Random) -> list[Item]:
    count = draw.randint(LEAST_EVENTS, MOST_EVENTS)
    keys = [draw.randrange(KEYS) if draw.random() < 0.6 else draw.getrandbits(64) for _ in range(count)]
    return [Item(key, 1 if version == 1 else draw.choice(WEIGHTS)) for key in keys]


def drawn_packets(items: Sequence[Item], most: int, draw: random.Random) -> Iterator[Packet]:
    while items:
        count = draw.randint(1, most)
        yield Packet(draw.randint(0, MOST_BY), draw.randint(0, MOST_TRACE), tuple(items[:count]))
        items = items[count:]


def drawn_made(header: Header, items: Sequence[Item], draw: random.Random) -> Made:
    """A cone with these items. Behind its last packet some flushes may not have come."""
    packets = list(drawn_packets(items, 4 * header.packet, draw))
    levels, closed = levels_of(header), draw.random() < 0.5
    least = levels.last_flush(len(items) - len(packets[-1].items))
    may = [least, *(flush for flush in levels.flushes(len(items)) if flush > least)]
    return Made(header, packets, len(items) if closed else draw.choice(may), closed)


def drawn_folder(version: int, draw: random.Random) -> tuple[Settings, Folder]:
    """The files of one cone or of two, and their settings: room for just their weight, or for some more."""
    cone_bits, items = draw.randint(0, 1), drawn_items(version, draw)
    threshold, weight = draw.choice(THRESHOLDS), sum(item.weight for item in items)
    settings = Settings(
        threshold=threshold,
        bins=draw.randint(2, 4),
        ratio=draw.randint(2, 3),
        base=draw.choice((4, 5, 16)),
        levels=draw.randint(6, 7),
        cone_bits=cone_bits,
        room=-(-weight // threshold) + draw.randint(0, 1),
        packet=draw.randint(1, 8),
    )
    folder: Folder = {}
    for cone in settings.cones():
        own = [item for item in items if cone_of(cone_bits, item.key) == cone]
        files = drawn_made(settings.header(cone)._replace(version=version), own, draw).files()
        folder |= {file_name(cone, file): data for file, data in enumerate(files)}
    return settings, folder
