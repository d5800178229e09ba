"""What the files of a cone hold, by their formats. Its reports are those of the definitions.

It knows nothing of the program. All files of a cone are kept in memory.
"""

from __future__ import annotations

from bisect import bisect_right
from functools import cached_property
from itertools import accumulate
from typing import Callable, NamedTuple, Sequence, TypeVar

from .definitions import CLOSED, Levels, Report, counts_of, left_over, levels_of, look
from .formats import (
    HEADER_LEN,
    LOG_MAGIC,
    OPEN,
    Header,
    Item,
    Left,
    Packet,
    begins_with,
    cone_of,
    header_of,
    mixed,
    packets,
    payloads,
)
from .slots import Piece, Shape, pieces_at, shape_of

SUFFIXES = (".journal", ".log", ".frames")
JOURNAL, LOG, FRAMES = range(3)
FLUSH, CLOSING = 1, 2
MOST_OFFSET = 1 << 46

Read = TypeVar("Read")


class Unsound(Exception):
    """The files keep their formats, and yet aren't sound. The text says why."""


class Broken(Exception):
    """A file leaves its format, or is at odds with the file that was read before, at this byte of it."""

    def __init__(self, file: int, at: int) -> None:
        super().__init__(f"file {file} is broken at byte {at}")
        self.file = file
        self.at = at


class Record(NamedTuple):
    gate: int
    kind: int
    n0: int
    offset: int
    first: int
    directory: list[list[int]]
    reports: list[Report]


class Fields:
    """The fields of a log record's payload, read in their order."""

    def __init__(self, payload: bytes, place: int) -> None:
        self.payload = payload
        self.place = place
        self.at = 0

    def number(self, size: int) -> int:
        if self.at + size > len(self.payload):
            raise Left(self.place + self.at)
        self.at += size
        return int.from_bytes(self.payload[self.at - size : self.at], "little")

    def keep(self, rule: bool, size: int) -> None:
        """The rule of the field that was read last."""
        if not rule:
            raise Left(self.place + self.at - size)

    def ruled(self, size: int, least: int, most: int) -> int:
        number = self.number(size)
        self.keep(least <= number <= most, size)
        return number


class Log:
    """The records of a log, each of which keeps the rules behind those before it."""

    def __init__(self, header: Header, levels: Levels) -> None:
        self.header = header
        self.levels = levels
        self.n0 = 0
        self.flushes = 0
        self.closed = False
        self.directory: list[list[int]] = [[] for _ in range(levels.levels)]
        self.reports: list[Report] = []
        self.listed: set[int] = set()
        self.records: list[Record] = []

    def read(self, data: bytes) -> None:
        begins_with(data, LOG_MAGIC)
        self.follow(data[len(LOG_MAGIC) :], len(LOG_MAGIC))

    def follow(self, data: bytes, start: int) -> int:
        """Takes the open records from the gate at byte `start` of the file on, where `data` begins, and gives the gate
        behind them."""
        gate = start
        most = 29 + self.levels.levels * (1 + self.levels.bins) + 16 * self.header.room
        for at, payload in payloads(data, start, most, start):
            self.take(at - 1, Fields(payload, at + 4))
            gate = at + 4 + len(payload)
            # Nothing stands behind a closing record, whatever its length would be.
            if self.closed and data[gate - start : gate - start + 1] == bytes([OPEN]):
                raise Left(gate)
        return gate

    def take(self, gate: int, fields: Fields) -> None:
        kind = fields.ruled(1, FLUSH, CLOSING)
        n0 = fields.number(8)
        due = (self.levels.bins + self.flushes) * self.levels.base
        in_turn = n0 == due if kind == FLUSH else self.n0 <= n0 < due
        fields.keep(n0 <= self.levels.capacity(self.header) and in_turn, 8)
        offset = fields.ruled(8, HEADER_LEN, MOST_OFFSET)
        first = fields.ruled(8, 1, self.levels.edge(0, n0) + 1)
        directory = [self.frames(fields, level, n0) for level in range(1, self.levels.levels + 1)]
        reports = self.new_reports(fields, n0)
        if fields.at < len(fields.payload):
            raise Left(fields.place + fields.at)
        self.n0, self.directory, self.closed = n0, directory, kind == CLOSING
        self.flushes += kind == FLUSH
        self.records.append(Record(gate, kind, n0, offset, first, directory, reports))

    def frames(self, fields: Fields, level: int, n0: int) -> list[int]:
        count = len(list(self.levels.ranges(level, n0)))
        fields.ruled(1, count, count)
        frames: list[int] = []
        for _ in range(count):
            frame = fields.ruled(1, 0, self.levels.bins)
            fields.keep(frame not in frames, 1)
            frames.append(frame)
        return frames

    def new_reports(self, fields: Fields, n0: int) -> list[Report]:
        count = fields.ruled(4, 0, self.header.room - len(self.reports))
        reports = []
        for _ in range(count):
            key = fields.number(8)
            own = cone_of(self.header.cone_bits, key) == self.header.cone
            fields.keep(own and key not in self.listed, 8)
            at = fields.ruled(8, max(1, self.reports[-1].at if self.reports else 1), n0)
            self.listed.add(key)
            self.reports.append(Report(key, at))
            reports.append(self.reports[-1])
        return reports

    def begins(self) -> tuple[int, int]:
        """The journal's record that the last one names: its gate, and the position of its first key."""
        return (self.records[-1].offset, self.records[-1].first) if self.records else (HEADER_LEN, 1)


class Cone:
    """The files of a cone, read in the order in which they are opened again: the header of the journal, the log, the
    frames that its last record names, and the packets of the journal. The count is that of the events up to the last
    packet, which are more than those read where the first packets aren't; the weight is what these and the frames add
    up to."""

    def __init__(self, files: Sequence[bytes], due: Header | None = None) -> None:
        """The three files in their order, and the header that is due in the journal, where it is known."""
        self.files = files
        self.header = header = in_file(JOURNAL, lambda data: header_of(data, due), files[JOURNAL])
        self.levels = levels_of(header)
        self.log = Log(header, self.levels)
        self.packets: list[tuple[int, Packet]] = []
        self.events: list[Item] = []
        self.count = self.weight = 0
        self.frames: list[tuple[int, int, list[Piece]]] = []

    def read(self) -> None:
        """Reads all of them."""
        self.read_before_packets()
        in_file(JOURNAL, self.read_journal, self.files[JOURNAL])

    def read_before_packets(self) -> None:
        in_file(LOG, self.log.read, self.files[LOG])
        in_file(FRAMES, self.read_frames, self.files[FRAMES])

    def shape(self, level: int) -> Shape:
        """That of a level's frames."""
        return shape_of(self.levels.span(level), self.header.cone_bits, self.header.version)

    def frame_place(self, level: int, frame: int) -> int:
        return self.levels.frame_place(self.header.version, level, frame)

    def read_frames(self, data: bytes) -> None:
        for level, frames in enumerate(self.log.directory, 1):
            for (low, high), frame in zip(self.levels.ranges(level, self.log.n0), frames, strict=True):
                pieces = pieces_at(data, self.frame_place(level, frame), self.shape(level), high - low)
                self.frames.append((low, high, pieces))
                self.weight += sum(count for _tail, count in pieces)

    def read_journal(self, data: bytes, gate: int = HEADER_LEN, first: int = 1) -> None:
        """Takes the packets from a gate on, of which the first one begins with the key at this position."""
        capacity, n0 = self.levels.capacity(self.header), self.log.n0
        self.count = first - 1
        end = gate
        for gate, packet in packets(data, gate):
            self.weight += self.weight_behind(packet, self.count)
            self.count += len(packet.items)
            if self.log.closed and self.count > n0:
                raise Left(gate)
            if self.count > capacity or self.weight > self.header.weight_room():
                raise Left(gate + 1)
            self.packets.append((gate, packet))
            self.events += packet.items
            end = self.header.behind(gate, len(packet.items))
        if self.count < n0:
            raise Left(end)

    def before_edge(self, count: int) -> int:
        """How many items behind so many stand before the edge of level 0: they are counted in the frames."""
        return max(0, self.levels.edge(0, self.log.n0) - count)

    def weight_behind(self, packet: Packet, count: int) -> int:
        """What those of a packet weigh, which stands behind so many, that stand behind that edge."""
        return sum(item.weight for item in packet.items[self.before_edge(count) :])

    @cached_property
    def looked(self) -> list[Report]:
        return look(self.levels, self.header.threshold, self.events)

    def reports(self, made: str) -> list[Report]:
        return self.looked + (left_over(self.header.threshold, self.events, self.looked) if made == CLOSED else [])

    def check(self) -> None:
        """The files, which keep their formats, are sound for the packets of the journal."""
        n0, events = self.log.n0, len(self.events)
        before_last = events - len(self.packets[-1][1].items) if self.packets else 0
        if n0 < self.levels.last_flush(before_last):
            raise Unsound(f"the log speaks of {n0} events, and a flush was due behind them")
        bits = 64 - self.header.cone_bits
        for low, high, pieces in self.frames:
            # No two keys of a cone have the same tail.
            counts = counts_of(self.events[low:high])
            if pieces != sorted((mixed(key) % (1 << bits), count) for key, count in counts.items()):
                raise Unsound(f"the frame of the positions above {low} up to {high} doesn't hold their counts")
        # What is listed at a position doesn't depend on the events behind it.
        made = self.reports(CLOSED) if self.log.closed else [report for report in self.looked if report.at <= n0]
        if self.log.reports != made:
            raise Unsound(f"the log's reports aren't those of {n0} events")
        self.check_place(self.log.records[-1:])

    def check_places(self) -> None:
        """So does each record of the log, of which soundness asks the last one alone."""
        self.check_place(self.log.records)

    def check_place(self, records: list[Record]) -> None:
        """These records of the log name the journal's record that holds the first position of level 0."""
        for record in records:
            offset, first = self.begin_of(record.n0)
            if (record.offset, record.first) != (offset, first):
                named = f"byte {record.offset} and position {record.first} of the journal"
                raise Unsound(f"the log's record of {record.n0} events names {named}, and not {offset} and {first}")

    @cached_property
    def first_positions(self) -> list[int]:
        """Those of the journal's records, and behind them the next one."""
        return list(accumulate((len(packet.items) for _gate, packet in self.packets), initial=1))

    def begin_of(self, n0: int) -> tuple[int, int]:
        """The journal's record that holds the first position of level 0 behind n0 events: its gate, and the position of
        its first key. Without an event it is the first one."""
        if n0 == 0:
            return HEADER_LEN, 1
        number = bisect_right(self.first_positions, self.levels.edge(0, n0) + 1) - 1
        return self.packets[number][0], self.first_positions[number]


def in_file(file: int, read: Callable[[bytes], Read], data: bytes) -> Read:
    """What `read` makes of a file's bytes; the file stands in what it refuses."""
    try:
        return read(data)
    except Left as left:
        raise Broken(file, left.at) from left
