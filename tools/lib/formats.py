"""The formats of traces and of a cone's files, as docs/FORMATS.md has them, for the tools beside it. Those of frames
are in slots.py.

A trace or a journal of version 2 has a weight beside each key; in one of version 1 each weighs 1. It knows nothing of
the program. A whole file is kept in memory.
"""

from __future__ import annotations

import struct
from itertools import repeat
from typing import Iterable, Iterator, NamedTuple, Sequence

VERSIONS = (1, 2)
# That of the journals and frames that the program writes.
WRITTEN = 2
# The first bytes of a journal and of a trace. Behind them stands the version, and zeros up to the eighth byte.
JOURNAL_HEAD, TRACE_HEAD = b"LERTJ", b"LERT"
MAGIC_LEN = 8
LOG_MAGIC = bytes.fromhex("4c4552544c010000")
TRACE_MAGIC = bytes.fromhex("4c45525401000000")
HEADER_LEN = 32
KEY_LEN = 8
OPEN = 1
MOST_BY = 63
MOST_TRACE = 1023
WORD = (1 << 64) - 1


class Left(Exception):
    """The file leaves its format at this byte."""

    def __init__(self, at: int) -> None:
        super().__init__(f"the file leaves its format at byte {at}")
        self.at = at


class Item(NamedTuple):
    """A key, and by how much its count grows."""

    key: int
    weight: int


class Header(NamedTuple):
    """What the header of a journal says: the eight numbers, the cone, and the version."""

    threshold: int
    room: int
    base: int
    packet: int
    bins: int
    ratio: int
    levels: int
    cone_bits: int
    cone: int
    version: int = WRITTEN

    def most_payload(self) -> int:
        """The bytes of the longest packet."""
        return 8 + 4 * self.packet * item_len(self.version)

    def weight_room(self) -> int:
        """The greatest weight of a cone's items: up to it no more keys than there is room for have the threshold."""
        return self.threshold * self.room

    def behind(self, gate: int, items: int) -> int:
        """The gate behind the record of a packet of so many items."""
        return gate + 13 + item_len(self.version) * items


class BadNumbers(Exception):
    """The header of a journal has numbers that no settings have, or a cone that they haven't got."""

    def __init__(self, rule: int) -> None:
        super().__init__(f"the header's numbers break rule {rule} of the settings" if rule else "the header's numbers have no such cone")


class OtherSettings(Exception):
    """The journal begins with the header of another cone or of other settings."""


class Packet(NamedTuple):
    by: int
    trace: int
    items: tuple[Item, ...]


def item_len(version: int) -> int:
    """The bytes of a key, and of its weight where it has one."""
    return KEY_LEN if version == 1 else KEY_LEN + 1


def units(keys: Iterable[int]) -> Iterator[Item]:
    """Each of the keys with the weight 1."""
    return map(Item._make, zip(keys, repeat(1)))


def items_in(version: int, data: bytes) -> Iterator[Item]:
    """The items of which these are the bytes, whole ones."""
    if version == 1:
        return units(struct.unpack(f"<{len(data) // KEY_LEN}Q", data))
    return map(Item._make, struct.iter_unpack("<QB", data))


def item_bytes(version: int, items: Iterable[Item]) -> bytes:
    """The bytes of items. With version 1 they have no weight."""
    if version == 1:
        return b"".join(item.key.to_bytes(KEY_LEN, "little") for item in items)
    return b"".join(struct.pack("<QB", *item) for item in items)


def trace_bytes(version: int, items: Iterable[Item]) -> bytes:
    """The trace of these items."""
    return magic_of(TRACE_HEAD, version) + item_bytes(version, items)


def mixed(key: int) -> int:
    key = (key ^ (key >> 33)) * 0xFF51AFD7ED558CCD & WORD
    key = (key ^ (key >> 33)) * 0xC4CEB9FE1A85EC53 & WORD
    return key ^ (key >> 33)


def cone_of(cone_bits: int, key: int) -> int:
    return mixed(key) >> (64 - cone_bits)


def generated_key(seed: int, event: int) -> int:
    """The key of an event, counted from 1. Half of them are of a thousand keys, and half of keys that come once."""
    value = mixed((seed + event) & WORD)
    return value if value % 2 else (value >> 32) % 1000


def begins_with(data: bytes, magic: bytes) -> None:
    for at, byte in enumerate(magic):
        if at >= len(data) or data[at] != byte:
            raise Left(at)


def magic_of(head: bytes, version: int) -> bytes:
    return (head + bytes([version])).ljust(MAGIC_LEN, b"\0")


def version_of(data: bytes, head: bytes, versions: Sequence[int] = VERSIONS) -> int:
    """The version of a trace or a journal, which is one of these."""
    begins_with(data, head)
    found = data[len(head) : len(head) + 1]
    version = next((one for one in versions if found == bytes([one])), versions[0])
    begins_with(data, magic_of(head, version))
    return version


def keeps_rules(header: Header) -> None:
    """Refuses numbers that break a rule of the settings, by the first one that they break."""
    cones = 1 << min(header.cone_bits, 9)
    spans = [header.base * header.ratio**level for level in range(min(header.levels, 8) + 1)]
    rules = (
        1 <= header.threshold,
        2 <= header.bins <= 16,
        2 <= header.ratio <= 16,
        4 <= header.base <= 65_536,
        1 <= header.levels <= 8,
        header.cone_bits <= 8,
        1 <= header.room <= 4_194_304,
        1 <= header.packet <= 1_024,
        cones * header.bins * header.base <= 1 << 23,
        cones * header.room <= 1 << 24,
        (header.bins - 1) * sum(spans) + spans[-1] <= 1 << 31,
    )
    for number, kept in enumerate(rules, 1):
        if not kept:
            raise BadNumbers(number)
    if header.cone >= cones:
        raise BadNumbers(0)


def header_of(data: bytes, due: Header | None = None) -> Header:
    """The header of a journal; where one is due, any other is refused, whatever their versions, and else one that no
    settings have."""
    version = version_of(data, JOURNAL_HEAD)
    if len(data) < HEADER_LEN:
        raise Left(len(data))
    header = Header(*struct.unpack_from("<4I4BI", data, MAGIC_LEN), version)
    if due is not None and due._replace(version=version) != header:
        raise OtherSettings()
    keeps_rules(header)
    # Behind it stands the first gate.
    if len(data) == HEADER_LEN:
        raise Left(HEADER_LEN)
    return header


def payloads(data: bytes, first: int, most: int, start: int = 0) -> Iterator[tuple[int, bytes]]:
    """The payloads of the open records from the first gate on, each with the place of its length. `data` is the file
    from byte `start` on."""
    gate = first - start
    while True:
        if gate >= len(data):
            raise Left(start + len(data))
        if data[gate] != OPEN:
            return
        if gate + 5 > len(data):
            raise Left(start + len(data))
        (count,) = struct.unpack_from("<I", data, gate + 1)
        if not 0 < count <= most:
            raise Left(start + gate + 1)
        end = gate + 5 + count
        if end > len(data):
            raise Left(start + len(data))
        yield start + gate + 1, data[gate + 5 : end]
        gate = end


def items_of(header: Header, at: int, payload: bytes) -> bytes:
    """The bytes of a packet's items, of which there are as many as the settings let a packet have."""
    count, rest = divmod(len(payload) - 8, item_len(header.version))
    if rest or not 1 <= count <= 4 * header.packet:
        raise Left(at)
    return payload[8:]


def packet_of(header: Header, at: int, payload: bytes) -> Packet:
    data = items_of(header, at, payload)
    by, trace = struct.unpack_from("<2I", payload)
    if by > MOST_BY:
        raise Left(at + 4)
    if trace > MOST_TRACE:
        raise Left(at + 8)
    items = tuple(items_in(header.version, data))
    for number, item in enumerate(items):
        place = at + 12 + item_len(header.version) * number
        if cone_of(header.cone_bits, item.key) != header.cone:
            raise Left(place)
        if item.weight == 0:
            raise Left(place + KEY_LEN)
    return Packet(by, trace, items)


def packets(data: bytes, first: int = HEADER_LEN) -> Iterator[tuple[int, Packet]]:
    """The packets of a journal from a gate on, each with the place of its gate."""
    header = header_of(data)
    for at, payload in payloads(data, first, header.most_payload()):
        yield at - 1, packet_of(header, at, payload)


def trace_items(data: bytes, versions: Sequence[int] = VERSIONS) -> Iterator[Item]:
    """The items of a trace of one of these versions."""
    version = version_of(data, TRACE_HEAD, versions)
    whole = len(data) - (len(data) - MAGIC_LEN) % item_len(version)
    for number, item in enumerate(items_in(version, data[MAGIC_LEN:whole])):
        if item.weight == 0:
            raise Left(MAGIC_LEN + item_len(version) * number + KEY_LEN)
        yield item
    if whole < len(data):
        raise Left(whole)

