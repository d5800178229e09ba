"""Whether the journal of a cone is a weave of that cone's keys of some traces, as the definitions say it.

It knows nothing of the program. A whole journal is kept in memory, and each trace's keys of each cone as bytes, each
with its weight, whatever the versions are.
"""

from __future__ import annotations

from typing import Iterable, NamedTuple, Sequence

from .formats import HEADER_LEN, MOST_TRACE, Item, Left, cone_of, header_of, item_bytes, item_len, payloads

WEIGHED = 2
ITEM_LEN = item_len(WEIGHED)
# Before its keys a packet's payload says who brought it, and its trace.
KEYS_AT = 8
MOST_PACKETS = 4


class NoWeave(Exception):
    """A journal isn't a weave. The text says what it lacks."""


class Weave(NamedTuple):
    """A journal beside the keys of each trace that belong to its cone: how many packets and keys it has, the first rule
    that its packets break, and what is missing to all keys where they break none."""

    packets: int
    keys: int
    broken: str
    missing: str


def parts_of(cone_bits: int, items: Iterable[Item]) -> list[bytes]:
    """The bytes of the items of each cone, in their order."""
    parts: list[list[Item]] = [[] for _ in range(1 << cone_bits)]
    for item in items:
        parts[cone_of(cone_bits, item.key)].append(item)
    return [item_bytes(WEIGHED, part) for part in parts]


def weighed(version: int, data: bytes) -> bytes:
    """The bytes of items with their weights."""
    if version == WEIGHED:
        return data
    size = item_len(version)
    return b"".join(data[at : at + size] + b"\1" for at in range(0, len(data), size))


def weave_of(journal: bytes, workers: int, parts: Sequence[bytes]) -> Weave:
    """Judges the packets of a journal, up to the first place at which it leaves its format."""
    header = header_of(journal)
    size = header.packet
    joined = [bytearray() for _ in parts]
    cut = [False] * len(parts)
    broken = ""
    packets = 0
    try:
        for at, payload in payloads(journal, HEADER_LEN, header.most_payload()):
            by, trace = (int.from_bytes(payload[place : place + 4], "little") for place in (0, 4))
            items = weighed(header.version, payload[KEYS_AT:])
            packets += 1
            if trace > MOST_TRACE or trace >= len(parts):
                broken = broken or f"the packet at byte {at} names trace {trace}"
                continue
            if by != trace % workers:
                broken = broken or f"worker {by} brought the packet of trace {trace} at byte {at}"
            if cut[trace]:
                broken = broken or f"a packet of trace {trace} stands behind its last one, at byte {at}"
            cut[trace] = len(items) // ITEM_LEN not in range(size, MOST_PACKETS * size + 1, size)
            joined[trace] += items
    except Left:
        pass
    for trace, (items, part) in enumerate(zip(joined, parts)):
        if not part.startswith(items):
            broken = broken or f"trace {trace} has other keys"
    missing = broken
    for trace, (items, part) in enumerate(zip(joined, parts)):
        if items != part:
            missing = missing or f"{(len(part) - len(items)) // ITEM_LEN} keys of trace {trace} are missing"
    return Weave(packets, sum(map(len, joined)) // ITEM_LEN, broken, missing)
