"""Drawn traces, right ones and bad ones, and what docs/FORMATS.md says of each.

It knows nothing of the program.
"""

from __future__ import annotations

import random
from typing import Callable, NamedTuple

from lib.formats import (
    JOURNAL_HEAD,
    LOG_MAGIC,
    MAGIC_LEN,
    TRACE_HEAD,
    VERSIONS,
    Item,
    Left,
    item_len,
    magic_of,
    trace_bytes,
    trace_items,
)

# So many keys come often.
KEYS = 20
MOST_OTHER = 100


class Kind(NamedTuple):
    """The versions that a program reads, and how many items a trace has at most, and how much each weighs."""

    read: tuple[int, ...]
    most_items: int
    most_weight: int


class Trace(NamedTuple):
    """A trace, none for a directory: the items that stand wholly before the place where it leaves the format, if it
    does."""

    data: bytes | None
    items: list[Item]
    left: int | None

    def is_right(self) -> bool:
        return self.data is not None and self.left is None


def read(kind: Kind, data: bytes | None) -> Trace:
    items: list[Item] = []
    try:
        for item in trace_items(data or b"", kind.read):
            items.append(item)
    except Left as left:
        return Trace(data, items, None if data is None else left.at)
    return Trace(data, items, None)


def some_items(draw: random.Random, kind: Kind, least: int = 0) -> list[Item]:
    count = draw.randint(least, kind.most_items)
    keys = [draw.randrange(KEYS) if draw.random() < 0.5 else draw.getrandbits(64) for _ in range(count)]
    return [Item(key, draw.randint(1, kind.most_weight)) for key in keys]


def right(draw: random.Random, kind: Kind) -> bytes:
    return trace_bytes(draw.choice(kind.read), some_items(draw, kind))


def cut_header(draw: random.Random, kind: Kind) -> bytes:
    return magic_of(TRACE_HEAD, draw.choice(kind.read))[: draw.randrange(MAGIC_LEN)]


def cut_anywhere(draw: random.Random, data: bytes) -> bytes:
    return data if draw.random() < 0.5 else data[: draw.randint(0, len(data))]


def other_header(draw: random.Random, kind: Kind) -> bytes:
    """A byte of the header is another one, and the trace may be cut anywhere."""
    data, at = right(draw, kind), draw.randrange(MAGIC_LEN)
    return cut_anywhere(draw, data[:at] + bytes([data[at] ^ draw.randrange(1, 256)]) + data[at + 1 :])


def other_version(draw: random.Random, kind: Kind) -> bytes:
    """The version is one that no program reads, and the trace may be cut anywhere."""
    version = draw.choice((0, max(kind.read) + 1, 5, 255))
    return cut_anywhere(draw, magic_of(TRACE_HEAD, version) + right(draw, kind)[MAGIC_LEN:])


def cut_key(draw: random.Random, kind: Kind) -> bytes:
    version = draw.choice(kind.read)
    return trace_bytes(version, some_items(draw, kind)) + draw.randbytes(draw.randrange(1, item_len(version)))


def no_weight(draw: random.Random, kind: Kind) -> bytes:
    """A weight is 0, and the trace may be cut behind it."""
    items = some_items(draw, kind, 1)
    at = draw.randrange(len(items))
    data = trace_bytes(2, [*items[:at], items[at]._replace(weight=0), *items[at + 1 :]])
    return data[: draw.randint(MAGIC_LEN + item_len(2) * (at + 1), len(data))]


def other_file(draw: random.Random, _kind: Kind) -> bytes:
    journals = (magic_of(JOURNAL_HEAD, version) for version in VERSIONS)
    return draw.choice((*journals, LOG_MAGIC)) + draw.randbytes(draw.randrange(MOST_OTHER))


def any_bytes(draw: random.Random, _kind: Kind) -> bytes:
    return draw.randbytes(draw.randrange(MOST_OTHER))


BAD: tuple[Callable[[random.Random, Kind], bytes], ...] = (
    cut_header,
    other_header,
    other_version,
    cut_key,
    cut_key,
    other_file,
    any_bytes,
)


def drawn_trace(draw: random.Random, kind: Kind, is_bad: bool) -> Trace:
    """A trace, which now and then is a directory where it needn't be bad."""
    bad = (*BAD, no_weight) if 2 in kind.read else BAD
    while is_bad:
        trace = read(kind, draw.choice(bad)(draw, kind))
        # With the byte of another version it may be right.
        if not trace.is_right():
            return trace
    return read(kind, None if draw.random() < 0.03 else right(draw, kind))
