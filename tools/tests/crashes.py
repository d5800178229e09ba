"""What a crash at a moment may leave of files, by the words of docs/DEFINITIONS.md on writes and syncs alone.

Each range that was written since a file's last sync holds any bytes, and so does the part past the length at that sync;
the length is any between that one and the greatest since; all other bytes stay. Each file is left by itself.
"""

from __future__ import annotations

import random
from typing import Callable, Iterator

from disk_history import File, Moment, Recording, Write, put

# What a disk writes as a whole.
SECTOR = 512
# How often a draw is made in the order in which the writes were asked for.
IN_ORDER = 0.7

# What of a write came to the disk.
Way = Callable[[Write, random.Random], Iterator[Write]]


def dropped(write: Write, draw: random.Random) -> Iterator[Write]:
    yield from ()


def whole(write: Write, draw: random.Random) -> Iterator[Write]:
    yield write


def prefix(write: Write, draw: random.Random) -> Iterator[Write]:
    yield Write(write.at, write.data[: draw.randint(0, len(write.data))])


def sectors(write: Write, draw: random.Random) -> Iterator[Write]:
    """Any of the sectors that it lies in."""
    for sector in range(write.at - write.at % SECTOR, write.end(), SECTOR):
        low, high = max(sector, write.at), min(sector + SECTOR, write.end())
        if draw.random() < 0.5:
            yield Write(low, write.data[low - write.at : high - write.at])


def others(write: Write, draw: random.Random) -> Iterator[Write]:
    """Other bytes in its range, or one of its bits flipped."""
    data = bytearray(write.data)
    if draw.random() < 0.5:
        data = bytearray(filling(len(data), draw))
    elif data:
        data[draw.randrange(len(data))] ^= 1 << draw.randrange(8)
    yield Write(write.at, bytes(data))


WAYS: tuple[Way, ...] = (dropped, whole, prefix, sectors, others)


def filling(count: int, draw: random.Random) -> bytes:
    """Zeros, ones (which are open gates), the highest bytes, or any."""
    return draw.choice((bytes(count), bytes([1]) * count, bytes([255]) * count, draw.randbytes(count)))


def lengths(file: File) -> tuple[int, int]:
    """The least and the greatest length since the last sync."""
    least = len(file.synced)
    return least, max([least, *(write.end() for write in file.pending)])


def left_of(file: File, draw: random.Random) -> bytes:
    """One of the images of a file."""
    image = bytearray(file.synced)
    pending = list(file.pending)
    if draw.random() > IN_ORDER:
        draw.shuffle(pending)
    # Half of the time all writes went one way.
    one_way = draw.choice(WAYS) if draw.random() < 0.5 else None
    for write in pending:
        for piece in (one_way or draw.choice(WAYS))(write, draw):
            image += filling(max(0, piece.at - len(image)), draw)
            put(image, piece)
    least, most = lengths(file)
    length = draw.choice((len(image), len(image), least, most, draw.randint(least, most)))
    image += filling(max(0, length - len(image)), draw)
    return bytes(image[:length])


def may_be_left(file: File, image: bytes) -> bool:
    least, most = lengths(file)
    stayed = bytearray(image[:least])
    for write in file.pending:
        stayed[write.at : min(write.end(), least)] = file.synced[write.at : min(write.end(), least)]
    return least <= len(image) <= most and stayed == file.synced


def image_at(moment: Moment, draw: random.Random) -> dict[str, bytes]:
    """One image of all files at a moment. Half of those that are empty aren't there."""
    images = {name: left_of(file, draw) for name, file in moment.files.items()}
    for name, image in images.items():
        assert may_be_left(moment.files[name], image), name
    return {name: image for name, image in images.items() if image or draw.random() < 0.5}


def drawn_count(recording: Recording, edges: tuple[int, int], draw: random.Random) -> int:
    """Behind how many steps a crash comes: any; more often than others some of the first ones, or of the last ones; and
    at times all of them."""
    count = len(recording.steps)
    first, last = edges
    places = [(0, count)] * 14 + [(0, min(first, count))] * 3 + [(max(0, count - last), count)] * 2 + [(count, count)]
    return draw.randint(*draw.choice(places))
