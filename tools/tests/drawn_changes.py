"""The changes that damage draws: a byte, a cut, a swap, a block of a disk that is lost, or two at once."""

from __future__ import annotations

import random
from typing import Callable, Iterator

from changes import Case, Kept, put
from recovery import Folder

# Of files: a name for what is done to them, and those that it changes.
Harm = Callable[[Folder, random.Random], tuple[str, dict[str, bytes]]]

# What a disk may lose at once.
BLOCKS = (512, 4096)
RANGES = (1, 8, 64, 512)


def some_file(files: Folder, draw: random.Random, least: int = 1) -> tuple[str, bytes]:
    """A file of so many bytes at least."""
    name = draw.choice(sorted(name for name, data in files.items() if len(data) >= least))
    return name, files[name]


def one_byte(files: Folder, draw: random.Random) -> tuple[str, dict[str, bytes]]:
    """A bit flipped, or another value, at any place."""
    name, data = some_file(files, draw)
    at = draw.randrange(len(data))
    value = data[at] ^ (1 << draw.randrange(8) if draw.random() < 0.5 else draw.randrange(1, 256))
    return f"{name} with {value} at {at}", {name: put(data, at, value)}


def a_cut(files: Folder, draw: random.Random) -> tuple[str, dict[str, bytes]]:
    name, data = some_file(files, draw)
    length = draw.randrange(len(data))
    return f"{name} cut at {length}", {name: data[:length]}


def a_swap(files: Folder, draw: random.Random) -> tuple[str, dict[str, bytes]]:
    """Two ranges of a file in each other's place, or two files."""
    if draw.random() < 0.3:
        one, other = draw.sample(sorted(files), 2)
        return f"{one} and {other} swapped", {one: files[other], other: files[one]}
    name, data = some_file(files, draw, 2)
    length = min(draw.choice(RANGES), len(data) // 2)
    low = draw.randint(0, len(data) - 2 * length)
    high = draw.randint(low + length, len(data) - length)
    first, second = data[low : low + length], data[high : high + length]
    changed = data[:low] + second + data[low + length : high] + first + data[high + length :]
    return f"{name} with the {length} bytes at {low} and at {high} swapped", {name: changed}


def a_lost_block(files: Folder, draw: random.Random) -> tuple[str, dict[str, bytes]]:
    """A block of the disk that reads as zeros."""
    name, data = some_file(files, draw)
    size = draw.choice(BLOCKS)
    at = draw.randrange(0, len(data), size)
    end = min(at + size, len(data))
    return f"{name} with zeros from {at} up to {end}", {name: data[:at] + bytes(end - at) + data[end:]}


def two_at_once(files: Folder, draw: random.Random) -> tuple[str, dict[str, bytes]]:
    first, changed = draw.choice(SINGLE)(files, draw)
    second, more = draw.choice(SINGLE)({**files, **changed}, draw)
    return f"{first}, then {second}", {**changed, **more}


SINGLE: tuple[Harm, ...] = (one_byte, a_cut, a_swap, a_lost_block)
# Each kind with its share of a hundred.
HARMS: dict[str, tuple[Harm, int]] = {
    "a byte": (one_byte, 40),
    "a cut": (a_cut, 10),
    "a swap": (a_swap, 15),
    "a block of zeros": (a_lost_block, 10),
    "two at once": (two_at_once, 25),
}


def drawn(all_kept: list[Kept], draw: random.Random) -> Iterator[Case]:
    shares = [share for _harm, share in HARMS.values()]
    while True:
        kept, kind = draw.choice(all_kept), draw.choices(list(HARMS), shares)[0]
        name, changed = HARMS[kind][0](kept.folder, draw)
        yield Case(name, kept, {**changed}, kind=kind)
