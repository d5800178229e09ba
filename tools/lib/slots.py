"""Frames of slots, as docs/FORMATS.md has them: their shape, their text, and what a file says at a frame's place.

Their version is that of their journal: with version 1 each key of a bin counts once, with version 2 up to 255 times. It
knows nothing of the program. A frame is kept in memory.
"""

from __future__ import annotations

import struct
from itertools import groupby
from typing import Iterator, NamedTuple, Sequence

from .formats import Left

MOST_COUNT = 1 << 47
# The quotients of a block: a bit for each. So many bits of run ends are in a word, too.
QUOTIENTS = 64
HEAD_LEN = 12
COUNT_AT = 8
WORD_LEN = 8
# The most slots that a group has.
MOST_OF_GROUP = 9
MOST_WEIGHT = 255

# A tail, and how often it occurs.
Piece = tuple[int, int]


def cost(version: int, count: int) -> int:
    """How many keys of a bin a count takes at least."""
    return count if version == 1 else -(-count // MOST_WEIGHT)


def most_slots(span: int, version: int) -> int:
    """Of the frames of a level whose bins have this span."""
    return (2 if version == 1 else 4) * span


def quotient_bits(span: int) -> int:
    """Of the frames of a level whose bins have this span."""
    return max(6, (span - 1).bit_length())


def block_count(span: int) -> int:
    return (1 << quotient_bits(span)) // QUOTIENTS


def frame_len(span: int, version: int) -> int:
    """The bytes of a frame's place."""
    most = most_slots(span, version)
    return 20 * block_count(span) + WORD_LEN * (most + most // 64)


class Shape(NamedTuple):
    """What the frames of a level have: the version, the bits of a remainder, the blocks, and the most slots in all
    blocks."""

    version: int
    width: int
    blocks: int
    most: int


def shape_of(span: int, cone_bits: int, version: int) -> Shape:
    width = 64 - cone_bits - quotient_bits(span)
    return Shape(version, width, block_count(span), most_slots(span, version))


# --- groups


def digits_of(width: int, x: int, number: int) -> list[int]:
    """The digits of a number as they are written beside x, the most significant first."""
    base = (1 << width) - (2 if x else 1)
    written = []
    while number or not written:
        number, digit = divmod(number, base)
        written.append(digit + 1 if digit + 1 < x or x == 0 else digit + 2)
    return written[::-1]


def group_of(width: int, x: int, count: int) -> list[int]:
    """The slots of a remainder and its count."""
    if count <= 2 or (x == 0 and count == 3):
        return [x] * count
    if x == 0:
        return [0, *digits_of(width, 0, count - 4), 0, 0]
    digits = digits_of(width, x, count - 3)
    return [x, *([0] if digits[0] > x else []), *digits, x]


def spelled(width: int, x: int, written: Sequence[int]) -> int:
    """The count of a counter of x with these digits."""
    base = (1 << width) - (2 if x else 1)
    number = 0
    for slot in written:
        number = number * base + (slot - 1 if slot < x or x == 0 else slot - 2)
    return number + (3 if x else 4)


def counter_in(width: int, slots: Sequence[int]) -> int | None:
    """The count of the counter at the front of slots, if one stands there: digits up to the closing x, or to the
    closing zeros of x = 0."""
    x = slots[0]
    # A 0 may stand before the digits of an x above 0.
    first = 2 if x and slots[1] == 0 else 1
    if x not in slots[first:]:
        return None
    count = spelled(width, x, slots[first : slots.index(x, first)])
    if not 3 <= count <= MOST_COUNT:
        return None
    # A count has one text: no digit 0 leads, and a 0 stands before the digits only where the first one is above x.
    text = group_of(width, x, count)
    return count if list(slots[: len(text)]) == text else None


def group_in(width: int, slots: Sequence[int]) -> Piece | None:
    """The remainder and the count of the group at the front of slots, if one stands there. They are those that it may
    have: up to its run's end, and at most nine."""
    x, follower = slots[0], slots[1] if len(slots) > 1 else None
    if follower is None or (x and follower > x):
        return x, 1
    if follower == x:
        return x, 3 if x == 0 and slots[2:3] == slots[:1] else 2
    count = counter_in(width, slots)
    if count is None and x == 0 and (0, 0) not in zip(slots, slots[1:]):
        count = 1
    return None if count is None else (x, count)


# --- what a file says


class Block(NamedTuple):
    """The fields before the slots of the block that stands at a byte. Bit i of the run ends is that of slot i."""

    at: int
    occupied: int
    count: int
    ends: int

    def slots_at(self) -> int:
        return self.at + HEAD_LEN + WORD_LEN * words_of(self.count)

    def end(self) -> int:
        return self.slots_at() + WORD_LEN * self.count

    def ends_at(self) -> list[int]:
        """The slots that end a run."""
        return bits_of(self.ends)


def words_of(count: int) -> int:
    return -(-count // 64)


def bits_of(number: int) -> list[int]:
    """The bits that are set, the lowest first."""
    return [bit for bit, digit in enumerate(reversed(f"{number:b}")) if digit == "1"]


def block_at(data: bytes, at: int, most: int) -> Block:
    """The block that stands there, which may have so many slots."""
    if at + HEAD_LEN > len(data):
        raise Left(len(data))
    occupied, count = struct.unpack_from("<QI", data, at)
    if count > most or (count == 0 and occupied):
        raise Left(at + COUNT_AT)
    slots_at = at + HEAD_LEN + WORD_LEN * words_of(count)
    if slots_at > len(data):
        raise Left(len(data))
    ends = int.from_bytes(data[at + HEAD_LEN : slots_at], "little")
    # The last slot ends a run, and no bit behind it is set.
    if ends.bit_count() != occupied.bit_count() or ends.bit_length() != count:
        raise Left(slots_at - WORD_LEN)
    return Block(at, occupied, count, ends)


def run_in(width: int, slots: Sequence[int], at: int, end: int) -> Iterator[Piece]:
    """The remainders and counts of the run that begins at a slot and ends before another one. The slots are those of
    the block that are there; Left names one of them, or one that isn't there."""
    least = 0
    while at < end:
        may = min(end, at + MOST_OF_GROUP)
        for slot in range(at, may):
            if slot >= len(slots) or slots[slot] >> width:
                raise Left(slot)
        group = group_in(width, slots[at:may])
        if group is None or group[0] < least:
            raise Left(at)
        yield group
        least = group[0] + 1
        at += len(group_of(width, *group))


def pieces_of(data: bytes, block: Block, number: int, width: int) -> list[Piece]:
    """The pieces of the block of this number."""
    there = min(block.count, max(0, len(data) - block.slots_at()) // WORD_LEN)
    slots = struct.unpack_from(f"<{there}Q", data, block.slots_at())
    pieces: list[Piece] = []
    first = 0
    try:
        for quotient, last in zip(bits_of(block.occupied), block.ends_at(), strict=True):
            tail = (QUOTIENTS * number + quotient) << width
            if first == last < there and not slots[first] >> width:
                # What most runs are: one remainder, once.
                pieces.append((tail + slots[first], 1))
            else:
                pieces += [(tail + x, count) for x, count in run_in(width, slots, first, last + 1)]
            first = last + 1
    except Left as left:
        raise Left(block.slots_at() + WORD_LEN * left.at if left.at < there else len(data)) from left
    return pieces


def blocks_at(data: bytes, place: int, shape: Shape) -> Iterator[tuple[Block, list[Piece]]]:
    """The blocks of the frame at a place, each with its pieces."""
    at, most = place, shape.most
    for number in range(shape.blocks):
        block = block_at(data, at, most)
        yield block, pieces_of(data, block, number, shape.width)
        at, most = block.end(), most - block.count


def pieces_at(data: bytes, place: int, shape: Shape, wide: int) -> list[Piece]:
    """The pieces of the frame at a place, which as many keys may make as its bin is wide."""
    pieces = [piece for _block, found in blocks_at(data, place, shape) for piece in found]
    counts = [count for _tail, count in pieces]
    if not sum(cost(shape.version, count) for count in counts) <= wide <= sum(counts):
        raise Left(place)
    return pieces


# --- the text


def block_text(width: int, pieces: list[Piece]) -> bytes:
    """The block of these pieces, all of its quotients."""
    occupied, ends = 0, 0
    slots: list[int] = []
    for quotient, run in groupby(pieces, lambda piece: piece[0] >> width):
        for tail, count in run:
            slots += group_of(width, tail & ((1 << width) - 1), count)
        occupied |= 1 << quotient % QUOTIENTS
        ends |= 1 << len(slots) - 1
    head = struct.pack("<QI", occupied, len(slots)) + ends.to_bytes(WORD_LEN * words_of(len(slots)), "little")
    return head + struct.pack(f"<{len(slots)}Q", *slots)


def frame_text(shape: Shape, pieces: Sequence[Piece]) -> bytes:
    """The frame of these pieces, whose tails ascend."""
    bits = shape.width + QUOTIENTS.bit_length() - 1
    of_block = {number: list(found) for number, found in groupby(pieces, lambda piece: piece[0] >> bits)}
    return b"".join(block_text(shape.width, of_block.get(number, [])) for number in range(shape.blocks))
