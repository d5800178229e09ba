"""A frame that is broken in each of its fields, and the byte at which the file of frames is left then.

It knows nothing of the program. Where a change is found is said field by field, and not read off the changed file.
"""

from __future__ import annotations

from typing import Iterator, NamedTuple

from lib.slots import COUNT_AT, HEAD_LEN, MOST_WEIGHT, WORD_LEN, Block, Shape, blocks_at, frame_text

# The byte is above what a version, the low byte of who brings a packet, the highest byte of a block's number of slots,
# and that of a slot may be in small runs.
TOO_GREAT = 255
# From a block to the highest byte of its number of slots.
COUNT_TOP_AT = COUNT_AT + 3


class Change(NamedTuple):
    """Bytes that are put into a file of frames, and the place at which it is left then, if it is."""

    name: str
    at: int
    values: bytes
    left: int | None


def flipped(data: bytes, at: int, bit: int) -> bytes:
    return bytes([data[at] ^ 1 << bit])


def block_changes(data: bytes, block: Block) -> Iterator[Change]:
    """A wrong value in each field of a block that has slots."""
    count_at, ends_at, slots_at = block.at + COUNT_AT, block.at + HEAD_LEN, block.slots_at()
    # At odds with the quotients or the number of slots, run ends are left at their last word.
    last_word = slots_at - WORD_LEN
    yield Change("a run more or less", block.at, flipped(data, block.at, 0), last_word)
    yield Change("too many slots", block.at + COUNT_TOP_AT, bytes([TOO_GREAT]), count_at)
    yield Change("runs and no slot", count_at, bytes(4), count_at)
    at, bit = divmod(block.count - 1, 8)
    yield Change("a last slot that ends no run", ends_at + at, flipped(data, ends_at + at, bit), last_word)
    at, bit = divmod(block.count, 8)
    if ends_at + at < slots_at:
        yield Change("a run end behind the last slot", ends_at + at, flipped(data, ends_at + at, bit), last_word)
    for slot in range(slots_at, block.end(), WORD_LEN):
        yield Change("a wide slot", slot + WORD_LEN - 1, bytes([TOO_GREAT]), slot)


def frame_changes(data: bytes, place: int, shape: Shape, wide: int, end: int) -> Iterator[Change]:
    """The frame of a bin so wide with broken fields, one of too few events and one of too many, and one with other bytes
    behind its blocks, up to the end of its place."""
    found = list(blocks_at(data, place, shape))
    blocks = [block for block, _pieces in found]
    pieces = [piece for _block, some in found for piece in some]
    full = [block for block in blocks if block.count]
    yield from block_changes(data, full[0])
    if full[0] != blocks[-1]:
        last_slot, next_end = full[0].end() - WORD_LEN, full[0].end() + HEAD_LEN
        broken = bytes([TOO_GREAT]) * (next_end - last_slot)
        yield Change("a wide slot and a broken block behind it", last_slot, broken, last_slot)
    for block in blocks:
        if block.count == 0:
            yield Change("a run in a block without slots", block.at, bytes([1]), block.at + COUNT_AT)
    tail, most = pieces[0][0], wide if shape.version == 1 else MOST_WEIGHT * wide
    for name, count in (("an event less", wide - 1), ("more than its events make", most + 1)):
        yield Change(name, place, frame_text(shape, [(tail, count)]), place)
    if blocks[-1].end() < end:
        yield Change("another byte behind its blocks", blocks[-1].end(), bytes([TOO_GREAT]), None)
