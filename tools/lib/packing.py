"""Makes the items of a trace out of values and their amounts, and hands them on with their names."""

from __future__ import annotations

import re
import struct
import time
from concurrent.futures import Executor
from contextlib import contextmanager, suppress
from hashlib import blake2b
from itertools import compress
from operator import itemgetter
from typing import BinaryIO, Iterable, Iterator

from .amounts import MOST_WEIGHT
from .formats import KEY_LEN, TRACE_HEAD, magic_of
from .inputs import Batch, Source, stretches
from .names import Names
from .outputs import sync

NUMBER = re.compile(rb"[0-9]{1,20}")
# What an item of each weight has behind its key.
WEIGHTS = [bytes([weight]) for weight in range(MOST_WEIGHT + 1)]
# What is kept before it is handed on: distinct names, or values where no names are wanted; bytes of items; bytes of the
# input; and seconds while more input comes.
MOST_NAMES = 1 << 18
MOST_VALUES = 1 << 16
MOST_MADE = 1 << 23
MOST_TAKEN = 1 << 25
MOST_WAIT = 1.0
# So many items of one key are made at once.
MOST_ITEMS = 1 << 16


@contextmanager
def streaming(out: BinaryIO) -> Iterator[BinaryIO]:
    """A trace that is read while it is written. After an exception it ends inside a key."""
    try:
        yield out
    except BaseException:
        out.write(b"\0")
        out.flush()
        raise


class Hashes(dict[bytes, bytes]):
    """The hash of each value that was asked for."""

    def __missing__(self, value: bytes) -> bytes:
        made = self[value] = blake2b(value, digest_size=KEY_LEN).digest()
        return made


def spelt(values: list[bytes]) -> bytes | None:
    """The keys that values spell, if all of them do."""
    with suppress(struct.error):
        if all(map(NUMBER.fullmatch, values)):
            return struct.pack(f"<{len(values)}Q", *map(int, values))
    return None


def spelling(source: Source, batch: Batch) -> Iterator[Batch]:
    """The values of a batch that spell keys. The others are refused."""
    values = [value if NUMBER.fullmatch(value) and not int(value) >> 64 else None for value in batch.values]
    return stretches(source, values, batch.places, lambda _: "no decimal number below 2^64", batch.amounts)


def counting(batch: Batch) -> Batch:
    """The values whose amounts aren't 0: the others get no name."""
    values = list(compress(batch.values, batch.amounts))
    return batch._replace(values=values, amounts=list(filter(None, batch.amounts)))


def items(keys: bytes, amounts: Iterable[int]) -> Iterator[bytes]:
    """The items of keys with these amounts, as few as there may be. Of a great amount they come in several parts."""
    for at, amount in zip(range(0, len(keys), KEY_LEN), amounts):
        key = keys[at : at + KEY_LEN]
        full, rest = divmod(amount, MOST_WEIGHT)
        for begin in range(0, full, MOST_ITEMS):
            yield (key + WEIGHTS[MOST_WEIGHT]) * min(MOST_ITEMS, full - begin)
        if rest:
            yield key + WEIGHTS[rest]


class Packer:
    """Makes items of values, and hands them on: names first, so that who reads a key finds its name."""

    def __init__(
        self, source: Source, out: BinaryIO, names: Names | None, is_stream: bool, writer: Executor, weighs: bool
    ) -> None:
        self.source = source
        self.out = out
        # Who reads a pipe works on while the next items are made.
        self.writer = writer
        self.written = writer.submit(self.write, magic_of(TRACE_HEAD, 2 if weighs else 1))
        self.names = names
        self.is_stream = is_stream
        self.hashes = Hashes()
        self.made: list[bytes] = []
        self.size = 0
        self.taken = 0
        self.since = time.monotonic()

    def take(self, batch: Batch, hashes: bool) -> None:
        place = f"up to {batch.unit} {batch.places[-1]}"
        if hashes and batch.amounts is not None:
            batch = counting(batch)
        keys = b"".join(map(self.hashes.__getitem__, batch.values)) if hashes else spelt(batch.values)
        if keys is None:
            for good in spelling(self.source, batch):
                self.take(good, hashes)
            return
        for part in [keys] if batch.amounts is None else items(keys, batch.amounts):
            self.made.append(part)
            self.size += len(part)
            if self.size >= MOST_MADE:
                self.hand_on(place)
        if self.is_full() or not self.source.is_ready(max(0.0, self.since + MOST_WAIT - time.monotonic())):
            self.hand_on(place)

    def is_full(self) -> bool:
        most = MOST_VALUES if self.names is None else MOST_NAMES
        is_long = self.size >= MOST_MADE or self.source.taken - self.taken >= MOST_TAKEN
        return is_long or len(self.hashes) >= most or time.monotonic() - self.since >= MOST_WAIT and self.is_stream

    def hand_on(self, place: str) -> None:
        hashes, made = self.hashes, b"".join(self.made)
        self.hashes, self.made, self.size = Hashes(), [], 0
        if self.names is not None and hashes:
            signed = struct.unpack(f"<{len(hashes)}q", b"".join(hashes.values()))
            self.names.add(sorted(zip(signed, hashes), key=itemgetter(0)), f"{self.source.name}, {place}")
            if self.is_stream:
                self.names.commit()
        self.written.result()
        self.written = self.writer.submit(self.write, made)
        self.taken = self.source.taken
        self.since = time.monotonic()

    def write(self, made: bytes) -> None:
        self.out.write(made)
        self.out.flush()

    def finish(self) -> None:
        self.hand_on("at the end")
        self.written.result()
        if not self.is_stream:
            # Before its names count.
            sync(self.out)
