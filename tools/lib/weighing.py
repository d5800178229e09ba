"""Records with amounts: what of a stream is one, and how they are handed on to `keys pack --weight`.

They are those of `keys pack`, judged by the same readers. An amount that is more than a cone takes is none.
"""

from __future__ import annotations

import csv
import io
import json
from itertools import compress
from typing import Callable, Iterator, NamedTuple, Sequence

from .amounts import MOST_WEIGHT, load_of
from .inputs import BadInput, Batch, column, field, word
from .loads import Load
from .sieve import CHUNK, Checked, Given, Lines, Records, Rows, Sifted, checked, count

# What is handed on at once is at most such a part of what a cone takes, or one record.
PARTS_OF_A_CONE = 8
LEAST_READ = 64


class Form(NamedTuple):
    """How values and their amounts are handed on: the words of `keys pack` for it, how they are written, and read."""

    packing: Sequence[str]
    written: Callable[[Sequence[bytes], Sequence[int]], bytes]
    read: Callable[[bytes], Iterator[Batch]]


def as_lines(values: Sequence[bytes], amounts: Sequence[int]) -> bytes:
    return b"".join([b"%d %b\n" % both for both in zip(amounts, values)])


def as_rows(values: Sequence[bytes], amounts: Sequence[int]) -> bytes:
    out = io.StringIO(newline="")
    texts = (value.decode("utf-8", "surrogateescape") for value in values)
    # In quotes a value may be anything.
    csv.writer(out, quoting=csv.QUOTE_ALL, lineterminator="\n").writerows(zip(amounts, texts))
    return out.getvalue().encode("utf-8", "surrogateescape")


def as_objects(values: Sequence[bytes], amounts: Sequence[int]) -> bytes:
    texts = (value.decode("utf-8", "surrogatepass") for value in values)
    made = [json.dumps({"key": text, "amount": amount}) + "\n" for text, amount in zip(texts, amounts)]
    return "".join(made).encode()


LINES = Form(["--field", "2", "--weight", "1"], as_lines, lambda data: word(Given(data), [2, 1]))
# The amount comes first: a value might begin as a text in UTF-8 may.
ROWS = Form(["--csv", "2", "--weight", "1"], as_rows, lambda data: column(Given(data), ["2", "1"], ","))
OBJECTS = Form(["--json", "key", "--weight", "amount"], as_objects, lambda data: field(Given(data), ["key", "amount"]))


def first_lines(data: bytes, most: int) -> bytes:
    """As many whole lines at most."""
    parts = data.split(b"\n", most)
    return data if len(parts) <= most else data[: len(data) - len(parts[-1])]


class Weighed(Lines):
    """Records with amounts, in a form of their own. Those of 0 are records, and aren't handed on."""

    def __init__(
        self,
        batches: Callable[[bytes], Iterator[Batch]],
        form: Form,
        hashes: bool,
        room: Load,
        rows: Rows | None = None,
    ) -> None:
        """The batches have the records with their amounts, and the room is that of a cone. What is none is parted from
        them line by line, or as the rows of a CSV are."""
        self.raw = rows or Checked(self.counted)
        if rows is not None:
            rows.counted = self.counted  # type: ignore[method-assign]
        self.batches = batches
        self.form = form
        self.hashes = hashes
        self.most = min(room.weight, MOST_WEIGHT * room.items)
        self.part = Load(room.items // PARTS_OF_A_CONE, room.weight // PARTS_OF_A_CONE)
        self.found: list[Batch] = []
        # Of the lines that are taken next, and the bytes of those that were taken last.
        self.lines = 1 << 10
        self.size = LEAST_READ << 6

    @property
    def head(self) -> bytes:  # type: ignore[override]
        return self.raw.head

    def counted(self, data: bytes) -> int:
        """How many records there are in lines of which each is one, or a part of one. They are kept."""
        batches = list(self.batches(data))
        for batch in batches:
            if not self.hashes:
                checked(batch.values)
            if max(batch.amounts or [], default=0) > self.most:
                raise BadInput(f"the amount is more than {self.most}, which is all that a cone takes")
        self.found += batches
        return count(iter(batches))

    def sift(self, data: bytes) -> Sifted:
        self.found = []
        sifted = self.raw.sift(data)
        values, amounts = both_of(self.found)
        return self.handed_on(values, amounts)._replace(records=sifted.records, bad=sifted.bad, why=sifted.why)

    def handed_on(self, values: Sequence[bytes], amounts: Sequence[int]) -> Sifted:
        values, amounts = list(compress(values, amounts)), list(filter(None, amounts))
        return Sifted(self.form.written(values, amounts), len(values), weighed=load_of(amounts))

    def sift_some(self, data: bytes) -> tuple[Sifted, bytes]:
        while True:
            piece, waiting = first_lines(data, self.lines), self.raw.waiting
            sifted, lines = self.sift(piece), piece.count(b"\n")
            if lines <= 1 or sifted.load().fits(self.part):
                self.lines, self.size = max(self.lines, 2 * lines), len(piece)
                return sifted, data[len(piece) :]
            # Once more, with half of the lines.
            self.raw.waiting, self.lines = waiting, lines // 2

    def at_once(self) -> int:
        """What is read at once grows and falls with what is taken at once."""
        return min(CHUNK, max(LEAST_READ, 2 * self.size))

    def held(self) -> int:
        return self.raw.held()

    def forget(self) -> None:
        self.raw.forget()

    def behind(self, sifted: Sifted, amount: int) -> Sifted:
        """Of a record that is cut so, its rest."""
        values, amounts = both_of(self.form.read(sifted.data))
        at = 0
        while at < len(amounts) and amounts[at] <= amount:
            amount -= amounts[at]
            at += 1
        rest = [amounts[at] - amount, *amounts[at + 1 :]] if at < len(amounts) else []
        return self.handed_on(values[at:], rest)


def both_of(batches: Iterator[Batch] | list[Batch]) -> tuple[list[bytes], list[int]]:
    """The values of batches, and their amounts."""
    values: list[bytes] = []
    amounts: list[int] = []
    for batch in batches:
        values += batch.values
        amounts += batch.amounts or []
    return values, amounts


def form_of(records: Records) -> Form:
    return ROWS if records.column is not None else OBJECTS if records.field is not None else LINES


def weighed_of(records: Records, weight: str, head: bytes, room: Load) -> Weighed:
    """Those of the words of `keys pack`, whose amounts `weight` names."""
    form, are_hashed = form_of(records), records.are_hashed
    if records.column is not None:
        rows = Rows([records.column, weight], records.delimiter, head)
        return Weighed(rows.batches, form, are_hashed, room, rows)
    if records.field is not None:
        fields = [records.field, weight]
        return Weighed(lambda data: field(Given(data), fields), form, are_hashed, room)
    words = [records.word or 1, int(weight)]
    return Weighed(lambda data: word(Given(data), words), form, are_hashed, room)
