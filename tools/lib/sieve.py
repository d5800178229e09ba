"""Parts the records of a stream from what is none, so that whoever packs them meets no bad one.

The records are those of `keys pack`: lines, numbers, a column of a CSV, or a field of JSON lines, judged by the same
readers.
"""

from __future__ import annotations

import csv
import io
from contextlib import suppress
from typing import Callable, Iterator, NamedTuple, Sequence

from .amounts import is_number as is_by_number
from .inputs import MOST_LINE, BadInput, Batch, column, field
from .loads import Load

CHUNK = 1 << 18
# A row of a CSV has at most so many lines here.
MOST_LINES = 1000
# What may stand before a text in UTF-8.
MARK = b"\xef\xbb\xbf"
NO_NUMBER = "no decimal number below 2^64"


class Records(NamedTuple):
    """What of a stream are records, by the words of `keys pack`: a column, a field or a word of its rows or lines, or
    else its lines, and whether they are hashed or numbers."""

    column: str | None
    delimiter: str
    field: str | None
    word: int | None
    are_hashed: bool


class Sifted(NamedTuple):
    """The bytes of the records, how many there are, and how many lines are none, with why the first one is; and what
    the records count, where that isn't one each."""

    data: bytes
    records: int
    bad: int = 0
    why: str = ""
    weighed: Load | None = None

    def load(self) -> Load:
        """The items that the records become."""
        return Load(self.records, self.records) if self.weighed is None else self.weighed


class Given:
    """A source of `inputs` over bytes that are there."""

    name = "input"

    def __init__(self, data: bytes) -> None:
        self.left = [data]
        self.taken = 0

    def read(self) -> bytes:
        data = self.left.pop() if self.left else b""
        self.taken += len(data)
        return data

    def is_ready(self, _seconds: float | None) -> bool:
        return True

    def put_back(self, data: bytes) -> None:
        self.left.append(data)
        self.taken -= len(data)

    def refusal(self, _place: str, why: str) -> BadInput:
        return BadInput(why)

    def refuse(self, place: str, why: str) -> None:
        raise self.refusal(place, why)


def lines_of(data: bytes) -> list[bytes]:
    return [line + b"\n" for line in data.split(b"\n")[:-1]]


def count(batches: Iterator[Batch]) -> int:
    return sum(len(batch.values) for batch in batches)


def is_number(value: bytes) -> bool:
    return value.isdigit() and len(value) <= 20 and int(value) < 1 << 64


def checked(values: list[bytes]) -> int:
    """How many values there are, each a number."""
    if not all(map(is_number, values)):
        raise BadInput(NO_NUMBER)
    return len(values)


class Lines:
    """Any lines."""

    # The row that names the columns, once it is known, and the lines of a row that isn't at its end.
    head = b""
    waiting: Sequence[bytes] = ()

    def sift(self, data: bytes) -> Sifted:
        return Sifted(data, data.count(b"\n"))

    def sift_some(self, data: bytes) -> tuple[Sifted, bytes]:
        """The records of as many lines as are handed on at once, and the lines behind them."""
        return self.sift(data), b""

    def at_once(self) -> int:
        """At most so many bytes are read at once."""
        return CHUNK

    def beginning(self) -> bytes:
        """What is handed on before all records."""
        return b""

    def held(self) -> int:
        """How many bytes wait for more."""
        return sum(map(len, self.waiting))

    def forget(self) -> None:
        """Lets them go."""
        self.waiting = ()

    def behind(self, sifted: Sifted, amount: int) -> Sifted:
        """What stands behind so many of the records that were sifted, or so great an amount of them."""
        return Sifted(self.data_behind(sifted.data, amount), sifted.records - amount)

    def data_behind(self, data: bytes, records: int) -> bytes:
        at = 0
        for _ in range(records):
            at = data.index(b"\n", at) + 1
        return data[at:]


class Words(Lines):
    """A word of each line, by its number, from 1, which is handed on as a line. Words are parted by blanks."""

    def __init__(self, number: int, are_numbers: bool) -> None:
        self.number = number
        self.are_numbers = are_numbers

    def why_not(self, words: list[bytes]) -> str:
        """Why the words of a line have no record, if they haven't."""
        if len(words) < self.number:
            return f"the line has no word {self.number}"
        return "" if not self.are_numbers or is_number(words[self.number - 1]) else NO_NUMBER

    def sift(self, data: bytes) -> Sifted:
        parted = [line.split(None, self.number) for line in data.split(b"\n")[:-1]]
        lacks = [self.why_not(words) for words in parted]
        good = [words[self.number - 1] + b"\n" for words, lack in zip(parted, lacks) if not lack]
        return Sifted(b"".join(good), len(good), len(parted) - len(good), next(filter(None, lacks), ""))


class Checked(Lines):
    """Lines of which each is a record where a count of them says so."""

    def __init__(self, counted: Callable[[bytes], int]) -> None:
        self.counted = counted

    def sift(self, data: bytes) -> Sifted:
        try:
            return Sifted(data, self.counted(data))
        except BadInput:
            return self.one_by_one(data)

    def one_by_one(self, data: bytes) -> Sifted:
        good, records, bad, why = [], 0, 0, ""
        for line in lines_of(data):
            try:
                records += self.counted(line)
                good.append(line)
            except BadInput as refusal:
                bad += 1
                why = why or str(refusal)
        return Sifted(b"".join(good), records, bad, why)


def numbers_in(data: bytes) -> int:
    return checked(data.split(b"\n")[:-1])


class Rows(Lines):
    """The rows of a CSV. Where a column is named, the first row of all is the head, and each row like it is none."""

    def __init__(self, wanted: Sequence[str], delimiter: str, head: bytes) -> None:
        """Of these columns."""
        self.wanted = wanted
        self.delimiter = delimiter
        self.head = head
        self.is_named = not all(map(is_by_number, wanted))

    def beginning(self) -> bytes:
        return self.head

    def batches(self, data: bytes) -> Iterator[Batch]:
        return column(Given(self.head + data), self.wanted, self.delimiter)

    def counted(self, data: bytes) -> int:
        return count(self.batches(data))

    def is_open(self, data: bytes) -> bool:
        """Whether a quote is open at the end."""
        text = io.StringIO(data.decode("utf-8", "surrogateescape"), newline="")
        reader = csv.reader(text, delimiter=self.delimiter, strict=True)
        try:
            list(reader)
        except csv.Error as error:
            return "unexpected end" in str(error)
        return False

    def sift(self, data: bytes) -> Sifted:
        whole = b"".join(self.waiting) + data
        if self.is_named and not self.head:
            self.head, whole = self.first_row(whole)
        if self.is_named:
            whole = self.without_heads(whole) if self.head in whole else whole
        self.waiting = ()
        try:
            return Sifted(whole, self.counted(whole))
        except BadInput:
            return self.row_by_row(whole)

    def without_heads(self, data: bytes) -> bytes:
        """Who writes a file anew begins it with the head again."""
        return b"".join(line for line in lines_of(data) if line.removeprefix(MARK) != self.head)

    def first_row(self, data: bytes) -> tuple[bytes, bytes]:
        head, _, rest = data.removeprefix(MARK).partition(b"\n")
        columns_are_there = column(Given(head + b"\n"), self.wanted, self.delimiter)
        count(columns_are_there)
        return head + b"\n", rest

    def row_by_row(self, data: bytes) -> Sifted:
        good, records, bad, why = [], 0, 0, ""
        row: list[bytes] = []
        for line in lines_of(data):
            row.append(line)
            text = b"".join(row)
            try:
                records += self.counted(text)
                good += row
            except BadInput as refusal:
                if self.is_open(text) and len(row) < MOST_LINES and len(text) < MOST_LINE:
                    continue
                bad += len(row)
                why = why or str(refusal)
            row = []
        self.waiting = row
        return Sifted(b"".join(good), records, bad, why)

    def data_behind(self, data: bytes, records: int) -> bytes:
        row, at = b"", 0
        for line in lines_of(data) if records else []:
            row, at = row + line, at + len(line)
            with suppress(BadInput):
                records, row = records - self.counted(row), b""
                if not records:
                    break
        return data[at:]


def sieve_of(records: Records, head: bytes) -> Lines:
    """That of such records. What isn't hashed are numbers."""
    if records.word is not None:
        return Words(records.word, not records.are_hashed)
    if records.column is not None:
        rows = Rows([records.column], records.delimiter, head)
        return rows if records.are_hashed else with_numbers(rows, lambda data: rows.batches(data))
    if records.field is not None:
        wanted = [records.field]
        checked = Checked(lambda data: count(field(Given(data), wanted)))
        return checked if records.are_hashed else with_numbers(checked, lambda data: field(Given(data), wanted))
    return Lines() if records.are_hashed else Checked(numbers_in)


def with_numbers(sieve: Rows | Checked, values: Callable[[bytes], Iterator[Batch]]) -> Lines:
    """The same, where each value has to be a number."""

    def counted(data: bytes) -> int:
        return sum(checked(batch.values) for batch in values(data))

    sieve.counted = counted  # type: ignore[method-assign]
    return sieve
