"""What keys are made of: the values of lines, of one column of a CSV, or of one field of JSON lines, from a file or a
pipe, and beside them amounts, where these are wanted. Those of packets are in network_packets.py.

A reader gives the values in batches, as they come: it doesn't wait for more while it has a whole value, but of packets
that came in part, and has about a chunk in memory at once.
"""

from __future__ import annotations

import csv
import io
import json
import select
import zlib
from contextlib import suppress
from typing import Any, Callable, Generator, Iterator, NamedTuple, Sequence, TypeVar

from .amounts import NO_AMOUNT, amount_in, is_number

CHUNK = 1 << 18
MOST_LINE = 1 << 20
MOST_SHOWN = 200
# The first bytes of a gzip file, and its form as zlib names it.
GZIP = b"\x1f\x8b"
GZIP_FORM = 16 + zlib.MAX_WBITS

Each = TypeVar("Each")


class BadInput(Exception):
    """Input that isn't in its format. The text says in which file and where."""


class Batch(NamedTuple):
    """Values, each with the number of its line, or of whatever `unit` names, from 1, and with its amount, where that is
    wanted."""

    values: list[bytes]
    places: Sequence[int]
    unit: str = "line"
    amounts: list[int] | None = None


class Unpacked:
    """What a gzip file holds, of one member or several."""

    def __init__(self, read: Callable[[], bytes], begin: bytes) -> None:
        self.more = read
        self.data = begin
        self.member = zlib.decompressobj(GZIP_FORM)
        # Whether the member may have more of what it was given.
        self.is_full = False

    def read(self) -> bytes:
        """What comes next, at most a chunk; nothing at the end."""
        while not (out := self.member.decompress(self.data, CHUNK)):
            if self.member.eof:
                if not self.has_next():
                    return b""
            elif not (data := self.more()):
                raise EOFError("it ends before its end")
            else:
                self.data = data
        # Behind a member's end the rest stands in `unused_data`, and may stand here too.
        self.data = b"" if self.member.eof else self.member.unconsumed_tail
        self.is_full = len(out) == CHUNK
        return out

    def has_next(self) -> bool:
        """Begins the next member, before which zeros may stand."""
        data = self.member.unused_data
        while not (data := data.lstrip(b"\0")):
            if not (data := self.more()):
                return False
        self.data, self.member = data, zlib.decompressobj(GZIP_FORM)
        return True


class Source:
    """A file, or standard input where there is no path. What begins as a gzip file does is unpacked."""

    def __init__(self, path: str | None, skips_bad: bool = False) -> None:
        self.name = "standard input" if path is None else path
        self.file = open(0 if path is None else path, "rb", buffering=0, closefd=path is not None)
        # How many bytes were read, but those that were put back.
        self.taken = 0
        self.back = b""
        self.is_begun = False
        self.unpacked: Unpacked | None = None
        self.skips_bad = skips_bad
        self.skipped = 0
        self.first_skipped = ""

    def read(self) -> bytes:
        """What is there, at most a chunk; waits where nothing is, and gives nothing at the end."""
        data, self.back = self.back, b""
        if not data:
            data = self.more() if self.is_begun else self.begun()
        self.taken += len(data)
        return data

    def raw(self) -> bytes:
        while (data := self.file.read(CHUNK)) is None:
            self.is_ready(None)
        return data

    def begun(self) -> bytes:
        """The first read, which finds out whether it is a gzip file."""
        self.is_begun = True
        data = self.raw()
        if data == GZIP[:1]:
            data += self.raw()
        if not data.startswith(GZIP):
            return data
        self.unpacked = Unpacked(self.raw, data)
        return self.more()

    def more(self) -> bytes:
        try:
            return self.raw() if self.unpacked is None else self.unpacked.read()
        except (zlib.error, EOFError) as fault:
            raise self.refusal(f"byte {self.taken} of what is unpacked", f"a broken gzip file: {fault}") from None

    def put_back(self, data: bytes) -> None:
        """The next read gives these bytes again."""
        self.back = data
        self.taken -= len(data)

    def is_ready(self, seconds: float | None) -> bool:
        """Whether a read wouldn't wait any more, within so many seconds."""
        is_full = self.unpacked is not None and self.unpacked.is_full
        return bool(self.back or is_full or select.select([self.file], [], [], seconds)[0])

    def refusal(self, place: str, why: str) -> BadInput:
        return BadInput(f"{self.name}, {place}: {why}")

    def refuse(self, place: str, why: str) -> None:
        """Ends the input at a bad record, or skips and counts it. The values before it are handed out by then."""
        if not self.skips_bad:
            raise self.refusal(place, why)
        self.skipped += 1
        self.first_skipped = self.first_skipped or f", the first at {place}: {why}"


def blocks(source: Source) -> Iterator[tuple[int, bytes]]:
    """Whole lines as they come, several in one, behind the number of lines that were skipped just before. The last one
    may lack its line break."""
    rest, skipped = b"", 0
    while data := source.read():
        first, end = data.find(b"\n"), data.rfind(b"\n") + 1
        if len(rest) + (first if end else len(data)) > MOST_LINE:
            source.put_back(data)
            source.refuse(f"byte {source.taken - len(rest)}", f"a line of more than {MOST_LINE} bytes")
            leave_line(source)
            rest, skipped = b"", skipped + 1
        elif end:
            yield skipped, rest + data[:end]
            rest, skipped = data[end:], 0
        else:
            rest += data
    if rest:
        yield skipped, rest


def leave_line(source: Source) -> None:
    """Reads to the end of a line."""
    while (data := source.read()) and b"\n" not in data:
        pass
    source.put_back(data.partition(b"\n")[2])


def lines(source: Source) -> Iterator[Batch]:
    """The lines, without byte 10."""
    first = 1
    for skipped, block in blocks(source):
        first += skipped
        values = block.split(b"\n")
        # Behind the last line break there is no line.
        if not values[-1]:
            values.pop()
        yield Batch(values, range(first, first + len(values)))
        first += len(values)


def stretches(
    source: Source,
    values: Sequence[bytes | None],
    places: Sequence[int],
    lack: Callable[[int], str],
    amounts: Sequence[int | None] | None = None,
) -> Iterator[Batch]:
    """The values of lines but those that are None, which are refused, each behind the values before it. `lack` says
    what is amiss with one by its place among these."""

    def part(begin: int, end: int) -> Batch:
        return Batch(values[begin:end], places[begin:end], amounts=None if amounts is None else amounts[begin:end])

    begin = 0
    for at in [at for at, value in enumerate(values) if value is None] if None in values else ():
        if begin < at:
            yield part(begin, at)
        source.refuse(f"line {places[at]}", lack(at))
        begin = at + 1
    if begin < len(values):
        yield part(begin, len(values))


def records(
    source: Source,
    wanted: Sequence[Each],
    found: Sequence[Sequence[bytes | None]],
    places: Sequence[int],
    lack: Callable[[int, Each], str],
) -> Iterator[Batch]:
    """What was found in lines: the value that is wanted of each, and the text of its amount where there are two. `lack`
    says why a line hasn't got one of them, by its place among these."""

    def why(at: int) -> str:
        return next((lack(at, one) for one, texts in zip(wanted, found) if texts[at] is None), NO_AMOUNT)

    values, *weights = found
    if not weights:
        return stretches(source, values, places, why)
    amounts = list(map(amount_in, weights[0]))
    both = [None if amount is None else value for value, amount in zip(values, amounts)]
    return stretches(source, both, places, why, amounts)


def each_at(rows: Sequence[Sequence[Each]], at: int) -> list[Each | None]:
    """What rows have at a place."""
    try:
        return [row[at] for row in rows]
    except IndexError:
        return [row[at] if at < len(row) else None for row in rows]


def word(source: Source, wanted: Sequence[int]) -> Iterator[Batch]:
    """A word of each line, by its number, from 1, and one that is its amount. Words are parted by blanks."""
    for batch in lines(source):
        parted = [line.split(None, max(wanted)) for line in batch.values]
        found = [each_at(parted, number - 1) for number in wanted]
        yield from records(source, wanted, found, batch.places, lambda _, number: f"the line has no word {number}")


def column_at(wanted: str, header: list[str], source: Source) -> int:
    """The place of a column that is wanted by its number, or by its name in the row that names the columns."""
    if is_number(wanted):
        return int(wanted) - 1
    if header.count(wanted) != 1:
        count = "no" if wanted not in header else "more than one"
        # In one line, whatever stands there.
        first = " ".join("|".join(header).split())[:MOST_SHOWN]
        raise source.refusal("line 1", f"{count} column is named {wanted} of {first}")
    return header.index(wanted)


class Parsed(NamedTuple):
    """The rows that lines of a CSV make, with the number of the last line of each, and the line at which they leave
    the format, if they do."""

    rows: list[list[str]]
    ends: Sequence[int]
    fault: csv.Error | None
    at: int


def parsed(texts: list[str], delimiter: str) -> Parsed:
    with suppress(csv.Error):
        rows = list(csv.reader(texts, delimiter=delimiter, strict=True))
        if len(rows) == len(texts):
            return Parsed(rows, range(1, len(rows) + 1), None, 0)
    # A row has several lines, or isn't whole.
    reader = csv.reader(texts, delimiter=delimiter, strict=True)
    rows, ends, fault = [], [], None
    try:
        for row in reader:
            rows.append(row)
            ends.append(reader.line_num)
    except csv.Error as error:
        fault = error
    return Parsed(rows, ends, fault, reader.line_num)


def rows_of(source: Source, delimiter: str) -> Iterator[tuple[list[list[str]], Sequence[int]]]:
    """The rows of a CSV but empty ones, each with the number of its last line."""
    mark = "\ufeff"
    rest: list[str] = []
    before = 0
    for skipped, block in blocks(source):
        # Bytes that are no UTF-8 come back as they were.
        text = block.decode("utf-8", "surrogateescape").removeprefix(mark)
        mark = ""
        rest, before = rest + list(io.StringIO(text, newline="")), before + skipped
        rest, before = yield from rows_in(source, rest, before, delimiter, is_last=False)
    yield from rows_in(source, rest, before, delimiter, is_last=True)


def rows_in(
    source: Source, texts: list[str], before: int, delimiter: str, is_last: bool
) -> Generator[tuple[list[list[str]], Sequence[int]], None, tuple[list[str], int]]:
    """The rows of lines behind so many lines. It gives the lines that may go on in the next one, and how many are
    before them. Behind the first line of a row that is skipped the next row begins."""
    while texts:
        rows, ends, fault, at = parsed(texts, delimiter)
        whole = ends[-1] if ends else 0
        places = range(before + 1, before + whole + 1) if len(rows) == whole else [before + end for end in ends]
        if not all(rows):
            places = [place for row, place in zip(rows, places) if row]
            rows = [row for row in rows if row]
        yield rows, places
        texts, before = texts[whole:] if fault else [], before + whole
        if fault and whole + len(texts) == at and not is_last:
            break
        if fault:
            source.refuse(f"line {before - whole + at}", f"no CSV: {fault}")
            texts, before = texts[1:], before + 1
    return texts, before


def texts_at(rows: list[list[str]], at: int) -> list[bytes | None]:
    return [None if text is None else text.encode("utf-8", "surrogateescape") for text in each_at(rows, at)]


def column(source: Source, wanted: Sequence[str], delimiter: str) -> Iterator[Batch]:
    """The values of one column, and of one that has their amounts: by their names in the first row, or else of all rows
    by their numbers, from 1."""
    places_in = [int(one) - 1 for one in wanted] if all(map(is_number, wanted)) else None
    for rows, places in rows_of(source, delimiter):
        if places_in is None and rows:
            places_in = [column_at(one, rows[0], source) for one in wanted]
            rows, places = rows[1:], places[1:]
        found = [texts_at(rows, at) for at in places_in or ()]
        if rows:
            yield from records(source, wanted, found, places, lambda _, one: f"the row has no column {one}")
    if places_in is None:
        column_at(next(one for one in wanted if not is_number(one)), [], source)


def field(source: Source, wanted: Sequence[str]) -> Iterator[Batch]:
    """The values of one field of the JSON object that each line is, and of one that has their amounts: a text, or a
    number as it is written there."""
    scan = json.JSONDecoder(parse_int=str, parse_float=str).scan_once
    for batch in lines(source):
        found: list[list[bytes | None]] = [[] for _ in wanted]
        for line in batch.values:
            fields = fields_in(line, scan)
            for values, one in zip(found, wanted):
                value = fields.get(one)
                values.append(value.encode("utf-8", "surrogatepass") if isinstance(value, str) else None)
        yield from records(source, wanted, found, batch.places, lambda at, one: lack_of(batch.values[at], one))


def fields_in(line: bytes, scan: Callable[[str, int], tuple[Any, int]]) -> dict[str, Any]:
    """The fields of a JSON object that is all of a line, else none."""
    try:
        text = line.decode().strip(" \t\r")
        fields, end = scan(text, 0)
    except (ValueError, StopIteration, RecursionError):
        return {}
    return fields if isinstance(fields, dict) and end == len(text) else {}


def lack_of(line: bytes, wanted: str) -> str:
    """What a line lacks that has no such field."""
    try:
        fields = json.loads(line.decode())
    except (ValueError, RecursionError):
        fields = None
    if not isinstance(fields, dict):
        return "no JSON object"
    return f"the field {wanted} is no text and no number" if wanted in fields else f"no field {wanted}"
