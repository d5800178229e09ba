"""The names of keys: an SQLite file with one table, `names`, in which a row has a key and its name.

SQLite has signed numbers: a key of 2^63 or more stands there less 2^64.
"""

from __future__ import annotations

import errno
import os
import re
import sqlite3
import struct
import time
from contextlib import closing, contextmanager, suppress
from itertools import chain
from typing import Iterable, Iterator, Sequence
from urllib.parse import quote

from .inputs import BadInput
from .outputs import Place, Refused

TABLE = "CREATE TABLE IF NOT EXISTS names (key INTEGER PRIMARY KEY, name BLOB NOT NULL)"
# Of another name for a key that is there the row would have none, which the table refuses.
ADD = "INSERT INTO names VALUES {} ON CONFLICT (key) DO UPDATE SET name = NULL WHERE name IS NOT excluded.name"
ROW = "(?, ?)"
# Several rows in one statement take two thirds of the time.
ROWS_AT_ONCE = 20
# SQLite takes 32,766 at most in one statement.
KEYS_AT_ONCE = 10_000
FIND_SEVERAL = "SELECT key, CAST(name AS BLOB) FROM names WHERE key IN ({})"
FIND = "SELECT CAST(name AS BLOB) FROM names WHERE key = ?"
TABLES = "SELECT name FROM sqlite_master WHERE type = 'table'"
COLUMNS = "SELECT name, type, pk FROM pragma_table_info('names')"
OWN_COLUMNS = [("key", "INTEGER", 1), ("name", "BLOB", 0)]
# Others may write the names meanwhile, and a whole file's are one step. In seconds, and by steps between which a signal
# is heard.
MOST_WAIT = 600
STEP = 0.25
CACHE_KIB = 16_384
CONTROL = re.compile(rb"[\x00-\x1f\x7f]|\xc2[\x80-\x9f]")
# The bytes of which it has none.
PLAIN = bytes(byte for byte in range(256) if not CONTROL.match(bytes([byte])) and byte != 0xC2)


def signed(key: int) -> int:
    return key - ((key >> 63) << 64)


def signed_keys(numbers: Sequence[int]) -> Sequence[int | None]:
    """The same for all numbers at once; None of those that are no keys."""
    with suppress(struct.error):
        return struct.unpack(f"<{len(numbers)}q", struct.pack(f"<{len(numbers)}Q", *numbers))
    return [None if number >> 64 else signed(number) for number in numbers]


def printed(name: bytes) -> bytes:
    """A name as it is printed: in one line, and with no byte that a terminal obeys."""
    return CONTROL.sub(lambda found: b"".join(b"\\x%02x" % byte for byte in found[0]), name)


def all_printed(names: dict[int | None, bytes]) -> dict[int | None, bytes]:
    """All names as they are printed. Few have a byte that is printed otherwise, and such a byte is found faster alone."""
    if b"".join(names.values()).translate(None, PLAIN):
        return {key: printed(name) for key, name in names.items()}
    return names


def shown(name: bytes) -> str:
    return printed(name).decode(errors="replace")


class Names:
    """The names in a file that `reading` or `adding` opened."""

    def __init__(self, path: str, file: sqlite3.Connection) -> None:
        self.path = path
        self.file = file

    def add(self, rows: Sequence[tuple[int, bytes]], place: str) -> None:
        """Adds signed keys with their names. They ascend, so that each page of the table is met once. Another name of a
        key is refused, with the place that it comes from."""
        self.begin()
        try:
            whole = len(rows) // ROWS_AT_ONCE * ROWS_AT_ONCE
            fields = chain.from_iterable(rows[:whole])
            self.file.executemany(ADD.format(", ".join([ROW] * ROWS_AT_ONCE)), zip(*[fields] * (2 * ROWS_AT_ONCE)))
            self.file.executemany(ADD.format(ROW), rows[whole:])
        except sqlite3.IntegrityError:
            twice = next(name for key, name in rows if self.of(key) not in (None, name))
            raise BadInput(f"{place}: {shown(twice)} has the hash of another name in {self.path}") from None

    def begin(self) -> None:
        if self.file.in_transaction:
            return
        until = time.monotonic() + MOST_WAIT
        self.wait_at_most(STEP)
        while not self.has_turn():
            if time.monotonic() >= until:
                raise OSError(f"{self.path}: others write it for more than {MOST_WAIT} seconds")
        self.wait_at_most(MOST_WAIT)
        self.file.execute(TABLE)

    def wait_at_most(self, seconds: float) -> None:
        self.file.execute(f"PRAGMA busy_timeout = {round(1000 * seconds)}")

    def has_turn(self) -> bool:
        try:
            self.file.execute("BEGIN IMMEDIATE")
        except sqlite3.OperationalError as fault:
            if "locked" not in str(fault):
                raise
            return False
        return True

    def check_own(self) -> None:
        """Refuses what has something else than names in it."""
        tables = {name for (name,) in self.file.execute(TABLES)}
        if tables and (tables != {"names"} or self.file.execute(COLUMNS).fetchall() != OWN_COLUMNS):
            raise BadInput(f"{self.path}, byte 0: no file of names: there are other tables")

    def commit(self) -> None:
        self.file.execute("COMMIT")

    def of(self, key: int) -> bytes | None:
        """The name of a signed key."""
        row = self.file.execute(FIND, (key,)).fetchone()
        return None if row is None else row[0]

    def several(self, keys: Iterable[int | None]) -> dict[int | None, bytes]:
        """The names of those signed keys that have one."""
        # In their order, each page of the table is met once.
        due = sorted(key for key in keys if key is not None)
        found: dict[int | None, bytes] = {}
        for begin in range(0, len(due), KEYS_AT_ONCE):
            some = due[begin : begin + KEYS_AT_ONCE]
            found.update(self.file.execute(FIND_SEVERAL.format(", ".join("?" * len(some))), some))
        return found

    def due(self, key: int, place: str) -> bytes:
        """The name of a key as it is printed. A key without one is refused, with the place that it comes from."""
        name = self.of(signed(key))
        if name is None:
            raise BadInput(f"{place}: key {key} has no name in {self.path}, which has those of another trace")
        return printed(name)


def of_content(fault: sqlite3.Error) -> bool:
    """Whether what SQLite refuses is what stands in the file, and not that the file fails."""
    return type(fault) is sqlite3.DatabaseError or "no such" in str(fault)


@contextmanager
def opened(path: str, mode: str) -> Iterator[Names]:
    if os.path.isdir(path):
        raise IsADirectoryError(errno.EISDIR, os.strerror(errno.EISDIR), path)
    if mode == "ro" and not os.path.exists(path):
        raise FileNotFoundError(errno.ENOENT, os.strerror(errno.ENOENT), path)
    try:
        place = f"file:{quote(path)}?mode={mode}"
        with closing(sqlite3.connect(place, uri=True, timeout=MOST_WAIT, isolation_level=None)) as file:
            yield Names(path, file)
    except sqlite3.Error as fault:
        if of_content(fault):
            raise BadInput(f"{path}, byte 0: no file of names: {fault}") from None
        raise OSError(f"{path}: {fault}") from None


@contextmanager
def reading(path: str) -> Iterator[Names]:
    with opened(path, "ro") as names:
        names.of(0)
        yield names


def check_names(place: Place) -> None:
    """Refuses to add names to what is no file of names, where something stands there."""
    if place.is_straight:
        raise Refused(f"{place.path} takes no names, since it is no regular file")
    if place.status is not None:
        with opened(place.path, "rw") as names:
            names.check_own()


@contextmanager
def adding(path: str) -> Iterator[Names]:
    """Names that may be added. What isn't committed before an exception ends the block is as if it had never come."""
    is_new = not os.path.exists(path)
    try:
        with opened(path, "rwc") as names:
            names.file.execute(f"PRAGMA cache_size = -{CACHE_KIB}")
            yield names
            names.begin()
            names.commit()
    except BaseException:
        # Closed without a commit, a file that was made here has nothing in it.
        if is_new and os.path.isfile(path) and os.path.getsize(path) == 0:
            os.remove(os.path.realpath(path))
        raise
