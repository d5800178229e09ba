"""What `recover` has to answer over the files of cones, by their formats and the definitions alone, and what it does.

It knows nothing of the program but its words and its lines. All files are kept in memory.
"""

from __future__ import annotations

import os
import re
import subprocess
import tempfile
from functools import lru_cache
from pathlib import Path
from typing import Callable, Iterable, Iterator, Mapping, NamedTuple, Sequence

from lib.cones import JOURNAL, LOG, SUFFIXES, Broken, Cone, Unsound, in_file
from lib.definitions import CLOSED, LOOK, Report
from lib.formats import HEADER_LEN, Header, Left, OtherSettings, Packet, packets, trace_bytes, units
from lib.words import Settings

DONE, CAPACITY_FULL, MALFORMED, OTHER_SETTINGS = 0, 8, 9, 10
# In place of the status of a program that doesn't end.
HANGS = 999
SECONDS = 10

# The files of a directory by their names, and the three of a cone.
Folder = dict[str, bytes]
Files = tuple[bytes, ...]


def file_name(cone: int, file: int) -> str:
    return f"cone-{cone:03}{SUFFIXES[file]}"


def folder_at(path: Path) -> Folder:
    return {file.name: file.read_bytes() for file in path.iterdir()} if path.exists() else {}


def write_folder(path: Path, folder: Folder) -> None:
    path.mkdir(parents=True)
    for name, data in folder.items():
        (path / name).write_bytes(data)


def files_in(folder: Folder, cone: int) -> Files:
    """The files of a cone. One that isn't there is empty: the program makes it so."""
    return tuple(folder.get(file_name(cone, file), b"") for file in range(len(SUFFIXES)))


def in_memory() -> tempfile.TemporaryDirectory[str]:
    """A directory to work in. In memory a data sync costs nothing."""
    memory = Path("/dev/shm")
    return tempfile.TemporaryDirectory(dir=memory if "TMPDIR" not in os.environ and memory.is_dir() else None)


def write_trace(path: Path, keys: Iterable[int]) -> None:
    path.write_bytes(trace_bytes(1, units(keys)))


# --- what a program answers


class Answer(NamedTuple):
    status: int
    out: str
    err: str

    def __str__(self) -> str:
        return f"status {self.status}, {self.out!r}, {self.err!r}"


def asked(
    program: Path,
    words: Sequence[str | Path],
    seconds: float = SECONDS,
    variables: Mapping[str, str] | None = None,
    begin: Callable[[], object] | None = None,
) -> Answer:
    """What it answers, in this environment or in ours. Its process begins with a call, where one is given."""
    try:
        done = subprocess.run(
            [program, *words],
            stdin=subprocess.DEVNULL,
            capture_output=True,
            timeout=seconds,
            env=variables,
            preexec_fn=begin,
        )
    except subprocess.TimeoutExpired:
        return Answer(HANGS, "", "")
    return Answer(done.returncode, done.stdout.decode(errors="replace"), done.stderr.decode(errors="replace"))


def recovered(program: Path, settings: Settings, folder: Path, seconds: float = SECONDS) -> Answer:
    return asked(program, ["recover", *settings.words(), folder], seconds)


# --- what is due


class Refused(NamedTuple):
    """A cone that can't be opened again: the status and its line."""

    status: int
    line: str


class Opened(NamedTuple):
    """A cone that is opened again. Files that are sound for no packets have no reports that are due."""

    cone: int
    events: int
    closed: bool
    reports: tuple[Report, ...] | None


Due = Refused | Opened


def refused(cone: int, broken: Broken) -> Refused:
    return Refused(MALFORMED, f"lert: cone {cone} file {broken.file} malformed at {broken.at}\n")


class Reopened(Cone):
    """A cone as a recovery reads it: its packets are those from the record on that the log's last record names."""

    def read(self) -> None:
        self.read_before_packets()
        in_file(JOURNAL, lambda data: self.read_journal(data, *self.log.begins()), self.files[JOURNAL])

    def take_older(self, data: bytes) -> None:
        """Takes the packets before them from a journal that has these."""
        named, _first = self.log.begins()
        end = HEADER_LEN
        older: list[tuple[int, Packet]] = []
        for gate, packet in packets(data[:named] + bytes(1)):
            older.append((gate, packet))
            end = self.header.behind(gate, len(packet.items))
        if end != named:
            raise Unsound(f"the log's last record names byte {named} of the journal, where no record begins")
        self.packets = older + self.packets
        self.events = [item for _gate, packet in older for item in packet.items] + self.events


@lru_cache(maxsize=64)
def due_of(files: Files, header: Header, undamaged: bytes = b"") -> Due:
    """What is due of the cone with these files, where this is the header of its journal.

    The records of the journal before the one that the log's last record names aren't read. So what is due is what would
    be if they were as in the undamaged journal, where that is given, whatever stands there now."""
    try:
        cone = Reopened(files, header)
        cone.read()
    except Broken as broken:
        return refused(header.cone, broken)
    except OtherSettings:
        return Refused(OTHER_SETTINGS, f"lert: cone {header.cone} has other settings\n")
    closed = cone.log.closed
    try:
        cone.take_older(undamaged or files[JOURNAL])
        cone.check()
    except (Left, Unsound):
        return Opened(header.cone, cone.count, closed, None)
    return Opened(header.cone, cone.count, closed, tuple(cone.reports(CLOSED if closed else LOOK)))


def dues_of(folder: Folder, settings: Settings, undamaged: Folder | None = None) -> list[Due]:
    """What is due of each cone, of whose undamaged journals some may be known."""
    journals = [files_in(undamaged or {}, cone)[JOURNAL] for cone in settings.cones()]
    return [due_of(files_in(folder, cone), settings.header(cone), journals[cone]) for cone in settings.cones()]


def is_sound(due: Due) -> bool:
    return isinstance(due, Opened) and due.reports is not None


# --- whether the one is the other


class Form(Answer):
    """An answer that may be given. Its texts are patterns, in which the program's own letters mean themselves."""

    def fits(self, answer: Answer) -> bool:
        same = answer.status == self.status
        return same and bool(re.fullmatch(self.out, answer.out) and re.fullmatch(self.err, answer.err))


def lines_of(due: Opened) -> str:
    mark = "closed" if due.closed else "open"
    if due.reports is None:
        return rf"cone {due.cone} events {due.events} reports \d+ {mark}\n(\d+ \d+\n)*"
    reports = "".join(f"{report.key} {report.at}\n" for report in due.reports)
    return f"cone {due.cone} events {due.events} reports {len(due.reports)} {mark}\n{reports}"


def text_of(opened: list[Opened]) -> str:
    """The text due of all cones, as a pattern."""
    numbers = [None if due.reports is None else len(due.reports) for due in opened]
    total = r"\d+" if None in numbers else sum(numbers)
    events = sum(due.events for due in opened)
    return "".join(map(lines_of, opened)) + f"total events {events} reports {total}\n"


def forms(dues: Iterable[Due]) -> Iterator[Form]:
    """The answers that may be given: cones are opened in their order, and the first refusal decides. Where files are
    sound for no packets, the cone may be opened or be refused for its log or for a frame."""
    opened: list[Opened] = []
    for due in dues:
        if isinstance(due, Refused):
            yield Form(due.status, "", due.line)
            return
        if due.reports is None:
            yield Form(MALFORMED, "", rf"lert: cone {due.cone} file (1 malformed at 0|2 malformed at \d+)\n")
        opened.append(due)
    yield Form(DONE, text_of(opened), "")


def fits(answer: Answer, dues: Iterable[Due]) -> bool:
    return any(form.fits(answer) for form in forms(dues))


def faults(
    answer: Answer, before: Folder, after: Folder, settings: Settings, undamaged: Folder | None = None
) -> Iterator[str]:
    """What is wrong with an answer over the files before it, and with those behind it."""
    dues = dues_of(before, settings, undamaged)
    if not fits(answer, dues):
        yield f"answered {answer}; due is {' or '.join(map(str, forms(dues)))}"
    yield from changes_of(before, after, settings, undamaged)


def changes_of(before: Folder, after: Folder, settings: Settings, undamaged: Folder | None = None) -> Iterator[str]:
    """What is wrong with the files behind a recovery. No journal may be changed, and where the files of a cone were
    sound, they have to be so for the same events, with the same reports."""
    for cone, due in enumerate(dues_of(before, settings, undamaged)):
        old, new = files_in(before, cone), files_in(after, cone)
        if old[JOURNAL] != new[JOURNAL]:
            yield f"the journal of cone {cone} was changed"
        elif is_sound(due):
            header = settings.header(cone)
            behind = due_of(new, header, as_read(old, header, files_in(undamaged or {}, cone)[JOURNAL]))
            if behind != due:
                yield f"the files of cone {cone} were those of {due}, and are those of {behind}"


def as_read(files: Files, header: Header, undamaged: bytes) -> bytes:
    """The journal of sound files with the records that a recovery reads as they are, and those before them as they are
    in the undamaged one, where that is given."""
    cone = Cone(files, header)
    cone.log.read(files[LOG])
    gate, _first = cone.log.begins()
    return (undamaged or files[JOURNAL])[:gate] + files[JOURNAL][gate:]
