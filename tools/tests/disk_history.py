"""What a program wrote and synced, call by call, as preload/record_writes.c records it, and what the disk had meanwhile.

It knows nothing of the program. A whole recording is kept in memory.
"""

from __future__ import annotations

import os
import struct
import subprocess
from pathlib import Path
from typing import Iterable, Iterator, Mapping, NamedTuple, Sequence

from lib.formats import OPEN
from recovery import Answer, Folder, asked

# As preload/record_writes.c has them: a kind, the length of a path, a place, that of the bytes, and a result.
STEP = struct.Struct("=2I2Qq")
WRITE_BEGINS, WRITE_ENDS, SYNC_BEGINS, SYNC_ENDS, PRINTS = range(5)
STANDARD_OUTPUT = 1
SECONDS = 20


class BadRecording(Exception):
    """A recording that can't be, or that isn't all that was done. The text says why."""


class Step(NamedTuple):
    """A call that begins or ends, on the file of this name."""

    kind: int
    name: str
    at: int
    data: bytes
    result: int


class Write(NamedTuple):
    at: int
    data: bytes

    def end(self) -> int:
        return self.at + len(self.data)


def put(data: bytearray, write: Write) -> None:
    """The file grows where the bytes reach past its end, and a gap before them is zero bytes."""
    data.extend(bytes(max(0, write.at - len(data))))
    data[write.at : write.end()] = write.data


class File:
    """A file at a moment: the bytes that its last sync made durable, and the writes that have begun since, in order."""

    def __init__(self, synced: bytes = b"") -> None:
        self.synced = bytearray(synced)
        self.pending: list[Write] = []
        self.call: int | None = None

    def take(self, step: Step) -> None:
        begins = step.kind in (WRITE_BEGINS, SYNC_BEGINS)
        if (self.call is None) != begins or (not begins and self.call != step.kind - 1):
            raise BadRecording(f"calls on {step.name} don't come one after the other")
        self.call = step.kind if begins else None
        if step.kind == WRITE_BEGINS:
            self.pending.append(Write(step.at, step.data))
        elif step.kind == SYNC_ENDS:
            for write in self.pending:
                put(self.synced, write)
            self.pending.clear()

    def written(self) -> bytes:
        """As a read gives it, where no call goes on."""
        data = bytearray(self.synced)
        for write in self.pending:
            put(data, write)
        return bytes(data)


class Moment:
    """The files behind some steps, and whether anything was printed."""

    def __init__(self, start: Folder) -> None:
        self.files = {name: File(data) for name, data in start.items()}
        self.printed = False

    def take(self, step: Step) -> None:
        if step.kind == PRINTS:
            self.printed = self.printed or step.at == STANDARD_OUTPUT
        else:
            self.files.setdefault(step.name, File()).take(step)

    def file(self, name: str) -> File:
        return self.files.get(name, File())


class Recording(NamedTuple):
    """The files before a program began, and its steps."""

    start: Folder
    steps: Sequence[Step]

    def at(self, count: int) -> Moment:
        moment = Moment(self.start)
        for step in self.steps[:count]:
            moment.take(step)
        return moment

    def unparted(self, suffix: str) -> list[int]:
        """Behind how many steps two writes to a file of this suffix are without a sync."""
        moment = Moment(self.start)
        found: list[int] = []
        for count, step in enumerate(self.steps, 1):
            moment.take(step)
            if any(name.endswith(f".{suffix}") and len(file.pending) > 1 for name, file in moment.files.items()):
                found.append(count)
        return found


def steps_in(data: bytes) -> Iterator[Step]:
    at = 0
    while at < len(data):
        kind, path_len, place, count, result = STEP.unpack_from(data, at)
        path_at = at + STEP.size
        at = path_at + path_len + count
        path = data[path_at : path_at + path_len].decode()
        yield Step(kind, path.rpartition("/")[2], place, data[path_at + path_len : at], result)


def check_calls(steps: Iterable[Step]) -> None:
    """Refuses calls that failed or wrote less than they were asked for, of which no trial knows."""
    asked_for: dict[str, int] = {}
    for step in steps:
        if step.kind == WRITE_BEGINS:
            asked_for[step.name] = len(step.data)
        due = asked_for.get(step.name) if step.kind == WRITE_ENDS else 0
        if step.result != due:
            raise BadRecording(f"a call on {step.name} answered {step.result}")


def checked(recording: Recording, left: Folder) -> Recording:
    """The recording, where it makes just the files that were left."""
    check_calls(recording.steps)
    moment = recording.at(len(recording.steps))
    made = {name: file.written() for name, file in moment.files.items() if file.written()}
    if made != {name: data for name, data in left.items() if data}:
        raise BadRecording("the recorded writes don't make the files")
    return recording


# --- the syncs of a recording


def is_gate(write: Write | None) -> bool:
    return write is not None and write.data == bytes([OPEN])


def sync_kinds(steps: Sequence[Step]) -> Iterator[tuple[int, str]]:
    """Where each sync begins, with what it makes durable: the file's suffix, and whether a gate was opened. The first
    one of a file of records comes behind its header, and isn't named."""
    last: dict[str, Write] = {}
    begun: set[str] = set()
    for place, step in enumerate(steps):
        if step.kind == WRITE_BEGINS:
            last[step.name] = Write(step.at, step.data)
        elif step.kind == SYNC_BEGINS:
            suffix = step.name.rpartition(".")[2]
            if suffix == "frames" or step.name in begun:
                yield place, f"{suffix} gate" if is_gate(last.get(step.name)) and suffix != "frames" else suffix
            begun.add(step.name)


def without_syncs(recording: Recording, kind: str) -> Recording:
    """The recording of a program that doesn't make the syncs of this kind."""
    left_out = {place for place, found in sync_kinds(recording.steps) if found == kind}
    ending = {recording.steps[place].name: False for place in left_out}
    steps: list[Step] = []
    for place, step in enumerate(recording.steps):
        if place in left_out:
            ending[step.name] = True
        elif step.kind == SYNC_ENDS and ending.get(step.name):
            ending[step.name] = False
        else:
            steps.append(step)
    return recording._replace(steps=steps)


# --- the program that is recorded


def made_library(place: Path) -> Path:
    library, source = place / "record_writes.so", Path(__file__).with_name("preload") / "record_writes.c"
    compiled = subprocess.run(["cc", "-O2", "-shared", "-fPIC", "-o", library, source])
    if compiled.returncode != 0:
        raise BadRecording("record_writes.c does not compile")
    return library


class Recorder(NamedTuple):
    """A program, and the library that records it."""

    program: Path
    library: Path

    def asked(self, words: Sequence[str | Path], place: Path) -> tuple[Answer, list[Step]]:
        """What the program answers, and its steps, which are put into a file at this place."""
        place.write_bytes(b"")
        variables: Mapping[str, str] = {**os.environ, "LD_PRELOAD": str(self.library), "RECORDING": str(place)}
        answer = asked(self.program, words, SECONDS, variables)
        return answer, list(steps_in(place.read_bytes()))
