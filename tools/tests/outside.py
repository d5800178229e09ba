"""Small runs and recoveries of the program over an outside that fails, what is due of them, and what is wrong.

Calls fail by a library that is loaded before the C library (fail_calls.c). What is due stands in docs/FORMATS.md and the
definitions; nothing here knows more of the program.
"""

from __future__ import annotations

import os
import random
import struct
import subprocess
import tempfile
import time
from contextlib import contextmanager
from enum import IntEnum
from pathlib import Path
from typing import Callable, Iterator, Mapping, NamedTuple, Sequence

from lib.cones import JOURNAL, LOG
from lib.formats import HEADER_LEN, LOG_MAGIC, Left, units
from lib.weaves import Weave, parts_of, weave_of
from lib.words import Settings
from recovery import (
    DONE,
    Answer,
    Folder,
    Form,
    Opened,
    asked,
    changes_of,
    dues_of,
    faults,
    files_in,
    folder_at,
    forms,
    is_sound,
    write_trace,
)

PLACE_FAULT, TRACE_FAULT, DISK_FAULT, OUTPUT_FAULT = 2, 3, 7, 11
# A cone takes 71 keys, and moves bins to its second level.
SMALL = Settings(threshold=3, bins=3, ratio=2, base=4, levels=2, cone_bits=1, room=32, packet=8)
TRACES = 2
KEYS = 100
SEED = 1
# Any text, of several lines too.
ANY = r"(?s:.*)"

Begin = Callable[[], object]


class Failure(Exception):
    """The trials can't begin. The text says why."""


class Clock:
    """How long an answer may take, and the longest time that one took."""

    def __init__(self, seconds: float) -> None:
        self.seconds = seconds
        self.longest = 0.0

    def asked(
        self,
        program: Path,
        words: Sequence[str | Path],
        begin: Begin | None = None,
        variables: Mapping[str, str] | None = None,
    ) -> Answer:
        begun = time.monotonic()
        answer = asked(program, words, self.seconds, variables, begin)
        self.longest = max(self.longest, time.monotonic() - begun)
        return answer

    def recovery(self, program: Path, folder: Path) -> tuple[Answer, list[str]]:
        """What `recover` answers over a folder, and what is wrong with that."""
        before = folder_at(folder)
        answer = self.asked(program, ["recover", *SMALL.words(), folder])
        return answer, list(faults(answer, before, folder_at(folder), SMALL))


class Kind(IntEnum):
    """The calls of the outside, in the order of fail_calls.c."""

    OPEN = 0
    MKDIR = 1
    STAT_PATH = 2
    STAT_FILE = 3
    READ = 4
    PREAD = 5
    PWRITE = 6
    SYNC = 7
    WRITE = 8
    THREAD = 9
    LOCK = 10


class Wanted(NamedTuple):
    """What is to go wrong: the call of a kind with this number, from 1 on, or none for 0; files that may get longer by
    so many bytes alone; reads and writes that move half of their bytes, or are broken off each other time; and the
    signal that may end the program, or 0."""

    kind: Kind = Kind.OPEN
    number: int = 0
    error: int = 0
    room: int | None = None
    halved: bool = False
    interrupted: bool = False
    deadly: int = 0

    def packed(self) -> bytes:
        limited, room = self.room is not None, self.room or 0
        numbers = (self.kind, self.number, self.error, limited, room, self.halved, self.interrupted)
        return TALLY.pack(*map(int, numbers), *[0] * (NUMBERS - len(numbers)))


# As fail_calls.c has them.
MOST_CONES = 16
NUMBERS = 12 + len(Kind) + MOST_CONES
TALLY = struct.Struct(f"={NUMBERS}Q")


class Found(NamedTuple):
    """What the library saw: how many calls failed, how many writes were cut short, by how many bytes files got longer,
    the cones and the traces of which a file failed, the calls of each kind, and the packets of each cone that the run
    saw on the disk."""

    failed: int
    cut: int
    grown: int
    cones: list[int]
    traces: list[int]
    calls: Sequence[int]
    packets: Sequence[int]


NOTHING = Found(0, 0, 0, [], [], [0] * len(Kind), [])


def bits_in(number: int) -> list[int]:
    return [bit for bit in range(number.bit_length()) if number >> bit & 1]


def found_in(tally: bytes) -> Found:
    numbers = TALLY.unpack(tally)
    failed, cut, grown, cones, traces = numbers[7:12]
    calls = numbers[12 : 12 + len(Kind)]
    return Found(failed, cut, grown, bits_in(cones), bits_in(traces), calls, numbers[12 + len(Kind) :])


def made_library(place: Path, source: str) -> Path:
    """The library of a source in preload/."""
    library = place / source.replace(".c", ".so")
    path = Path(__file__).with_name("preload") / source
    command = ["cc", "-O2", "-U_FORTIFY_SOURCE", "-shared", "-fPIC", "-o", library, path]
    if subprocess.run(command).returncode != 0:
        raise Failure(f"{source} does not compile")
    return library


def some_keys(number: int) -> list[int]:
    """So many keys: half of them one of ten, and half of them any."""
    draw = random.Random(SEED)
    return [draw.randrange(10) if draw.random() < 0.5 else draw.getrandbits(64) for _ in range(number)]


def some_traces(number: int, traces: int = TRACES) -> list[list[int]]:
    """So many keys, dealt to the traces in turn."""
    keys = some_keys(number)
    return [keys[trace::traces] for trace in range(traces)]


class Trial(NamedTuple):
    """What the program answered, what `recover` did behind it, where there was anything to recover, what is wrong, and
    what the library saw, where it was there."""

    answer: Answer
    recovered: Answer | None
    faults: list[str]
    found: Found = NOTHING


class Outside:
    """Traces of few keys in a place, the program, and the library that lets calls fail."""

    def __init__(self, program: Path, library: Path, place: Path, clock: Clock, workers: int, traces: int) -> None:
        self.program = program
        self.clock = clock
        self.library = library
        self.place = place
        self.workers = workers
        keys = some_traces(KEYS, traces)
        self.parts = [parts_of(SMALL.cone_bits, units(trace)) for trace in keys]
        self.paths = [place / f"trace{number}" for number in range(traces)]
        for path, trace in zip(self.paths, keys):
            write_trace(path, trace)

    def fresh(self) -> Path:
        """A place of its own."""
        return Path(tempfile.mkdtemp(dir=self.place))

    def run_words(self, folder: Path) -> list[str | Path]:
        return ["run", *SMALL.words(), "--workers", str(self.workers), folder, *self.paths]

    def asked(self, words: list[str | Path], wanted: Wanted, begin: Begin | None = None) -> tuple[Answer, Found]:
        """What the program answers where this goes wrong, in a process that begins with a call."""
        tally = self.fresh() / "tally"
        tally.write_bytes(wanted.packed())
        variables = {**os.environ, "LD_PRELOAD": str(self.library), "OUTSIDE_TALLY": str(tally)}
        answer = self.clock.asked(self.program, words, begin, variables)
        return answer, found_in(tally.read_bytes())

    def run(
        self,
        wanted: Wanted,
        begin: Begin | None = None,
        folder: Path | None = None,
        between: Begin = lambda: None,
    ) -> Trial:
        """A run where this goes wrong, and a recovery of its files where nothing does, with a call between the two."""
        folder = folder or self.fresh() / "d"
        answer, found = self.asked(self.run_words(folder), wanted, begin)
        between()
        left = folder_at(folder)
        wrong = [*answer_faults(answer, wanted, found, left), *self.left_faults(answer.status, left, found.packets)]
        again, more = self.clock.recovery(self.program, folder)
        return Trial(answer, again, wrong + more, found)

    def recovery(self, kept: Folder, wanted: Wanted) -> Trial:
        """A recovery of these files where this goes wrong, and another one where nothing does."""
        folder = self.fresh()
        write_folder(folder, kept)
        answer, found = self.asked(["recover", *SMALL.words(), folder], wanted)
        left = folder_at(folder)
        wrong = [*answer_faults(answer, wanted, found, kept, there=True), *changes_of(kept, left, SMALL)]
        again, more = self.clock.recovery(self.program, folder)
        if any(due != then for due, then in zip(dues_of(kept, SMALL), dues_of(folder_at(folder), SMALL))):
            more.append("the second recovery left other events or reports")
        return Trial(answer, again, wrong + more, found)

    def weave(self, folder: Folder, cone: int) -> Weave:
        """A cone's journal beside the keys of the traces. One that wasn't made has no packets."""
        journal = files_in(folder, cone)[JOURNAL]
        if len(journal) <= HEADER_LEN:
            return Weave(0, 0, "", "")
        try:
            return weave_of(journal, self.workers, [part[cone] for part in self.parts])
        except Left as left:
            return Weave(0, 0, str(left), str(left))

    def left_faults(self, status: int, folder: Folder, packets: Sequence[int] | None = None) -> Iterator[str]:
        """What is wrong with the files that a run left: of cones that were made, unsound ones, journals that are no
        weave, and packets that were seen on the disk and aren't there, or more than one that wasn't; of cones that
        weren't made, any packet in another one."""
        is_whole = status in (DONE, OUTPUT_FAULT)
        weaves = [self.weave(folder, cone) for cone in SMALL.cones()]
        unmade = [cone for cone in SMALL.cones() if is_unmade(folder, cone)]
        if unmade and (is_whole or any(weave.packets for weave in weaves)):
            yield f"cones {unmade} weren't made behind status {status}, and there are packets: {weaves}"
        for cone, weave in enumerate(weaves):
            if lack := weave.missing if is_whole else weave.broken:
                yield f"the journal of cone {cone} is no weave: {lack}"
            if packets is not None and not packets[cone] <= weave.packets <= packets[cone] + (not is_whole):
                yield f"cone {cone} has {weave.packets} packets, of which the run saw {packets[cone]} on the disk"
        for cone, due in enumerate(dues_of(folder, SMALL)):
            if cone not in unmade and not (isinstance(due, Opened) and is_sound(due) and due.closed >= is_whole):
                yield f"the run left cone {cone} as {due}"


def write_folder(path: Path, files: Folder) -> None:
    for name, data in files.items():
        (path / name).write_bytes(data)


def is_unmade(folder: Folder, cone: int) -> bool:
    """The run was still making the journal or the log of this cone."""
    files = files_in(folder, cone)
    return len(files[JOURNAL]) <= HEADER_LEN or len(files[LOG]) <= len(LOG_MAGIC)


# --- small file systems


@contextmanager
def mounted(place: Path, options: str) -> Iterator[bool]:
    """A file system in memory at a place that isn't there yet, where one can be mounted."""
    place.mkdir()
    done = subprocess.run(["mount", "-t", "tmpfs", "-o", options, "none", place], capture_output=True).returncode == 0
    try:
        yield done
    finally:
        if done:
            subprocess.run(["umount", place], check=True)


def remount(place: Path, options: str) -> None:
    subprocess.run(["mount", "-o", f"remount,{options}", place], check=True)


# --- what is due


def failed_form(wanted: Wanted, found: Found, there: bool) -> Form | None:
    """The answer that is due where calls failed, or None where that changes nothing. The directory may have been there
    before: then it needn't be made."""
    if found.cones:
        return Form(DISK_FAULT, "", f"lert: cone {min(found.cones)} disk fault\n")
    if found.traces:
        return Form(TRACE_FAULT, "", f"lert: trace {min(found.traces)} fault\n")
    is_harmless = wanted.kind == Kind.THREAD or (wanted.kind == Kind.MKDIR and (there or wanted.number > 1))
    if found.failed == 0 or is_harmless:
        return None
    if wanted.kind == Kind.WRITE:
        return Form(OUTPUT_FAULT, ANY, "lert: output fault\n")
    return Form(PLACE_FAULT, "", "lert: place fault\n")


def answer_faults(answer: Answer, wanted: Wanted, found: Found, files: Folder, there: bool = False) -> Iterator[str]:
    """What is wrong with an answer of a run that left these files, or of a recovery of them."""
    if wanted.deadly and answer == Answer(-wanted.deadly, "", ""):
        return
    whole = list(forms(dues_of(files, SMALL)))
    form = failed_form(wanted, found, there)
    if not any(due.fits(answer) for due in ([form] if form else whole)):
        yield f"answered {answer}; due is {form or whole}"
    elif answer.status == OUTPUT_FAULT and not whole[-1].out.startswith(answer.out):
        yield f"printed {answer.out!r}, and the text is {whole[-1].out!r}"
