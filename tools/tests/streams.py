"""Runs and recoveries whose standard streams are closed or full, and those in directories that can't be written.

What is due stands in docs/FORMATS.md: without an output status 11, and the status line only where there is a stream of
errors; status 2 where a file of a cone can't be opened or made. Nothing of the kind may change a file.
"""

from __future__ import annotations

import os
import shutil
from pathlib import Path
from typing import Iterator

from changes import put
from lib.cones import LOG
from lib.formats import TRACE_MAGIC
from outside import (
    OUTPUT_FAULT,
    PLACE_FAULT,
    SMALL,
    Begin,
    Outside,
    Trial,
    mounted,
    remount,
    write_folder,
)
from recovery import DONE, MALFORMED, Answer, Folder, changes_of, file_name, folder_at

BAD_TRACE = 4
NOBODY = 65534
# In the header of a log, of which 1 is the one that is known.
VERSION_AT, OTHER_VERSION = 5, 2


def closes(*streams: int) -> Begin:
    return lambda: [os.close(stream) for stream in streams]


def fills() -> None:
    os.dup2(os.open("/dev/full", os.O_WRONLY), 1)


def goes_nowhere() -> None:
    read, write = os.pipe()
    os.dup2(write, 1)
    os.close(read)
    os.close(write)


# The streams by number: 0 the input, 1 the output, 2 the errors.
STREAMS: dict[str, Begin] = {
    "a closed input": closes(0),
    "closed errors": closes(2),
    "closed input and errors": closes(0, 2),
    "a closed output": closes(1),
    "closed input and output": closes(0, 1),
    "closed output and errors": closes(1, 2),
    "closed input, output and errors": closes(0, 1, 2),
    "a full output": fills,
    "an output that nobody reads": goes_nowhere,
}


def due_with(streams: str, whole: Answer) -> Answer:
    """What is due with these streams where with others this is."""
    if "output" in streams and whole.out:
        whole = Answer(OUTPUT_FAULT, "", "lert: output fault\n")
    return Answer(whole.status, whole.out, "" if "errors" in streams else whole.err)


def differs(answer: Answer, due: Answer) -> list[str]:
    return [] if answer == due else [f"answered {answer}; due is {due}"]


class Streams:
    """What is tried with each of these streams: a run over one trace and a recovery, ones that are refused, and
    commands without files. The files that are opened first may get the numbers of streams that are closed."""

    def __init__(self, outside: Outside, kept: Folder, text: str) -> None:
        """The files that a run leaves, and the text that it prints."""
        self.outside = outside
        self.kept = kept
        self.text = text
        self.cut = outside.place / "cut"
        data = outside.paths[0].read_bytes()
        self.cut.write_bytes(data + TRACE_MAGIC[:3])
        self.cut_line = f"lert: trace 0 bad at {len(data)}\n"

    def run(self, streams: str, trace: Path, whole: Answer) -> Trial:
        folder = self.outside.fresh() / "d"
        before = trace.read_bytes()
        words = ["run", *SMALL.words(), "--workers", "1", folder, trace]
        answer = self.outside.clock.asked(self.outside.program, words, STREAMS[streams])
        wrong = differs(answer, due_with(streams, whole))
        wrong += self.outside.left_faults(answer.status, folder_at(folder))
        if before != trace.read_bytes():
            wrong.append("the trace was changed")
        again, more = self.outside.clock.recovery(self.outside.program, folder)
        return Trial(answer, again, wrong + more)

    def recovery(self, streams: str, kept: Folder, whole: Answer) -> Trial:
        folder = self.outside.fresh()
        write_folder(folder, kept)
        words = ["recover", *SMALL.words(), folder]
        answer = self.outside.clock.asked(self.outside.program, words, STREAMS[streams])
        wrong = [*differs(answer, due_with(streams, whole)), *changes_of(kept, folder_at(folder), SMALL)]
        if whole.status != DONE and folder_at(folder) != kept:
            wrong.append("refused files were changed")
        again, more = self.outside.clock.recovery(self.outside.program, folder)
        return Trial(answer, again, wrong + more)

    def other(self, streams: str, words: list[str], whole: Answer) -> Trial:
        """A command without files."""
        answer = self.outside.clock.asked(self.outside.program, words, STREAMS[streams])
        return Trial(answer, None, differs(answer, due_with(streams, whole)))

    def trials(self, streams: str) -> Iterator[Trial]:
        done, bad = Answer(DONE, self.text, ""), Answer(BAD_TRACE, "", self.cut_line)
        yield self.run(streams, self.outside.paths[0], done)
        yield self.run(streams, self.cut, bad)
        yield self.recovery(streams, self.kept, done)
        log = file_name(0, LOG)
        other = {**self.kept, log: put(self.kept[log], VERSION_AT, OTHER_VERSION)}
        malformed = Answer(MALFORMED, "", f"lert: cone 0 file {LOG} malformed at {VERSION_AT}\n")
        yield self.recovery(streams, other, malformed)
        trace = Answer(DONE, TRACE_MAGIC.decode(), "")
        yield self.other(streams, ["gen", "--events", "0"], trace)
        none = "cone 0 events 0 reports 0 keys 0000000000000000\ntotal events 0 reports 0\n"
        yield self.other(streams, ["drill", "--events", "0", "--cone-bits", "0"], Answer(DONE, none, ""))


def stream_trials(outside: Outside, kept: Folder, text: str) -> Iterator[tuple[str, list[Trial]]]:
    every = Streams(outside, kept, text)
    for streams in STREAMS:
        yield f"runs and recoveries with {streams}", list(every.trials(streams))


# --- directories that can't be written


def becomes_nobody() -> None:
    """Leaves root, whom no mode of a file stops."""
    if os.getuid() == 0:
        os.setgroups([])
        os.setgid(NOBODY)
        os.setuid(NOBODY)


def refused_place(outside: Outside, folder: Path, words: list[str | Path], begin: Begin, opens: Begin) -> Trial:
    """A run or a recovery that can't write its directory, and a recovery behind what opens it."""
    before = folder_at(folder)
    answer = outside.clock.asked(outside.program, words, begin)
    wrong = differs(answer, Answer(PLACE_FAULT, "", "lert: place fault\n"))
    if folder_at(folder) != before:
        wrong.append("files were made or changed")
    opens()
    again, more = outside.clock.recovery(outside.program, folder)
    return Trial(answer, again, wrong + more)


def places(place: Path, kept: Folder) -> Iterator[Path]:
    """An empty directory, one with the files of a run, and one that isn't there."""
    for name, files in (("empty", {}), ("full", kept)):
        folder = place / name
        folder.mkdir()
        write_folder(folder, files)
        yield folder
    yield place / "nowhere"


def set_modes(place: Path, of_folder: int, of_file: int) -> None:
    for path in [*place.rglob("*"), place]:
        path.chmod(of_folder if path.is_dir() else of_file)


def both_words(outside: Outside, folder: Path) -> Iterator[list[str | Path]]:
    yield outside.run_words(folder)
    yield ["recover", *SMALL.words(), folder]


def each_place(outside: Outside, kept: Folder, place: Path) -> Iterator[tuple[Path, list[str | Path]]]:
    """Such a directory, made anew for each run and each recovery in it."""
    for number in range(len(list(places(place, kept)))):
        for which in range(2):
            shutil.rmtree(place)
            place.mkdir(mode=0o755)
            folder = list(places(place, kept))[number]
            yield folder, list(both_words(outside, folder))[which]


def by_modes(outside: Outside, kept: Folder) -> Iterator[Trial]:
    """The modes of directories and files forbid it."""
    place = outside.place / "modes"
    place.mkdir(mode=0o755)
    for folder, words in each_place(outside, kept, place):
        set_modes(place, 0o555, 0o444)
        yield refused_place(outside, folder, words, becomes_nobody, lambda: set_modes(place, 0o755, 0o644))


def by_mount(outside: Outside, kept: Folder) -> Iterator[Trial]:
    """The file system forbids it."""
    disk = outside.place / "read-only"
    with mounted(disk, "size=4m") as can_mount:
        place = disk / "place"
        place.mkdir()
        for folder, words in each_place(outside, kept, place) if can_mount else ():
            remount(disk, "ro")
            yield refused_place(outside, folder, words, lambda: None, lambda: remount(disk, "rw"))
