"""Several programs on one directory: what each of them answers, and what is wrong with that.

What is due stands in docs/FORMATS.md: of programs that have the directory at one time one goes on as if it were alone,
and the others are refused with status 2 and change nothing.
"""

from __future__ import annotations

import os
import subprocess
import time
from contextlib import suppress
from pathlib import Path
from typing import Iterator, Protocol, Sequence

from lib.cones import FRAMES
from lib.formats import trace_bytes, units
from outside import KEYS, PLACE_FAULT, SMALL, Outside, Trial, some_keys, write_folder
from piped import LOOKS_A_SECOND, Piped, text_due, usual_signals
from recovery import (
    DONE,
    HANGS,
    MALFORMED,
    Answer,
    Folder,
    Opened,
    changes_of,
    dues_of,
    file_name,
    folder_at,
    write_trace,
)

NOT_FRESH = 6
REFUSED = Answer(PLACE_FAULT, "", "lert: place fault\n")
LATE = Answer(NOT_FRESH, "", "lert: cone 0 not fresh\n")
NOTHING_THERE = Answer(MALFORMED, "", "lert: cone 0 file 0 malformed at 0\n")
MORE_CONES = SMALL._replace(cone_bits=SMALL.cone_bits + 2)
FILLER = 4096

Words = Sequence[str | Path]


def begun(outside: Outside, words: Words, out: int = subprocess.PIPE) -> subprocess.Popen[bytes]:
    program = [outside.program, *words]
    return subprocess.Popen(program, stdin=subprocess.DEVNULL, stdout=out, stderr=subprocess.PIPE)


def answer_of(outside: Outside, process: subprocess.Popen[bytes], out: bytes = b"") -> Answer:
    """What it answers, behind a text that was read of it already."""
    try:
        more, err = process.communicate(timeout=outside.clock.seconds)
    except subprocess.TimeoutExpired:
        process.kill()
        process.communicate()
        return Answer(HANGS, "", "")
    text = (out + (more or b"")).decode(errors="replace")
    return Answer(process.returncode, text, err.decode(errors="replace"))


def run_words(folder: Path, trace: Path) -> Words:
    return ["run", *SMALL.words(), "--workers", "1", folder, trace]


def recover_words(folder: Path) -> Words:
    return ["recover", *SMALL.words(), folder]


# --- beside one that has the directory


class Holder(Protocol):
    """A program that has a directory until it is let end."""

    folder: Path

    def has_begun(self) -> bool: ...

    def ends(self) -> Answer: ...


class Reading(Piped):
    """A run in the middle of a slow pipe."""

    def __init__(self, outside: Outside) -> None:
        super().__init__(outside, usual_signals)

    def has_begun(self) -> bool:
        return self.reaches_middle()


class Printing:
    """A run or a recovery that can't go on printing, since its output is full."""

    def __init__(self, outside: Outside, folder: Path, words: Words) -> None:
        self.outside = outside
        self.folder = folder
        self.read, write = os.pipe()
        self.filled = 0
        os.set_blocking(write, False)
        with suppress(BlockingIOError):
            while True:
                self.filled += os.write(write, bytes(FILLER))
        os.set_blocking(write, True)
        self.process = begun(outside, words, write)
        os.close(write)

    def has_last_file(self) -> bool:
        """The last file of the last cone is open."""
        last = file_name(SMALL.cones()[-1], FRAMES)
        place = Path(f"/proc/{self.process.pid}/fd")
        return last in {os.path.basename(os.readlink(link)) for link in place.iterdir()}

    def is_closed(self) -> bool:
        return all(isinstance(due, Opened) and due.closed for due in dues_of(folder_at(self.folder), SMALL))

    def has_begun(self) -> bool:
        """Waits until it has all files open, and nothing to write to them."""
        for _ in range(int(self.outside.clock.seconds * LOOKS_A_SECOND)):
            with suppress(FileNotFoundError):
                if self.has_last_file() and self.is_closed():
                    return True
            time.sleep(1 / LOOKS_A_SECOND)
        return False

    def ends(self) -> Answer:
        with os.fdopen(self.read, "rb") as output:
            text = output.read()
        return answer_of(self.outside, self.process, text[self.filled :])


def holders(outside: Outside, kept: Folder) -> Iterator[tuple[str, Holder]]:
    """What may have a directory, each of which prints the same text."""
    yield "a run over a slow pipe", Reading(outside)
    folder = outside.fresh() / "d"
    yield "a run that prints", Printing(outside, folder, run_words(folder, outside.paths[0]))
    folder = outside.fresh()
    write_folder(folder, kept)
    yield "a recovery that prints", Printing(outside, folder, recover_words(folder))


def others(outside: Outside, folder: Path) -> Iterator[Words]:
    """What comes beside it."""
    trace = outside.paths[0]
    yield run_words(folder, trace)
    yield recover_words(folder)
    yield ["run", *MORE_CONES.words(), folder, trace]
    yield ["recover", *MORE_CONES.words(), folder]


def refused(outside: Outside, folder: Path, words: Words) -> Trial:
    """A program that is refused, and leaves the directory as it was."""
    before = folder_at(folder)
    answer = outside.clock.asked(outside.program, words)
    wrong = [] if answer == REFUSED else [f"answered {answer}; due is {REFUSED}"]
    if folder_at(folder) != before:
        wrong.append("files were made or changed")
    return Trial(answer, None, wrong)


def as_alone(holder: Holder, outside: Outside, begins: bool) -> Trial:
    """The one that has the directory ends as if there had been no other, and its files are whole."""
    due = Answer(DONE, text_due(some_keys(KEYS)), "")
    answer = holder.ends()
    wrong = [] if begins else ["it didn't begin"]
    if answer != due:
        wrong.append(f"answered {answer}; due is {due}")
    again, more = outside.clock.recovery(outside.program, holder.folder)
    if again != due:
        wrong.append(f"recovered with {again}; due is {due}")
    return Trial(answer, again, wrong + more)


def beside_trials(outside: Outside, kept: Folder) -> Iterator[tuple[str, list[Trial]]]:
    for name, holder in holders(outside, kept):
        begins = holder.has_begun()
        trials = [refused(outside, holder.folder, words) for words in others(outside, holder.folder)]
        yield f"programs beside {name}", [*trials, as_alone(holder, outside, begins)]


# --- many at once


def crowd(outside: Outside, number: int) -> Iterator[Trial]:
    """So many runs that are let go on at one time, by a pipe that they wait for. One has the directory, and waits for
    the pipe's keys, which come when all others have answered."""
    place = outside.fresh()
    folder, pipe = place / "d", place / "pipe"
    os.mkfifo(pipe)
    runs = [begun(outside, run_words(folder, pipe)) for _ in range(number)]
    feed = os.open(pipe, os.O_RDWR)
    for run in all_but_one(outside, runs):
        run.kill()
    os.write(feed, trace_bytes(1, units(some_keys(KEYS))))
    os.close(feed)
    answers = [answer_of(outside, run) for run in runs]
    done = Answer(DONE, text_due(some_keys(KEYS)), "")
    again, wrong = outside.clock.recovery(outside.program, folder)
    if sorted(answers) != sorted([done, *[REFUSED] * (number - 1)]) or again != done:
        wrong.append(f"answered {set(answers)}, and recovered with {again}; due are {done} once, and {REFUSED}")
    yield from (Trial(answer, None, []) for answer in answers[1:])
    yield Trial(answers[0], again, wrong)


def all_but_one(outside: Outside, runs: list[subprocess.Popen[bytes]]) -> list[subprocess.Popen[bytes]]:
    """Those of the runs that wait, but for one, when all but one had their time to end."""
    deadline = time.monotonic() + outside.clock.seconds
    while True:
        waiting = [run for run in runs if run.poll() is None]
        if len(waiting) <= 1 or time.monotonic() > deadline:
            return waiting[1:]
        time.sleep(1 / LOOKS_A_SECOND)


def both(outside: Outside, first: Words, second: Words) -> list[Answer]:
    """What two programs answer that are started together."""
    processes = [begun(outside, words) for words in (first, second)]
    return [answer_of(outside, process) for process in processes]


def trials_of(outside: Outside, folder: Path, answers: list[Answer], wrong: list[str]) -> list[Trial]:
    again, more = outside.clock.recovery(outside.program, folder)
    return [Trial(answers[0], None, wrong), Trial(answers[1], again, more)]


class Pairs:
    """Pairs of programs that are started together on one directory, and what each leaves alone."""

    def __init__(self, outside: Outside, stopped: Folder) -> None:
        """The files of a run that was stopped, of which a recovery has something to write."""
        self.outside = outside
        self.stopped = stopped
        self.traces = [outside.place / f"one-of-two-{number}" for number in range(2)]
        for number, path in enumerate(self.traces):
            write_trace(path, some_keys(KEYS)[number * KEYS // 2 :][: KEYS // 2])
        self.alone = [self.left_alone(trace) for trace in self.traces]
        folder = outside.fresh()
        write_folder(folder, stopped)
        self.recovered = outside.clock.asked(outside.program, recover_words(folder))

    def left_alone(self, trace: Path) -> tuple[Answer, Folder]:
        folder = self.outside.fresh() / "d"
        answer = self.outside.clock.asked(self.outside.program, run_words(folder, trace))
        return answer, folder_at(folder)

    def runs(self) -> list[Trial]:
        """Two runs over different traces: one is as alone, and the files are its own."""
        folder = self.outside.fresh() / "d"
        answers = both(self.outside, *(run_words(folder, trace) for trace in self.traces))
        left = folder_at(folder)
        fits = any(self.is_one(answers, which, left) for which in range(2))
        return trials_of(self.outside, folder, answers, [] if fits else misfit(answers, left))

    def is_one(self, answers: list[Answer], which: int, left: Folder) -> bool:
        """Of two runs this one had the directory."""
        return (answers[which], left) == self.alone[which] and answers[1 - which] in (REFUSED, LATE)

    def run_and_recovery(self) -> list[Trial]:
        """A run and a recovery: they are one behind the other, or one of them is refused."""
        folder = self.outside.fresh() / "d"
        done, files = self.alone[0]
        ran, read = both(self.outside, run_words(folder, self.traces[0]), recover_words(folder))
        left = folder_at(folder)
        fits = (ran == done and read in (REFUSED, NOTHING_THERE, done) and left == files) or (
            ran == REFUSED and read == NOTHING_THERE and not any(left.values())
        )
        return trials_of(self.outside, folder, [ran, read], [] if fits else misfit([ran, read], left))

    def recoveries(self) -> list[Trial]:
        """Two recoveries: one is as alone, and the other is too, or is refused."""
        folder = self.outside.fresh()
        write_folder(folder, self.stopped)
        answers = both(self.outside, recover_words(folder), recover_words(folder))
        wrong = list(changes_of(self.stopped, folder_at(folder), SMALL))
        if self.recovered not in answers or not set(answers) <= {self.recovered, REFUSED}:
            wrong.append(f"answered {answers}; due is {self.recovered}, also twice, or {REFUSED} once")
        return trials_of(self.outside, folder, answers, wrong)


def misfit(answers: list[Answer], left: Folder) -> list[str]:
    return [f"answered {answers}, and left {({name: len(data) for name, data in left.items()})}"]


def together_trials(outside: Outside, stopped: Folder, number: int) -> Iterator[tuple[str, list[Trial]]]:
    """So many pairs of each kind."""
    pairs = Pairs(outside, stopped)
    for name, pair in (
        ("two runs at once", pairs.runs),
        ("a run and a recovery at once", pairs.run_and_recovery),
        ("two recoveries at once", pairs.recoveries),
    ):
        yield name, [trial for _ in range(number) for trial in pair()]
