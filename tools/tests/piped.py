"""Runs over a named pipe that is fed by hand, so that something can be done to them in the middle."""

from __future__ import annotations

import os
import shutil
import signal
import subprocess
import time
from contextlib import suppress
from typing import Callable, Iterable, Iterator

from lib.cones import JOURNAL
from lib.definitions import left_over, levels_of, look
from lib.formats import KEY_LEN, TRACE_MAGIC, Left, cone_of, packets, trace_bytes, units
from outside import KEYS, SMALL, Begin, Outside, Trial, some_keys
from recovery import DONE, HANGS, MALFORMED, Answer, Form, Opened, files_in, folder_at, text_of

# So many keys are written first, and some bytes of the next one.
FIRST_KEYS, MORE_BYTES = 60, 3
LOOKS_A_SECOND = 200


def keys_in(journal: bytes) -> int:
    count = 0
    with suppress(Left):
        for _gate, packet in packets(journal):
            count += len(packet.items)
    return count


def of_cones(keys: Iterable[int]) -> list[list[int]]:
    parts: list[list[int]] = [[] for _ in SMALL.cones()]
    for key in keys:
        parts[cone_of(SMALL.cone_bits, key)].append(key)
    return parts


def text_due(keys: Iterable[int]) -> str:
    """The text of a run of one worker over one trace of these keys."""
    opened = []
    for cone, part in enumerate(of_cones(keys)):
        events = list(units(part))
        looked = look(levels_of(SMALL.header(cone)), SMALL.threshold, events)
        reports = looked + left_over(SMALL.threshold, events, looked)
        opened.append(Opened(cone, len(events), True, tuple(reports)))
    return text_of(opened)


class Piped:
    """A run of one worker over a pipe, and the directory that it writes."""

    def __init__(self, outside: Outside, signals: Begin) -> None:
        place = outside.fresh()
        self.outside = outside
        self.folder = place / "d"
        self.keys = some_keys(KEYS)
        self.data = trace_bytes(1, units(self.keys))
        self.written = 0
        pipe = place / "pipe"
        os.mkfifo(pipe)
        # Opened for both, so that it doesn't wait for the program.
        self.feed = os.open(pipe, os.O_RDWR)
        self.process = subprocess.Popen(
            [outside.program, "run", *SMALL.words(), "--workers", "1", self.folder, pipe],
            stdin=subprocess.DEVNULL,
            stdout=subprocess.PIPE,
            stderr=subprocess.PIPE,
            preexec_fn=signals,
        )

    def write(self, upto: int) -> None:
        os.write(self.feed, self.data[self.written : upto])
        self.written = upto

    def in_packets(self) -> list[int]:
        """How many of the first keys of each cone fill packets."""
        parts = of_cones(self.keys[:FIRST_KEYS])
        return [len(part) // SMALL.packet * SMALL.packet for part in parts]

    def journaled(self) -> list[int]:
        folder = folder_at(self.folder)
        return [keys_in(files_in(folder, cone)[JOURNAL]) for cone in SMALL.cones()]

    def reaches_middle(self) -> bool:
        """Writes the first keys, and waits until the run has done all that it can with them."""
        self.write(len(TRACE_MAGIC) + FIRST_KEYS * KEY_LEN + MORE_BYTES)
        for _ in range(int(self.outside.clock.seconds * LOOKS_A_SECOND)):
            if self.journaled() == self.in_packets():
                return True
            time.sleep(1 / LOOKS_A_SECOND)
        return False

    def ends(self) -> Answer:
        """What the run answers, where all is written and the pipe is closed, or where it was stopped."""
        if self.process.poll() is None:
            self.write(len(self.data))
        os.close(self.feed)
        try:
            out, err = self.process.communicate(timeout=self.outside.clock.seconds)
        except subprocess.TimeoutExpired:
            self.process.kill()
            self.process.communicate()
            return Answer(HANGS, "", "")
        return Answer(self.process.returncode, out.decode(errors="replace"), err.decode(errors="replace"))

    def stopped_by(self, number: int) -> Answer:
        self.process.send_signal(number)
        with suppress(subprocess.TimeoutExpired):
            self.process.wait(self.outside.clock.seconds)
        return self.ends()


def usual_signals() -> None:
    """What a program finds that a terminal starts. A shell that puts a job into the background ignores some."""
    for number in (signal.SIGINT, signal.SIGTERM, signal.SIGHUP):
        signal.signal(number, signal.SIG_DFL)


def ignores_interrupts() -> None:
    signal.signal(signal.SIGINT, signal.SIG_IGN)


def in_middle(run: Piped, act: Callable[[Piped], Answer], due: Answer, recovered_due: Form) -> Trial:
    """A run that something is done to in its middle, and a recovery of its files."""
    wrong = [] if run.reaches_middle() else ["the first packets didn't come"]
    answer = act(run)
    if answer != due:
        wrong.append(f"answered {answer}; due is {due}")
    again, more = run.outside.clock.recovery(run.outside.program, run.folder)
    if not recovered_due.fits(again):
        wrong.append(f"recovered with {again}; due is {recovered_due}")
    return Trial(answer, again, wrong + more)


def stopped(outside: Outside, number: int) -> Trial:
    """A signal that nobody handles ends a run. What was in packets is there, in cones that are open."""
    run = Piped(outside, usual_signals)
    events = run.in_packets()
    lines = (rf"cone {cone} events {number} reports \d+ open\n(\d+ \d+\n)*" for cone, number in enumerate(events))
    again = Form(DONE, "".join(lines) + rf"total events {sum(events)} reports \d+\n", "")
    return in_middle(run, lambda run: run.stopped_by(number), Answer(-number, "", ""), again)


def interrupted(run: Piped) -> Answer:
    run.process.send_signal(signal.SIGINT)
    return run.ends()


def halted(run: Piped) -> Answer:
    run.process.send_signal(signal.SIGSTOP)
    time.sleep(1 / LOOKS_A_SECOND)
    run.process.send_signal(signal.SIGCONT)
    return run.ends()


def going_on(outside: Outside, act: Callable[[Piped], Answer]) -> Trial:
    """What is done to the run changes nothing."""
    run = Piped(outside, ignores_interrupts)
    text = text_due(run.keys)
    return in_middle(run, act, Answer(DONE, text, ""), Form(DONE, text, ""))


def without_folder(run: Piped) -> Answer:
    shutil.rmtree(run.folder)
    return run.ends()


def taken_away(outside: Outside) -> Trial:
    """The directory is deleted during a run. Its files are open and last as long, so all is read and printed; a
    recovery finds nothing behind it."""
    run = Piped(outside, usual_signals)
    nothing = Form(MALFORMED, "", "lert: cone 0 file 0 malformed at 0\n")
    return in_middle(run, without_folder, Answer(DONE, text_due(run.keys), ""), nothing)


def signal_trials(outside: Outside) -> Iterator[tuple[str, Trial]]:
    for number in (signal.SIGINT, signal.SIGTERM, signal.SIGHUP, signal.SIGKILL):
        yield f"a run over a pipe that {number.name} ends", stopped(outside, number)
    yield "a run over a pipe that ignores SIGINT", going_on(outside, interrupted)
    yield "a run over a pipe that is halted for a time", going_on(outside, halted)
    yield "a run whose directory is deleted", taken_away(outside)
