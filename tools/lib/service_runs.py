"""The runs of a service: each in a directory of its own, by a packer and the program behind it.

A directory has the files of its run and, besides: `names` (of `keys pack`), `report` (what the run printed, or a
recovery), `said` (what both said), `options` (of the run), `lock` (held while one of both lives), and `ended`, once it
is known how many of its records are in the journals.

Records are counted by their amounts, where they have any: a crash may leave a part of one in a journal.
"""

from __future__ import annotations

import fcntl
import json
import os
import select
import shutil
import subprocess
import time
from contextlib import suppress
from dataclasses import asdict, dataclass, field
from functools import cache
from pathlib import Path
from typing import Callable, Iterator, Sequence

from .cones import SUFFIXES
from .formats import BadNumbers
from .inputs import BadInput
from .loads import NONE, Load, most, room_of, total
from .metrics import write
from .run_state import Run
from .words import Settings

TOOLS = Path(__file__).resolve().parents[1]
PACKER = TOOLS / "keys"
STATE_LEN = 4096
# A pipe takes so much at once or nothing, so that who is stopped leaves no part of a line in it.
MOST_WRITE = 4096
BETWEEN_LOOKS = 0.05
# A run has so many seconds to end by the end of its input: it merges all that it has on the disk.
TO_END = 600.0


class Ends(Exception):
    """The service can't go on. The text says why."""


@dataclass
class State:
    """What a service has to know behind a crash. It stands in a file that is written in its place before records are
    handed on, so that no record is in a journal that isn't counted here."""

    serial: int = 0
    # The directory that is written, and how many records were handed to it, or what they amount to.
    folder: str = ""
    given: int = 0
    # Of all time: how many records were read, how many lines were none, and how many records, or which amount of them,
    # are in no journal.
    records: int = 0
    bad: int = 0
    lost: int = 0
    # Of a file that is followed: the place behind what was handed on; that before the directory's first records, and
    # how many of those behind it, or how much of them, went to another one; up to which place records are read again,
    # and how many, or how much, of these stands in a journal.
    place: dict[str, int] = field(default_factory=dict)
    start: dict[str, int] = field(default_factory=dict)
    start_skip: int = 0
    upto: dict[str, int] = field(default_factory=dict)
    skip: int = 0
    # Of a named pipe: whether it may begin inside a line whose beginning was read, and whether that line is counted.
    cut: bool = False
    cut_is_counted: bool = False

    def text(self) -> bytes:
        return json.dumps(asdict(self)).encode().ljust(STATE_LEN - 1) + b"\n"


class StateFile:
    def __init__(self, path: Path) -> None:
        self.file = os.open(path, os.O_RDWR | os.O_CREAT, 0o644)
        with suppress(BlockingIOError):
            fcntl.flock(self.file, fcntl.LOCK_EX | fcntl.LOCK_NB)
            self.state = self.kept(path)
            self.save(synced=True)
            return
        raise Ends(f"{path}: another service has this directory")

    def kept(self, path: Path) -> State:
        text = os.pread(self.file, STATE_LEN, 0).strip(b"\0 \n")
        try:
            return State(**json.loads(text)) if text else State()
        except (ValueError, TypeError):
            raise Ends(f"{path}: no state of a service, which begins anew without that file") from None

    def save(self, synced: bool = False) -> None:
        os.pwrite(self.file, self.state.text(), 0)
        if synced:
            os.fsync(self.file)


@cache
def program() -> str:
    """The path of the program that ./lert takes."""
    found = subprocess.run([TOOLS / "lib/program"], stdout=subprocess.PIPE)
    if found.returncode:
        raise Ends("there is no program to run")
    return found.stdout.decode().strip()


class Directory:
    """A run that goes on."""

    def __init__(self, place: Path, settings: Settings, packing: Sequence[str], named: bool) -> None:
        self.place = place
        self.settings = settings
        self.room = room_of(settings.header(0))
        self.begun = time.time()
        self.given = NONE
        self.run: Run | None = None
        # Of each cone.
        self.loads: list[Load] = []
        place.mkdir(parents=True)
        (place / "options").write_text(" ".join(settings.words()) + "\n")
        names = ["--names", str(place / "names")] if named else []
        self.begin([str(PACKER), "pack", *packing, *names, "-"])

    def begin(self, packing: Sequence[str]) -> None:
        lock = os.open(self.place / "lock", os.O_RDWR | os.O_CREAT)
        fcntl.flock(lock, fcntl.LOCK_EX)
        running = [program(), "run", *self.settings.words(), "--workers", "1", str(self.place), "/dev/stdin"]
        alone = {"start_new_session": True, "pass_fds": [lock]}
        with (self.place / "said").open("ab") as said, (self.place / "report").open("wb") as report:
            self.packer = subprocess.Popen(packing, stdin=subprocess.PIPE, stdout=subprocess.PIPE, stderr=said, **alone)
            self.lert = subprocess.Popen(running, stdin=self.packer.stdout, stdout=report, stderr=said, **alone)
        os.close(lock)
        assert self.packer.stdin is not None and self.packer.stdout is not None
        self.packer.stdout.close()
        self.input = self.packer.stdin.fileno()
        os.set_blocking(self.input, False)

    def is_over(self, period: int) -> bool:
        """Whether the hour, the day or whatever it was begun in is over."""
        return int(time.time()) // period != int(self.begun) // period

    def is_alive(self) -> bool:
        return self.packer.poll() is None and self.lert.poll() is None

    def give(self, data: bytes, idle: Callable[[], None]) -> bool:
        """Hands records on. False: one of both has ended."""
        at = 0
        while at < len(data):
            if not select.select([], [self.input], [], 0.5)[1]:
                idle()
                if not self.is_alive():
                    return False
                continue
            # A line that is longer goes in parts.
            end = data.rfind(b"\n", at, at + MOST_WRITE) + 1 or at + MOST_WRITE
            try:
                at += os.write(self.input, data[at:end])
            except BlockingIOError:
                time.sleep(BETWEEN_LOOKS)
            except BrokenPipeError:
                return False
        return True

    def look(self) -> Run | None:
        """The files of the run, once they are there, with their logs read."""
        with suppress(BadInput, BadNumbers, OSError):
            self.run = self.run or Run(self.place)
            self.run.read()
        return self.run

    def count(self) -> list[Load]:
        """What is in each cone by now."""
        if self.run is not None or self.look() is not None:
            with suppress(BadInput, OSError):
                self.loads = [journal.load() for journal in self.run.journals]
        return self.loads

    def waiting(self) -> Load:
        """What is on its way to the journals, as far as it is known."""
        return self.given.less(total(self.loads))

    def fullest(self) -> Load:
        """At most so much is in the fullest cone once all that was given has come."""
        return most(self.loads).plus(self.waiting())

    def has_room(self, more: Load, fill: float) -> bool:
        """Whether so much more leaves each cone below this share of what it takes. What is under way may be in any
        cone, and is waited for where that decides."""
        room = self.room.part(fill)
        waits = self.waiting().items
        until = time.monotonic() + 2.0
        while not self.fullest().plus(more).fits(room) and self.is_alive():
            self.count()
            is_sure = not most(self.loads).plus(more).fits(room)
            if is_sure or time.monotonic() >= until or self.waiting().items >= waits and self.is_idle():
                break
            time.sleep(BETWEEN_LOOKS)
        return self.fullest().plus(more).fits(room)

    def is_idle(self) -> bool:
        """Whether no more can be on its way than waits for its packet."""
        return self.waiting().items <= 4 * self.settings.packet * len(self.settings.cones())

    def end(self) -> str:
        """Ends the run in order, and says how it ended."""
        self.packer.stdin.close()
        for child in self.packer, self.lert:
            try:
                child.wait(TO_END)
            except subprocess.TimeoutExpired:
                child.kill()
        return self.how()

    def how(self) -> str:
        packed, ran = self.packer.wait(), self.lert.wait()
        return "closed" if packed == ran == 0 else f"stopped, the packer with status {packed}, the run with {ran}"

    def stop(self) -> str:
        """Ends what is left behind a crash of one of both."""
        self.packer.stdin.close()
        for child in self.packer, self.lert:
            with suppress(subprocess.TimeoutExpired):
                child.wait(5)
                continue
            child.kill()
        return self.how()


# --- directories that were left


def wait_for(place: Path) -> bool:
    """Waits until nobody holds a directory, whose run may still be ending."""
    until = time.monotonic() + TO_END
    with suppress(FileNotFoundError):
        lock = os.open(place / "lock", os.O_RDWR)
        try:
            while time.monotonic() < until:
                with suppress(BlockingIOError):
                    fcntl.flock(lock, fcntl.LOCK_EX | fcntl.LOCK_NB)
                    return True
                time.sleep(BETWEEN_LOOKS)
            return False
        finally:
            os.close(lock)
    return True


def load_in(place: Path) -> Load:
    """What the journals of a directory have, those that can't be read having nothing."""
    load = NONE
    with suppress(BadInput, BadNumbers, OSError):
        run = Run(place)
        for journal in run.journals:
            with suppress(BadInput, OSError):
                load = load.plus(journal.load())
    return load


def is_closed(place: Path) -> bool:
    with suppress(BadInput, BadNumbers, OSError):
        run = Run(place)
        run.read()
        return run.is_closed()
    return False


def has_files(place: Path) -> bool:
    return any(path.stat().st_size for suffix in SUFFIXES for path in place.glob(f"cone-*{suffix}"))


def recover(place: Path) -> int:
    """Prints what a run that stopped left into its report, and gives the status."""
    options = (place / "options").read_text().split()
    with (place / "said").open("ab") as said, (place / "report").open("wb") as report:
        return subprocess.run([program(), "recover", *options, str(place)], stdout=report, stderr=said).returncode


@dataclass
class Ended:
    """How a directory ended: how many records were handed to it, or what they amount to; the events that its journals
    have; and how many of the records, or which amount of them, are in no journal."""

    how: str
    given: int
    events: int
    lost: int
    recovered: int | None = None


def ended_in(place: Path) -> Ended | None:
    """What was written down of a directory that ended."""
    with suppress(OSError, ValueError, TypeError):
        return Ended(**json.loads((place / "ended").read_text()))
    return None


def settle(place: Path, given: int, how: str) -> Ended:
    """Recovers what a run left that isn't closed, and writes down how it ended."""
    recovered = None
    if not is_closed(place):
        recovered = recover(place) if has_files(place) else None
    load = load_in(place)
    ended = Ended(how, given, load.items, max(0, given - load.weight), recovered)
    with suppress(OSError):
        write(place / "ended", json.dumps(asdict(ended)) + "\n")
    return ended


def reported_in(place: Path) -> Iterator[tuple[int, int, int]]:
    """The cone, the key and the place of each report that was printed of a directory."""
    cone = 0
    with suppress(OSError):
        for line in (place / "report").read_text().splitlines():
            words = line.split()
            if words[0] == "cone":
                cone = int(words[1])
            elif words[0] != "total":
                yield cone, int(words[0]), int(words[1])


def cone_bits_of(place: Path, otherwise: Settings) -> int:
    """Of a directory's run, where it was begun."""
    with suppress(OSError, ValueError):
        options = (place / "options").read_text().split()
        return int(options[options.index("--cone-bits") + 1])
    return otherwise.cone_bits


def free(folder: Path) -> int:
    """The bytes that are free on the disk."""
    found = os.statvfs(folder)
    return found.f_bavail * found.f_frsize


def directories(folder: Path) -> list[Path]:
    """Those of a service, in their order."""
    return sorted(path for path in folder.glob("run-*") if path.is_dir())


def remove_old(folder: Path, keep: int) -> list[Path]:
    """Removes all directories that ended but so many, the newest ones."""
    ended = [path for path in directories(folder) if (path / "ended").exists()]
    old = ended[: max(0, len(ended) - keep)] if keep else []
    for path in old:
        shutil.rmtree(path, ignore_errors=True)
    return old
