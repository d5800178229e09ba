"""Where a service reads from: a command's output, a pipe, or a file that grows and is rotated.

A read waits at most so long, gives None where nothing came, and nothing at the end.
"""

from __future__ import annotations

import glob
import os
import select
import stat
import subprocess
import time
from contextlib import suppress
from pathlib import Path
from typing import Callable, Sequence

BETWEEN_LOOKS = 0.1
# A command that was told to end gets so many seconds for it.
TO_END = 5.0
# So long the last lines of a file may come behind its rotation.
TO_TURN = 2.0
# Files that a rotation packed can't be followed.
PACKED = {".gz", ".bz2", ".xz", ".zst"}

Tell = Callable[[str], None]


def is_ready(file: int, seconds: float) -> bool:
    return bool(select.select([file], [], [], seconds)[0])


class Pipe:
    """Standard input, where there is no path, or a named pipe. One that is kept open never ends."""

    place: dict[str, int] = {}
    is_new = False
    what = "the pipe"

    def __init__(self, path: str | None, kept: bool) -> None:
        self.path = path
        self.file = 0
        self.is_begun = path is None
        if path is not None:
            if not stat.S_ISFIFO(os.stat(path).st_mode):
                raise OSError(f"{path}: no named pipe: a file is followed by --follow")
            self.file = os.open(path, os.O_RDWR if kept else os.O_RDONLY | os.O_NONBLOCK)
            os.set_blocking(self.file, True)

    def read(self, most: int, seconds: float) -> bytes | None:
        if not is_ready(self.file, seconds):
            return None
        data = os.read(self.file, most)
        if not data and not self.is_begun:
            # Nobody has begun to write.
            time.sleep(min(seconds, BETWEEN_LOOKS))
            return None
        self.is_begun = True
        return data

    def end(self) -> None:
        """Nothing more is read. What is in the pipe stays there."""

    def again(self) -> None:
        raise OSError("standard input can't be read again")


class Command:
    """What a command writes."""

    place: dict[str, int] = {}
    is_new = False
    what = "the command"

    def __init__(self, words: Sequence[str]) -> None:
        self.words = words
        self.again()

    def again(self) -> None:
        alone = {"stdin": subprocess.DEVNULL, "start_new_session": True}
        self.child = subprocess.Popen(self.words, stdout=subprocess.PIPE, **alone)
        assert self.child.stdout is not None
        self.file = self.child.stdout.fileno()

    def read(self, most: int, seconds: float) -> bytes | None:
        if not is_ready(self.file, seconds):
            return None
        data = os.read(self.file, most)
        if not data:
            self.what = f"the command, with status {self.child.wait()},"
        return data

    def end(self) -> None:
        """Lets it end. What it has written can be read."""
        self.child.terminate()


class File:
    """A file that grows. Where another one stands in its place it is read to its end first, and then the other one from
    its beginning. The place behind each byte that was read is known, so that a later reader goes on there."""

    what = "the file"

    def __init__(self, path: str, place: dict[str, int], tell: Tell) -> None:
        self.path = path
        self.tell = tell
        self.file = -1
        self.turned: float | None = None
        # Whether another file was begun since this was asked.
        self.is_new = False
        self.place = dict(place)
        if place:
            self.go_on(place)

    def name_of(self, place: dict[str, int]) -> str | None:
        """The name that the file has by now which was read up to this place."""
        folder = Path(self.path).resolve().parent
        for one in [Path(self.path), *sorted(folder.iterdir())]:
            with suppress(OSError):
                found = one.stat()
                if one.is_file() and found.st_ino == place["inode"] and found.st_size >= place["at"]:
                    return str(one)
        return None

    def go_on(self, place: dict[str, int]) -> None:
        """Reads on from there."""
        name = self.name_of(place)
        if name is not None:
            self.open(name, place["at"])
            return
        self.tell(f"{self.path}: what was read before isn't there any more: reading from its beginning")
        self.place = {}

    def open(self, path: str, at: int) -> None:
        if self.file >= 0:
            os.close(self.file)
        self.file = os.open(path, os.O_RDONLY)
        os.lseek(self.file, at, os.SEEK_SET)
        self.place = {"inode": os.fstat(self.file).st_ino, "at": at}
        self.turned = None

    def read(self, most: int, seconds: float) -> bytes | None:
        until = time.monotonic() + seconds
        while True:
            if self.file >= 0 and (data := os.read(self.file, most)):
                self.place["at"] += len(data)
                self.turned = None
                return data
            # Who reads has to end the last line of a file before it gets the next one's.
            if self.turns() and self.is_new or time.monotonic() >= until:
                return None
            time.sleep(min(BETWEEN_LOOKS, seconds))

    def turns(self) -> bool:
        """Whether another file stands in the place of the one that is read to its end, or a shorter one: it is opened.
        Who writes the old one gets some time to see that, too."""
        try:
            now = os.stat(self.path)
        except FileNotFoundError:
            return False
        if self.file < 0:
            self.open(self.path, 0)
            return True
        is_other = now.st_ino != self.place["inode"]
        if not is_other and now.st_size >= self.place["at"]:
            return False
        self.turned = self.turned or time.monotonic()
        if is_other and time.monotonic() < self.turned + TO_TURN:
            return False
        name = self.next_name() if is_other else self.path
        self.tell(f"{name}: {'another file' if is_other else 'it was cut'}: reading it from its beginning")
        self.open(name, 0)
        self.is_new = True
        return True

    def next_name(self) -> str:
        """The file behind the one that was read to its end: it may have been rotated itself by now. The one that was
        written to its end first comes first."""
        ended = os.fstat(self.file)
        found: list[tuple[int, str]] = []
        for one in Path(self.path).parent.glob(f"{glob.escape(Path(self.path).name)}.*"):
            with suppress(OSError):
                state = one.stat()
                is_later = state.st_mtime_ns > ended.st_mtime_ns and state.st_ino != ended.st_ino
                if is_later and one.is_file() and one.suffix not in PACKED:
                    found.append((state.st_mtime_ns, str(one)))
        return min(found)[1] if found else self.path

    def end(self) -> None:
        """Nothing more is read."""

    def again(self) -> None:
        """It has no end."""
