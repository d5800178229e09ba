"""Where a tool writes: a file that is replaced as a whole, or what is no regular file and is written straight into.

A link is followed, so that it stays. A file is written beside its place and renamed at the end; what ends before, by a
fault or by a signal that can be caught, leaves it as it was and nothing beside it.
"""

from __future__ import annotations

import errno
import os
import signal
import socket
import stat
from contextlib import contextmanager, suppress
from typing import BinaryIO, Iterator, NamedTuple, Sequence

MOST_LINKS = 40
# What ends a process where it isn't caught or ignored, but for want of memory and of what it does wrong.
ENDING = (signal.SIGHUP, signal.SIGINT, signal.SIGPIPE, signal.SIGTERM)


class Refused(Exception):
    """An output that would harm a file. The text says which and why."""


class Stopped(BaseException):
    """A signal that ends the process."""

    def __init__(self, number: int) -> None:
        super().__init__(number)
        self.number = number


class Place(NamedTuple):
    """What stands at a path: nothing, a file of that status, or an open stream of this process by its number."""

    path: str
    status: os.stat_result | None
    stream: int | None = None

    @property
    def is_straight(self) -> bool:
        """Whether it is written straight into, while what comes is read."""
        return self.stream is not None or self.status is not None and not stat.S_ISREG(self.status.st_mode)

    @property
    def target(self) -> str:
        """The file itself, behind all links."""
        return os.path.realpath(self.path)


def stream_of(path: str) -> int | None:
    """The number of an open stream of this process that a path names, as /dev/stdout names 1."""
    streams = os.path.realpath("/proc/self/fd")
    for _ in range(MOST_LINKS):
        folder, name = os.path.split(path)
        if name.isdecimal() and os.path.realpath(folder) == streams:
            return int(name)
        if not os.path.islink(path):
            break
        path = os.path.join(folder, os.readlink(path))
    return None


def place_of(path: str, stream: int | None = None) -> Place:
    """What stands at a path, or in a stream of which it is the name. A directory is refused."""
    stream = stream_of(path) if stream is None else stream
    try:
        status = os.stat(path) if stream is None else os.fstat(stream)
    except FileNotFoundError:
        return Place(path, None)
    if stat.S_ISDIR(status.st_mode):
        raise IsADirectoryError(errno.EISDIR, os.strerror(errno.EISDIR), path)
    return Place(path, status, stream)


def is_same(one: Place, other: Place) -> bool:
    """Whether two places are one file. A terminal, another device or a socket may well be read and written."""
    if one.status is None or other.status is None:
        return one.status is other.status and one.target == other.target
    is_both = stat.S_ISCHR(one.status.st_mode) or stat.S_ISSOCK(one.status.st_mode)
    return os.path.samestat(one.status, other.status) and not is_both


def check_apart(out: Place, other: Place) -> None:
    if is_same(out, other):
        raise Refused(f"{out.path} is not written, since it is the same file as {other.path}")


def check_kind(out: Place, heads: Sequence[bytes], kind: str, at: int = 0) -> None:
    """Refuses a file that has bytes, and none of those at a place by which its kind is known."""
    if out.status is None or out.is_straight:
        return
    with open(out.path, "rb") as file:
        found = file.read(at + max(map(len, heads)))
    if found and not any(found[at:].startswith(head) for head in heads):
        raise Refused(f"{out.path} is not replaced, since what stands there is no {kind}")


def catch_signals() -> None:
    """Makes the first signal that would end this process an exception, and stops none that is ignored."""
    caught = [number for number in ENDING if signal.getsignal(number) != signal.SIG_IGN]

    def stop(number: int, _frame: object) -> None:
        for each in caught:
            signal.signal(each, signal.SIG_IGN)
        raise Stopped(number)

    for number in caught:
        signal.signal(number, stop)


def end_by(stopped: Stopped) -> None:
    """Ends this process as the signal would have ended it."""
    signal.signal(stopped.number, signal.SIG_DFL)
    os.kill(os.getpid(), stopped.number)


def keep_owner(file: int, before: os.stat_result) -> None:
    with suppress(PermissionError):
        os.fchown(file, before.st_uid, before.st_gid)
    os.fchmod(file, stat.S_IMODE(before.st_mode))


@contextmanager
def replacing(place: Place) -> Iterator[BinaryIO]:
    """A file to be written. It replaces what stands at a place at the block's end, but not after an exception. From
    here on signals are exceptions."""
    target = place.target
    part = f"{target}.{os.getpid()}.part"
    catch_signals()
    try:
        with open(part, "xb") as out:
            if place.status is not None:
                keep_owner(out.fileno(), place.status)
            yield out
            sync(out)
        os.replace(part, target)
    except FileExistsError:
        # It is another's.
        raise
    except BaseException:
        with suppress(OSError):
            os.remove(part)
        raise


def sync(out: BinaryIO) -> None:
    """Waits until what was written has its room on the disk."""
    out.flush()
    os.fsync(out.fileno())


def straight(place: Place) -> BinaryIO:
    """What is written straight into."""
    if place.stream is not None:
        return open(os.dup(place.stream), "wb")
    if stat.S_ISSOCK(place.status.st_mode):
        with socket.socket(socket.AF_UNIX, socket.SOCK_STREAM) as peer:
            peer.connect(place.path)
            return peer.makefile("wb")
    return open(place.path, "wb")
