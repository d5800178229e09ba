"""The whole lines of a stream that comes in parts."""

from __future__ import annotations

from .inputs import MOST_LINE


class WholeLines:
    def __init__(self) -> None:
        # Of a line that isn't at its end: what came of it, or that it is left out.
        self.rest = b""
        self.is_skipping = False

    def take(self, data: bytes) -> tuple[bytes, int]:
        """The lines that are whole with this, and how many were too long. These are left out."""
        whole, too_long = self.rest + data, 0
        if self.is_skipping:
            _, found, whole = whole.partition(b"\n")
            self.is_skipping = not found
        first = whole.find(b"\n")
        if first > MOST_LINE:
            whole, too_long = whole[first + 1 :], 1
        cut = whole.rfind(b"\n") + 1
        self.rest = whole[cut:]
        if len(self.rest) > MOST_LINE:
            self.rest, self.is_skipping = b"", True
            too_long += 1
        return whole[:cut], too_long

    def last(self) -> bytes:
        """What the stream ends with is a line, too."""
        whole, self.rest = self.rest and self.rest + b"\n", b""
        return whole

    def forget(self) -> None:
        self.rest, self.is_skipping = b"", False
