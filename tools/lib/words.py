"""The words of a line as docs/FORMATS.md has them, and the rules of its settings, for the tools beside it.

It knows nothing of the program.
"""

from __future__ import annotations

import re
from typing import NamedTuple, Optional

from .formats import Header

SETTINGS = ("threshold", "bins", "ratio", "base", "levels", "cone-bits", "room", "packet")
OPTIONS = {
    "run": (*SETTINGS, "workers"),
    "recover": SETTINGS,
    "gen": ("seed", "events"),
    "drill": (*SETTINGS, "workers", "seed", "events"),
}
USUAL = {
    "threshold": 24,
    "bins": 4,
    "ratio": 4,
    "base": 4096,
    "levels": 5,
    "cone-bits": 4,
    "room": 262144,
    "packet": 1024,
    "workers": 4,
    "seed": 1,
    "events": 1000,
}
LEAST_NAMES = {"run": 2, "recover": 1, "gen": 0, "drill": 0}
LIMITS = {
    "threshold": (1, 4_294_967_295),
    "bins": (2, 16),
    "ratio": (2, 16),
    "base": (4, 65_536),
    "levels": (1, 8),
    "cone-bits": (0, 8),
    "room": (1, 4_194_304),
    "packet": (1, 1_024),
}


class Settings(NamedTuple):
    threshold: int
    bins: int
    ratio: int
    base: int
    levels: int
    cone_bits: int
    room: int
    packet: int

    def words(self) -> list[str]:
        pairs = ((f"--{name.replace('_', '-')}", str(number)) for name, number in self._asdict().items())
        return [word for pair in pairs for word in pair]

    def cones(self) -> range:
        return range(1 << self.cone_bits)

    def header(self, cone: int) -> Header:
        return Header(cone=cone, **self._asdict())


class Broken(Exception):
    """The words spell no line."""


class Line(NamedTuple):
    """A line: its command, the numbers of its options, those that its words give, and its names."""

    command: str
    numbers: dict[str, int]
    given: dict[str, int]
    names: list[str]


def is_text(word: str) -> bool:
    """Whether it is UTF-8: Python has the bytes of a word that aren't as surrogates."""
    return not re.search("[\ud800-\udfff]", word)


def number(word: str) -> int:
    if not re.fullmatch(r"[0-9]{1,20}", word) or int(word) >= 2**64:
        raise Broken
    return int(word)


def read(words: list[str]) -> Line:
    """The line that words spell."""
    if not words or words[0] not in OPTIONS or not all(map(is_text, words)):
        raise Broken
    command, given, names = words[0], {}, []
    rest = iter(words[1:])
    ended = False
    for word in rest:
        if ended:
            if word in ("", "-", "--"):
                raise Broken
            names.append(word)
        elif word == "--":
            ended = True
        elif word.startswith("-"):
            name, equals, value = word.removeprefix("--").partition("=")
            if not word.startswith("--") or name not in OPTIONS[command] or name in given:
                raise Broken
            if not equals:
                value = next(rest, "")
            given[name] = number(value)
        elif word == "":
            raise Broken
        else:
            names.append(word)
    most = len(names) if command == "run" else LEAST_NAMES[command]
    if not LEAST_NAMES[command] <= len(names) <= most:
        raise Broken
    return Line(command, {name: given.get(name, USUAL[name]) for name in OPTIONS[command]}, given, names)


def broken_setting(numbers: dict[str, int]) -> Optional[int]:
    """The first rule that settings break, in ascending order."""
    for rule, (name, (least, most)) in enumerate(LIMITS.items(), 1):
        if not least <= numbers[name] <= most:
            return rule
    bins, ratio, base, levels = (numbers[name] for name in ("bins", "ratio", "base", "levels"))
    spans = [base * ratio**level for level in range(levels + 1)]
    cones = 2 ** numbers["cone-bits"]
    if cones * bins * base > 2**23:
        return 9
    if cones * numbers["room"] > 2**24:
        return 10
    if (bins - 1) * sum(spans) + spans[-1] > 2**31:
        return 11
    return None
