"""The edges of the levels, and the reports of events, by the definitions alone.

The reports of 1,000,000 events take some seconds.
"""

from __future__ import annotations

from bisect import bisect_left, bisect_right
from collections import Counter, defaultdict
from functools import cache
from typing import Iterable, Iterator, NamedTuple

from .formats import Header, Item, mixed
from .slots import frame_len


class Levels(NamedTuple):
    """The edges of the levels. Positions count from 1; a level holds those above its edge, up to that of the level before."""

    base: int
    ratio: int
    bins: int
    levels: int

    def span(self, level: int) -> int:
        return self.base * self.ratio**level

    @cache
    def offset(self, level: int) -> int:
        return (self.bins - 1) * sum(self.span(one) for one in range(level + 1))

    def edge(self, level: int, events: int) -> int:
        return max(0, events - self.offset(level)) // self.span(level) * self.span(level)

    def depth(self, at: int) -> int:
        """The greatest level that takes a bin at this position; 0 at one that is no flush position."""
        moved = (one for one in range(self.levels, 0, -1) if self.edge(one - 1, at) != self.edge(one - 1, at - 1))
        return next(moved, 0)

    def lookback(self, at: int) -> int:
        return self.edge(self.depth(at), at - 1)

    def flushes(self, events: int) -> range:
        """The flush positions up to a number of events: those at which the edge of level 0 moves."""
        return range(self.bins * self.base, events + 1, self.base)

    def last_flush(self, events: int) -> int:
        flushes = self.flushes(events)
        return flushes[-1] if flushes else 0

    def capacity(self, header: Header) -> int:
        return min(self.offset(self.levels) + self.span(self.levels) - 1, header.weight_room())

    def ranges(self, level: int, events: int) -> Iterator[tuple[int, int]]:
        """The positions of the bins of a level: above the first number, up to the second."""
        low, high, span = self.edge(level, events), self.edge(level - 1, events), self.span(level)
        for k in range(low // span, -(-high // span)):
            one = max(low, k * span), min(high, (k + 1) * span)
            if one[0] < one[1]:
                yield one

    def frame_place(self, version: int, level: int, frame: int) -> int:
        """The first byte of a frame. There is one more on a level than bins."""
        younger = sum(frame_len(self.span(one), version) for one in range(1, level))
        return (self.bins + 1) * younger + frame * frame_len(self.span(level), version)


def levels_of(header: Header) -> Levels:
    return Levels(header.base, header.ratio, header.bins, header.levels)


class Report(NamedTuple):
    key: int
    at: int


class Sums:
    """The places of a key, which ascend, and the sum of its weights up to each."""

    def __init__(self, weights: Iterable[tuple[int, int]] = ()) -> None:
        """Of these places, each with its weight."""
        self.places: list[int] = []
        self.sums: list[int] = [0]
        for at, weight in weights:
            self.add(at, weight)

    def add(self, at: int, weight: int) -> None:
        self.places.append(at)
        self.sums.append(self.sums[-1] + weight)

    def upto(self, at: int) -> int:
        return self.sums[bisect_right(self.places, at)]

    def count(self, start: int, end: int) -> int:
        """The sum of the weights at the places above the first number, up to the second."""
        return self.upto(end) - self.upto(start)

    def reached(self, count: int) -> int | None:
        """The place at which the sum comes to a number above 0, if there is one."""
        number = bisect_left(self.sums, count)
        return self.places[number - 1] if number < len(self.sums) else None


def counts_of(events: Iterable[Item]) -> Counter[int]:
    """The sum of the weights of each key."""
    counts: Counter[int] = Counter()
    for key, weight in events:
        counts[key] += weight
    return counts


def weight_of(events: Iterable[Item]) -> int:
    """The sum of all weights."""
    return sum(weight for _key, weight in events)


def heavy(threshold: int, events: Iterable[Item]) -> list[int]:
    """The keys whose weights in all events add up to the threshold."""
    return sorted(key for key, count in counts_of(events).items() if count >= threshold)


def look(levels: Levels, threshold: int, events: list[Item]) -> list[Report]:
    """At each position the keys not listed whose weights in the window that it looks back to add up to `threshold`."""
    reports: list[Report] = []
    sums: dict[int, Sums] = defaultdict(Sums)
    # A key that is due somewhere is heavy in all: only these are looked at, until they are listed.
    unlisted = set(heavy(threshold, events))
    waiting: set[int] = set()
    flushes = levels.flushes(len(events))
    for at, (key, weight) in enumerate(events, 1):
        if key in unlisted:
            sums[key].add(at, weight)
            if sums[key].sums[-1] >= threshold:
                waiting.add(key)
        asked = sorted(waiting, key=mixed) if at in flushes else [key] if key in waiting else []
        start = levels.lookback(at) if asked else 0
        for one in asked:
            if sums[one].count(start, at) >= threshold:
                reports.append(Report(one, at))
                unlisted.remove(one)
                waiting.remove(one)
    return reports


def left_over(threshold: int, events: list[Item], looked: list[Report]) -> list[Report]:
    """What closing adds at the last position: the keys not listed whose weights add up to `threshold` in all events."""
    listed = {report.key for report in looked}
    due = [key for key in heavy(threshold, events) if key not in listed]
    return [Report(key, len(events)) for key in sorted(due, key=mixed)]


# The reports that are made while the events come, and those that stand once the cone is closed.
MADE = LOOK, CLOSED = "look", "closing"
