"""How full a cone is: how many items it has and what they weigh, beside how much of both it takes."""

from __future__ import annotations

from typing import NamedTuple

from .definitions import levels_of
from .formats import Header


class Load(NamedTuple):
    """So many items, and what they weigh together. Without weights each weighs 1."""

    items: int
    weight: int

    def plus(self, more: Load) -> Load:
        return Load(self.items + more.items, self.weight + more.weight)

    def less(self, part: Load) -> Load:
        return Load(self.items - part.items, self.weight - part.weight)

    def fits(self, room: Load) -> bool:
        return self.items <= room.items and self.weight <= room.weight

    def is_weighed(self) -> bool:
        """Whether an item weighs more than 1."""
        return self.weight > self.items

    def fills_by_weight(self, room: Load) -> bool:
        """Whether the weight is the greater part of its room."""
        return self.weight * room.items > self.items * room.weight

    def share(self, room: Load) -> float:
        """How full it is: the greater part of both."""
        return self.weight / room.weight if self.fills_by_weight(room) else self.items / room.items

    def part(self, share: float) -> Load:
        """So great a part of both, rounded down."""
        return Load(int(share * self.items), int(share * self.weight))


NONE = Load(0, 0)


def room_of(header: Header) -> Load:
    """What a cone takes: so many items, and as much weight as no more keys than there is room for can reach."""
    return Load(levels_of(header).capacity(header), header.weight_room())


def total(loads: list[Load]) -> Load:
    return Load(sum(load.items for load in loads), sum(load.weight for load in loads))


def most(loads: list[Load]) -> Load:
    """The most items that one of them has, and the most weight that one has."""
    return Load(max((load.items for load in loads), default=0), max((load.weight for load in loads), default=0))
