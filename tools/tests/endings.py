"""How the workers of a run may have ended, by the journals that they left, and which answers that allows.

A worker reads its traces one after the other, and brings the items of a cone in packets of P, 2P, 3P or 4P of them; at
the end of a trace it brings what is left. A trace that fails or leaves its format ends it, and so does a packet that a
cone has no place for, or else that is too heavy for it: what it holds is dropped, and the others go on. One fault of
all workers is answered. Which worker comes first isn't known, so what a cone had when it refused a packet may be any
beginning of its journal that has all packets of that worker.

It knows nothing of the program.
"""

from __future__ import annotations

from typing import Iterator, NamedTuple, Sequence

from drawn_traces import Trace
from lib.cones import JOURNAL
from lib.definitions import levels_of, weight_of
from lib.formats import Item, Packet, cone_of, packets
from lib.words import Settings
from recovery import DONE, Folder, files_in

TRACE_FAULT, BAD_TRACE, CAPACITY_FULL, WEIGHT_FULL = 3, 4, 8, 13
# The faults in the order in which one of several is answered.
ORDER = (TRACE_FAULT, BAD_TRACE, CAPACITY_FULL, WEIGHT_FULL, DONE)
# A worker brings so many packets of the settings at once.
MOST_PACKETS = 4


class Crew(NamedTuple):
    """A run: its settings, its workers, and its traces."""

    settings: Settings
    workers: int
    traces: list[Trace]

    def own(self, worker: int) -> range:
        return range(worker, len(self.traces), self.workers)

    def most_packets(self) -> int:
        """Where no other worker holds a cone each packet comes at once."""
        return 1 if min(self.workers, len(self.traces)) == 1 else MOST_PACKETS


class Ending(NamedTuple):
    """A status, the trace or the cone that its line names, and that line."""

    status: int
    number: int = 0
    line: str = ""

    def rank(self) -> tuple[int, int]:
        return ORDER.index(self.status), self.number


class Refusal(NamedTuple):
    """A packet that a cone may have refused, and the place in its trace up to which that was read."""

    cone: int
    items: list[Item]
    read: int


class Left:
    """What a run left: the packets of each cone, and how many items of each trace are in them."""

    def __init__(self, crew: Crew, folder: Folder) -> None:
        self.crew = crew
        cones = crew.settings.cones()
        self.packets = [[packet for _, packet in packets(files_in(folder, cone)[JOURNAL])] for cone in cones]
        self.written = [[self.count(of_cone, trace) for of_cone in self.packets] for trace in range(len(crew.traces))]

    @staticmethod
    def count(of_cone: Sequence[Packet], trace: int) -> int:
        return sum(len(packet.items) for packet in of_cone if packet.trace == trace)

    def endings(self, worker: int) -> set[Ending]:
        """The ways in which a worker may have ended; none where it can't have left this."""
        found: set[Ending] = set()
        own = self.crew.own(worker)
        for number in own:
            if not any(any(self.written[later]) for later in own if later > number):
                found |= set(self.in_trace(number))
            if not self.is_whole(number):
                return found
        return found | {Ending(DONE)}

    def places(self, number: int) -> list[list[int]]:
        """The places of a trace's items of each cone, from 1."""
        places: list[list[int]] = [[] for _ in self.crew.settings.cones()]
        for place, item in enumerate(self.crew.traces[number].items, 1):
            places[cone_of(self.crew.settings.cone_bits, item.key)].append(place)
        return places

    def is_whole(self, number: int) -> bool:
        """Whether a trace is right and all of it is in the journals."""
        return self.crew.traces[number].is_right() and self.written[number] == list(map(len, self.places(number)))

    def is_held(self, number: int, read: int, refusing: int | None = None) -> bool:
        """Whether a worker that read so many items of a trace may hold those that aren't in the journals, of each cone
        but the one that refused them."""
        most = self.crew.most_packets() * self.crew.settings.packet
        seen = (sum(place <= read for place in places) for places in self.places(number))
        held = (count - written for count, written in zip(seen, self.written[number]))
        return all(0 <= count < most or cone == refusing for cone, count in enumerate(held))

    def in_trace(self, number: int) -> Iterator[Ending]:
        """The ways in which a worker may have ended inside a trace."""
        trace = self.crew.traces[number]
        if self.is_held(number, len(trace.items)):
            if trace.data is None:
                yield Ending(TRACE_FAULT, number, f"lert: trace {number} fault\n")
            elif trace.left is not None:
                yield Ending(BAD_TRACE, number, f"lert: trace {number} bad at {trace.left}\n")
        for refusal in self.refusals(number):
            yield from self.refused(number, refusal)

    def refusals(self, number: int) -> Iterator[Refusal]:
        """The packets of a trace that may have been the next ones: full ones, and the rest at its end."""
        trace, size = self.crew.traces[number], self.crew.settings.packet
        for cone, places in enumerate(self.places(number)):
            rest = places[self.written[number][cone] :]
            sizes = range(size, min(len(rest), self.crew.most_packets() * size) + 1, size)
            ends = [(count, rest[count - 1]) for count in sizes]
            if trace.is_right() and 0 < len(rest) < self.crew.most_packets() * size:
                ends.append((len(rest), len(trace.items)))
            for count, read in ends:
                yield Refusal(cone, [trace.items[place - 1] for place in rest[:count]], read)

    def refused(self, number: int, refusal: Refusal) -> Iterator[Ending]:
        """The ways in which a cone may have refused a packet of a trace."""
        cone, items, read = refusal
        if not self.is_held(number, read, cone):
            return
        header = self.crew.settings.header(cone)
        capacity, room = levels_of(header).capacity(header), header.weight_room()
        own = self.crew.own(number % self.crew.workers)
        least = max((at for at, packet in enumerate(self.packets[cone], 1) if packet.trace in own), default=0)
        for count in range(least, len(self.packets[cone]) + 1):
            before = [item for packet in self.packets[cone][:count] for item in packet.items]
            weight, more = weight_of(before), weight_of(items)
            if len(before) + len(items) > capacity:
                yield Ending(CAPACITY_FULL, cone, f"lert: cone {cone} full at {len(before)} plus {len(items)}\n")
            elif weight + more > room:
                yield Ending(WEIGHT_FULL, cone, f"lert: cone {cone} weight full at {weight} plus {more}\n")


def answers(crew: Crew, folder: Folder) -> set[Ending]:
    """The endings of a run that may be answered: those of a worker beside which each other one may have ended by
    nothing that comes before it. There is none where a worker can't have left these files."""
    left = Left(crew, folder)
    each = [left.endings(worker) for worker in range(min(crew.workers, len(crew.traces)))]

    def is_first(ending: Ending) -> bool:
        return all(any(other.rank() >= ending.rank() for other in endings) for endings in each)

    return {ending for endings in each for ending in endings if is_first(ending)}
