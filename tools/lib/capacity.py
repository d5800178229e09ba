"""What a run takes: how many events a cone has room for, and what memory and disk it costs, by its settings alone.

The rules are those of docs/FORMATS.md. Memory is reckoned from what the program takes at its start, and was measured to
be so (docs/MEASURED.md).
"""

from __future__ import annotations

from typing import NamedTuple

from .definitions import Levels, levels_of
from .formats import KEY_LEN, WRITTEN, BadNumbers, item_len, keeps_rules
from .loads import Load
from .slots import frame_len, quotient_bits
from .words import Settings

DEFAULTS = Settings(threshold=24, bins=4, ratio=4, base=4096, levels=5, cone_bits=4, room=262_144, packet=1024)
MOST_ROOM = 4_194_304
MOST_ROOM_OF_ALL = 1 << 24
MOST_LEVELS = 8
MOST_CONE_BITS = 8

REPORT_LEN = 16
JOURNAL_HEAD, LOG_HEAD = 33, 9
# The gate, the length, the worker and the trace of a packet, and all of a log record but directory and reports.
PACKET_HEAD, RECORD_HEAD = 13, 34
# A packet has at most so many times the keys that the settings name, and so has a ring, in which a key and its weight
# take so many bytes.
MOST_PACKETS = 4
IN_RING = 16
# What a bin on disk is read by, what a level is written by, and the program itself.
READER_LEN, WRITER_LEN, PROGRAM_LEN = 19_456, 13_312, 2_621_440


def rule_broken(settings: Settings) -> int | None:
    """The first rule that settings break."""
    try:
        keeps_rules(settings.header(0))
    except BadNumbers as fault:
        return int("".join(filter(str.isdigit, str(fault))) or 0)
    return None


def levels(settings: Settings) -> Levels:
    return levels_of(settings.header(0))


def capacity(settings: Settings) -> int:
    """How many events a cone takes."""
    return levels(settings).capacity(settings.header(0))


def reach(settings: Settings) -> int:
    """How many events the levels of a cone have place for, whatever its room for reports."""
    edges = levels(settings)
    return edges.offset(settings.levels) + edges.span(settings.levels) - 1


def fullest_share(hottest: float, cones: int) -> float:
    """The share of all events that the fullest cone gets: those of the hottest key, and an even part of the others."""
    return hottest + (1 - hottest) / cones


def filter_len(bits: int, events: int) -> int:
    """The memory of a table of so many quotient bits and events: slots, three rows of bits, and a row of numbers."""
    slots = (1 << bits) + 4 * events
    return KEY_LEN * slots + slots // 4 + (4 << bits) + (1 << bits) // 8


class Memory(NamedTuple):
    """In bytes: what is there from the start on, and what it may become with every report and every ring full."""

    start: int
    most: int


def memory(settings: Settings, workers: int = 1) -> Memory:
    """That of a run whose traces so many workers read."""
    bins, base, room, packet = settings.bins, settings.base, settings.room, settings.packet
    young = bins * filter_len(quotient_bits(base), base) + (2 << (4 * base - 1).bit_length())
    stored = filter_len(quotient_bits(room), room)
    entry, ring = MOST_PACKETS * item_len(WRITTEN) * packet, MOST_PACKETS * IN_RING * packet
    text = max(PACKET_HEAD + entry, RECORD_HEAD + settings.levels * (1 + bins) + REPORT_LEN * room)
    buffers = settings.levels * (bins * READER_LEN + WRITER_LEN)
    cones = len(settings.cones())
    start = PROGRAM_LEN + cones * (young + stored + text + buffers)
    return Memory(start, start + cones * (REPORT_LEN * room + entry) + workers * (ring * cones + entry))


class Disk(NamedTuple):
    """In bytes, at most."""

    journals: int
    frames: int
    logs: int


def frames_len(settings: Settings, events: int) -> int:
    """The file of frames of a cone behind so many events, at most: the places of the levels that it has reached."""
    edges = levels(settings)
    reached = (one for one in range(1, settings.levels + 1) if edges.edge(one - 1, events))
    return (settings.bins + 1) * sum(frame_len(edges.span(one), WRITTEN) for one in reached)


def disk(settings: Settings, load: Load, fullest: int, traces: int = 1) -> Disk:
    """That of a run of so many events, which weigh so much, of which the fullest cone has this many, read from so many
    traces."""
    cones, events = len(settings.cones()), load.items
    packets = events // settings.packet + traces * cones
    flushes = events // settings.base
    record = RECORD_HEAD + settings.levels * (1 + settings.bins)
    reports = min(load.weight // settings.threshold, cones * settings.room)
    return Disk(
        JOURNAL_HEAD * cones + PACKET_HEAD * packets + item_len(WRITTEN) * events,
        min(cones * frames_len(settings, fullest), most_frames(settings, events, cones)),
        LOG_HEAD * cones + record * (flushes + cones) + REPORT_LEN * reports,
    )


def most_frames(settings: Settings, events: int, cones: int) -> int:
    """No more cones reach a level than have the events for it."""
    edges = levels(settings)
    total = 0
    for level in range(1, settings.levels + 1):
        due = edges.offset(level - 1) + edges.span(level - 1)
        total += min(cones, events // due) * (settings.bins + 1) * frame_len(edges.span(level), WRITTEN)
    return total
