"""The table of changes that damage tries: at each place of the files that a rule speaks of, those that break it and
those that don't.

It knows nothing of the program: what is due of a change stands in docs/FORMATS.md and the definitions.
"""

from __future__ import annotations

import random
from typing import Iterator, NamedTuple

from breaks import COUNT_TOP_AT, TOO_GREAT, frame_changes
from changes import Case, Changes, Kept, cone_in, malformed, other_settings, put
from lib.cones import FLUSH, FRAMES, JOURNAL, LOG, MOST_OFFSET, SUFFIXES, Cone
from lib.formats import HEADER_LEN, KEY_LEN, OPEN, VERSIONS, item_bytes, item_len
from lib.slots import COUNT_AT, MOST_WEIGHT, frame_len, frame_text
from recovery import file_name

CUTS = 50
# Of the version in journal and log, and one that neither has.
VERSION_AT, NO_VERSION = 5, 3
GARBAGE_LEN = 200
# From a gate to its payload, to the first item of a packet, and from that of a log's record to the place in the journal
# that it names.
PAYLOAD_BEHIND_GATE = 5
ITEMS_BEHIND_GATE = PAYLOAD_BEHIND_GATE + 8
OFFSET_BEHIND_GATE = PAYLOAD_BEHIND_GATE + 9


def cuts(kept: Kept) -> Iterator[Case]:
    for name, data in kept.folder.items():
        for length in sorted({len(data) * cut // CUTS for cut in range(CUTS)} | {len(data) - 1}):
            yield Case(f"{name} cut at {length}", kept, {name: data[:length]})


def swaps(kept: Kept) -> Iterator[Case]:
    """The files of the first two cones are those of each other: all, and one by one."""
    if len(kept.run.settings.cones()) < 2:
        return
    swapped: Changes = {}
    for file, suffix in enumerate(SUFFIXES):
        one, other = file_name(0, file), file_name(1, file)
        pair: Changes = {one: kept.folder[other], other: kept.folder[one]}
        yield Case(f"each other's {suffix}", kept, pair, other_settings(0) if file == JOURNAL else None)
        swapped |= pair
    yield Case("each other's files", kept, swapped, other_settings(0))


def settings_changed(kept: Kept) -> Iterator[Case]:
    for field, number in kept.run.settings._asdict().items():
        others = kept.run.settings._replace(**{field: number + 1})
        yield Case(f"{field} {number + 1}", kept, {}, other_settings(0), others)


def missing(kept: Kept, cone: int) -> Iterator[Case]:
    names = [file_name(cone, file) for file in range(len(SUFFIXES))]
    for word, data in (("empty", b""), ("gone", None)):
        for file, name in enumerate(names):
            yield Case(f"{name} {word}", kept, {name: data}, malformed(cone, file, 0))
        yield Case(f"cone {cone} {word}", kept, dict.fromkeys(names, data), malformed(cone, JOURNAL, 0))


def headers(kept: Kept, cone: int) -> Iterator[Case]:
    for file in (JOURNAL, LOG):
        name = file_name(cone, file)
        changed = put(kept.folder[name], VERSION_AT, NO_VERSION)
        yield Case(f"{name} of another version", kept, {name: changed}, malformed(cone, file, VERSION_AT))
    name = file_name(cone, JOURNAL)
    for version in VERSIONS:
        changed = put(kept.folder[name], VERSION_AT, version)
        line = "" if changed == kept.folder[name] else None
        yield Case(f"{name} of version {version}", kept, {name: changed}, line)
    header = kept.folder[name][:HEADER_LEN]
    yield Case(f"{name} without a gate", kept, {name: header}, malformed(cone, JOURNAL, HEADER_LEN))
    # The header's last number is the cone.
    other = put(header, HEADER_LEN - 4, cone + 2)
    yield Case(f"{name} of another cone without a gate", kept, {name: other}, other_settings(cone))


def lengthened(kept: Kept, cone: int, draw: random.Random) -> Iterator[Case]:
    for file in (JOURNAL, LOG, FRAMES):
        name = file_name(cone, file)
        yield Case(f"{name} with garbage at its end", kept, {name: kept.folder[name] + draw.randbytes(GARBAGE_LEN)}, "")


def behind_closing(kept: Kept, cone: int) -> Iterator[Case]:
    """Any open gate behind the closing record of a log is out of place, whatever stands behind it."""
    if not cone_in(kept, cone).log.closed:
        return
    name = file_name(cone, LOG)
    gate = len(kept.folder[name]) - 1
    for record in ((), (0, 0, 0, 0), (255, 255, 255, 255), (1, 0, 0, 0, FLUSH, 0)):
        changed = put(kept.folder[name], gate, OPEN, *record)
        yield Case(f"{name} with {record} behind its closing", kept, {name: changed}, malformed(cone, LOG, gate))


class Break(NamedTuple):
    """A byte of a file that is made too great, and the place at which the file is left then."""

    file: int
    changed: int
    left: int


def in_order(kept: Kept, cone: int) -> Iterator[Case]:
    """Many broken places, of which the first in the order of reading decides: the header, the log, the frames, levels
    ascending and bins oldest first, the first packet of the journal that is read, and the cones behind this one."""
    read = cone_in(kept, cone)
    named = [(level, frame) for level, row in enumerate(read.log.directory, 1) for frame in row]
    breaks = [Break(file, VERSION_AT, VERSION_AT) for file in (JOURNAL, LOG)]
    places = [read.frame_place(level, frame) for level, frame in named]
    breaks += [Break(FRAMES, place + COUNT_TOP_AT, place + COUNT_AT) for place in places]
    payload = read.log.begins()[0] + PAYLOAD_BEHIND_GATE
    breaks.append(Break(JOURNAL, payload, payload))
    behind = [file_name(later, JOURNAL) for later in kept.run.settings.cones() if later > cone]
    for number, (file, _changed, left) in enumerate(breaks):
        changed = dict(kept.folder)
        for broken in breaks[number:]:
            name = file_name(cone, broken.file)
            changed[name] = put(changed[name], broken.changed, TOO_GREAT)
        case = f"cone {cone} broken at byte {left} of file {file} and at all places read behind it"
        yield Case(case, kept, {**changed, **dict.fromkeys(behind, b"")}, malformed(cone, file, left))


def frames_changed(kept: Kept, cone: int) -> Iterator[Case]:
    """The frame of each level's oldest bin."""
    read = cone_in(kept, cone)
    name = file_name(cone, FRAMES)
    data = kept.folder[name]
    for level, row in enumerate(read.log.directory, 1):
        for frame in row[:1]:
            place = read.frame_place(level, frame)
            end = place + frame_len(read.levels.span(level), read.header.version)
            low, high = next(read.levels.ranges(level, read.log.n0))
            for change in frame_changes(data, place, read.shape(level), high - low, end):
                line = "" if change.left is None else malformed(cone, FRAMES, change.left)
                case = f"{name} with {change.name} at {change.at}"
                yield Case(case, kept, {name: put(data, change.at, *change.values)}, line)


def unread(kept: Kept, cone: int, draw: random.Random) -> Iterator[Case]:
    """Other bytes in place of the records before the one that the log's last record names, which aren't read."""
    name = file_name(cone, JOURNAL)
    data = kept.folder[name]
    gate, first = cone_in(kept, cone).log.begins()
    count = gate - HEADER_LEN
    for word, others in (("zeros", bytes(count)), ("ones", bytes([OPEN]) * count), ("others", draw.randbytes(count))):
        changed = put(data, HEADER_LEN, *others)
        yield Case(f"{name} with {word} before byte {gate} and position {first}", kept, {name: changed}, "")


def misnamed(kept: Kept, cone: int) -> Iterator[Case]:
    """The log's last record names another place of the journal, or another position there. Where a closed gate stands
    at that place, or nothing at all, events are missing."""
    read = cone_in(kept, cone)
    name, journal = file_name(cone, LOG), file_name(cone, JOURNAL)
    data, length = kept.folder[name], len(kept.folder[journal])
    place = read.log.records[-1].gate + OFFSET_BEHIND_GATE
    gate, first = read.log.begins()
    # The lowest byte of a length is no open gate: with weights it would be one behind 113 keys, which no packet has here.
    for named, left in ((gate + 1, gate + 1), (length - 1, length - 1), (length, length), (MOST_OFFSET, length)):
        changed = put(data, place, *named.to_bytes(8, "little"))
        yield Case(f"{name} that names byte {named}", kept, {name: changed}, malformed(cone, JOURNAL, left))
    # Without the events before that record's.
    line = malformed(cone, JOURNAL, length - 1) if read.count - (first - 1) < read.log.n0 else None
    changed = put(data, place + 8, *(1).to_bytes(8, "little"))
    yield Case(f"{name} that names position 1 at byte {gate}", kept, {name: changed}, line if first > 1 else "")
    changed = put(data, place, *HEADER_LEN.to_bytes(8, "little"), *(1).to_bytes(8, "little"))
    yield Case(f"{name} that names the first record", kept, {name: changed}, None if first > 1 else "")


def raised(weights: list[int], more: int) -> list[int] | None:
    """Weights that are so much more together, where they can be."""
    heavier = []
    for weight in weights:
        heavier.append(min(MOST_WEIGHT, weight + more))
        more -= heavier[-1] - weight
    return None if more else heavier


def weights_changed(kept: Kept, cone: int) -> Iterator[Case]:
    """The first and the last weight of the last packet, where there are weights: none, and as much as one may be, for
    which there may be no room. Then its weights are as much as there is room for, and one more."""
    read = cone_in(kept, cone)
    if read.header.version == 1:
        return
    name = file_name(cone, JOURNAL)
    gate, packet = read.packets[-1]
    places = [gate + ITEMS_BEHIND_GATE + item_len(read.header.version) * number for number in range(len(packet.items))]
    for at in {places[0] + KEY_LEN, places[-1] + KEY_LEN}:
        for weight, line in (0, malformed(cone, JOURNAL, at)), (MOST_WEIGHT, None):
            yield Case(f"{name} with the weight {weight} at {at}", kept, {name: put(kept.folder[name], at, weight)}, line)
    before = read.before_edge(read.count - len(packet.items))
    spare = read.header.weight_room() - read.weight
    for more, line in (spare, None), (spare + 1, malformed(cone, JOURNAL, gate + 1)):
        heavier = raised([item.weight for item in packet.items[before:]], more)
        if heavier is not None:
            items = [item._replace(weight=weight) for item, weight in zip(packet.items[before:], heavier)]
            changed = put(kept.folder[name], places[before], *item_bytes(read.header.version, items))
            yield Case(f"{name} with {more} more weight from {places[before]} on", kept, {name: changed}, line)


def frames_filled(kept: Kept, cone: int) -> Iterator[Case]:
    """The frame of each level's oldest bin weighs as much as it may, where there are weights. With the frames that are
    named there may be no room for the first packet that is read."""
    read = cone_in(kept, cone)
    if read.header.version == 1:
        return
    name = file_name(cone, FRAMES)
    gate, first = read.log.begins()
    behind = read.weight_behind(dict(read.packets)[gate], first - 1)
    weights = [sum(count for _tail, count in pieces) for _low, _high, pieces in read.frames]
    number = 0
    for level, row in enumerate(read.log.directory, 1):
        for frame in row[:1]:
            low, high, pieces = read.frames[number]
            most = MOST_WEIGHT * (high - low)
            text = frame_text(read.shape(level), [(pieces[0][0], most)])
            changed = put(kept.folder[name], read.frame_place(level, frame), *text)
            has_room = sum(weights) - weights[number] + most + behind <= read.header.weight_room()
            line = None if has_room else malformed(cone, JOURNAL, gate + 1)
            yield Case(f"{name} with all weight that level {level} may have in a frame", kept, {name: changed}, line)
        number += len(row)


def gate_behind(read: Cone, events: int) -> int:
    """The gate behind the packets in which the first events came."""
    before = 0
    for gate, packet in read.packets:
        if before >= events:
            return gate
        before += len(packet.items)
    return len(read.files[JOURNAL]) - 1


def stops(kept: Kept, cone: int) -> Iterator[Case]:
    """A stop at an earlier moment leaves closed gates: the last packet's, the closing record's, and those of the last
    flush and of the packet behind those that it came in."""
    read = cone_in(kept, cone)
    journal, log = file_name(cone, JOURNAL), file_name(cone, LOG)
    last, _packet = read.packets[-1]
    without_last = put(kept.folder[journal], last, 0)
    line = malformed(cone, JOURNAL, last) if read.log.closed else None
    yield Case(f"{journal} without its last packet", kept, {journal: without_last}, line)
    if read.log.closed:
        yield Case(f"{log} without its closing", kept, {log: put(kept.folder[log], read.log.records[-1].gate, 0)})
    flush = [record for record in read.log.records if record.kind == FLUSH][-1]
    before_flush: Changes = {
        journal: put(kept.folder[journal], gate_behind(read, flush.n0), 0),
        log: put(kept.folder[log], flush.gate, 0),
    }
    yield Case(f"cone {cone} before its last flush", kept, before_flush)


def as_it_is(kept: Kept) -> Case:
    return Case("the files of a run", kept, {}, "")


def table(kept: Kept, draw: random.Random) -> Iterator[Case]:
    yield as_it_is(kept)
    yield from settings_changed(kept)
    yield from swaps(kept)
    for cone in kept.run.settings.cones():
        yield from missing(kept, cone)
        yield from headers(kept, cone)
        yield from lengthened(kept, cone, draw)
        yield from behind_closing(kept, cone)
        yield from in_order(kept, cone)
        yield from frames_changed(kept, cone)
        yield from unread(kept, cone, draw)
        yield from misnamed(kept, cone)
        yield from weights_changed(kept, cone)
        yield from frames_filled(kept, cone)
        yield from stops(kept, cone)
    yield from cuts(kept)
