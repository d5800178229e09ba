"""What is due of files that a crash left at a moment, by their formats, the definitions, and what was synced by then.

It knows nothing of the program but its words and its lines.
"""

from __future__ import annotations

import random
from functools import lru_cache
from itertools import product
from typing import Iterator, NamedTuple

from disk_history import Moment
from lib.cones import FRAMES, JOURNAL, LOG, Broken, Cone, Unsound, in_file
from lib.formats import HEADER_LEN, LOG_MAGIC, Header, Left, payloads
from lib.slots import blocks_at
from lib.weaves import weave_of
from lib.words import Settings
from recovery import (
    DONE,
    MALFORMED,
    OTHER_SETTINGS,
    Answer,
    Files,
    Folder,
    Opened,
    dues_of,
    faults,
    file_name,
    files_in,
    is_sound,
)

# Where the first gate of a file of records stands.
FIRST_GATES = {JOURNAL: HEADER_LEN, LOG: len(LOG_MAGIC)}
# From a gate to its payload.
PAYLOAD_BEHIND_GATE = 5
MOST_PAYLOAD = 1 << 32


class Crew(NamedTuple):
    """The settings and the workers of a run, and for each trace the bytes of its keys in each cone."""

    settings: Settings
    workers: int
    parts: list[list[bytes]]


def records_of(data: bytes, file: int) -> list[bytes]:
    """The payloads of a file of records, up to a closed gate."""
    return [payload for _at, payload in payloads(data, FIRST_GATES[file], MOST_PAYLOAD)]


def record_faults(moment: Moment, image: Folder, cone: int, file: int) -> Iterator[str]:
    """The records whose gate was synced have to be there, and at most the one more that was being appended."""
    name = file_name(cone, file)
    written = moment.file(name)
    try:
        kept, put = records_of(written.synced, file), records_of(written.written(), file)
        found = records_of(image.get(name, b""), file)
    except Left as left:
        yield f"{name} leaves its format at {left.at}"
        return
    if found[: len(kept)] != kept:
        yield f"{name} lost one of {len(kept)} records that were synced"
    if len(found) > len(kept) + 1 or found != put[: len(found)]:
        yield f"{name} has {len(found)} records, where {len(kept)} were synced and {len(put)} written"


@lru_cache(maxsize=64)
def misplaced(files: Files, header: Header) -> str:
    """What tools/sound says of the records of the journal that the log names."""
    cone = Cone(files, header)
    try:
        in_file(LOG, cone.log.read, files[LOG])
        in_file(JOURNAL, cone.read_journal, files[JOURNAL])
        cone.check_places()
    except (Broken, Unsound) as refusal:
        return str(refusal)
    return ""


class Trial(NamedTuple):
    """An image of files at a moment. They are whole where a run had begun to print by then."""

    crew: Crew
    moment: Moment
    whole: bool
    image: Folder

    def is_made(self) -> bool:
        """The header and the first gate of each cone's journal and log were synced."""
        places = product(self.crew.settings.cones(), FIRST_GATES.items())
        return all(len(self.moment.file(file_name(cone, file)).synced) > gate for cone, (file, gate) in places)

    def about(self) -> str:
        if not self.is_made():
            return "before all cones were made"
        if self.whole:
            return "once the run had begun to print"
        unsynced = {name.rpartition(".")[2] for name, file in self.moment.files.items() if file.pending}
        return f"with unsynced writes to {', '.join(sorted(unsynced))}" if unsynced else "with all writes synced"

    def cone_faults(self, cone: int) -> Iterator[str]:
        for file in FIRST_GATES:
            yield from record_faults(self.moment, self.image, cone, file)
        files = files_in(self.image, cone)
        weave = weave_of(files[JOURNAL], self.crew.workers, [part[cone] for part in self.crew.parts])
        if lack := weave.missing if self.whole else weave.broken:
            yield f"the journal of cone {cone} is no weave: {lack}"
        if wrong := misplaced(files, self.crew.settings.header(cone)):
            yield f"cone {cone}: {wrong}"

    def made_faults(self) -> Iterator[str]:
        for cone, due in enumerate(dues_of(self.image, self.crew.settings)):
            if not (isinstance(due, Opened) and is_sound(due)):
                yield f"cone {cone} isn't sound: {due}"
                continue
            yield from self.cone_faults(cone)
            if self.whole and not due.closed:
                yield f"cone {cone} isn't closed"

    def unmade_faults(self) -> Iterator[str]:
        for cone in self.crew.settings.cones():
            if len(self.moment.file(file_name(cone, JOURNAL)).written()) > HEADER_LEN + 1:
                yield f"cone {cone} was given a packet before all cones were made"

    def faults(self, answer: Answer, after: Folder) -> Iterator[str]:
        """What is wrong with the image, with the answer over it, or with the files behind that."""
        made = self.is_made()
        yield from self.made_faults() if made else self.unmade_faults()
        if answer.status not in ((DONE,) if made else (DONE, MALFORMED, OTHER_SETTINGS)):
            yield f"answered {answer}"
        yield from faults(answer, self.image, after, self.crew.settings)


# --- a byte that was acknowledged


def named_bytes(files: Files, header: Header) -> Iterator[int]:
    """The places of all bytes of the frames that a log's last record names."""
    cone = Cone(files, header)
    cone.read()
    for level, frames in enumerate(cone.log.directory, 1):
        for frame in frames:
            place = cone.frame_place(level, frame)
            *_, (last, _pieces) = blocks_at(files[FRAMES], place, cone.shape(level))
            yield from range(place, last.end())


def acknowledged(trial: Trial, cone: int, file: int) -> list[int]:
    """The places of the bytes that count, whatever came of the writes since the last sync: those of the records whose
    gate was synced, and of the frames that the last of them names."""
    synced = {of: records_of(trial.moment.file(file_name(cone, of)).synced, of) for of in FIRST_GATES}
    if file != FRAMES:
        first = FIRST_GATES[file]
        return list(range(first, first + sum(PAYLOAD_BEHIND_GATE + len(record) for record in synced[file])))
    files = files_in(trial.image, cone)
    if records_of(files[LOG], LOG) != synced[LOG]:
        return []
    return list(named_bytes(files, trial.crew.settings.header(cone)))


def with_change(trial: Trial, draw: random.Random) -> tuple[str, Trial] | None:
    """The image with another byte in place of an acknowledged one, where it has any, and what was changed."""
    places = [(cone, file) for cone in trial.crew.settings.cones() for file in (JOURNAL, LOG, FRAMES)]
    draw.shuffle(places)
    for cone, file in places:
        if found := acknowledged(trial, cone, file):
            name, at = file_name(cone, file), draw.choice(found)
            data = bytearray(trial.image[name])
            data[at] = 0 if data[at] and draw.random() < 0.5 else data[at] ^ draw.randrange(1, 256)
            return f"{name} with {data[at]} at {at}", trial._replace(image={**trial.image, name: bytes(data)})
    return None
