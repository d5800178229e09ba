"""Runs of the proved program and of a plain one over the same traces, and whether they left the same journals and
reported the same keys.
"""

from __future__ import annotations

import os
import shutil
import subprocess
import sys
from pathlib import Path
from typing import NamedTuple

HERE = Path(__file__).resolve().parent
sys.path.insert(0, str(HERE.parent / "tools"))

from lib.formats import HEADER_LEN, WRITTEN, header_of, payloads  # noqa: E402
from lib.weaves import KEYS_AT, weighed  # noqa: E402

# Says which file ./lert runs, which looks for it at each start: that is no part of the program's time.
CHOICE = HERE.parent / "tools/lib/program"
LERT, BEFORE, PLAIN = "lert", "before", "journaled_map"
GENERATORS = ("generated_trace", "skewed_trace", "distinct_trace")
SEED = 1
FILES = ("journal", "log", "frames")
THRESHOLD = 24
ROOM = 262_144
BASE = 4096
PACKET = 1024
# Those that the proved program is made for.
PROCESSORS = ("-C", "target-cpu=x86-64-v2")


class Failure(Exception):
    """The bench can't go on. The text says why."""


class Case(NamedTuple):
    """Some traces, the workers that read them, and the cones that take their keys."""

    generator: str
    keys: int
    cone_bits: int
    base: int
    traces: int = 1
    workers: int = 1
    # The keys that there is room for, where these are more.
    most: int = 0

    def room(self) -> int:
        """The default, doubled until a cone that takes all keys has room for their reports; one of several may take a
        quarter more than its part."""
        room, keys = ROOM, max(self.keys, self.most)
        needed = keys if self.cone_bits == 0 else (keys >> self.cone_bits) * 5 // 4
        while THRESHOLD * room < needed:
            room *= 2
        return room

    def __str__(self) -> str:
        kind = self.generator.removesuffix("_trace")
        cones = 1 << self.cone_bits
        text = f"{self.keys:,} {kind} keys, {cones} cone{'s' * (cones > 1)}, base {self.base:,}"
        if self.traces == 1:
            return text
        return f"{text}, {self.traces} traces, {self.workers} worker{'s' * (self.workers > 1)}"


class Use(NamedTuple):
    """What one run took: seconds, and the peak of its resident memory in KiB."""

    seconds: float
    user: float
    system: float
    peak: int


def finish(words: list[str], out: Path) -> None:
    """Runs a command to its end, with its output in a file."""
    with out.open("wb") as sink:
        status = subprocess.run(words, stdout=sink).returncode
    if status != 0:
        raise Failure(f"status {status} of {' '.join(words)}")


class Bench:
    """The compiled programs, and the traces and folders of their runs. The plain one is the last. Where there is a
    greatest weight, the keys of a trace weigh 1, 2, .. up to it in turn, else the traces have no weights."""

    def __init__(self, work: Path, before: Path | None, most_weight: int | None) -> None:
        self.work = work
        self.weights = [] if most_weight is None else [str(most_weight)]
        # With the mean weight about as many events of a key reach it as without weights, and a room has room for as many.
        self.threshold = THRESHOLD * (1 if most_weight is None else most_weight // 2 + 1)
        for name in (PLAIN, "measured", *GENERATORS):
            source = HERE / f"{name}.rs"
            compiler = ["rustc", "-O", *PROCESSORS, "--edition", "2021", "-o", str(work / name), str(source)]
            if subprocess.run(compiler).returncode != 0:
                raise Failure(f"{source.name} does not compile")
        choice = subprocess.run([str(CHOICE)], stdout=subprocess.PIPE, text=True)
        if choice.returncode != 0:
            raise Failure("lert does not run")
        # Their paths.
        self.programs = {LERT: choice.stdout.strip()}
        if before is not None:
            self.programs[BEFORE] = str(before)
        self.programs[PLAIN] = str(work / PLAIN)

    def out(self, program: str) -> Path:
        return self.work / f"{program}.out"

    def folder(self, program: str) -> Path:
        return self.work / f"{program}.files"

    def trace(self, number: int) -> Path:
        return self.work / f"trace{number}"

    def make_traces(self, generator: str, keys: int, traces: int = 1) -> None:
        """Cuts the keys into so many traces of one length. Each begins with the seed that is its first event's."""
        part = keys // traces
        for number in range(traces):
            words = [str(SEED + number * part), str(part), *self.weights]
            finish([str(self.work / generator), *words], self.trace(number))

    def words(self, program: str, case: Case) -> list[str]:
        threshold, room, base = str(self.threshold), str(case.room()), str(case.base)
        cone_bits, workers = str(case.cone_bits), str(case.workers)
        files = [str(self.folder(program)), *(str(self.trace(number)) for number in range(case.traces))]
        if program == PLAIN:
            return [self.programs[program], str(WRITTEN), threshold, room, base, cone_bits, workers, *files]
        options = ["--threshold", threshold, "--room", room, "--base", base, "--cone-bits", cone_bits]
        return [self.programs[program], "run", *options, "--workers", workers, *files]

    def run(self, program: str, case: Case, under: list[str]) -> None:
        """One run into a fresh folder, under another command."""
        shutil.rmtree(self.folder(program), ignore_errors=True)
        # What was left to be written before is no part of what the run waits for.
        os.sync()
        finish([*under, *self.words(program, case)], self.out(program))

    def measure(self, program: str, case: Case) -> Use:
        use = self.work / "use"
        self.run(program, case, [str(self.work / "measured"), str(use)])
        seconds, user, system, peak = use.read_text().split()
        return Use(float(seconds), float(user), float(system), int(peak))

    def check(self, case: Case) -> None:
        """The last runs of all programs left the same keys in their journals, and reported the same."""
        for program in self.programs:
            for cone in range(1 << case.cone_bits):
                name = f"cone-{cone:03}.journal"
                one, other = ((self.folder(each) / name).read_bytes() for each in (program, PLAIN))
                if differ(one, other, case.workers):
                    raise Failure(f"the journals of cone {cone} differ, of {program}: {case}")
            if without_positions(self.out(program)) != without_positions(self.out(PLAIN)):
                raise Failure(f"the reported keys differ, of {program}: {case}")

    def sizes(self) -> dict[str, float]:
        """The MiB that the program's files of each kind take after its last run."""
        files = list(self.folder(LERT).iterdir())
        return {kind: sum(path.stat().st_size for path in files if path.suffix == f".{kind}") / (1 << 20) for kind in FILES}

    def kept(self) -> str:
        """What is the same in all runs."""
        weights = "".join(f", weights 1 to {most} in turn" for most in self.weights)
        return f"threshold {self.threshold:,}{weights}"

    def packets(self) -> int:
        """How many packets the journals of the last runs have: all of a cone's but its last are full."""
        with self.out(PLAIN).open() as text:
            events = [int(line.split()[3]) for line in text if line.startswith("cone ")]
        return sum(-(-count // PACKET) for count in events)


def differ(one: bytes, other: bytes, workers: int) -> bool:
    """Whether two journals differ, of which those of several workers may in the order of their packets."""
    is_exact = workers == 1 and header_of(one).version == header_of(other).version
    return one != other and (is_exact or items_of(one) != items_of(other))


def items_of(journal: bytes) -> dict[bytes, bytes]:
    """The keys of each trace and worker in a journal with their weights, in their order."""
    header = header_of(journal)
    items: dict[bytes, bytearray] = {}
    for _at, payload in payloads(journal, HEADER_LEN, header.most_payload()):
        items.setdefault(payload[:KEYS_AT], bytearray()).extend(weighed(header.version, payload[KEYS_AT:]))
    return {source: bytes(joined) for source, joined in items.items()}


def without_positions(printed: Path) -> list[str]:
    """The lines of the cones and of the totals, with the keys of each cone in one order."""
    lines: list[str] = []
    keys: list[str] = []
    with printed.open() as text:
        for line in text:
            if line[0].isdigit():
                keys.append(line.split()[0])
            else:
                lines += [*sorted(keys), line]
                keys = []
    return lines
