"""What was asked of a service, and what it has shown."""

from __future__ import annotations

import os
import sys
from contextlib import ExitStack, suppress
from pathlib import Path
from typing import NamedTuple, Sequence

from .inputs import BadInput
from .metrics import Metric
from .names import Names, reading
from .plain import name_of, plain
from .words import Settings


class Wanted(NamedTuple):
    """What a service was asked for."""

    folder: Path
    settings: Settings
    packing: Sequence[str]
    weighs: bool
    named: bool
    period: int
    full: float
    keep: int
    reserve: int
    metrics: Path | None
    stall: float | None
    pause: float
    again: bool
    stops_at_bad: bool


class Shown:
    """The reports of a directory that were printed, and its names."""

    def __init__(self, place: Path, is_named: bool) -> None:
        self.place = place
        self.is_named = is_named
        self.keys: set[int] = set()
        # Of each cone: how many reports of its log.
        self.told: dict[int, int] = {}
        self.opened = ExitStack()
        self.names: Names | None = None
        self.is_deaf = False

    def name_of(self, key: int) -> str:
        with suppress(BadInput, OSError):
            if self.is_named:
                self.names = self.names or self.opened.enter_context(reading(str(self.place / "names")))
                return " " + plain(name_of(self.names, key, ""))
        return ""

    def show(self, cone: int, key: int, at: int) -> None:
        if key in self.keys:
            return
        self.keys.add(key)
        try:
            print(f"{self.place.name} {cone} {key} {at}{self.name_of(key)}", flush=True)
        except BrokenPipeError:
            # Nobody reads it any more.
            os.dup2(os.open(os.devnull, os.O_WRONLY), sys.stdout.fileno())
            self.is_deaf = True


WHAT = {
    "up": "Whether the service reads.",
    "records_total": "Records that were read.",
    "bad_total": "Lines that are no records.",
    "lost_total": "Records that are in no journal.",
    "runs_total": "Directories that were begun.",
    "stalled": "Whether nothing comes.",
    "free_bytes": "What is free on the disk.",
    "events": "Events in the journals of the run.",
    "reports": "Reports of the run.",
    "full_ratio": "How full the fullest cone is.",
    "weight": "What the events in the journals of the run weigh.",
    "lost_amount_total": "The amount that is in no journal.",
}


def told_lost(lost: int, weighs: bool) -> str:
    return f"an amount of {lost} in no journal" if weighs else f"{lost} records in no journal"


# Of these a service has those that go with amounts, or without.
OF_AMOUNTS, OF_RECORDS = {"weight", "lost_amount_total"}, {"lost_total"}


def gauges(values: dict[str, float], service: str, weighs: bool) -> list[Metric]:
    """The metrics of a service, by their names without what all begin with."""
    made = []
    for name in [name for name in values if name not in (OF_RECORDS if weighs else OF_AMOUNTS)]:
        metric = Metric(f"lert_live_{name}", "counter" if name.endswith("_total") else "gauge", WHAT[name])
        metric.put(values[name], service=service)
        made.append(metric)
    return made
