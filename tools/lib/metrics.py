"""Metrics in the text that Prometheus reads, as for the textfile collector of its node exporter."""

from __future__ import annotations

import os
from pathlib import Path
from typing import Iterator, Sequence

from .plain import escaped

ESCAPES = str.maketrans({"\\": r"\\", '"': r"\"", "\n": r"\n"})


def printed(value: object) -> str:
    """A label's value: in its own escapes, and with no other byte that a terminal obeys. Such a one stands as \\xNN, so
    that two values stay two."""
    several = (one if one.isprintable() or one == "\n" else escaped(one) for one in str(value))
    return "".join(several).translate(ESCAPES)


class Metric:
    """A metric with its values, each with its labels."""

    def __init__(self, name: str, kind: str, what: str) -> None:
        self.name = name
        self.kind = kind
        self.what = what
        self.values: list[tuple[dict[str, object], float]] = []

    def put(self, value: float, **labels: object) -> None:
        self.values.append((labels, value))

    def lines(self) -> Iterator[str]:
        if self.values:
            yield f"# HELP {self.name} {self.what}\n# TYPE {self.name} {self.kind}\n"
        for labels, value in self.values:
            told = ",".join(f'{name}="{printed(one)}"' for name, one in labels.items())
            number = value if isinstance(value, int) else f"{value:.6f}"
            yield f"{self.name}{'{' + told + '}' if told else ''} {number}\n"


def text_of(metrics: Sequence[Metric]) -> str:
    return "".join(line for metric in metrics for line in metric.lines())


def write(path: Path, text: str) -> None:
    """Puts a text in the place of a file at once, so that nobody reads a part of it."""
    part = path.with_name(f".{path.name}.{os.getpid()}")
    part.write_text(text)
    os.replace(part, path)
