"""What the tools share that check crates one by one, at one job and over no kept work."""

from __future__ import annotations

import subprocess
import sys
from typing import Iterator

from crates import Crates


class Failure(Exception):
    """It can't be done. The text says why."""


def known(crates: Crates, names: list[str]) -> None:
    if unknown := [name for name in names if name not in crates.lines]:
        raise Failure(f"crates.txt has no {unknown[0]}")


def check_words(crates: Crates, name: str) -> list[str]:
    """The words with which rt checks a crate, but over no kept work and at one job."""
    words = crates.words("check", name, lambda used: crates.folder(used) / f"out/rlib/{used}.rlib")
    return [*words, "--jobs", "1", "--progress"]


def build_below(crates: Crates, name: str) -> None:
    for used in crates.needs(name):
        if subprocess.run(["rt", "lib"], cwd=crates.folder(used), stdin=subprocess.DEVNULL, stdout=sys.stderr).returncode:
            raise Failure(f"{used} is not built")


def table(head: list[str], rows: list[list[str]]) -> Iterator[str]:
    yield "| " + " | ".join(head) + " |"
    yield "|" + "---|" * len(head)
    for row in rows:
        yield "| " + " | ".join(row) + " |"
