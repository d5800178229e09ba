"""What a record counts: its amount, and the items that this becomes."""

from __future__ import annotations

import re
from typing import Sequence

from .loads import Load

# A record counts at most as much as a threshold may be.
MOST_AMOUNT = (1 << 32) - 1
MOST_WEIGHT = 255
AMOUNT = re.compile(rb"[0-9]{1,20}")
NO_AMOUNT = f"the amount is no decimal number up to {MOST_AMOUNT}"


def amount_in(text: bytes | None) -> int | None:
    """The amount that a text spells."""
    amount = int(text) if text and AMOUNT.fullmatch(text) else None
    return amount if amount is not None and amount <= MOST_AMOUNT else None


def load_of(amounts: Sequence[int]) -> Load:
    """The items that amounts become, and their sum."""
    return Load(sum(-(-amount // MOST_WEIGHT) for amount in amounts), sum(amounts))


def is_number(wanted: str) -> bool:
    """Whether a column or a word is wanted by its number."""
    return wanted.isascii() and wanted.isdigit()


def why_no_amount(weight: str, column: str | None, word: int | None) -> str:
    """Why this is no amount of a row, where there is a column, or of a line, where there is a word, if it is none."""
    if word is not None and not is_number(weight):
        return "the weight of a line is one of its words, by its number"
    if (word is None and column is None) or not is_number(weight) or int(weight) > 0:
        return ""
    return f"{'columns' if word is None else 'words'} are numbered from 1"
