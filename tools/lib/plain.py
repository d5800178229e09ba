"""Names as they are printed by those who can't know the terminal."""

from __future__ import annotations

from .names import Names, signed

# What a terminal of 8 bits obeys, whatever character of UTF-8 it is a part of.
FIRST_OBEYED, BEHIND_OBEYED = 0x80, 0xA0


def is_plain(one: str) -> bool:
    """Whether a character is visible or a space, sets no direction, and has no byte that any terminal obeys."""
    return one.isprintable() and not any(FIRST_OBEYED <= byte < BEHIND_OBEYED for byte in one.encode())


def escaped(one: str) -> str:
    return "".join(f"\\x{byte:02x}" for byte in one.encode(errors="surrogateescape"))


def plain(name: bytes) -> str:
    """In one line, with each other character as \\xNN, byte by byte."""
    text = name.decode(errors="surrogateescape")
    return "".join(one if is_plain(one) else escaped(one) for one in text)


def name_of(names: Names, key: int, place: str) -> bytes:
    """The name of a key. A key without one is refused, with the place that it comes from."""
    name = names.of(signed(key))
    return names.due(key, place) if name is None else name
