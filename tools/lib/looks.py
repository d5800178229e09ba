"""What a file that was taken for a trace looks like, by how it begins, and how a trace is made of such a one."""

from __future__ import annotations

import codecs
import json
from contextlib import suppress

from .formats import JOURNAL_HEAD, LOG_MAGIC, TRACE_HEAD, Left, version_of

# So many bytes are looked at.
HEAD_LEN = 4096
PCAP, PCAPNG = "a pcap file: tools/keys pack --packets makes a trace of it", b"\x0a\x0d\x0d\x0a"
UNPACK = "unpack it into tools/keys pack"
UTF_16 = "UTF-16 text: iconv -f UTF-16 -t UTF-8 makes of it what tools/keys pack reads"
BEGINNINGS = (
    (JOURNAL_HEAD, "the journal of a cone: tools/journal reads it"),
    (LOG_MAGIC[:5], "the log of a cone"),
    (b"\x1f\x8b", "a gzip file: tools/keys pack unpacks it"),
    (b"\x28\xb5\x2f\xfd", f"a zstd file: {UNPACK}"),
    (b"\xfd7zXZ\0", f"an xz file: {UNPACK}"),
    (b"BZh", f"a bzip2 file: {UNPACK}"),
    (b"PK\3\4", f"a zip file: {UNPACK}"),
    (b"\xff\xfe", UTF_16),
    (b"\xfe\xff", UTF_16),
    (b"\xd4\xc3\xb2\xa1", PCAP),
    (b"\xa1\xb2\xc3\xd4", PCAP),
    (b"\x4d\x3c\xb2\xa1", PCAP),
    (b"\xa1\xb2\x3c\x4d", PCAP),
    (PCAPNG, "a pcapng file: tools/keys pack --packets makes a trace of it"),
    (b"SQLite format 3\0", "an SQLite file, as names are"),
    (b"PAR1", "a Parquet file"),
)
PARTED = ",;\t|"


def text_of(head: bytes) -> str | None:
    """The text that a file begins with, where it is one: whole lines, or all of one line."""
    with suppress(UnicodeDecodeError):
        text = codecs.getincrementaldecoder("utf-8-sig")().decode(head)
        if all(one.isprintable() or one.isspace() for one in text):
            lines, cut = text.rpartition("\n")[::2]
            return lines or cut
    return None


def is_object(line: str) -> bool:
    with suppress(ValueError):
        return isinstance(json.loads(line), dict)
    return False


def look_of_text(text: str) -> str:
    lines = [line for line in text.splitlines() if line.strip()]
    if lines and all(line.isascii() and line.isdigit() for line in lines):
        return "numbers, one a line: tools/keys pack makes a trace of them"
    if lines and all(map(is_object, lines)):
        return "JSON lines: tools/keys pack --json FIELD --hash makes a trace of them"
    for mark in PARTED:
        counts = {line.count(mark) for line in lines[:20]}
        if len(counts) == 1 and counts != {0}:
            return "a CSV: tools/keys pack --csv COLUMN --hash makes a trace of it"
    return "text: tools/keys pack --hash makes a trace of its lines"


def look_of(head: bytes) -> str | None:
    """What a file that begins so looks like, and what is to be done; None where nothing is known of it."""
    with suppress(Left):
        version_of(head, TRACE_HEAD)
        return None
    for beginning, look in BEGINNINGS:
        if head.startswith(beginning):
            return look
    if head and head[1::2].count(0) > len(head) // 3:
        return UTF_16
    text = text_of(head)
    return None if text is None else look_of_text(text)
