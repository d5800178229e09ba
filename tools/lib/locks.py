"""Whether somebody has the journals of a run open, by the locks on them: the program holds one on each journal, as
flock makes it, from its opening to its end, however that comes.

The system's list of locks is looked at, which takes none: for a lock of ours a recovery that begins then is refused.
"""

from __future__ import annotations

import fcntl
from pathlib import Path
from typing import Sequence

LIST = Path("/proc/locks")


def locked_files() -> set[int] | None:
    """The numbers of the files that are locked, on any file system; None where the system has no list of them."""
    try:
        lines = LIST.read_text().splitlines()
    except OSError:
        return None
    # As `1: FLOCK  ADVISORY  WRITE 6680 fe:00:10968610 0 EOF`; behind an arrow somebody waits for one.
    return {int(words[5].rpartition(":")[2]) for words in map(str.split, lines) if words[1] == "FLOCK"}


def can_lock(journal: Path) -> bool:
    """Whether nobody has locked a journal, which is locked and let go at once."""
    with journal.open("rb") as file:
        try:
            fcntl.flock(file, fcntl.LOCK_SH | fcntl.LOCK_NB)
        except OSError:
            return False
    return True


def are_left(journals: Sequence[Path]) -> bool:
    """Whether nobody has the journals of a run open any more. False where the system doesn't tell.

    The list lacks the locks of other machines and of processes that aren't seen from here. So where it has none of
    these journals, each is tried besides, at the very end of a run."""
    locked = locked_files()
    if locked is None or any(journal.stat().st_ino in locked for journal in journals):
        return False
    return all(map(can_lock, journals))
