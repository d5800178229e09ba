"""The crates of this repository, as crates.txt has them, the words by which rattle checks them, and what docs/dev/GATE.md
says that their proofs take."""

from __future__ import annotations

import hashlib
import re
import shutil
from pathlib import Path
from typing import Callable, Collection

TOP = Path(__file__).resolve().parents[2]
MEASURED = TOP / "docs/dev/GATE.md"
PROGRAM = "lert_program"
# The folders of a crate's sources.
PARTS = ("src", "specs", "proofs")
# A row of the table that tools/build/measure prints: the crate, and the processor seconds of its proof.
ROW = re.compile(r"^\| *`?(\w+)`? *\| *([\d,]+(?:\.\d+)?) *\|", re.MULTILINE)
# Where a crate isn't in that table, seconds for each line that its check reads, as a guess.
SECONDS_A_LINE = 0.03


def kit() -> Path:
    rt = shutil.which("rt")
    if not rt:
        raise FileNotFoundError("there is no rt")
    return Path(rt).resolve().parent.parent


class Crates:
    """All crates that crates.txt lists."""

    def __init__(self, top: Path = TOP) -> None:
        self.top = top
        lines = [line.split("#")[0].strip() for line in (top / "crates.txt").read_text().splitlines()]
        self.lines = {re.split(r"[\s:]", line)[0]: line for line in lines if line}
        self.uses = {name: re.split(r"[\s,]+", line.partition(":")[2].strip()) for name, line in self.lines.items()}

    def folder(self, name: str) -> Path:
        return self.top / "crates" / name

    def digest(self, name: str) -> str:
        """The digest of what a crate has of its own: its line, and its files."""
        found = hashlib.sha256(self.lines[name].encode())
        folder = self.folder(name)
        for file in sorted(file for part in PARTS for file in (folder / part).rglob("*") if file.is_file()):
            found.update(repr((str(file.relative_to(folder)), file.read_bytes())).encode())
        return found.hexdigest()

    def needs(self, name: str) -> list[str]:
        """The crates of the repository that it names."""
        return [used for used in self.uses[name] if used in self.lines]

    def of_kit(self, name: str) -> list[str]:
        """The libraries of the kit that it names. Each crate has std besides."""
        return [used for used in self.uses[name] if used and used not in self.lines]

    def below(self, name: str) -> list[str]:
        """All that it stands on, each behind what that stands on."""
        found: list[str] = []
        for used in self.needs(name):
            found += [each for each in [*self.below(used), used] if each not in found]
        return found

    def words(self, verb: str, name: str, rlib: Callable[[str], Path], as_source: Collection[str] = ()) -> list[str]:
        """The words with which rt has rattle check or build a crate, in its folder, over libraries that stand there, and
        over others as source."""
        top, libraries = kit(), kit() / "rlibs"
        root = "src/main.rt" if (self.folder(name) / "src/main.rt").is_file() else "src/lib.rt"
        words = [str(top / "bin/rattle"), verb, "--crate-name", name, root]
        sources = [used for used in self.below(name) if used in as_source]
        # What stands there as source names libraries of its own.
        read = [name, *sources]
        places = {used: libraries / f"{used}.rlib" for used in ["std", *(used for each in read for used in self.of_kit(each))]}
        places |= {used: rlib(used) for each in read for used in self.needs(each) if used not in as_source}
        words += [word for used, place in places.items() for word in ("--extern", f"{used}={place}")]
        words += [word for used in sources for word in ("--lib", f"{used}={self.folder(used) / 'src/lib.rt'}")]
        folders = [libraries, *(rlib(used).parent for used in self.below(name) if used not in as_source)]
        words += [word for folder in dict.fromkeys(folders) for word in ("-L", f"dependency={folder}")]
        words += ["--antt-project", str(top / "rattle/logic/antt-project.json"), "--logic-built", str(top / "logic_built")]
        return [*words, "--links", f"{name}="]

    def longest(self, names: list[str], weights: dict[str, float]) -> dict[str, list[str]]:
        """Of each of these crates, which come lowest first, the heaviest chain of them that ends in it."""
        chains: dict[str, list[str]] = {}
        for name in names:
            before = [chains[used] for used in self.needs(name) if used in chains]
            chains[name] = [*max(before, key=lambda chain: weight(chain, weights), default=[]), name]
        return chains

    def seconds(self) -> dict[str, float]:
        """What each crate's proof takes on one processor: by the table, or else by its lines."""
        text = MEASURED.read_text() if MEASURED.is_file() else ""
        found: dict[str, float] = {}
        for name, number in ROW.findall(text):
            found.setdefault(name, float(number.replace(",", "")))
        return {name: found.get(name) or SECONDS_A_LINE * self.count_lines(name) for name in self.lines}

    def count_lines(self, name: str) -> int:
        files = [file for part in PARTS for file in (self.folder(name) / part).rglob("*")]
        return sum(file.read_bytes().count(b"\n") for file in files if file.is_file())


def weight(chain: list[str], weights: dict[str, float]) -> float:
    return sum(weights[name] for name in chain)
