#!/usr/bin/env python3
"""The calls of the crates with the names of their clauses, and the laws, as the sources have them.

contracts.py --repeated [--most N] [CRATE..]
    Prints of each crate, or of these, how many clauses its functions have, and how many of them stand word for word in
    another function of any of them, and the same of what functions ensure alone; and the N texts that stand most often.
    Names of clauses don't count.
"""

from __future__ import annotations

import argparse
import re
import sys
from collections import defaultdict
from pathlib import Path
from typing import Iterator, NamedTuple

# How a clause without a name is named here.
UNNAMED = "unnamed"

OWNER = re.compile(r"(?:pub(?:\(\w+\))? )?(impl|trait|struct|enum)\b(.*)")
CALL = re.compile(r"\s*(?:pub(?:\(\w+\))? )?(?:const )?(?:unsafe )?fn (\w+)")
CLAUSE = re.compile(r"\s*ensures (?:(\w+) )?\{")
LAW = re.compile(r"\s*(?:(?:pub|abbrev|unfoldable) )*([^\s:(){}]+) :")
PARAMETERS = re.compile(r"<[^<>]*>")
# An enum's variant, as `Failed` or `Malformed { at: u64 },`.
VARIANT = re.compile(r"    ([A-Z]\w*)\b")


class Call(NamedTuple):
    """A function: its modules, the type or trait that it is of ("" for none), its name, its clauses."""

    modules: tuple[str, ...]
    owner: str
    name: str
    clauses: set[str]

    def is_named(self, path: str) -> bool:
        """Whether a path such as `flush`, `Levels::flush` or `reports::look` names it, its crate left out."""
        *before, name = path.split("::")
        if name != self.name:
            return False
        if before and before[-1] == self.owner:
            before.pop()
        elif self.owner:
            return False
        return not before or tuple(before) == self.modules[-len(before):]


def headed(text: str) -> tuple[str, str]:
    """The trait and the type of what stands behind `impl` or `trait`, without their parameters."""
    text = text.split("{")[0].replace("->", "")
    while (shorter := PARAMETERS.sub("", text)) != text:
        text = shorter
    trait, _, of = text.split(" where ")[0].rpartition(" for ")
    return trait.strip(), re.split(r"[:\s(;]", of.strip())[0]


class Sources:
    """The sources of one crate."""

    def __init__(self, folder: Path) -> None:
        self.calls: list[Call] = []
        # The traits of each type, and the names of each enum's variants.
        self.traits: defaultdict[str, set[str]] = defaultdict(set)
        self.variants: defaultdict[str, set[str]] = defaultdict(set)
        for file in sorted((folder / "src").rglob("*.rt")):
            self.read(file.relative_to(folder / "src").with_suffix("").parts, file.read_text())
        texts = [file.read_text() for part in ("specs", "proofs") for file in (folder / part).rglob("*.antt")]
        self.laws = {law[1] for text in texts for line in text.splitlines() if (law := LAW.match(line))}

    def read(self, modules: tuple[str, ...], text: str) -> None:
        owner = enum = ""
        clauses: set[str] = set()
        for line in text.splitlines():
            if head := OWNER.match(line):
                trait, owner = headed(head[2])
                self.traits[owner].add(trait)
                enum = owner if head[1] == "enum" else ""
            elif line.startswith("}"):
                owner = enum = ""
            elif call := CALL.match(line):
                clauses = set()
                self.calls.append(Call(modules, owner if line.startswith(" ") else "", call[1], clauses))
            elif clause := CLAUSE.match(line):
                clauses.add(clause[1] or UNNAMED)
            elif enum and (variant := VARIANT.match(line)):
                self.variants[enum].add(variant[1])

    def named(self, path: str) -> Iterator[Call]:
        """The calls that a path may mean."""
        return (call for call in self.calls if call.is_named(path))


def crates(top: Path) -> dict[str, Sources]:
    return {folder.name: Sources(folder) for folder in sorted((top / "crates").iterdir()) if folder.is_dir()}


# --- clauses that are repeated

BEGINS = re.compile(r"\s*(requires|ensures)\*? (?:\w+ )?(?=\{)")


class Clause(NamedTuple):
    crate: str
    # The file, and the line of the function.
    function: tuple[Path, int]
    # Its kind and what stands between its braces, each gap one blank.
    text: str


def inside(lines: list[str], number: int, at: int) -> str:
    """What the braces hold that open in a line at a column."""
    depth, found = 0, []
    for letter in "\n".join([lines[number][at:], *lines[number + 1 :]]):
        depth += {"{": 1, "}": -1}.get(letter, 0)
        found.append(letter)
        if depth == 0:
            break
    return " ".join("".join(found)[1:-1].split())


def clauses_of(folder: Path) -> Iterator[Clause]:
    for file in sorted((folder / "src").rglob("*.rt")):
        lines, function = file.read_text().splitlines(), 0
        for number, line in enumerate(lines):
            if CALL.match(line):
                function = number
            elif begin := BEGINS.match(line):
                yield Clause(folder.name, (file, function), f"{begin[1]} {inside(lines, number, begin.end())}")


def show_repeated(folders: list[Path], most: int) -> None:
    clauses = [clause for folder in folders for clause in clauses_of(folder)]
    functions: defaultdict[str, set[tuple[Path, int]]] = defaultdict(set)
    for clause in clauses:
        functions[clause.text].add(clause.function)
    counts = {folder.name: [0, 0, 0, 0] for folder in folders}
    for clause in clauses:
        is_repeated, ensures = len(functions[clause.text]) > 1, clause.text.startswith("ensures")
        tells = (True, is_repeated, ensures, ensures and is_repeated)
        counts[clause.crate] = [count + told for count, told in zip(counts[clause.crate], tells)]
    print("| crate | clauses | repeated | ensures | repeated |", "|---|---|---|---|---|", sep="\n")
    for name, row in [*counts.items(), ("all", [sum(column) for column in zip(*counts.values())])]:
        print("|", " | ".join([name, *(f"{count:,}" for count in row)]), "|")
    for text in sorted(functions, key=lambda text: (-len(functions[text]), text))[:most]:
        print(f"{len(functions[text])} times: {text}")


def main() -> int:
    parser = argparse.ArgumentParser(prog="contracts.py", allow_abbrev=False)
    parser.add_argument("--repeated", action="store_true", required=True, help="count clauses of other functions")
    parser.add_argument("--most", metavar="N", type=int, default=0, help="print the N texts that stand most often")
    parser.add_argument("crates", metavar="CRATE", nargs="*", help="these crates alone")
    words = parser.parse_args()
    top = Path(__file__).resolve().parents[2] / "crates"
    if unknown := [name for name in words.crates if not (top / name / "src").is_dir()]:
        print(f"contracts.py: there is no crate {unknown[0]}", file=sys.stderr)
        return 1
    names = words.crates or sorted(folder.name for folder in top.iterdir() if (folder / "src").is_dir())
    show_repeated([top / name for name in names], words.most)
    return 0


if __name__ == "__main__":
    sys.exit(main())
