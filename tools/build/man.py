"""Pages of the manual: of a document in Markdown, with headings, paragraphs, lists, tables and blocks of code, or of what
a tool says of itself.
"""

from __future__ import annotations

import re
import time
from typing import Iterator

LINK = re.compile(r"\[([^\]]*)\]\([^)]*\)")
MARKED = re.compile(r"`([^`]*)`")
STRONG = re.compile(r"\*\*([^*]*)\*\*")
MEANT = re.compile(r"(?<![\w*])\*([^*\s][^*]*)\*(?![\w*])")


def escaped(text: str) -> str:
    text = text.replace("\\", "\\e").replace("-", "\\-")
    return "\\&" + text if text[:1] in (".", "'") else text


def inline(text: str) -> str:
    """A text with its marks: code and strong ones are bold, meant ones underlined."""
    text = LINK.sub(r"\1", text)
    marks: list[str] = []

    def kept(mark: str, inner: str) -> str:
        marks.append(f"\\f{mark}{escaped(inner)}\\fR")
        return f"\0{len(marks) - 1}\0"

    text = MARKED.sub(lambda found: kept("B", found[1].replace("\\|", "|")), text)
    text = STRONG.sub(lambda found: kept("B", found[1]), text)
    text = MEANT.sub(lambda found: kept("I", found[1]), text)
    text = escaped(text)
    # A strong one may have others in it.
    while "\0" in text:
        text = re.sub("\0([0-9]+)\0", lambda found: marks[int(found[1])], text)
    return text


def row_of(line: str) -> list[str]:
    return [cell.strip() for cell in re.split(r"(?<!\\)\|", line.strip().strip("|"))]


def table(lines: list[str]) -> Iterator[str]:
    """Each row is a paragraph under its first cell, with the heads of the others before them."""
    heads = row_of(lines[0])[1:]
    for line in lines[2:]:
        first, *others = row_of(line)
        yield f".TP\n{inline(first)}"
        told = [f"{inline(head)}: {inline(cell)}" for head, cell in zip(heads, others) if cell]
        yield "; ".join(told) if len(told) > 1 else "".join(inline(cell) for cell in others) or "\\&"


def blocks(text: str) -> Iterator[list[str]]:
    """The lines of each part. A block of code is one, whatever it has."""
    part: list[str] = []
    in_code = False
    for line in [*text.split("\n"), ""]:
        is_fence = line.startswith("```")
        if is_fence or not in_code and (not line.strip() or line.startswith(("#", "- "))):
            if part and not (is_fence and in_code):
                yield part
                part = []
        if line.strip() or in_code:
            part.append(line)
        if is_fence:
            if in_code:
                yield part
                part = []
            in_code = not in_code


def lines_of(part: list[str]) -> Iterator[str]:
    first = part[0]
    if first.startswith("```"):
        yield ".PP\n.nf\n.RS"
        yield from (escaped(line) for line in part[1:-1])
        yield ".RE\n.fi"
    elif first.startswith("    "):
        yield ".PP\n.nf"
        yield from (escaped(line) for line in part)
        yield ".fi"
    elif first.startswith("#"):
        yield f".SH {inline(first.lstrip('# ')).upper()}"
        yield from ([".PP", inline(" ".join(part[1:]))] if part[1:] else [])
    elif first.startswith("|"):
        yield from table(part)
    elif first.startswith("- "):
        yield f".IP \\(bu 2\n{inline(' '.join(line.strip() for line in part)[2:])}"
    else:
        yield f".PP\n{inline(' '.join(line.strip() for line in part))}"


def beginning(name: str, what: str, epoch: int) -> list[str]:
    day = time.strftime("%Y-%m-%d", time.gmtime(epoch))
    title = escaped(name.upper())
    return [f'.TH {title} 1 "{day}"', ".SH NAME", f"{escaped(name)} \\- {escaped(what)}", ".SH DESCRIPTION"]


def page_of(text: str, name: str, what: str, epoch: int) -> str:
    """A page by this name, of a document that begins with a heading."""
    _, _, rest = text.partition("\n")
    begin = beginning(name, what, epoch)
    return "\n".join([*begin, *(line for part in blocks(rest) for line in lines_of(part))]) + "\n"


def help_page(told: str, name: str, full: str, epoch: int) -> str:
    """The page of a tool, of its own help, in which it has a shorter name."""
    # Where the first paragraph shows the words, the next one says what it does.
    paragraphs = told.split("\n\n")
    what = paragraphs[1] if told.startswith("usage:") else paragraphs[0]
    first = " ".join(re.split(r"(?<=[.:])\s", what.replace("\n", " "), maxsplit=1)[0].split()).rstrip(".:")
    lines = re.sub(rf"(?m)^(usage: )?{name}(?= )", rf"\g<1>{full}", told).rstrip("\n").split("\n")
    body = [".nf", *(escaped(line) for line in lines), ".fi"]
    return "\n".join([*beginning(full, first, epoch), *body]) + "\n"
