"""The commands that the documents show, as they stand there, with what is shown of their answers.

A block between ```console lines has commands behind `$ `, below each what it writes on both
outputs, and `# status N` where the status is not 0. A command with `<< 'END'` has its lines up to
`END`. In the README a line that is indented by four blanks and begins with `./yara` is a command too.
"""

from __future__ import annotations

import re
from collections.abc import Iterator
from dataclasses import dataclass
from pathlib import Path

STATUS = re.compile(r"# status (\d+)")
HERE = re.compile(r"<< *'?(\w+)'?$")


@dataclass(frozen=True)
class Shown:
    """A command of a document; without `out` only its status is shown."""

    line: int
    command: str
    out: str | None
    status: int = 0


@dataclass(frozen=True)
class Block:
    """The lines between two fences, without their indentation, and where they begin."""

    kind: str
    line: int
    lines: list[str]


def blocks(text: str) -> Iterator[Block]:
    """The fenced blocks of a document."""
    kind: str | None = None
    indent, begun, taken = "", 0, []
    for number, line in enumerate(text.splitlines(), 1):
        bare = line.strip()
        if kind is None and bare.startswith("```"):
            kind, indent, begun, taken = bare[3:], line[: line.index("`")], number + 1, []
        elif kind is not None and bare == "```":
            yield Block(kind, begun, taken)
            kind = None
        elif kind is not None:
            taken.append(line.removeprefix(indent))


def commands_of(block: Block) -> Iterator[Shown]:
    """The commands of a console block."""
    at = 0
    while at < len(block.lines):
        first = at
        if not block.lines[at].startswith("$ "):
            raise ValueError(f"line {block.line + at}: an answer without a command")
        command = [block.lines[at][2:]]
        at += 1
        end = HERE.search(command[0])
        while end and command[-1] != end[1]:
            command.append(block.lines[at])
            at += 1
        said, status = [], 0
        while at < len(block.lines) and not block.lines[at].startswith("$ "):
            told = STATUS.fullmatch(block.lines[at])
            if told:
                status = int(told[1])
            else:
                said.append(block.lines[at] + "\n")
            at += 1
        yield Shown(block.line + first, "\n".join(command), "".join(said), status)


def indented(text: str) -> Iterator[Shown]:
    """The indented lines that begin with `./yara`; what they write is not shown."""
    fenced = False
    for number, line in enumerate(text.splitlines(), 1):
        if line.strip().startswith("```"):
            fenced = not fenced
        elif not fenced and re.match(r"    \./yara \w", line):
            yield Shown(number, line.strip(), None)


def shown(document: Path) -> list[Shown]:
    """The commands of a document in their order."""
    text = document.read_text()
    found = [one for block in blocks(text) if block.kind == "console" for one in commands_of(block)]
    return sorted([*found, *indented(text)], key=lambda one: one.line)


def documents(top: Path) -> list[Path]:
    """The documents of the repository, without those of single crates and the recipes of fleets.

    (A recipe needs other machines or services; fleet/tests try what the package itself does.)
    """
    found = [*top.glob("*.md"), *top.glob("docs/*.md"), *top.glob("release/*.md")]
    return sorted(place for place in found if not place.name.startswith(("NOTES", "FLEETS")))
