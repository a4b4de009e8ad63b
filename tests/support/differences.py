"""The rows of docs/DIFFERENCES.md: a rule, a target, and what each of the two programs answers."""

from __future__ import annotations

import re
from dataclasses import dataclass
from pathlib import Path

ROW = re.compile(r"\| (?P<what>.+?) \| `(?P<rule>.+)` \| `(?P<target>.*?)` \| (.+?) \| (.+?) \|")
ESCAPE = re.compile(rb"\\(?:n|x([0-9a-fA-F]{2}))")


@dataclass(frozen=True)
class Difference:
    """A row of the table."""

    line: int
    what: str
    rule: str
    target: bytes
    ours: str
    theirs: str


def stands_for(text: str) -> bytes:
    r"""The bytes of a target, in which `\n` and `\xNN` are written out."""
    return ESCAPE.sub(
        lambda found: bytes([int(found[1], 16)]) if found[1] else b"\n", text.encode()
    )


def differences(document: Path) -> list[Difference]:
    """The rows of the document, or none where it is not there."""
    if not document.is_file():
        return []
    made = []
    for number, line in enumerate(document.read_text().splitlines(), 1):
        found = ROW.fullmatch(line.strip())
        if found:
            target = stands_for(found["target"])
            made.append(
                Difference(number, found["what"], found["rule"], target, found[4], found[5])
            )
    return made
