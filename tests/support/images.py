"""Small images made byte by byte, after the format that docs/IMAGE.md gives."""

from __future__ import annotations

import struct
from dataclasses import dataclass, field, replace

SECTIONS = (
    "rules", "notes", "externals", "strings", "splits", "sets", "programs", "moves",
    "nodes", "edges", "outputs", "lists", "code", "pool",
)  # fmt: skip


def numbers(*values: int) -> bytes:
    """Numbers of four bytes."""
    return struct.pack(f"<{len(values)}I", *values)


def instruction(op: int, a: int = 0, b: int = 0, c: int = 0, d: int = 0) -> bytes:
    """A row of code."""
    return struct.pack("<BBHIQ", op, a, b, c, d)


def split(string: int, atom_length: int) -> bytes:
    """A split with free border and no sides."""
    return numbers(string) + bytes([0, 0, 0, 0, 0, atom_length, 0, 0]) + numbers(0, 0, 0, 0, 0)


def rule(
    name_place: int,
    name_length: int,
    *,
    flags: int = 0,
    strings: tuple[int, int] = (0, 0),
    code: tuple[int, int] = (0, 2),
    space: tuple[int, int] | None = None,
) -> bytes:
    """A row of a rule without notes; `space` is its namespace in images of version 2."""
    row = numbers(name_place) + struct.pack("<HH", name_length, flags)
    row += numbers(0, 0, *strings, *code)
    return row if space is None else row + numbers(*space)


END = instruction(0x00)
TRUE = instruction(0x03, a=1)


@dataclass(frozen=True)
class Image:
    """The sections of an image as lists of rows, and its version."""

    version: int = 1
    rows: dict[str, list[bytes]] = field(default_factory=dict)

    def having(self, **sections: list[bytes]) -> Image:
        """The same image with other rows in some sections."""
        return replace(self, rows={**self.rows, **sections})

    def counts(self) -> list[int]:
        """How many rows each section has."""
        return [len(self.rows.get(name, [])) for name in SECTIONS]

    def bytes(self, counts: list[int] | None = None) -> bytes:
        """The bytes of the image; `counts` may be said wrongly."""
        body = b"".join(b"".join(self.rows.get(name, [])) for name in SECTIONS)
        head = b"YRI" + bytes([self.version])
        return head + numbers(64 + len(body), *(counts or self.counts())) + body


def pool(text: bytes) -> list[bytes]:
    """The pool's bytes as its rows."""
    return [bytes([byte]) for byte in text]


# One rule `a` that is always true.
ALWAYS = Image(
    rows={
        "rules": [rule(0, 1)],
        "nodes": [numbers(0, 0, 0, 0, 0, 0)],
        "code": [TRUE, END],
        "pool": pool(b"a"),
    }
)

# A rule `a` with a string `$x` whose atom no node gives out.
WITHOUT_ATOM = ALWAYS.having(
    rules=[rule(0, 1, strings=(0, 1))],
    strings=[numbers(1, 1, 0, 0)],
    splits=[split(0, 1)],
    code=[instruction(0x0A), END],
    pool=pool(b"ax"),
)

# The same rule with a namespace `n`, in version 2.
SPACED = replace(
    ALWAYS.having(rules=[rule(0, 1, space=(1, 1))], pool=pool(b"an")), version=2
)

# A string with two splits of one and two bytes, `a`, `b` and `ab` being nodes.
TWO_SPLITS = WITHOUT_ATOM.having(
    splits=[split(0, 2), split(0, 1)],
    nodes=[
        numbers(0, 2, 0, 0, 0, 0),
        numbers(2, 1, 0, 1, 0, 0),
        numbers(3, 0, 0, 1, 0, 1),
        numbers(3, 0, 2, 2, 1, 1),
    ],
    edges=[numbers(0x61, 1), numbers(0x62, 2), numbers(0x62, 3)],
    outputs=[numbers(1), numbers(0)],
)
