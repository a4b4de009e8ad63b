"""Rows: files, a command line, and the answer that the language and the commands define.

Each row with a scan by rules is judged in every way that must answer alike: by the rules, by a
saved image with the values kept in it, and by that image with the values given anew.
"""

from __future__ import annotations

import re
import shlex
from collections.abc import Mapping
from dataclasses import dataclass, field
from pathlib import Path

import pytest

from support.running import Answer, Program

Content = str | bytes

FLAG = re.compile(r"-[sgmncCe]+|--stats")
VALUE = re.compile(r"[A-Za-z_][A-Za-z0-9_]*=")


def raw(content: Content) -> bytes:
    """A text's bytes, each character one byte."""
    return content if isinstance(content, bytes) else content.encode("latin-1")


@dataclass(frozen=True)
class Row:
    """Files, words, and the answer."""

    name: str
    words: tuple[str, ...]
    files: Mapping[str, bytes] = field(repr=False)
    status: int
    out: bytes
    err: bytes

    @property
    def expected(self) -> Answer:
        """The answer of the row."""
        return Answer(self.status, self.out, self.err)


def row(
    name: str,
    words: str,
    files: Mapping[str, Content],
    *lines: str,
    err: str = "",
    status: int = 0,
) -> Row:
    """A row with any files and words; `lines` are those of the first output."""
    return Row(
        name,
        tuple(shlex.split(words)),
        {key: raw(value) for key, value in files.items()},
        status,
        b"".join(raw(line) + b"\n" for line in lines),
        raw(err) + b"\n" if err else b"",
    )


def scan(
    name: str,
    rules: Content,
    target: Content,
    *lines: str,
    words: str = "scan -s r.yar t.bin",
) -> Row:
    """A scan of `t.bin` by the rules `r.yar`."""
    return row(name, words, {"r.yar": rules, "t.bin": target}, *lines)


def strings(name: str, declared: str, target: Content, *matches: str) -> Row:
    """The matches of the strings of one rule `a`, whose condition is `any of them`."""
    rules = f"rule a {{ strings: {declared} condition: any of them }}"
    head = ["a t.bin"] if matches else []
    return scan(name, rules, target, *head, *matches)


def truth(
    condition: str, holds: bool, target: Content = "xxabab", name: str = "", head: str = ""
) -> Row:
    """Whether a condition holds; `head` stands before the condition's rule."""
    rules = f"{head}rule x {{ condition: {condition} }}"
    return scan(name or condition, rules, target, *(["x t.bin"] if holds else []))


def refused(name: str, rules: Content, err: str, words: str = "scan r.yar t.bin") -> Row:
    """Rules that are refused."""
    return row(name, words, {"r.yar": rules, "t.bin": "xxabab"}, err=err, status=2)


def names(rows: list[Row]) -> list[str]:
    """The names of rows, for pytest."""
    return [one.name for one in rows]


def lay(folder: Path, files: Mapping[str, bytes]) -> None:
    """Writes files into a folder."""
    for name, content in files.items():
        place = folder / name
        place.parent.mkdir(parents=True, exist_ok=True)
        place.write_bytes(content)


def standing(folder: Path) -> dict[str, bytes]:
    """All files of a folder."""
    return {
        str(place.relative_to(folder)): place.read_bytes()
        for place in sorted(folder.rglob("*"))
        if place.is_file()
    }


@dataclass(frozen=True)
class ScanWords:
    """The words of a scan by rules, apart."""

    flags: tuple[str, ...]
    rules: tuple[str, ...]
    target: str
    values: tuple[str, ...]

    @staticmethod
    def of(words: tuple[str, ...]) -> ScanWords | None:
        """The words of a plain scan by rules, or none."""
        if not words or words[0] != "scan" or "--" in words:
            return None
        flags = tuple(word for word in words[1:] if FLAG.fullmatch(word))
        if any("C" in flag for flag in flags):
            return None
        named = [word for word in words[1:] if word not in flags]
        values: list[str] = []
        while len(named) > 2 and VALUE.match(named[-1]):
            values.insert(0, named.pop())
        if len(named) < 2:
            return None
        return ScanWords(flags, tuple(named[:-1]), named[-1], tuple(values))


# Rules with more text than this are left out where the program checks itself at each step.
LARGE = 1 << 20


def skip_large(program: Program, size: int) -> None:
    """Leaves out what takes minutes in a program that checks itself at each step."""
    if program.sanitized and size > LARGE:
        pytest.skip("too large for a program that checks itself at each step")


def judge(program: Program, one: Row, folder: Path) -> None:
    """Runs a row in every way that must answer alike."""
    skip_large(program, max(map(len, one.files.values()), default=0))
    lay(folder, one.files)
    before = standing(folder)
    answer = program.run(one.words, folder)
    assert answer == one.expected
    split = ScanWords.of(one.words)
    if split is None or one.status == 1:
        return
    assert standing(folder) == before, "a scan changes no file"
    image = "made.img"
    compiled = program.run(["compile", *split.rules, image, *split.values], folder)
    if one.status in (2, 8) or (one.status == 4 and compiled.status == 4):
        assert compiled == one.expected
        assert standing(folder) == before, "a refused compilation changes no file"
        return
    assert compiled == Answer(0, b"", b"")
    kept = program.run(["scan", "-C", *split.flags, image, split.target], folder)
    assert kept == one.expected, "by the saved image"
    if split.values:
        words = ["scan", "-C", *split.flags, image, split.target, *split.values]
        assert program.run(words, folder) == one.expected, "by the image, values given anew"
