"""Saved images: how they begin, and how each bad one is refused."""

from __future__ import annotations

import struct
from dataclasses import replace
from pathlib import Path

import pytest

from support.images import (
    ALWAYS, END, SPACED, TRUE, TWO_SPLITS, WITHOUT_ATOM, Image, instruction, numbers, pool, rule,
    split,
)  # fmt: skip
from support.rows import lay
from support.running import Answer, Program

ONE = b'rule a { strings: $a = "ab" condition: $a }'


def answered(program: Program, folder: Path, image: bytes, target: bytes, flags: str) -> Answer:
    """A scan by an image."""
    lay(folder, {"s.img": image, "t.bin": target})
    return program.run(["scan", "-C", *flags.split(), "s.img", "t.bin"], folder)


def test_sizes() -> None:
    """The samples have the sizes that their description gives."""
    assert [len(ALWAYS.bytes()), len(WITHOUT_ATOM.bytes())] == [153, 202]
    assert [len(SPACED.bytes()), len(TWO_SPLITS.bytes())] == [162, 338]


@pytest.mark.parametrize(
    ("image", "target", "flags", "lines"),
    [
        (ALWAYS, b"anything", "", ["a t.bin"]),
        (ALWAYS, b"", "-e", ["default:a t.bin"]),
        (SPACED, b"", "-e", ["n:a t.bin"]),
        (SPACED, b"", "", ["a t.bin"]),
        (WITHOUT_ATOM, b"x", "--stats", ["hits: 0"]),
        (TWO_SPLITS, b"ab", "-s --stats", ["a t.bin", "0x0:2:$x", "0x1:1:$x", "hits: 2"]),
        (
            TWO_SPLITS.having(nodes=[*TWO_SPLITS.rows["nodes"][:3], numbers(3, 0, 0, 2, 1, 1)]),
            b"ab",
            "--stats",
            ["a t.bin", "hits: 1"],
        ),
    ],
    ids=["true", "version 1", "version 2", "no namespace", "no atom", "two splits", "no failure"],
)
def test_accepted(
    program: Program, image: Image, target: bytes, flags: str, lines: list[str], tmp_path: Path
) -> None:
    answer = answered(program, tmp_path, image.bytes(), target, flags)
    assert (answer.status, answer.lines, answer.err) == (0, lines, b"")


def with_length(image: bytes, length: int) -> bytes:
    """An image with another length field."""
    return image[:4] + numbers(length) + image[8:]


def with_count(image: Image, section: int, count: int) -> bytes:
    """An image with another count of rows."""
    counts = image.counts()
    counts[section] = count
    return image.bytes(counts)


def coded(*rows: bytes) -> bytes:
    """An image with one rule of this code."""
    return ALWAYS.having(rules=[rule(0, 1, code=(0, len(rows)))], code=list(rows)).bytes()



REFUSED: list[tuple[str, bytes, str]] = [
    ("nothing", b"", "TooShort"),
    ("a byte short of a header", ALWAYS.bytes()[:63], "TooShort"),
    ("another sign", b"X" + ALWAYS.bytes()[1:], "Magic"),
    ("version 0", replace(ALWAYS, version=0).bytes(), "Version"),
    ("version 3", replace(ALWAYS, version=3).bytes(), "Version"),
    ("version 2 over rows of version 1", replace(ALWAYS, version=2).bytes(), "Section 12"),
    ("a byte short", ALWAYS.bytes()[:-1], "Length"),
    ("a byte long", ALWAYS.bytes() + b"\0", "Length"),
    ("another length", with_length(ALWAYS.bytes(), 152), "Length"),
    ("a row of code too many", with_count(ALWAYS, 12, 3), "Section 12"),
    ("a byte of the pool too few", with_count(ALWAYS, 13, 0), "Section 13"),
    ("more rules than fit", with_count(ALWAYS, 0, 65536), "Section 0"),
    ("no nodes", ALWAYS.having(nodes=[]).bytes(), "Section 8"),
    ("a name past the pool", ALWAYS.having(rules=[rule(0, 2)]).bytes(), "Index 0 0"),
    ("a flag that is none", ALWAYS.having(rules=[rule(0, 1, flags=4)]).bytes(), "Index 0 0"),
    ("no code", ALWAYS.having(rules=[rule(0, 1, code=(0, 0))]).bytes(), "Index 0 0"),
    ("code that is left", ALWAYS.having(code=[TRUE, END, END]).bytes(), "Index 0 0"),
    ("a string of no rule", WITHOUT_ATOM.having(strings=[numbers(1, 1, 0, 1)]).bytes(),
     "Index 3 0"),
    ("a split of no string", WITHOUT_ATOM.having(splits=[split(1, 1)]).bytes(), "Index 4 0"),
    ("a long atom", WITHOUT_ATOM.having(splits=[split(0, 5)]).bytes(), "Index 4 0"),
    ("an edge of no byte", TWO_SPLITS.having(
        edges=[numbers(0x61, 1), numbers(0x162, 2), numbers(0x62, 3)]).bytes(), "Index 9 1"),
    ("an output of no split", TWO_SPLITS.having(outputs=[numbers(1), numbers(2)]).bytes(),
     "Index 10 1"),
    ("a name that is no word", ALWAYS.having(pool=pool(b"1")).bytes(), "Name 0 0"),
    ("a namespace that is no word", SPACED.having(pool=pool(b"a1")).bytes(), "Name 0 0"),
    ("a string's name with a blank", WITHOUT_ATOM.having(pool=pool(b"a ")).bytes(), "Name 3 0"),
    ("not of nothing", ALWAYS.having(code=[instruction(0x19), END]).bytes(), "Code 0 0"),
    ("a rule that reads itself", ALWAYS.having(code=[instruction(0x06), END]).bytes(), "Code 0 0"),
    ("no such instruction", coded(instruction(0x23), END), "Code 0 0"),
    ("a flag of 2", coded(instruction(0x03, a=2), END), "Code 0 0"),
    ("a field that is not used", coded(instruction(0x03, a=1, d=1), END), "Code 0 0"),
    ("no such id", coded(instruction(0x08, c=6), END), "Code 0 0"),
    ("a number for a flag", coded(instruction(0x01), instruction(0x1C), END), "Code 0 1"),
    ("the end before the last row", coded(TRUE, END, END), "Code 0 1"),
    ("a value that is left", coded(TRUE, TRUE, END), "Code 0 2"),
    ("no end", coded(TRUE, TRUE), "Code 0 1"),
    ("a skip past the rule", coded(TRUE, instruction(0x1D, c=9), TRUE, END), "Code 0 1"),
    ("paths that meet with other stacks",
     coded(TRUE, instruction(0x1D, c=4), TRUE, TRUE, END), "Code 0 4"),
    ("a loop that is not ended", coded(
        instruction(0x01), instruction(0x01), instruction(0x1F, b=0, c=4), TRUE, END),
     "Code 0 2"),
    ("a program without moves", ALWAYS.having(programs=[numbers(0, 0)]).bytes(), "ProgramBad 0"),
    ("moves of no program", ALWAYS.having(moves=[numbers(0, 0, 0, 0)]).bytes(), "ProgramBad 0"),
    ("a move that is not there", ALWAYS.having(
        programs=[numbers(0, 1)], moves=[numbers(2, 0, 1, 0)]).bytes(), "ProgramBad 0"),
    ("the first node is deep", ALWAYS.having(nodes=[numbers(0, 0, 0, 1, 0, 0)]).bytes(), "Node 0"),
    ("an edge that skips a depth", TWO_SPLITS.having(
        edges=[numbers(0x61, 1), numbers(0x62, 3), numbers(0x62, 3)]).bytes(), "Node 0"),
    ("edges out of order", TWO_SPLITS.having(
        edges=[numbers(0x62, 1), numbers(0x61, 2), numbers(0x62, 3)]).bytes(), "Node 0"),
    ("a failure that is no shorter", TWO_SPLITS.having(nodes=[
        *TWO_SPLITS.rows["nodes"][:2], numbers(3, 0, 1, 1, 0, 1),
        TWO_SPLITS.rows["nodes"][3]]).bytes(), "Node 2"),
    ("an output of another length", TWO_SPLITS.having(outputs=[numbers(0), numbers(0)]).bytes(),
     "Node 2"),
]  # fmt: skip


@pytest.mark.parametrize(
    ("image", "text"), [case[1:] for case in REFUSED], ids=[case[0] for case in REFUSED]
)
def test_refused(program: Program, image: bytes, text: str, tmp_path: Path) -> None:
    answer = answered(program, tmp_path, image, b"xy", "")
    assert answer == Answer(3, b"", f"s.img: {text}\n".encode())


def test_cut_to_each_length(program: Program, tmp_path: Path) -> None:
    """A cut image is too short for its header, or for its own length."""
    whole = ALWAYS.bytes()
    for length in range(len(whole)):
        answer = answered(program, tmp_path, whole[:length], b"", "")
        text = "TooShort" if length < 64 else "Length"
        assert answer == Answer(3, b"", f"s.img: {text}\n".encode()), length


def test_what_compile_writes(program: Program, tmp_path: Path) -> None:
    """An image of version 2 with its own length and counts, of at most 64 bytes a unit of weight."""
    lay(tmp_path, {"r.yar": ONE, "e.yar": b""})
    assert program.run(["compile", "r.yar", "r.img"], tmp_path) == Answer(0, b"", b"")
    image = (tmp_path / "r.img").read_bytes()
    version, length, *counts = struct.unpack_from("<3xB15I", image)
    assert (image[:3], version, length) == (b"YRI", 2, len(image))
    assert (counts[0], counts[3]) == (1, 1)
    # The rule 64 and 1, the string 32 and 1, its form 64 and 2, the condition 16.
    assert len(image) <= 64 * (65 + 33 + 66 + 16) + 4096
    assert program.run(["compile", "e.yar", "e.img"], tmp_path) == Answer(0, b"", b"")
    empty = (tmp_path / "e.img").read_bytes()
    _, *counts = struct.unpack_from("<15I", empty, 4)
    assert (counts[0], counts[8]) == (0, 1)


def test_an_image_that_was_cut(program: Program, tmp_path: Path) -> None:
    """An image that `compile` wrote, without its last byte."""
    lay(tmp_path, {"r.yar": ONE, "t.bin": b"ab"})
    program.run(["compile", "r.yar", "r.img"], tmp_path)
    image = (tmp_path / "r.img").read_bytes()
    lay(tmp_path, {"r.img": image[:-1]})
    answer = program.run(["scan", "-C", "r.img", "t.bin"], tmp_path)
    assert answer == Answer(3, b"", b"r.img: Length\n")
