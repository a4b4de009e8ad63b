"""2,000 images made from a seed: each is scanned or refused within a second, in little memory."""

from __future__ import annotations

from dataclasses import dataclass
from pathlib import Path

import pytest

from support.damage import damaged
from support.running import CHECKED_FACTOR, MIB, Answer, Limits, Program

IMAGES = 2000
STRETCHES = 40
EACH = IMAGES // STRETCHES

SECONDS = 1.0
CODES = (
    b"TooShort", b"Magic", b"Version", b"Length", b"Section", b"Index", b"Name", b"Code",
    b"ProgramBad", b"Node",
)  # fmt: skip

# A rule with every kind of instruction and of move.
ALL_KINDS = rb"""
import "elf" import "pe" import "hash"
private rule first { condition: filesize > number or text == "x" or flag }
rule kinds : a b {
  meta: m = "text" n = -1 o = true
  strings:
    $a = "plain" fullword $b = "word" wide nocase $c = "key" xor(1-9) $d = "base" base64
    $e = { 01 ?? ( 02 | 03 [1-4] 04 ) [2-] 05 } $f = /^\bab+?(c|d)*?\B$/ $g = /w\w+/ wide
  condition:
    first and all of (f*) and for any i in (1..#a) : ( @a[i] + !a[i] > 3 and $b at i )
    or for all of ($a, $b) : ( # > 1 or $ in (1..9) or @ == ! ) or 2 of ($c, $d) in (1..5)
    or for any i in (1, 2, 3) : ( for any s in elf.sections : ( s.size == i ) )
    or uint16be(2) == 3 or not defined pe.machine or hash.md5(0, 3) == "a" or 50% of them
    or ($e and $f and $g) or ~filesize << 2 == -5 % 3 or text matches /a(b|c)+/i
    or text icontains "Z" or for 2 i in (1..3) : ( #a in (i..9) == 1 )
}
"""


@dataclass(frozen=True)
class Bases:
    """Whole images, and a file that they look at."""

    images: list[bytes]
    target: bytes


@pytest.fixture(scope="session")
def bases(program: Program, top: Path, tmp_path_factory: pytest.TempPathFactory) -> Bases:
    """The images of all example rules, and of a rule with every kind of instruction."""
    folder = tmp_path_factory.mktemp("bases")
    (folder / "kinds.yar").write_bytes(ALL_KINDS)
    images = []
    values = ["limit=1000", "team=response", "number=5", "text=abc", "flag=true"]
    for rules in [*sorted((top / "examples" / "rules").glob("*.yar")), folder / "kinds.yar"]:
        compiled = program.run(["compile", str(rules), "base.img", *values], folder)
        assert compiled == Answer(0, b"", b""), rules.name
        images.append((folder / "base.img").read_bytes())
    targets = sorted((top / "examples" / "targets").iterdir())
    return Bases(images, b"".join(target.read_bytes() for target in targets))


def most_memory(program: Program, image: bytes) -> int:
    """What a run may take."""
    most = 8 * len(image) + 64 * MIB
    return most * CHECKED_FACTOR if program.sanitized else most


@pytest.mark.parametrize("stretch", range(STRETCHES))
def test_answered(
    program: Program, bases: Bases, portion: float, stretch: int, tmp_path: Path
) -> None:
    """Status 0 or 3, and what that status allows on the outputs.

    The limit on memory is set for the run itself, so that a run which asks for more ends with
    another status.
    """
    (tmp_path / "t.bin").write_bytes(bases.target)
    for seed in range(stretch * EACH, stretch * EACH + max(1, round(EACH * portion))):
        what, image = damaged(seed, bases.images)
        (tmp_path / "s.img").write_bytes(image)
        most = most_memory(program, image)
        limits = Limits() if program.sanitized else Limits(memory=most)
        words = ["scan", "-C", "-s", "s.img", "t.bin"]
        answer = program.run(words, tmp_path, limits=limits, seconds=20)
        note = f"image {seed} ({what}): {answer}"
        assert answer.status in (0, 3), note
        assert answer.seconds < program.patience(SECONDS), note
        assert answer.peak < most, note
        if answer.status == 0:
            assert answer.err == b"", note
            assert answer.out == b"" or answer.out.endswith(b"\n"), note
        else:
            code, _, rest = answer.err.removeprefix(b"s.img: ").removesuffix(b"\n").partition(b" ")
            assert answer.out == b"" and answer.err.startswith(b"s.img: "), note
            assert code in CODES, note
            assert all(number.isdigit() for number in rest.split()), note


def test_both_answers_come(program: Program, bases: Bases, tmp_path: Path) -> None:
    """Among the first damaged images some are wellformed and some are not."""
    (tmp_path / "t.bin").write_bytes(bases.target)
    statuses = set()
    for seed in range(44):
        (tmp_path / "s.img").write_bytes(damaged(seed, bases.images)[1])
        statuses.add(program.run(["scan", "-C", "-c", "s.img", "t.bin"], tmp_path).status)
        if statuses == {0, 3}:
            return
    raise AssertionError(f"only {statuses}")


def test_the_damage_is_the_same_each_time(bases: Bases) -> None:
    """A seed makes one image."""
    made = [damaged(seed, bases.images) for seed in range(200)]
    assert made == [damaged(seed, bases.images) for seed in range(200)]
    assert len({image for _, image in made}) > 150
