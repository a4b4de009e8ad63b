"""Each request for memory refused in turn, and what a run says then."""

from __future__ import annotations

from collections import Counter
from pathlib import Path

import pytest

from support.refusing import Refusing
from support.rows import lay
from support.running import MIB, Answer, Limits, Program

# A rule with many strings of all kinds, so that every table of the compiler grows.
MANY = 24
RULES = (
    'import "elf" import "hash" private rule p { condition: filesize > 3 or elf.type == 2 } '
    'rule m : one two { meta: text = "value" number = 5 strings: '
    + " ".join(f'$s{k} = "text{k}"' for k in range(MANY))
    + " $r = /a[b-d]+e(f|g)?/ $h = { 01 [2-4] ( 02 | 03 ) } "
    'condition: p and any of them and $r and #s1 > 0 and hash.md5(0, 0) != "" '
    "and for any i in (1..#s1) : ( @s1[i] >= 0 ) }"
).encode()
TARGET = b"text1 abbde text1 \x01ab\x02"
REPORT = b"m t.bin\n0x0:5:$s1\n0xc:5:$s1\n0x6:5:$r\n0x12:4:$h\n"

COMMANDS: dict[str, tuple[list[str], bytes]] = {
    "check": (["check", "r.yar"], b"rules 2, strings %d\n" % (MANY + 2)),
    "scan": (["scan", "-s", "r.yar", "t.bin"], REPORT),
    "compile": (["compile", "r.yar", "o.img"], b""),
    "scan by an image": (["scan", "-C", "-s", "r.img", "t.bin"], REPORT),
}

# The words come first: where there is no memory for them, the program never gets them.
NO_WORDS = Answer(11, b"", b"")
NO_MEMORY = Answer(6, b"", b"out of memory\n")
OLDER = b"an older image"


@pytest.fixture(scope="module")
def refusing(program: Program, tmp_path_factory: pytest.TempPathFactory) -> Refusing:
    """The allocator, built once."""
    return Refusing.built(program, tmp_path_factory.mktemp("refusing"))


@pytest.mark.parametrize(("words", "report"), COMMANDS.values(), ids=list(COMMANDS))
def test_each_request_refused(
    program: Program,
    refusing: Refusing,
    words: list[str],
    report: bytes,
    portion: float,
    tmp_path: Path,
) -> None:
    """Out of memory, with nothing written; or the whole answer, where the C library does without.

    Never a signal, never a part of a report, and an older image stands.
    """
    lay(tmp_path, {"r.yar": RULES, "t.bin": TARGET})
    assert program.run(["compile", "r.yar", "r.img"], tmp_path) == Answer(0, b"", b"")
    image = (tmp_path / "r.img").read_bytes()
    whole = Answer(0, report, b"")
    answer, requests = refusing.run(program, words, tmp_path, 0)
    assert answer == whole
    assert requests > 20, "the allocator is asked"
    met: Counter[int] = Counter()
    for number in range(1, requests + 1, max(1, round(1 / portion))):
        lay(tmp_path, {"o.img": OLDER})
        answer, _ = refusing.run(program, words, tmp_path, number)
        met[answer.status] += 1
        note = f"request {number} of {requests} refused"
        assert answer in (whole, NO_MEMORY, NO_WORDS), note
        stands = (tmp_path / "o.img").read_bytes()
        written = answer.status == 0 and words[0] == "compile"
        assert stands == (image if written else OLDER), note
    # A request for each word and for the list of words, and at most two of the C library's own.
    assert met[11] <= 2 * len(words) + 2 and met[0] <= 2
    assert met[6] > 0


def test_no_memory_for_a_target(program: Program, tmp_path: Path) -> None:
    """A target larger than the memory that a run may take: status 6, and nothing written."""
    if program.sanitized:
        pytest.skip("a limit on memory: the program checks itself and needs much more")
    lay(tmp_path, {"r.yar": b"rule a { condition: true }"})
    with open(tmp_path / "t.bin", "wb") as target:
        target.truncate(200 * MIB)
    answer = program.run(["scan", "r.yar", "t.bin"], tmp_path, limits=Limits(memory=64 * MIB))
    assert answer == NO_MEMORY
