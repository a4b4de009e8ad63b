"""The deepest and the costliest that the limits allow, in little stack, at counted or plain cost."""

from __future__ import annotations

import signal
from collections.abc import Callable
from pathlib import Path

import pytest

from support.rows import lay, skip_large
from support.running import KIB, MIB, Answer, Limits, Program

STACK = 2 * MIB
# What a scan by a saved image needs; README and SECURITY say how much stack to give.
STACK_OF_IMAGES = 2304 * KIB


def nested(front: str, inner: str, back: str, levels: int = 64, behind: str = "") -> str:
    """A condition with a form inside itself."""
    return front * levels + inner + back * levels + behind


LOOPS = "".join(f"for any {name} in (1..1) : ( " for name in "abcd")
FLAGS = "true or true and not defined true == ("
NUMBERS = "1 | 1 ^ 1 & 1 << 1 + 1 * - ~ ("

# Each holds of the target, or not, by the meaning of its operators.
DEEP: dict[str, tuple[str, bool]] = {
    "brackets": (nested("(", "true", ")"), True),
    # Every run of prefix operators begins anew behind a bracket; an even number changes nothing.
    "not in brackets": (nested("not " * 64 + "(", "true", ")"), True),
    "signs in brackets": (nested("- " * 64 + "(", "1", ")", behind=" == 1"), True),
    "chains of flags": (nested(FLAGS, "true", ")"), True),
    # Bit 0 of a level is set by its `1 | ..`.
    "chains of numbers": (nested(NUMBERS, "1", ")", behind=" != 0"), True),
    "chains of comparisons": (nested("true == (", "true", ")"), True),
    "readers": (nested("uint8(", "1", ")", behind=" == 1 or true"), True),
    "loops with chains inside": (LOOPS + nested(FLAGS, "true", ")", 60) + " )" * 4, True),
    "a long chain of and": (" and ".join(["true"] * 100_000), True),
    "a long chain of or": (" or ".join(["false"] * 100_000), False),
    "a long sum": ("+".join(["1"] * 100_000) + " == 100000", True),
}

PATTERNS: dict[str, str] = {
    "groups": f"/{'(' * 64}a{')*' * 64}/",
    "branches": f"/{'(b|' * 64}a{')' * 64}/",
    "brackets of a hex string": f"{{ {'( 62 | ' * 64}61 {') ' * 64}}}",
    "many branches": f"/{'|'.join(['a'] * 20_000)}/",
}


def deep_rules() -> dict[str, tuple[bytes, bytes]]:
    """Rules by name, with the report on a target of one `a`."""
    made = {}
    for name, (condition, holds) in DEEP.items():
        report = b"x t.bin\n" if holds else b""
        made[name] = (f"rule x {{ condition: {condition} }}".encode(), report)
    for name, pattern in PATTERNS.items():
        rules = f"rule x {{ strings: $a = {pattern} condition: #a == 1 }}"
        made[name] = (rules.encode(), b"x t.bin\n")
    return made


RULES = deep_rules()


def skip_checked(program: Program) -> None:
    """Leaves out what a program that checks itself cannot show."""
    if program.sanitized:
        pytest.skip("stack and cost: a program that checks itself takes other ones")


@pytest.mark.parametrize("name", RULES)
def test_rules_in_two_mebibytes_of_stack(program: Program, name: str, tmp_path: Path) -> None:
    """The deepest rules are checked, scanned with, and compiled."""
    skip_checked(program)
    rules, report = RULES[name]
    lay(tmp_path, {"r.yar": rules, "t.bin": b"a"})
    limits = Limits(stack=STACK)
    checked = program.run(["check", "r.yar"], tmp_path, limits=limits)
    assert (checked.status, checked.out[:8], checked.err) == (0, b"rules 1,", b"")
    scanned = program.run(["scan", "r.yar", "t.bin"], tmp_path, limits=limits)
    assert scanned == Answer(0, report, b"")
    compiled = program.run(["compile", "r.yar", "r.img"], tmp_path, limits=limits)
    assert compiled == Answer(0, b"", b"")
    more = Limits(stack=STACK_OF_IMAGES)
    by_image = program.run(["scan", "-C", "r.img", "t.bin"], tmp_path, limits=more)
    assert by_image == Answer(0, report, b"")


def test_images_in_two_mebibytes_of_stack(program: Program, tmp_path: Path) -> None:
    """A scan by the saved image of any of these rules."""
    skip_checked(program)
    for name, (rules, report) in RULES.items():
        lay(tmp_path, {"r.yar": rules, "t.bin": b"a"})
        assert program.run(["compile", "r.yar", "r.img"], tmp_path) == Answer(0, b"", b"")
        limits = Limits(stack=STACK)
        answer = program.run(["scan", "-C", "r.img", "t.bin"], tmp_path, limits=limits)
        if answer.status == -signal.SIGSEGV:
            pytest.xfail("scan -C needs more than 2 MiB of stack, for every image")
        assert answer == Answer(0, report, b""), name


def test_includes_in_two_mebibytes_of_stack(program: Program, tmp_path: Path) -> None:
    """Includes that nest as deep as they may, and a false global rule."""
    skip_checked(program)
    chain = {f"c{k}.yar": b'include "c%d.yar"' % (k + 1) for k in range(16)}
    last = b"rule x { condition: true } global rule g { condition: false }"
    lay(tmp_path, {**chain, "c16.yar": last, "t.bin": b"a"})
    limits = Limits(stack=STACK)
    answer = program.run(["check", "c0.yar"], tmp_path, limits=limits)
    assert answer == Answer(0, b"rules 2, strings 0\n", b"")
    answer = program.run(["scan", "-n", "c0.yar", "t.bin"], tmp_path, limits=limits)
    assert answer == Answer(0, b"", b"")


# Costs, each beside a plain case of a tenth: no more than GROWTH times as much for ten times as
# much text. What grows with the square would take a hundred times as much.

GROWTH = 40
# Below this a run is mostly the start of a process.
LEAST_SECONDS = 0.005


def plain_rules(size: int) -> str:
    """So many rules."""
    return "".join(f"rule a{k} {{ condition: true }}\n" for k in range(size))


def one_large_set(size: int) -> str:
    """A set that names each of so many strings eight times."""
    declared = " ".join(f'$s{k} = "t"' for k in range(size))
    items = ", ".join(f"$s{k}" for k in range(size))
    return f"rule x {{ strings: {declared} condition: any of ({', '.join([items] * 8)}) }}"


def sets_of_strings(size: int) -> str:
    """So many sets of one string each, over as many strings."""
    declared = " ".join(f'$s{k} = "t"' for k in range(size))
    sets = " or ".join(f"any of ($s{k}*)" for k in range(size))
    return f"rule x {{ strings: {declared} condition: {sets} }}"


def sets_of_rules(size: int) -> str:
    """So many rules, each with a set of the rule before it."""
    later = "".join(f"rule a{k} {{ condition: any of (a{k - 1}) }}\n" for k in range(1, size))
    return f"rule a0 {{ condition: true }}\n{later}"


CHECKS: dict[str, tuple[Callable[[int], str], int, str]] = {
    "65,535 rules": (plain_rules, 65_535, "rules {0}, strings 0"),
    "a set of 320,000 items over 40,000 strings": (one_large_set, 40_000, "rules 1, strings {0}"),
    "20,000 sets over 20,000 strings": (sets_of_strings, 20_000, "rules 1, strings {0}"),
    "40,000 rules with a set of rules each": (sets_of_rules, 40_000, "rules {0}, strings 0"),
}


def seconds(program: Program, words: list[str], folder: Path, said: bytes) -> float:
    """The least processor time of three runs that answer as they should."""
    answers = [program.run(words, folder, seconds=60) for _ in range(3)]
    assert all(answer == Answer(0, said, b"") for answer in answers), answers[0]
    return max(min(answer.seconds for answer in answers), LEAST_SECONDS)


@pytest.mark.parametrize("name", CHECKS)
def test_checks_do_not_explode(program: Program, name: str, tmp_path: Path) -> None:
    """Ten times the rules take far less than a hundred times as long to check."""
    skip_checked(program)
    form, size, said = CHECKS[name]
    taken = []
    for count in (size // 10, size):
        lay(tmp_path, {"r.yar": form(count).encode()})
        line = said.format(count).encode() + b"\n"
        taken.append(seconds(program, ["check", "r.yar"], tmp_path, line))
    assert taken[1] <= GROWTH * taken[0], taken


# Strings that have a hit at nearly each place of the target, and targets that are made for them.
SEARCHES: dict[str, tuple[str, bytes, str]] = {
    "to the end from each place": ("/a.*b/s", b"a", "#a == 0"),
    "a repeat in a repeat": ("/(a+)+b/", b"a", "#a == 0"),
    "both sides": ("/a*ba*/", b"ab", "#a > 0"),
    "a wide jump": ("{ 61 [0-20000] 62 }", b"a", "#a == 0"),
    "a long text of one byte": (f'"{"a" * 200}b"', b"a", "#a == 0"),
    "all keys": ('"aaaaaaaa" xor', b"a", "#a > 0"),
    "no byte between": ("/a[^c]*c/", b"a", "#a == 0"),
}


@pytest.mark.parametrize("name", SEARCHES)
def test_searches_do_not_explode(program: Program, name: str, tmp_path: Path) -> None:
    """Ten times the target takes far less than a hundred times as long to scan."""
    skip_checked(program)
    declared, piece, condition = SEARCHES[name]
    rules = f"rule x {{ strings: $a = {declared} condition: {condition} }}"
    taken = []
    for size in (10_000, 100_000):
        target = piece * (size // len(piece))
        lay(tmp_path, {"r.yar": rules.encode(), "t.bin": target})
        taken.append(seconds(program, ["scan", "r.yar", "t.bin"], tmp_path, b"x t.bin\n"))
    assert taken[1] <= GROWTH * taken[0], taken


@pytest.mark.parametrize(
    ("text", "target", "hits", "lines"),
    [
        # Each of the three possible atoms of four bytes stands there once.
        ("abcdef", b"abcd.bcde.cdef", 1, []),
        ("ab", b"xxabab", 2, ["a t.bin"]),
    ],
    ids=["one hit and no match", "two hits and two matches"],
)
def test_the_counter_of_hits(
    program: Program, text: str, target: bytes, hits: int, lines: list[str], tmp_path: Path
) -> None:
    """`--stats` counts what the search looked at, by rules and by their image."""
    rules = f'rule a {{ strings: $a = "{text}" condition: $a }}'
    lay(tmp_path, {"r.yar": rules.encode(), "t.bin": target})
    assert program.run(["compile", "r.yar", "r.img"], tmp_path) == Answer(0, b"", b"")
    expected = Answer(0, "".join(f"{line}\n" for line in [*lines, f"hits: {hits}"]).encode(), b"")
    assert program.run(["scan", "--stats", "r.yar", "t.bin"], tmp_path) == expected
    assert program.run(["scan", "-C", "--stats", "r.img", "t.bin"], tmp_path) == expected


@pytest.mark.parametrize("size", [100, 10_000, 1_000_000])
def test_hits_grow_with_the_target(program: Program, size: int, tmp_path: Path) -> None:
    """A text without its first byte in the target has no hit, however long the target is."""
    skip_large(program, size)
    lay(tmp_path, {"r.yar": b'rule a { strings: $a = "bcd" condition: #a == 0 }'})
    (tmp_path / "t.bin").write_bytes(b"a" * size)
    answer = program.run(["scan", "--stats", "r.yar", "t.bin"], tmp_path)
    assert answer == Answer(0, b"a t.bin\nhits: 0\n", b"")
    (tmp_path / "t.bin").write_bytes(b"bcd" * (size // 3))
    answer = program.run(["scan", "--stats", "r.yar", "t.bin"], tmp_path)
    assert answer == Answer(0, b"hits: %d\n" % (size // 3), b"")
