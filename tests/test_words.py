"""Command lines: what they mean, what is refused, and in which order refusals come."""

from __future__ import annotations

from pathlib import Path

import pytest

from support.rows import Row, judge, lay, names, row
from support.running import Answer, Program

ONE = 'rule a { strings: $a = "ab" condition: $a }'
YES = "rule r { condition: true }"
FIVE = "rule v { condition: n == 5 }"
FILES = {"r.yar": ONE, "t.bin": "xxabab"}
LONG = "a" * 129
MOST = "a" * 128

BAD: list[Row] = [
    row(name, words, FILES, err="bad command line", status=1)
    for name, words in [
        ("no word", ""),
        ("no command", "r.yar t.bin"),
        ("a part of a command", "sca r.yar t.bin"),
        ("a command in capitals", "SCAN r.yar t.bin"),
        ("flags before the command", "-s scan r.yar t.bin"),
        ("help", "--help"),
        ("help of a command", "scan --help"),
        ("a short help", "-h"),
        ("a version", "--version"),
        ("the command help", "help"),
        ("a line before the command", "-- scan r.yar t.bin"),
        ("no file", "scan"),
        ("one file", "scan r.yar"),
        ("an image and no target", "scan -C r.img"),
        ("an image and two targets", "scan -C r.img t.bin t.bin"),
        ("no such flag", "scan -x r.yar t.bin"),
        ("one flag of two", "scan -sx r.yar t.bin"),
        ("a flag with a value", "scan -s=1 r.yar t.bin"),
        ("statistics with a value", "scan --stats=1 r.yar t.bin"),
        ("a part of a long flag", "scan --sta r.yar t.bin"),
        ("three lines", "scan --- r.yar t.bin"),
        ("a flag of another command", "check -s r.yar"),
        ("statistics of another command", "compile --stats r.yar r.img"),
        ("nothing to check", "check"),
        ("no output", "compile r.yar"),
        ("no size", "work 1"),
        ("three numbers", "work 1 2 3"),
        ("a number with a sign", "work -1 2"),
        ("a number with a plus", "work +1 2"),
        ("a number with letters", "work 1 2k"),
        ("an empty number", "work '' 2"),
        ("a number above 64 bits", "work 18446744073709551616 0"),
        ("a size above 16,777,216", "work 1 16777217"),
        ("a namespace and no file", "scan a: t.bin"),
        ("17 rule files", "scan " + "r.yar " * 17 + "t.bin"),
        ("a value without a name for an image", "scan -C r.img t.bin =5"),
        ("a value with a bad name for an image", "scan -C r.img t.bin 1=5"),
        ("a value with a reserved name for an image", "scan -C r.img t.bin rule=5"),
        ("a value with a long name for an image", f"scan -C r.img t.bin {LONG}=5"),
    ]
]

GOOD: list[Row] = [
    row("flags together", "scan -sg r.yar t.bin", FILES, "a [] t.bin", "0x2:2:$a", "0x4:2:$a"),
    row("flags apart and again", "scan -s r.yar -g t.bin -ss", FILES, "a [] t.bin", "0x2:2:$a",
        "0x4:2:$a"),
    row("flags at the end", "scan r.yar t.bin -c", FILES, "1"),
    row("a file with a line in front", "scan -- r.yar -t",
        {"r.yar": ONE, "-t": "ab"}, "a -t"),
    row("the second line is a file", "scan -c -- r.yar --", {"r.yar": ONE, "--": "ab"}, "1"),
    row("a file named by a line", "scan r.yar -", {"r.yar": ONE, "-": "ab"}, "a -"),
    row("a namespace", "scan -e s:r.yar t.bin", FILES, "s:a t.bin"),
    row("the namespace of all others", "scan -e r.yar t.bin", FILES, "default:a t.bin"),
    row("that namespace by name", "scan -e default:a.yar b.yar t.bin",
        {"a.yar": "rule one { condition: true }", "b.yar": "rule two { condition: one }",
         "t.bin": ""},
        "default:one t.bin", "default:two t.bin"),
    row("a namespace ends at its first colon", "scan -e s:q:r.yar t.bin",
        {"q:r.yar": YES, "t.bin": ""}, "s:r t.bin"),
    row("no namespace by a reserved word", "scan -e rule:r.yar t.bin",
        {"rule:r.yar": YES, "t.bin": ""}, "default:r t.bin"),
    row("no namespace by a number", "scan -e 1:r.yar t.bin",
        {"1:r.yar": YES, "t.bin": ""}, "default:r t.bin"),
    row("no namespace by nothing", "scan -e :r.yar t.bin",
        {":r.yar": YES, "t.bin": ""}, "default:r t.bin"),
    row("a namespace of 128 bytes", f"scan -e {MOST}:r.yar t.bin", FILES, f"{MOST}:a t.bin"),
    row("16 rule files", "scan -c " + " ".join(f"n{k}:q.yar" for k in range(16)) + " t.bin",
        {"q.yar": YES, "t.bin": ""}, "16"),
    row("a target with a value's form", "scan r.yar n=5", {"r.yar": YES, "n=5": ""}, "r n=5"),
    row("a target and a value of one form", "scan r.yar n=5 n=5", {"r.yar": FIVE, "n=5": ""},
        "v n=5"),
    row("a value between files is a file", "scan r.yar s=1 t.bin",
        {"r.yar": YES, "s=1": "rule s { condition: true }", "t.bin": ""}, "r t.bin", "s t.bin"),
    row("a file that takes no value's form", "scan r.yar ./n=5", {"r.yar": YES, "n=5": ""},
        "r ./n=5"),
    row("all behind the first sign is the value", "scan r.yar t.bin n=a=b",
        {"r.yar": 'rule v { condition: n == "a=b" }', "t.bin": ""}, "v t.bin"),
    row("a value of bytes", "scan r.yar t.bin 'n=a b'",
        {"r.yar": 'rule v { condition: n == "a b" }', "t.bin": ""}, "v t.bin"),
    row("the target's name as it was given", "scan r.yar ./d/../t.bin",
        {"r.yar": YES, "t.bin": "", "d/x": ""}, "r ./d/../t.bin"),
    row("leading zeros", "work 0001 00", {}, "rules 16", "bytes 0", "satisfied 0", "matches 0"),
    row("the greatest number", "work 18446744073709551615 0", {}, "rules 16", "bytes 0",
        "satisfied 0", "matches 0"),
    row("no rules", "check r.yar", {"r.yar": ""}, "rules 0, strings 0"),
    row("two files to check", "check a:r.yar b:r.yar", FILES, "rules 2, strings 2"),
    row("a value to check", "check r.yar n=5", {"r.yar": FIVE}, "rules 1, strings 0"),
]  # fmt: skip

ORDER: list[Row] = [
    row("a value twice comes before files", "scan no.yar no.bin n=1 m=2 n=3", {},
        err="external n: Twice", status=8),
    row("the first word that stands again", "scan no.yar no.bin m=1 n=1 n=2 m=2", {},
        err="external m: Twice", status=8),
    row("a value twice, to compile", "compile no.yar no.img n=1 n=1", {},
        err="external n: Twice", status=8),
    row("a value twice, to check", "check no.yar n=1 n=1", {}, err="external n: Twice", status=8),
    row("a value twice, for an image", "scan -C no.img no.bin n=1 n=1", {},
        err="external n: Twice", status=8),
    row("the words before a value twice", "scan no.yar -x no.bin n=1 n=1", {},
        err="bad command line", status=1),
    row("rules before the target", "scan r.yar no.bin", {"r.yar": "rule"},
        err="r.yar:1: Syntax", status=2),
    row("a missing rule file before the target", "scan no.yar no.bin", {},
        err="cannot read no.yar", status=4),
    row("a missing second rule file before bad grammar", "scan r.yar no.yar t.bin",
        {"r.yar": "rule", "t.bin": ""}, err="cannot read no.yar", status=4),
    row("a bad text before a missing second rule file", "scan r.yar no.yar t.bin",
        {"r.yar": "1.5", "t.bin": ""}, err="r.yar:1: Float", status=2),
    row("a missing target", "scan r.yar no.bin", {"r.yar": ONE}, err="cannot read no.bin",
        status=4),
    row("the empty name", "scan r.yar ''", {"r.yar": ONE}, err="cannot read ", status=4),
    row("a missing image", "scan -C no.img t.bin", {"t.bin": ""}, err="cannot read no.img",
        status=4),
    row("a bad image before the target", "scan -C r.img no.bin", {"r.img": "no image"},
        err="r.img: TooShort", status=3),
    row("a namespace is no part of an image's name", "scan -C a:r.img t.bin", {"t.bin": ""},
        err="cannot read a:r.img", status=4),
]  # fmt: skip

ROWS = BAD + GOOD + ORDER


@pytest.mark.parametrize("one", ROWS, ids=names(ROWS))
def test_words(program: Program, one: Row, tmp_path: Path) -> None:
    judge(program, one, tmp_path)


VALUES = [
    ("none", "", Answer(0, b"v t.bin\n", b"")),
    ("another number", "n=6", Answer(0, b"", b"")),
    ("both", "name=ABC n=5", Answer(0, b"v t.bin\n", b"")),
    ("a text for a number", "n=x", Answer(8, b"", b"external n: Kind\n")),
    ("a flag for a number", "n=true", Answer(8, b"", b"external n: Kind\n")),
    ("a number for a text", "name=5", Answer(8, b"", b"external name: Kind\n")),
    ("unknown", "k=1", Answer(8, b"", b"external k: Unknown\n")),
    ("the first that offends", "n=5 k=1 name=5", Answer(8, b"", b"external k: Unknown\n")),
    ("twice before unknown", "k=1 n=5 n=5", Answer(8, b"", b"external n: Twice\n")),
]


@pytest.mark.parametrize(
    ("words", "answer"), [case[1:] for case in VALUES], ids=[case[0] for case in VALUES]
)
def test_values_of_an_image(program: Program, words: str, answer: Answer, tmp_path: Path) -> None:
    """A saved image keeps the values that it was compiled with; words may give others."""
    rules = b'rule v { condition: n == 5 and name iequals "ABC" }'
    lay(tmp_path, {"r.yar": rules, "t.bin": b""})
    compiled = program.run(["compile", "r.yar", "r.img", "n=5", "name=abc"], tmp_path)
    assert compiled == Answer(0, b"", b"")
    assert program.run(["scan", "-C", "r.img", "t.bin", *words.split()], tmp_path) == answer
    if answer.status:
        missing = program.run(["scan", "-C", "r.img", "no.bin", *words.split()], tmp_path)
        assert missing == answer, "before the target is read"


def test_a_target_of_any_bytes_in_its_name(program: Program, tmp_path: Path) -> None:
    """What happens where a word is no UTF-8: the words cannot be taken, and nothing is said."""
    lay(tmp_path, {"r.yar": YES.encode()})
    (tmp_path / "t.bin").write_bytes(b"")
    assert program.run(["scan", "r.yar", b"\xff.bin"], tmp_path) == Answer(11, b"", b"")


def test_a_target_with_a_line_feed_in_its_name(program: Program, tmp_path: Path) -> None:
    """The report has the target's name as it was given, whatever stands in it."""
    lay(tmp_path, {"r.yar": YES.encode(), "t\nr other": b""})
    answer = program.run(["scan", "r.yar", "t\nr other"], tmp_path)
    assert answer == Answer(0, b"r t\nr other\n", b"")


def test_the_most_bytes_of_a_target(program: Program, tmp_path: Path) -> None:
    """A target has at most 268,435,456 bytes."""
    lay(tmp_path, {"r.yar": b"rule e { condition: filesize == 256MB }"})
    with open(tmp_path / "t.bin", "wb") as target:
        target.truncate(268_435_456)
    answer = program.run(["scan", "r.yar", "t.bin"], tmp_path, seconds=60)
    assert answer == Answer(0, b"e t.bin\n", b"")
    with open(tmp_path / "t.bin", "ab") as target:
        target.truncate(268_435_457)
    long = Answer(7, b"", b"t.bin: too long\n")
    assert program.run(["scan", "r.yar", "t.bin"], tmp_path, seconds=60) == long
    assert program.run(["compile", "r.yar", "r.img"], tmp_path) == Answer(0, b"", b"")
    assert program.run(["scan", "-C", "r.img", "t.bin"], tmp_path, seconds=60) == long
