"""The report: lines, flags, tags, meta, counts, hits."""

from __future__ import annotations

from pathlib import Path

import pytest

from support.rows import Row, judge, lay, names, row, scan
from support.running import Program

RULES = r"""
rule one : t1 t2 {
  meta:
    text = "a\"b\\c\x00\x7f\xff\n ~"
    number = 007
    less = -12
    yes = true
    no = false
    text = ""
  strings:
    $b = "b" $a = "a" $h = "c" private $ = "d"
  condition:
    any of them
}
private rule two { strings: $x = "a" condition: $x }
rule three { strings: $y = "a" condition: #y == 0 }
rule four : only { condition: false }
"""
META = (
    r'[text="a\"b\\c\x00\x7f\xff\x0a ~",number=7,less=-12,yes=true,no=false,text=""]'
)
TARGET = "abcd" + "-" * 28 + "a"


def report(name: str, flags: str, *lines: str) -> Row:
    """The report on the target with some flags."""
    return scan(name, RULES, TARGET, *lines, words=f"scan {flags} r.yar t.bin")


STRINGS = ["0x1:1:$b", "0x0:1:$a", "0x20:1:$a", "0x3:1:$"]

ROWS: list[Row] = [
    row("no flag", "scan r.yar t.bin", {"r.yar": RULES, "t.bin": TARGET}, "one t.bin"),
    report("strings", "-s", "one t.bin", *STRINGS),
    report("tags", "-g", "one [t1,t2] t.bin"),
    report("meta", "-m", f"one {META} t.bin"),
    report("tags before meta, strings behind", "-m -s -g", f"one [t1,t2] {META} t.bin", *STRINGS),
    report("namespace", "-e", "default:one t.bin"),
    report("all but negated", "-esgm", f"default:one [t1,t2] {META} t.bin", *STRINGS),
    report("negated", "-n", "three t.bin", "four t.bin"),
    report("negated with tags", "-ng", "three [] t.bin", "four [only] t.bin"),
    report("negated with meta", "-nm", "three [] t.bin", "four [] t.bin"),
    report("negated with strings", "-ns", "three t.bin", "0x0:1:$y", "0x20:1:$y", "four t.bin"),
    report("count", "-c", "1"),
    report("count negated", "-cn", "2"),
    report("count goes before all else", "-csgme", "1"),
    scan("nothing to report", "rule a { condition: false }", "", words="scan -sgme r.yar t.bin"),
    scan("nothing to count", "rule a { condition: false }", "", "0", words="scan -c r.yar t.bin"),
    scan("no rules", "", "", words="scan r.yar t.bin"),
    scan("no rules counted", "", "", "0", words="scan -c r.yar t.bin"),
    scan(
        "offsets in hexadecimal",
        'rule a { strings: $a = "z" condition: $a }',
        b"z" + b"\0" * 0xABCDE + b"z",
        "a t.bin", "0x0:1:$a", "0xabcdf:1:$a",
    ),
    scan(
        "the longest match of a file",
        "rule a { strings: $a = /^.+$/s condition: $a }",
        b"\n" * 70000,
        "a t.bin", "0x0:70000:$a",
    ),
    scan(
        "hits behind the report",
        'rule a { strings: $a = "ab" condition: $a }',
        "abab",
        "a t.bin", "0x0:2:$a", "0x2:2:$a", "hits: 2",
        words="scan -s --stats r.yar t.bin",
    ),
    scan(
        "hits behind the count",
        'rule a { strings: $a = "ab" condition: $a }',
        "abab",
        "1", "hits: 2",
        words="scan -c --stats r.yar t.bin",
    ),
    scan(
        "a line of a thousand tags",
        "rule a : " + " ".join(f"t{k}" for k in range(1000)) + " { condition: true }",
        "",
        "a [" + ",".join(f"t{k}" for k in range(1000)) + "] t.bin",
        words="scan -g r.yar t.bin",
    ),
    row(
        "rules in the order of the files",
        "scan -e b:b.yar a:a.yar t.bin",
        {
            "a.yar": "rule z { condition: true } rule y { condition: true }",
            "b.yar": 'rule m { condition: true } include "c.yar" rule k { condition: true }',
            "c.yar": "rule l { condition: true }",
            "t.bin": "",
        },
        "b:m t.bin", "b:l t.bin", "b:k t.bin", "a:z t.bin", "a:y t.bin",
    ),
    row(
        "counts go over all namespaces",
        "scan -c a:a.yar b:b.yar t.bin",
        {
            "a.yar": "global rule g { condition: false } rule z { condition: true }",
            "b.yar": "rule m { condition: true } rule n { condition: true }",
            "t.bin": "",
        },
        "2",
    ),
    row(
        "a namespace with a false global rule has no negated rules",
        "scan -n a:a.yar b:b.yar t.bin",
        {
            "a.yar": "global rule g { condition: false } rule z { condition: false }",
            "b.yar": "rule m { condition: false }",
            "t.bin": "",
        },
        "m t.bin",
    ),
]  # fmt: skip


@pytest.mark.parametrize("one", ROWS, ids=names(ROWS))
def test_report(program: Program, one: Row, tmp_path: Path) -> None:
    judge(program, one, tmp_path)


@pytest.mark.parametrize("size", [1, 2, 3, 4, 15, 17, 1000])
def test_work_finds_each_piece(program: Program, size: int, tmp_path: Path) -> None:
    """Each piece of the made file is the word of one rule, in the form that the rule looks for."""
    answer = program.run(["work", "7", str(size)], tmp_path)
    lines = answer.lines
    assert (answer.status, answer.err, lines[0]) == (0, b"", "rules 16")
    # A word of eight bytes and 00 behind; wide, 17; under a key, 9; in base64, 13.
    lengths = [9, 17, 9, 13]
    assert lines[1] == f"bytes {sum(lengths[k % 4] for k in range(size))}"
    assert lines[2] == f"satisfied {min(size, 16)}"
    assert int(lines[3].removeprefix("matches ")) >= size
    assert len(lines) == 4


def test_one_report_for_one_image(program: Program, tmp_path: Path) -> None:
    """The same rules make the same image, and a scan does not change it."""
    lay(tmp_path, {"r.yar": RULES.encode(), "t.bin": TARGET.encode()})
    for image in ("a.img", "b.img"):
        assert program.run(["compile", "r.yar", image], tmp_path).status == 0
    first = (tmp_path / "a.img").read_bytes()
    assert first == (tmp_path / "b.img").read_bytes()
    program.run(["scan", "-C", "a.img", "t.bin"], tmp_path)
    assert first == (tmp_path / "a.img").read_bytes()
