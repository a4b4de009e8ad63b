"""Conditions: numbers, texts, strings, sets, loops, undefined values, names."""

from __future__ import annotations

from pathlib import Path

import pytest

from support.rows import Row, judge, names, row, scan, truth
from support.running import Program

LEAST = r"(-9223372036854775807 - 1)"
READ = bytes([0x01, 0x82, 0x03, 0x84, 0xFF, 0xFE, 0x7F, 0x80])

# Each holds, whatever the target.
ALWAYS = [
    "1 + 2 * 3 == 7",
    "(1 + 2) * 3 == 9",
    "10 - 4 - 3 == 3",
    r"7 \ 2 == 3 and -7 \ 2 == -3",
    "7 % 3 == 1 and -7 % 3 == -1 and 7 % -3 == 1",
    rf"{LEAST} \ -1 == {LEAST} and {LEAST} % -1 == 0",
    f"-{LEAST} == {LEAST}",
    f"9223372036854775807 + 1 == {LEAST} and {LEAST} - 1 == 9223372036854775807",
    "9223372036854775807 * 2 == -2",
    "~0 == -1 and ~-1 == 0",
    "6 & 3 == 2 and 6 | 3 == 7 and 6 ^ 3 == 5",
    "1 | 2 ^ 3 & 1 == 3",
    "1 << 3 == 8 and 1 << 2 + 1 == 8 and 256 >> 4 == 16",
    f"1 << 63 == {LEAST} and 1 << 64 == 0 and 1 << 1000 == 0",
    "-1 >> 1 == -1 and -1 >> 63 == -1 and -1 >> 64 == 0",
    "not defined (1 << -1) and not defined (1 >> -1)",
    r"not defined (1 \ 0) and not defined (1 % 0)",
    "0x10 == 16 and 0xFf == 255 and 0o17 == 15 and 007 == 7",
    "1KB == 1024 and 2MB == 2097152",
    "- - 1 == 1 and ~ ~ 1 == 1 and --1 == 1",
    "1 < 2 and 2 <= 2 and 3 > 2 and 3 >= 3 and 1 != 2",
    "not (1 < 1) and not (2 > 2)",
    "-1 < 0 and not (-1 > 0)",
    "true == true and false != true and not false",
    "1 and -1 and not 0",
    '"a" and not ""',
    "true or false and false",
    "not false and true",
    '"ab" == "ab" and "ab" != "aB" and "a" < "b" and "a" < "ab" and "" < "a"',
    '"B" < "a" and "\\x80" > "z"',
    '"abc" contains "bc" and not ("abc" contains "cb") and "abc" contains ""',
    '"abc" icontains "BC" and not ("abc" contains "BC")',
    '"abc" startswith "ab" and not ("abc" startswith "bc")',
    '"abc" istartswith "AB" and "abc" endswith "bc" and "abc" iendswith "BC"',
    '"abc" iequals "ABC" and not ("abc" iequals "AB") and not ("\\xe4" iequals "\\xc4")',
    '"abc" matches /b/ and not ("abc" matches /^b/) and "abc" matches /c$/',
    '"abc" matches /B/i and "a\\nb" matches /a.b/s and not ("a\\nb" matches /a.b/)',
    '"" matches /a*/ and "abc" matches /x?/',
    '"ab cd" matches /\\bcd\\b/ and not ("abcd" matches /\\bcd/)',
    "filesize == 6",
    "defined filesize and defined 1",
    "not defined uint8(6) and not defined uint8(-1)",
    "not defined (not (uint8(6) == 1))",
    "not defined (uint8(6) + 1) and not defined -uint8(6) and not defined ~uint8(6)",
    "defined (uint8(6) == 1 and true) and defined (uint8(6) == 1 or false)",
    "uint8(6) == 1 or true",
    "not (uint8(6) == 1 and true)",
    "for any i in (1, 2, 3) : ( i == 3 )",
    "for all i in (1, 2, 3) : ( i < 4 )",
    "for none i in (1, 2, 3) : ( i > 3 )",
    "for 2 i in (1, 2, 3) : ( i > 1 )",
    "for 2 i in (1, 1) : ( i == 1 )",
    "for 0 i in (1, 2) : ( i == 3 )",
    "not for 0 i in (1, 2) : ( i == 1 )",
    "for -1 i in (1, 2) : ( i == 3 )",
    "for all i in (5..4) : ( false )",
    "not for any i in (5..4) : ( true )",
    "for none i in (5..4) : ( true )",
    "for any i in (1..3) : ( i == 1 ) and for any i in (1..3) : ( i == 3 )",
    "not for any i in (1..3) : ( i == 4 or i == 0 )",
    "for any i in (-2..-1) : ( i == -2 )",
    "for any i in (1..2) : ( for any i in (7..7) : ( i == 7 ) and i < 3 )",
    "for all i in (1..2) : ( for all j in (3..4) : ( i < j ) )",
    "for any a in (1..1) : ( for any b in (2..2) : ( for any c in (3..3) : ( "
    "for any d in (4..4) : ( a + b + c + d == 10 ) ) ) )",
    "for 1 i in (uint8(6), 2) : ( i == 2 )",
    "for any i in (uint8(6), 2) : ( not defined i )",
    "for none i in (1, 2) : ( uint8(6) == i )",
    "not defined for uint8(6) i in (1, 2) : ( true )",
    "not defined for any i in (uint8(6)..3) : ( true )",
    "not defined for any i in (0..uint8(6)) : ( true )",
    f"not defined for any i in ({LEAST}..9223372036854775807) : ( true )",
    "not defined for any i in (0..268435457) : ( true )",
    "all of them and none of them",
    "not any of them",
    "150% of them",
]

# Each holds of `xxabab` with the strings $a = "ab", $b = "zz", $c = "x".
WITH_STRINGS = [
    "$a and not $b",
    "$a at 2 and $a at 4 and not $a at 3 and not $a at -1",
    "$a in (0..2) and $a in (2..2) and not $a in (0..1) and not $a in (9..0)",
    "#a == 2 and #b == 0",
    "#a in (3..9) == 1 and #a in (9..3) == 0",
    "@a == 2 and @a[1] == 2 and @a[2] == 4",
    "not defined @a[0] and not defined @a[3] and not defined @a[-1] and not defined @b",
    "!a == 2 and !a[2] == 2 and not defined !a[3]",
    "any of them and not all of them",
    "2 of them and not 3 of them",
    "66% of them and not 67% of them",
    "not 101% of them and -5% of them",
    "all of ($a, $c) and none of ($b)",
    "1 of ($a, $a, $a*) and not 2 of ($a, $a, $a*)",
    "0 of ($b) and not 0 of ($a)",
    "any of ($a, $c) at 0",
    "all of ($a, $c) in (0..2)",
    "not all of ($a, $c) in (1..1)",
    "for any of them : ( # == 2 )",
    "for all of ($a, $c) : ( $ )",
    "for 1 of them : ( @ == 0 )",
    "for all of ($a, $c) : ( $ in (0..4) and ! < 3 )",
    "for any of ($*) : ( @[2] == 4 )",
    "for 2 of them : ( $ at 2 or $ at 0 )",
    "for any i in (1..#a) : ( @a[i] == 4 )",
    "for all of ($a) : ( for any i in (1..#) : ( @[i] == 4 ) )",
    "not defined any of them at uint8(6)",
    "not defined any of them in (uint8(6)..9)",
    "not defined $a at uint8(6) and not defined #a in (0..uint8(6))",
    "not defined uint8(6) of them",
]

HEAD = 'strings: $a = "ab" $b = "zz" $c = "x" condition: for any of them : ( true ) and '

READERS = [
    "uint8(0) == 1 and uint8(1) == 0x82 and int8(1) == -126 and int8(6) == 127",
    "uint16(0) == 0x8201 and int16(0) == -32255 and uint16be(0) == 0x0182",
    "uint32(0) == 0x84038201 and int32(0) == -2080144895 and uint32be(0) == 0x01820384",
    "int16be(4) == -2 and int32be(4) == -98432 and int8be(4) == -1 and uint8be(7) == 128",
    "defined uint32(4) and not defined uint32(5) and not defined uint16(7)",
    "not defined uint8(8) and not defined int32be(-1) and not defined uint8(uint8(8))",
]

RULES: list[Row] = [
    scan(
        "a rule's truth",
        "rule z { condition: false } rule a { condition: filesize == 6 } "
        "rule b { condition: a and not z }",
        "xxabab",
        "a t.bin",
        "b t.bin",
    ),
    scan(
        "sets of rules",
        "rule p1 { condition: true } rule p2 { condition: false } rule q { condition: true } "
        "rule r1 { condition: 1 of (p*) and not all of (p*) } "
        "rule r2 { condition: all of (p1, q) and 2 of (p*, q, q) and not 3 of (p*, q, q) } "
        "rule r3 { condition: 50% of (p1, p2) and none of (p2) }",
        "",
        *(f"{name} t.bin" for name in ("p1", "q", "r1", "r2", "r3")),
    ),
    scan(
        "a loop variable hides a rule",
        "rule i { condition: false } rule x { condition: for any i in (1..1) : ( i == 1 ) }",
        "",
        "x t.bin",
    ),
    scan(
        "a value hides nothing but is before rules",
        "rule x { condition: for any n in (1..1) : ( n == 1 ) and n == 5 }",
        "",
        "x t.bin",
        words="scan r.yar t.bin n=5",
    ),
    scan(
        "a loop variable hides a module",
        'import "elf" rule x { condition: for any elf in (3..3) : ( elf == 3 ) }',
        "",
        "x t.bin",
    ),
    scan(
        "kinds of values",
        "rule b { condition: flag and flag == true } "
        "rule n { condition: number == -5 } "
        'rule t { condition: text == "+5" and empty == "" and big == "9223372036854775808" } '
        'rule e { condition: many == "a=b" } rule z { condition: zeros == 7 and none0 == 0 }',
        "",
        *(f"{name} t.bin" for name in "bntez"),
        words="scan r.yar t.bin flag=true number=-5 text=+5 empty= big=9223372036854775808 "
        "many=a=b zeros=007 none0=-0",
    ),
    scan(
        "a private rule is not reported",
        "private rule p { condition: true } rule x { condition: p }",
        "",
        "x t.bin",
    ),
    scan(
        "a private rule is not reported, negated",
        "private rule p { condition: false } rule x { condition: p }",
        "",
        "x t.bin",
        words="scan -n r.yar t.bin",
    ),
    scan(
        "a global rule hides rules before and behind",
        "rule a { condition: true } global rule g { condition: false } "
        "rule b { condition: true }",
        "",
    ),
    scan(
        "what a global rule hides may be read",
        "global rule g { condition: true } rule a { condition: g }",
        "",
        "g t.bin",
        "a t.bin",
    ),
    row(
        "an import for later rules",
        "scan r.yar t.bin",
        {
            "r.yar": 'rule elf { condition: true } import "elf" '
            "rule x { condition: elf.ET_EXEC == 2 }",
            "t.bin": "",
        },
        "elf t.bin",
        "x t.bin",
    ),
    row(
        "a rule of another namespace has no meaning",
        "scan a:a.yar b:b.yar t.bin",
        {
            "a.yar": "rule one { condition: true }",
            "b.yar": "rule two { condition: one }",
            "t.bin": "",
        },
        err="b.yar:1: UnknownName two one",
        status=2,
    ),
    row(
        "rules of one namespace in two files",
        "scan a:a.yar b:b.yar a:c.yar t.bin",
        {
            "a.yar": "rule one { condition: true }",
            "b.yar": "rule one { condition: false }",
            "c.yar": "rule two { condition: one }",
            "t.bin": "",
        },
        "one t.bin",
        "two t.bin",
    ),
    row(
        "an import for later files of the namespace",
        "scan a:a.yar a:b.yar t.bin",
        {"a.yar": 'import "elf"', "b.yar": "rule x { condition: elf.ET_REL == 1 }", "t.bin": ""},
        "x t.bin",
    ),
    row(
        "includes beside the including file",
        "scan d/r.yar t.bin",
        {
            "d/r.yar": 'include "e/s.yar" rule r { condition: s and t }',
            "d/e/s.yar": 'include "t.yar" rule s { condition: t }',
            "d/e/t.yar": "rule t { condition: true }",
            "t.bin": "",
        },
        "t t.bin",
        "s t.bin",
        "r t.bin",
    ),
    row(
        "an include inside a condition",
        "scan r.yar t.bin",
        {
            "r.yar": 'rule a { condition: 1 == include "one.yar" }',
            "one.yar": "1 // and a comment",
            "t.bin": "",
        },
        "a t.bin",
    ),
]

ROWS: list[Row] = (
    [truth(condition, True) for condition in ALWAYS]
    + [truth(condition, True, READ) for condition in READERS]
    + RULES
)


def declared(condition: str) -> Row:
    """A condition over the three strings."""
    text = f"rule x {{ {HEAD}( {condition} ) }}"
    return scan(condition, text, "xxabab", "x t.bin", words="scan r.yar t.bin")


ROWS += [declared(condition) for condition in WITH_STRINGS]


@pytest.mark.parametrize("one", ROWS, ids=names(ROWS))
def test_holds(program: Program, one: Row, tmp_path: Path) -> None:
    judge(program, one, tmp_path)
