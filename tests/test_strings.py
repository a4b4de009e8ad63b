"""Strings: their forms, modifiers, patterns, borders, and the matches that they have."""

from __future__ import annotations

import base64
from pathlib import Path

import pytest

from support.rows import Row, judge, names, scan, strings
from support.running import Program


def wide(text: str) -> bytes:
    """A text with a zero byte after each byte."""
    return b"".join(bytes([byte, 0]) for byte in text.encode("latin-1"))


def keyed(content: bytes, key: int) -> bytes:
    """Each byte exchanged by its exclusive or with a key."""
    return bytes(byte ^ key for byte in content)


def coded(text: bytes, front: int) -> bytes:
    """A text behind some bytes, in base64."""
    return base64.b64encode(b"-" * front + text)


# Another alphabet: the usual one turned round.
USUAL = "ABCDEFGHIJKLMNOPQRSTUVWXYZabcdefghijklmnopqrstuvwxyz0123456789+/"
TURNED = USUAL[::-1]

TEXTS: list[Row] = [
    strings("letter case counts", '$a = "Ab"', "abABAb", "0x4:2:$a"),
    strings(
        "letter case does not count", '$a = "Ab" nocase', "abABAb",
        "0x0:2:$a", "0x2:2:$a", "0x4:2:$a",
    ),
    strings("no case outside ASCII", '$a = "\\xe4" nocase', b"\xc4\xe4", "0x1:1:$a"),
    strings("signs have no case", '$a = "[@" nocase', "{`[@", "0x2:2:$a"),
    strings(
        "escapes", r'$a = "\"\\\t\n\r\x00\xfF"', b'-"\\\t\n\r\0\xff-', "0x1:7:$a"
    ),
    strings("wide alone is not plain", '$a = "ab" wide', "abab"),
    strings("wide at the end of the file", '$a = "ab" wide', b"a\0b", ),
    strings("plain by name", '$a = "ab" ascii', b"ab" + wide("ab"), "0x0:2:$a"),
    strings(
        "both forms of one text", '$a = "ab" wide ascii', b"ab" + wide("ab"),
        "0x0:2:$a", "0x2:4:$a",
    ),
    strings("wide without case", '$a = "ab" wide nocase', wide("AB"), "0x0:4:$a"),
    strings(
        "the shortest of two forms", '$a = "A" wide ascii nocase', wide("a"), "0x0:1:$a"
    ),
    strings("two strings at one place", '$a = "ab" $b = "abc"', "abc", "0x0:2:$a", "0x0:3:$b"),
    strings("in order of declaration", '$b = "a" $a = "b"', "ba", "0x1:1:$b", "0x0:1:$a"),
    scan(
        "private strings are not shown",
        'rule a { strings: $a = "a" private $b = "b" condition: $a and $b }',
        "ab",
        "a t.bin",
        "0x1:1:$b",
    ),
    scan(
        "one name in two rules",
        'rule a { strings: $x = "a" condition: $x } rule b { strings: $x = "b" condition: $x }',
        "ab",
        "a t.bin",
        "0x0:1:$x",
        "b t.bin",
        "0x1:1:$x",
    ),
    scan(
        "a string that is named like no other",
        'rule a { strings: $_unused = "a" condition: true }',
        "a",
        "a t.bin",
        "0x0:1:$_unused",
    ),
]

BORDERS: list[Row] = [
    strings("a whole file", '$a = "ab" fullword', "ab", "0x0:2:$a"),
    strings("a letter before", '$a = "ab" fullword', "xab"),
    strings("a digit behind", '$a = "ab" fullword', "ab1"),
    strings("a low line is no letter", '$a = "ab" fullword', "_ab_", "0x1:2:$a"),
    strings("a high byte is no letter", '$a = "ab" fullword', b"\xe4ab\xe4", "0x1:2:$a"),
    strings(
        "each form by its own borders", '$a = "ab" wide ascii fullword',
        b"xab " + wide("ab") + b"y", "0x4:4:$a",
    ),
    strings("a wide letter before", '$a = "ab" wide fullword', wide("xab")),
    strings("a wide letter behind", '$a = "ab" wide fullword', wide("abx")),
    strings("a plain letter before a wide text", '$a = "ab" wide fullword', b"x" + wide("ab"),
            "0x1:4:$a"),
    strings(
        "bytes under a key as they stand", '$a = "ab" xor(1) fullword',
        b"x" + keyed(b"ab", 1) + b"x",
    ),
    strings(
        "bytes under a key alone", '$a = "ab" xor(1) fullword',
        b" " + keyed(b"ab", 1) + b" ", "0x1:2:$a",
    ),
    strings(
        "the longest whose border holds", "$a = /a[b.]*/ fullword", "ab.bc", "0x0:2:$a"
    ),
    strings("the shortest whose border holds", "$a = /ab+?/ fullword", "abbb.", "0x0:4:$a"),
]

KEYS: list[Row] = [
    strings("all keys", '$a = "ab" xor', b"ab" + keyed(b"ab", 255), "0x0:2:$a", "0x2:2:$a"),
    strings("one key", '$a = "abc" xor(7)', b"abc" + keyed(b"abc", 7), "0x3:3:$a"),
    strings(
        "a range has both ends", '$a = "abc" xor(0x10-0x20)',
        b".".join(keyed(b"abc", key) for key in (0x0F, 0x10, 0x20, 0x21)),
        "0x4:3:$a", "0x8:3:$a",
    ),
    strings("key 0", '$a = "abc" xor(0-0)', "abc", "0x0:3:$a"),
    strings("zeros of the wide form too", '$a = "abc" xor(5) wide', keyed(wide("abc"), 5),
            "0x0:6:$a"),
    strings("not with the zeros left", '$a = "abc" xor(5) wide',
            b"".join(bytes([byte ^ 5, 0]) for byte in b"abc")),
]

CODED: list[Row] = [
    strings("three alignments", '$a = "foobar" base64',
            b" ".join(coded(b"foobar", front) for front in range(3)),
            "0x0:8:$a", "0xb:7:$a", "0x19:7:$a"),
    strings("only base64", '$a = "foobar" base64', "foobar"),
    strings("wide before the code", '$a = "foobar" wide base64', coded(wide("foobar"), 0),
            "0x0:16:$a"),
    strings("wide behind the code", '$a = "foobar" base64wide',
            wide(coded(b"foobar", 0).decode()), "0x0:16:$a"),
    strings("both ways", '$a = "foobar" base64 base64wide',
            coded(b"foobar", 0) + b"." + wide(coded(b"foobar", 0).decode()),
            "0x0:8:$a", "0x9:16:$a"),
    strings("an alphabet", f'$a = "foobar" base64("{TURNED}")',
            coded(b"foobar", 0).translate(bytes.maketrans(USUAL.encode(), TURNED.encode())),
            "0x0:8:$a"),
    strings("two alphabets", f'$a = "foobar" base64("{TURNED}") base64wide',
            wide(coded(b"foobar", 0).decode()), "0x0:16:$a"),
]

HEX: list[Row] = [
    strings("digits of either case", "$a = { aB Cd }", b"\xab\xcd", "0x0:2:$a"),
    strings("a comment and blanks", "$a = { 61 // one\n 62 /* } */ 63 }", "abc", "0x0:3:$a"),
    strings("half a byte", "$a = { 6? ?2 }", "ab1b", "0x0:2:$a"),
    strings("any byte", "$a = { 61 ?? 63 }", "abc", "0x0:3:$a"),
    strings("every other byte", "$a = { 61 ~62 }", "abac", "0x2:2:$a"),
    strings("every other half byte", "$a = { 61 ~6? }", "aba.", "0x2:2:$a"),
    strings("branches take the shortest", "$a = { 61 ( 62 | 62 63 ) }", "abc", "0x0:2:$a"),
    strings("branches in branches", "$a = { 61 ( 62 ( 63 | 64 ) | 65 ) 66 }", "abdf.aef",
            "0x0:4:$a", "0x5:3:$a"),
    strings("a jump of one number", "$a = { 61 [2] 62 }", "a..b.a.b", "0x0:4:$a"),
    strings("a jump of nothing", "$a = { 61 [0-1] 62 }", "ab.a.b", "0x0:2:$a", "0x3:3:$a"),
    strings("a jump without an end", "$a = { 61 [3-] 62 }", "a..b..b", "0x0:7:$a"),
    strings("any jump", "$a = { 61 [-] 62 }", "a\n.\0b", "0x0:5:$a"),
    strings("a jump in a branch", "$a = { 61 ( 62 [1-2] 63 | 64 ) }", "ab..c", "0x0:5:$a"),
    strings("private", "$a = { 61 } private $b = { 62 }", "ab", "0x1:1:$b"),
    strings("a run of any bytes", "$a = { ?? ?? }", "abc", "0x0:2:$a", "0x1:2:$a"),
]

EXPRESSIONS: list[Row] = [
    strings("no quantifier takes the longest", "$a = /a|ab/", "ab", "0x0:2:$a"),
    strings("never of length 0", "$a = /a*/", "ba", "0x1:1:$a"),
    strings("the shortest is never 0", "$a = /a*?/", "ba", "0x1:1:$a"),
    strings("a dot takes no line feed", "$a = /a.b/", "a\nb"),
    strings("a dot takes a line feed", "$a = /a.b/s", "a\nb", "0x0:3:$a"),
    strings("without case", "$a = /a[b-c]/i", "AB", "0x0:2:$a"),
    strings("both flags", "$a = /a.b/is", "A\nB", "0x0:3:$a"),
    strings("flags the other way", "$a = /a.b/si", "A\nB", "0x0:3:$a"),
    strings("the complement after the case", "$a = /[^a]/ nocase", "aAb", "0x2:1:$a"),
    strings("start", "$a = /^ab/", "abab", "0x0:2:$a"),
    strings("end", "$a = /ab$/", "abab", "0x2:2:$a"),
    strings("start and end", "$a = /^ab$/", "ab\n"),
    strings("an edge", r"$a = /\bab/", "ab_ab ab", "0x0:2:$a", "0x6:2:$a"),
    strings("no edge", r"$a = /\Bab/", "ab_ab ab", "0x3:2:$a"),
    strings("wide edges", r"$a = /\bab\b/ wide", b"x" + wide("ab"), "0x1:4:$a"),
    strings("wide letters beside", r"$a = /\bab\b/ wide", wide("xab")),
    strings("wide and plain", "$a = /ab/ wide ascii", b"ab" + wide("ab"), "0x0:2:$a", "0x2:4:$a"),
    strings("word bytes", r"$a = /\w+/", "a_1 ", "0x0:3:$a", "0x1:2:$a", "0x2:1:$a"),
    strings("other than word bytes", r"$a = /\W/", "a_1 ", "0x3:1:$a"),
    strings("blanks", r"$a = /a\sb/", "a\tba\x0bba b", "0x0:3:$a", "0x3:3:$a", "0x6:3:$a"),
    strings("digits", r"$a = /\d\D/", "1a22", "0x0:2:$a"),
    strings("escapes", r"$a = /\t\n\r\f\a\x41\./", "\t\n\r\f\aA.", "0x0:7:$a"),
    strings("a slash", r"$a = /a\/b/", "a/b", "0x0:3:$a"),
    strings("a class with a bracket", "$a = /[]a]+/", "]a", "0x0:2:$a", "0x1:1:$a"),
    strings("a class with no bracket", "$a = /[^]a]/", "]ab", "0x2:1:$a"),
    strings("a class with a line at the end", "$a = /[a-]/", "-", "0x0:1:$a"),
    strings("a set in a class", r"$a = /[\d-z]/", "5-z", "0x0:1:$a", "0x1:1:$a", "0x2:1:$a"),
    strings("a range from a line", "$a = /[--a]/", "-.b", "0x0:1:$a", "0x1:1:$a"),
    strings("ranges side by side", "$a = /[a-b-c]/", "-", "0x0:1:$a"),
    strings("a hat in a class", "$a = /[^^]/", "^a", "0x1:1:$a"),
    strings("an exact repeat", "$a = /a{2}b/", "aaab", "0x1:3:$a"),
    strings("a repeat from 0", "$a = /a{,2}b/", "aaab", "0x1:3:$a", "0x2:2:$a", "0x3:1:$a"),
    strings("an open repeat", "$a = /ba{2,}/", "baaa", "0x0:4:$a"),
    strings("an open repeat, shortest", "$a = /ba{2,}?/", "baaa", "0x0:3:$a"),
    strings("a brace that is a byte", "$a = /a{b}/", "a{b}", "0x0:4:$a"),
    strings("braces with a comma", "$a = /a{,}/", "a{,}", "0x0:4:$a"),
    strings("an exact repeat has no greed", "$a = /a{2}?b+/", "aabb", "0x0:4:$a"),
    strings("groups", "$a = /(a(b|c)){2}/", "abac", "0x0:4:$a"),
    strings("an empty branch", "$a = /a(b|)c/", "abcac", "0x0:3:$a", "0x3:2:$a"),
    strings("overlapping places", "$a = /a.a/", "aaaaa", "0x0:3:$a", "0x1:3:$a", "0x2:3:$a"),
    strings("any byte, again and again", "$a = /x.*y/", "xayby", "0x0:5:$a"),
    strings("the first end", "$a = /x.*?y/", "xayby", "0x0:3:$a"),
]

ROWS = TEXTS + BORDERS + KEYS + CODED + HEX + EXPRESSIONS


@pytest.mark.parametrize("one", ROWS, ids=names(ROWS))
def test_matches(program: Program, one: Row, tmp_path: Path) -> None:
    judge(program, one, tmp_path)
