"""The worked rows of the specification, each from files on disk."""

from __future__ import annotations

from pathlib import Path

import pytest

from support.rows import Row, judge, names, refused, row, scan, strings, truth
from support.running import Program
from support.targets import BARE_ELF, SAMPLE_ELF, SAMPLE_PE

ONE = 'rule a { strings: $a = "ab" condition: $a }'
CANNOT = "This program cannot"
OPEN = "rule x { condition: true } "
NAMED = 'rule v { condition: n > 4 and name iequals "ABC" }'

LOADER = r"""import "elf"
rule Sample_Loader : linux loader {
  meta:
    author = "analyst"
    date = "2024-05-01"
    score = 80
  strings:
    $s1 = "/bin/sh" fullword
    $s2 = "LD_PRELOAD" wide ascii nocase
    $s3 = "ptrace"
    $s4 = "/etc/shadow"
    $s5 = "socket" xor
    $s6 = "cmd.exe" base64
    $s7 = /https?:\/\/[a-z0-9.]{3,40}\/[a-z]{1,20}/
    $s8 = "elf_loader" fullword ascii
    $h1 = { 48 31 C? ( 0F 05 | CD 80 ) }
    $h2 = { 7F 45 4C 46 [12-20] ~02 }
  condition:
    uint32(0) == 0x464c457f and filesize < 5MB
    and elf.machine == elf.EM_X86_64
    and (2 of ($s*) or any of ($h*))
    and for any s in elf.sections : ( s.name == ".text" )
}
"""

CHAIN = {f"c{k}.yar": f'include "c{k + 1}.yar"' for k in range(17)} | {"c17.yar": ""}

TYPES = (
    'import "elf" rule h1 { condition: elf.type == elf.ET_EXEC } '
    "rule h2 { condition: defined elf.sections[0].size }"
)
UNDEFINED = (
    "rule n1 { condition: not (uint8(filesize) == 0) } "
    "rule n2 { condition: not defined uint8(filesize) }"
)
WRAPPED = (
    r"rule m1 { condition: 9223372036854775807 + 1 < 0 } rule m2 { condition: 1 \ 0 == 0 }"
)
SETS = (
    'rule a { strings: $a = "x" $b = "y" '
    "condition: 50% of them and not 0 of them and none of ($b) and -1 of them }"
)

ROWS: list[Row] = [
    scan("two places", ONE, "xxabab", "a t.bin", "0x2:2:$a", "0x4:2:$a"),
    scan("an empty target", "rule e { condition: filesize == 0 }", "", "e t.bin"),
    strings("overlapping places", '$a = "aa"', "aaaa", "0x0:2:$a", "0x1:2:$a", "0x2:2:$a"),
    strings("longest", "$a = /a+/", "baaa", "0x1:3:$a", "0x2:2:$a", "0x3:1:$a"),
    strings("shortest", "$a = /a+?/", "baaa", "0x1:1:$a", "0x2:1:$a", "0x3:1:$a"),
    strings("a jump", "$a = { 01 [2-4] 02 }", b"\x01\0\0\x02\x02", "0x0:4:$a"),
    strings("not a whole word", '$a = "domain" fullword', "www.mydomain.com"),
    strings("a whole word", '$a = "domain" fullword', "www.my-domain.com", "0x7:6:$a"),
    strings("no key", f'$a = "{CANNOT}" xor(0x01-0xff)', CANNOT),
    strings(
        "key one", f'$a = "{CANNOT}" xor(0x01-0xff)', "Uihr!qsnfs`l!b`oonu", "0x0:19:$a"
    ),
    strings(
        "base64", f'$a = "{CANNOT}" base64', "VGhpcyBwcm9ncmFtIGNhbm5vdA==", "0x0:25:$a"
    ),
    strings(
        "base64, one byte in", f'$a = "{CANNOT}" base64', "RoaXMgcHJvZ3JhbSBjYW5ub3",
        "0x0:24:$a",
    ),
    strings(
        "base64, two bytes in", f'$a = "{CANNOT}" base64', "UaGlzIHByb2dyYW0gY2Fubm90",
        "0x0:25:$a",
    ),
    strings("both forms", '$a = "A" ascii wide', b"A\0", "0x0:1:$a"),
    strings("the wide form", '$a = "AB" wide', b"A\0B\0", "0x0:4:$a"),
    scan("not of undefined", UNDEFINED, "any", "n2 t.bin"),
    scan("wrapping and by zero", WRAPPED, "any", "m1 t.bin"),
    scan(
        "a false global rule", OPEN + "global rule g { condition: filesize > 10 }", "abc"
    ),
    scan(
        "a false global rule, negated",
        OPEN + "global rule g { condition: filesize > 10 }",
        "abc",
        words="scan -n r.yar t.bin",
    ),
    scan(
        "a true private global rule",
        OPEN + "global private rule g { condition: filesize > 2 }",
        "abc",
        "x t.bin",
    ),
    scan("an ELF header", TYPES, BARE_ELF, "h1 t.bin"),
    scan("an ELF header cut by a byte", TYPES, BARE_ELF[:63]),
    row(
        "an include circle",
        "scan a.yar t.bin",
        {"a.yar": 'include "b.yar"', "b.yar": 'include "a.yar"', "t.bin": ""},
        err="b.yar:1: Cycle a.yar",
        status=2,
    ),
    row(
        "includes too deep",
        "scan c0.yar t.bin",
        CHAIN | {"t.bin": ""},
        err="c16.yar:1: Depth c17.yar",
        status=2,
    ),
    row(
        "a missing include",
        "scan a.yar t.bin",
        {"a.yar": 'include "no.yar"', "t.bin": ""},
        err="cannot read no.yar",
        status=4,
    ),
    refused(
        "a pattern of size 90,000",
        "rule x { strings: $a = /(a{300}){300}/ condition: $a }",
        "r.yar:1: PatternTooLarge x $a",
    ),
    refused(
        "mixed greed",
        "rule x { strings: $a = /a+b*?/ condition: $a }",
        "r.yar:1: MixedGreed x $a",
    ),
    refused(
        "a jump at the end",
        "rule x { strings: $a = { 01 [2-] } condition: $a }",
        "r.yar:1: HexJump x $a 4",
    ),
    refused(
        "no such module", 'import "math" rule x { condition: true }',
        "r.yar:1: UnknownModule math",
    ),
    row(
        "a rule as analysts write it",
        "scan -s -g -m r.yar t.elf",
        {"r.yar": LOADER, "t.elf": SAMPLE_ELF},
        'Sample_Loader [linux,loader] [author="analyst",date="2024-05-01",score=80] t.elf',
        "0x40:7:$s1",
        "0x48:10:$s2",
        "0x53:14:$s7",
        "0x62:5:$h1",
        "0x0:18:$h2",
    ),
    scan(
        "meta with escapes",
        r'rule a { meta: note = "a\"b\x01" condition: true }',
        "",
        r'a [] [note="a\"b\x01"] t.bin',
        words="scan -m -g r.yar t.bin",
    ),
    scan("counted", ONE, "xxabab", "1", words="scan -c r.yar t.bin"),
    scan("counted, negated", ONE, "xxabab", "0", words="scan -n -c r.yar t.bin"),
    row("checked", "check r.yar", {"r.yar": ONE}, "rules 1, strings 1"),
    scan("values", NAMED, "", "v t.bin", words="scan r.yar t.bin n=5 name=abc"),
    row(
        "a value twice",
        "scan r.yar t.bin n=5 n=6",
        {"r.yar": NAMED, "t.bin": ""},
        err="external n: Twice",
        status=8,
    ),
    refused("no value", NAMED, "r.yar:1: UnknownName v n"),
    scan(
        "a loop over matches",
        'rule q { strings: $a = "ab" condition: for all i in (1..#a) : ( @a[i] % 2 == 0 ) }',
        "xxabab",
        "q t.bin",
        words="scan r.yar t.bin",
    ),
    truth("for all i in (2..1) : ( false )", True),
    strings("an edge", r"$a = /\bab\b/", "ab cab", "0x0:2:$a"),
    strings("a wide expression", "$a = /ab/ wide nocase", b"A\0b\0", "0x0:4:$a"),
    scan("quantifiers", SETS, "x", "a t.bin", "0x0:1:$a"),
    scan(
        "a set of rules",
        "private rule p1 { condition: true } rule q { condition: any of (p*) }",
        "",
        "q t.bin",
    ),
    row("no work", "work 1 0", {}, "rules 16", "bytes 0", "satisfied 0", "matches 0"),
    row("some work", "work 1 16", {}, "rules 16", "bytes 192", "satisfied 16", "matches 16"),
    refused("no condition", "rule a { condition: }", "r.yar:1: Syntax"),
    refused(
        "65 brackets",
        f"rule a {{ condition: {'(' * 65}true{')' * 65} }}",
        "r.yar:1: TooDeep",
    ),
    refused("a number with a point", "rule a { condition: 1.5 > 1 }", "r.yar:1: Float"),
    refused("an open text", 'rule a { strings: $a = "x', "r.yar:1: Unclosed"),
    row("no target named", "scan r.yar", {"r.yar": ONE}, err="bad command line", status=1),
    scan(
        "strings without a name",
        'rule a { strings: $ = "x" $ = "y" condition: all of them }',
        "xy",
        "a t.bin",
        "0x0:1:$",
        "0x1:1:$",
    ),
    scan(
        "one hit and no match",
        'rule a { strings: $a = "abcdef" condition: $a }',
        "abcd.bcde.cdef",
        "hits: 1",
        words="scan --stats r.yar t.bin",
    ),
    scan(
        "two hits", ONE, "xxabab", "a t.bin", "hits: 2", words="scan --stats r.yar t.bin"
    ),
    strings(
        "nibbles and branches",
        "$a = { 01 ~?2 ( 03 | 04 [1-2] 05 ) }",
        bytes.fromhex("011304000005"),
        "0x0:6:$a",
    ),
    strings(
        "counted repeats", "$a = /x{2,3}y?/", "xxxxy", "0x0:3:$a", "0x1:4:$a", "0x2:3:$a"
    ),
    strings("a key for wide zeros", '$a = "ab" xor wide', b"`\x01c\x01", "0x0:4:$a"),
    strings("a short text in base64", '$a = "a" base64', "Y.h", "0x0:1:$a", "0x2:1:$a"),
    refused("no such name", "rule x { condition: nope }", "r.yar:1: UnknownName x nope"),
    truth("for 1 i in (1, 2) : ( i == 2 ) and not ( 1 << 64 == 1 )", True),
    scan(
        "fields of an ELF file",
        'import "elf" '
        "rule a { condition: not defined elf.entry_point } "
        "rule b { condition: elf.number_of_sections == 3 } "
        "rule c { condition: elf.sections[1].flags & elf.SHF_EXECINSTR != 0 } "
        'rule d { condition: defined elf.sections[0].name and elf.sections[0].name == "" }',
        SAMPLE_ELF,
        *(f"{name} t.bin" for name in "abcd"),
    ),
    truth("for any i in (1..3) : ( for all j in (1..i) : ( j < 2 ) )", True),
    truth("for any i in (0..268435457) : ( true )", False),
    truth("for any i in (0..999999) : ( i == 999999 )", True),
    strings("everything", "$a = /.*/s", "ab", "0x0:2:$a", "0x1:1:$a"),
    row(
        "namespaces apart",
        "scan p:p.yar q:q.yar t.bin",
        {
            "p.yar": "global rule g { condition: false }",
            "q.yar": "rule r { condition: true }",
            "t.bin": "",
        },
        "r t.bin",
    ),
    row(
        "one namespace",
        "scan p.yar q.yar t.bin",
        {
            "p.yar": "global rule g { condition: false }",
            "q.yar": "rule r { condition: true }",
            "t.bin": "",
        },
    ),
    row(
        "namespaces shown",
        "scan -e a:q.yar b:q.yar t.bin",
        {"q.yar": "rule r { condition: true }", "t.bin": ""},
        "a:r t.bin",
        "b:r t.bin",
    ),
    row(
        "a file twice in one namespace",
        "scan q.yar q.yar t.bin",
        {"q.yar": "rule r { condition: true }", "t.bin": ""},
        err="q.yar:1: DuplicateRule r",
        status=2,
    ),
    row("a namespace and no file", "scan a: t.bin", {"t.bin": ""}, err="bad command line", status=1),
    truth(
        'hash.md5(0, filesize) == "900150983cd24fb0d6963f7d28e17f72"', True, "abc",
        "md5", 'import "hash" ',
    ),
    truth(
        'hash.sha1(0, 3) == "a9993e364706816aba3e25717850c26c9cd0d89d"', True, "abc",
        "sha1", 'import "hash" ',
    ),
    truth(
        "hash.sha256(0, 3) == "
        '"ba7816bf8f01cfea414140de5dae2223b00361a396177a9cb410ff61f20015ad"',
        True, "abc", "sha256", 'import "hash" ',
    ),
    truth(
        'hash.md5(3, 0) == "d41d8cd98f00b204e9800998ecf8427e"', True, "abc",
        "the digest of nothing", 'import "hash" ',
    ),
    truth(
        "defined hash.md5(1, 3) or defined hash.md5(-1, 1)", False, "abc",
        "digests outside the file", 'import "hash" ',
    ),
    refused(
        "the digest of a text",
        'import "hash" rule x { condition: hash.md5("abc") == "x" }',
        "r.yar:1: WrongType x",
    ),
    truth(
        "pe.machine == pe.MACHINE_I386 and pe.number_of_sections == 1 "
        "and pe.entry_point == 0x210",
        True, SAMPLE_PE, "header fields of a PE file", 'import "pe" ',
    ),
    truth(
        'for any s in pe.sections : ( s.name == ".text" '
        "and s.characteristics & pe.SECTION_MEM_EXECUTE != 0 )",
        True, SAMPLE_PE, "sections of a PE file", 'import "pe" ',
    ),
    truth(
        "defined pe.machine and not defined pe.entry_point",
        True, SAMPLE_PE[:147], "a PE file cut by a byte", 'import "pe" ',
    ),
    truth("defined pe.machine", False, SAMPLE_PE[:87], "half a PE header", 'import "pe" '),
    truth(
        "not defined pe.machine and defined elf.machine",
        True, SAMPLE_ELF, "two modules", 'import "pe" import "elf" ',
    ),
]


@pytest.mark.parametrize("one", ROWS, ids=names(ROWS))
def test_answer(program: Program, one: Row, tmp_path: Path) -> None:
    judge(program, one, tmp_path)
