"""Rules that are refused: status 2 and its text, by `scan`, `compile` and `check` alike."""

from __future__ import annotations

from pathlib import Path

import pytest

from support.rows import Row, judge, lay, names, refused, row, skip_large
from support.running import Answer, Program

LONG = "a" * 129
MOST = "a" * 128


def string(name: str, declared: str, err: str) -> Row:
    """A rule `x` with one string `$a` that is refused."""
    return refused(
        name, f"rule x {{ strings: $a = {declared} condition: $a }}", f"r.yar:1: {err} x $a"
    )


def place(name: str, declared: str, err: str, at: int) -> Row:
    """The same, with a place in the string."""
    return refused(
        name, f"rule x {{ strings: $a = {declared} condition: $a }}", f"r.yar:1: {err} x $a {at}"
    )


def condition(name: str, text: str, err: str) -> Row:
    """A rule `x` with a condition that is refused."""
    return refused(name, f"rule x {{ condition: {text} }}", f"r.yar:1: {err}")


def syntax(name: str, text: str) -> Row:
    """A condition that no grammar has."""
    return condition(name, text, "Syntax")


TEXT: list[Row] = [
    refused("an open text at a line's end", 'rule a {\n strings: $a = "x\n" condition: $a }',
            "r.yar:2: Unclosed"),
    refused("an open expression", "rule a {\n strings: $a = /x\n/ condition: $a }",
            "r.yar:2: Unclosed"),
    refused("an open hex string", "rule a {\n strings: $a = { 01 \n\n", "r.yar:2: Unclosed"),
    refused("an open comment", "rule a { condition: true }\n/* no end", "r.yar:2: Unclosed"),
    refused("a comment that only seems closed", "/*/ rule a { condition: true }",
            "r.yar:1: Unclosed"),
    refused("an open comment in a hex string", "rule a { strings: $a = { 01 /* 02 } condition: $a }",
            "r.yar:1: Unclosed"),
    refused("no such escape", r'rule a { strings: $a = "\q" condition: $a }', "r.yar:1: BadEscape"),
    refused("half an escape", r'rule a { strings: $a = "\x1" condition: $a }', "r.yar:1: BadEscape"),
    refused("a floating-point number", "rule a { condition:\n 1.5 > 1 }", "r.yar:2: Float"),
    refused("digits and letters", "rule a { condition: 12a == 1 }", "r.yar:1: BadByte"),
    refused("no hex digits", "rule a { condition: 0x == 1 }", "r.yar:1: BadByte"),
    refused("an octal 8", "rule a { condition: 0o8 == 1 }", "r.yar:1: BadByte"),
    refused("small letters for KB", "rule a { condition: 1kb == 1 }", "r.yar:1: BadByte"),
    refused("a byte order mark", b"\xef\xbb\xbfrule a { condition: true }", "r.yar:1: BadByte"),
    refused("a byte that begins nothing", "rule a { condition: ? }", "r.yar:1: BadByte"),
    refused("a number above 64 bits", "rule a { condition:\n\n9223372036854775808 == 1 }",
            "r.yar:3: TooLargeNumber"),
    refused("a number of megabytes", "rule a { condition: 8796093022208MB == 1 }",
            "r.yar:1: TooLargeNumber"),
    refused("a long name", f"rule {LONG} {{ condition: true }}", "r.yar:1: LongName"),
    refused("a long name of a string", f'rule a {{ strings: ${LONG} = "a" condition: true }}',
            "r.yar:1: LongName"),
    refused("the first fault of a file", "rule a { condition: 1.5 == 12a }", "r.yar:1: Float"),
    refused("a fault behind bad grammar", "rule rule rule\n12a", "r.yar:2: BadByte"),
]

INCLUDES: list[Row] = [
    refused("an empty path", "\ninclude\n \"\"", "r.yar:2: Path"),
    refused("a path that is no text", b'include "\\xff"', "r.yar:1: Path"),
    refused("a file that includes itself", '\n\ninclude "r.yar"', "r.yar:3: Cycle r.yar"),
    row(
        "a fault in an included file",
        "scan r.yar t.bin",
        {"r.yar": 'include "s.yar" rule', "s.yar": "\n1.5", "t.bin": ""},
        err="s.yar:2: Float",
        status=2,
    ),
    row(
        "bad grammar in an included file",
        "scan r.yar t.bin",
        {"r.yar": 'rule a { condition: include "s.yar" }', "s.yar": "\n\nand", "t.bin": ""},
        err="r.yar:1: Syntax",
        status=2,
    ),
    row(
        "a rule of an included file",
        "scan r.yar t.bin",
        {
            "r.yar": 'include "s.yar"',
            "s.yar": "rule a { condition: true }\nrule b { condition: nope }",
            "t.bin": "",
        },
        err="s.yar:2: UnknownName b nope",
        status=2,
    ),
    row(
        "the second file",
        "scan a:a.yar b:b.yar t.bin",
        {"a.yar": "rule a { condition: true }", "b.yar": "\nrule", "t.bin": ""},
        err="b.yar:2: Syntax",
        status=2,
    ),
    row(
        "all files are read before one is parsed",
        "scan a.yar b.yar t.bin",
        {"a.yar": "rule", "b.yar": "1.5", "t.bin": ""},
        err="b.yar:1: Float",
        status=2,
    ),
    row(
        "all files are parsed before one is checked",
        "scan a.yar b.yar t.bin",
        {"a.yar": "rule a { condition: nope }", "b.yar": "rule", "t.bin": ""},
        err="b.yar:1: Syntax",
        status=2,
    ),
]

GRAMMAR: list[Row] = [
    refused("the line of the declaration", "\nrule a\n{ condition: 1 of }", "r.yar:2: Syntax"),
    refused("the line of its first word", "\nprivate\nrule a { condition: }", "r.yar:2: Syntax"),
    refused("no name", "rule { condition: true }", "r.yar:1: Syntax"),
    refused("a reserved name", "rule them { condition: true }", "r.yar:1: Syntax"),
    refused("private twice", "private private rule a { condition: true }", "r.yar:1: Syntax"),
    refused("no tags behind a colon", "rule a : { condition: true }", "r.yar:1: Syntax"),
    refused("no strings", "rule a { strings: condition: true }", "r.yar:1: Syntax"),
    refused("no meta", "rule a { meta: condition: true }", "r.yar:1: Syntax"),
    refused("meta of no kind", "rule a { meta: a = b condition: true }", "r.yar:1: Syntax"),
    refused("sections in another order",
            'rule a { strings: $a = "a" meta: b = 1 condition: $a }', "r.yar:1: Syntax"),
    refused("an import without a name", "import elf", "r.yar:1: Syntax"),
    syntax("a string as operand", "$a == 1"),
    syntax("two comparisons", "1 < 2 < 3"),
    syntax("two equalities", "1 == 1 == 1"),
    syntax("a quantifier that is a product", "2 * 50% of them"),
    syntax("a percentage in a loop", "for 50% of them : ( true )"),
    syntax("a list without items", "for any i in () : ( true )"),
    syntax("the entry point", "entrypoint == 0"),
    syntax("a range of one", "$a in (1)"),
    syntax("a wildcard as a string", "$a*"),
    syntax("a reserved word", "contains"),
    syntax("two conditions", "true true"),
    condition("65 brackets", "(" * 65 + "true" + ")" * 65, "TooDeep"),
    condition("65 square brackets", "uint8(" * 65 + "1" + ")" * 65 + " == 1", "TooDeep"),
    condition("65 times not", "not " * 65 + "true", "TooDeep"),
    condition("65 signs", "-" * 65 + "1 == 1", "TooDeep"),
    condition("65 times not and sign", "not defined " * 32 + "- 1", "TooDeep"),
    refused("too deep before an import", 'import "elf"\nrule a { condition: ' + "(" * 65,
            "r.yar:1: TooDeep"),
]

CHECKS: list[Row] = [
    refused("an unknown module behind rules", 'rule x { condition: true }\nimport "cuckoo"',
            "r.yar:2: UnknownModule cuckoo"),
    refused("a module without a name", 'import ""', "r.yar:1: UnknownModule "),
    refused("modules that are left out", 'import "dotnet"', "r.yar:1: UnknownModule dotnet"),
    refused("a rule twice", "rule x { condition: true }\nrule x { condition: true }",
            "r.yar:2: DuplicateRule x"),
    refused("a rule named as a value", "rule n { condition: true }", "r.yar:1: DuplicateRule n",
            "scan r.yar t.bin n=5"),
    refused("a rule that a wildcard means",
            "rule a1 { condition: true } rule b { condition: any of (a*) }\n"
            "rule a2 { condition: true }", "r.yar:2: WildcardRule a2"),
    refused("a tag twice", "rule x : t u t u { condition: true }", "r.yar:1: DuplicateTag x t"),
    refused("a string twice", 'rule x { strings: $a = "a" $a = "b" condition: $a }',
            "r.yar:1: DuplicateString x $a"),
    string("an empty text", '""', "EmptyString"),
    string("nocase and xor", '"a" nocase xor', "BadModifiers"),
    string("a modifier twice", '"a" wide wide', "BadModifiers"),
    string("a modifier twice, another range", '"a" xor(1) xor(2)', "BadModifiers"),
    string("fullword and base64", '"abc" fullword base64', "BadModifiers"),
    string("xor and base64wide", '"abc" xor base64wide', "BadModifiers"),
    string("nocase and base64", '"abc" nocase base64', "BadModifiers"),
    string("nocase of a hex string", "{ 01 } nocase", "BadModifiers"),
    string("wide of a hex string", "{ 01 } wide", "BadModifiers"),
    string("xor of an expression", "/a/ xor", "BadModifiers"),
    string("base64 of an expression", "/a/ base64", "BadModifiers"),
    string("a range that falls", '"a" xor(2-1)', "BadModifiers"),
    string("a key above a byte", '"a" xor(256)', "BadModifiers"),
    string("a short alphabet", '"abc" base64("abc")', "BadModifiers"),
    string("half a byte alone", "{ 0 }", "HexSyntax"),
    string("nothing in a hex string", "{ }", "HexSyntax"),
    string("not any byte", "{ 01 ~?? }", "HexSyntax"),
    string("an open branch", "{ 01 ( 02 }", "HexSyntax"),
    string("an empty branch", "{ 01 ( 02 | ) }", "HexSyntax"),
    string("a hex string 65 brackets deep", "{ " + "( " * 65 + "01 " + ") " * 65 + "}",
           "HexSyntax"),
    place("a jump at the front", "{ [1] 01 }", "HexJump", 1),
    place("a jump that falls", "{ 01 [4-2] 02 }", "HexJump", 4),
    place("a jump above 65,535", "{ 01 [65536] 02 }", "HexJump", 4),
    place("a jump without an end in a branch", "{ 01 ( 02 [1-] 03 ) }", "HexJump", 9),
    place("a long jump in a branch", "{ 01 ( 02 [201] 03 ) }", "HexJump", 9),
    place("the first of two jumps", "{ 01 ( 02 [201] 03 ) [9-1] 04 }", "HexJump", 9),
    string("a quantifier of nothing", "/*a/".replace("/*", "/+"), "RegexSyntax"),
    string("two quantifiers", "/a**/", "RegexSyntax"),
    string("an open group", "/(a/", "RegexSyntax"),
    string("a closed group", "/a)/", "RegexSyntax"),
    string("an open class", "/[]/", "RegexSyntax"),
    string("no look-around", "/a(?=b)/", "RegexSyntax"),
    string("no back reference", r"/(a)\1/", "RegexSyntax"),
    string("an edge in a class", r"/[\b]/", "RegexSyntax"),
    string("a range up to a set", r"/[a-\d]/", "RegexSyntax"),
    string("an expression 65 groups deep", "/" + "(" * 65 + "a" + ")" * 65 + "/", "RegexSyntax"),
    place("a repeat that falls", "/a{3,2}/", "RegexRange", 1),
    place("a repeat above 32,767", "/ab{32768}/", "RegexRange", 2),
    place("a range that falls", "/a[z-a]/", "RegexRange", 2),
    place("a range from an escape", r"/a[b\xff-\x01]/", "RegexRange", 3),
    string("two kinds of quantifiers", "/a+b*?/", "MixedGreed"),
    string("a size of 90,000", "/(a{300}){300}/", "PatternTooLarge"),
    string("a jump of 65,535 twice", "{ 01 [65535] 02 }", "PatternTooLarge"),
    refused("an expression of a condition", 'rule x { condition: "a" matches /a**/ }',
            "r.yar:1: RegexSyntax x matches"),
    refused("a range of a condition's expression", 'rule x { condition: "a" matches /a{2,1}/ }',
            "r.yar:1: RegexRange x matches 1"),
    refused("a large expression of a condition",
            'rule x { condition: "a" matches /(a{300}){300}/ }',
            "r.yar:1: PatternTooLarge x matches"),
    refused("strings before expressions of the condition",
            'rule x { strings: $b = /b**/ condition: "a" matches /a**/ and $b }',
            "r.yar:1: RegexSyntax x $b"),
    condition("no such string", "$a", "UnknownString x $a"),
    condition("no such count", "#a == 1", "UnknownString x #a"),
    condition("no such place", "@a == 1", "UnknownString x @a"),
    condition("no such length", "!a == 1", "UnknownString x !a"),
    condition("no string of a set", "any of ($b*)", "UnknownString x $b*"),
    condition("a current string outside a loop", "# == 1", "UnknownString x #"),
    condition("no such name", "nope == 1", "UnknownName x nope"),
    condition("no such rule of a set", "any of (nope*)", "UnknownName x nope"),
    condition("a rule that means itself", "x", "UnknownName x x"),
    refused("no such field", 'import "elf" rule x { condition: elf.nope == 1 }',
            "r.yar:1: UnknownName x nope"),
    refused("no such field of an entry",
            'import "elf" rule x { condition: for any s in elf.sections : ( s.nope == 1 ) }',
            "r.yar:1: UnknownName x nope"),
    refused("a call that is left out", 'import "pe" rule x { condition: pe.imphash() == "a" }',
            "r.yar:1: UnknownName x imphash"),
    condition("a text and a number", '"a" == 1', "WrongType x"),
    condition("a text in a sum", '"a" + 1 == 1', "WrongType x"),
    condition("a flag in a sum", "true + 1 == 1", "WrongType x"),
    condition("flags in order", "true < false", "WrongType x"),
    condition("a number that contains", '1 contains "a"', "WrongType x"),
    condition("a number that matches", "1 matches /a/", "WrongType x"),
    condition("a text as an offset", 'uint8("a") == 1', "WrongType x"),
    condition("a path of a number", "for any i in (1..2) : ( i.type == 1 )", "WrongType x"),
    refused("a module by itself", 'import "elf" rule x { condition: elf }', "r.yar:1: WrongType x"),
    refused("an array by itself", 'import "elf" rule x { condition: elf.sections }',
            "r.yar:1: WrongType x"),
    refused("an entry by itself", 'import "elf" rule x { condition: elf.sections[0] }',
            "r.yar:1: WrongType x"),
    refused("an index of a field", 'import "elf" rule x { condition: elf.type[0] == 1 }',
            "r.yar:1: WrongType x"),
    refused("a call without arguments", 'import "hash" rule x { condition: hash.md5() == "a" }',
            "r.yar:1: WrongType x"),
    refused("a call by itself", 'import "hash" rule x { condition: hash.md5 == "a" }',
            "r.yar:1: WrongType x"),
    refused("rules at a place", "rule a { condition: true }\nrule x { condition: any of (a) at 1 }",
            "r.yar:2: WrongType x"),
    refused("a string that is not used", 'rule x { strings: $a = "a" $b = "b" condition: $a }',
            "r.yar:1: UnusedString x $b"),
    refused("a string without a name that is not used", 'rule x { strings: $ = "a" condition: true }',
            "r.yar:1: UnusedString x $"),
    condition("five loops",
              "".join(f"for any {name} in (1..1) : ( " for name in "abcde") + "true" + " )" * 5,
              "LoopDepth x"),
    condition("129 items", f"for any i in ({','.join(['1'] * 129)}) : ( true )", "ListTooLong x"),
    refused("65,536 rules", "".join(f"rule a{k} {{ condition: true }}" for k in range(65536)),
            "r.yar:1: TooMany a65535"),
    refused("the first rule with a fault", "rule a { condition: nope }\nrule a { condition: true }",
            "r.yar:1: UnknownName a nope"),
    refused("the first fault of a rule", 'rule x : t t { strings: $a = "" condition: nope }',
            "r.yar:1: DuplicateTag x t"),
]  # fmt: skip

# Just within what is allowed.
ALLOWED: list[tuple[str, str]] = [
    ("names of 128 bytes", f'rule {MOST} {{ strings: ${MOST} = "a" condition: ${MOST} }}'),
    ("64 brackets", f"rule x {{ condition: {'(' * 64}true{')' * 64} }}"),
    ("64 times not", f"rule x {{ condition: {'not ' * 64}true }}"),
    ("64 signs", f"rule x {{ condition: {'-' * 64}1 == 1 }}"),
    ("closing brackets count backwards", f"rule x {{ condition: {'(1) + ' * 100}1 == 1 }}"),
    ("128 items", f"rule x {{ condition: for any i in ({','.join(['1'] * 128)}) : ( true ) }}"),
    ("a repeat of 32,767", "rule x { strings: $a = /ab{32767}/ condition: $a }"),
    ("a size of 65,535", "rule x { strings: $a = { 01 [65533] 02 } condition: $a }"),
    ("64 groups", f"rule x {{ strings: $a = /{'(' * 64}a{')' * 64}/ condition: $a }}"),
    ("a jump of 200 in a branch", "rule x { strings: $a = { 01 ( 02 [200] 03 ) } condition: $a }"),
    ("65,535 rules", "".join(f"rule a{k} {{ condition: true }}" for k in range(65535))),
    ("four loops", "rule x { condition: "
     + "".join(f"for any {name} in (1..1) : ( " for name in "abcd") + "true" + " )" * 4 + " }"),
    ("private and global in either order",
     "private global rule a { condition: true } global private rule b { condition: true }"),
    ("a meta key twice", 'rule x { meta: a = 1 a = "b" a = true condition: true }'),
    ("an empty file", ""),
    ("only comments", "// a\n/* b */"),
    ("a comment at the end", "rule x { condition: true } // end"),
    ("no blanks at all", "rule x{condition:true}rule y{condition:x}"),
]  # fmt: skip

# A text of 5,000 bytes under 256 keys in two forms weighs 512 * 64 + 256 * 15,000 and little more;
# nine of these are too heavy, eight are not.
HEAVY = '$a{} = "{}" xor wide ascii'


def heavy(count: int) -> str:
    """A rule with `count` strings of weight 3.9 million each."""
    declared = " ".join(HEAVY.format(k, "a" * 5000) for k in range(count))
    return f"rule x {{ strings: {declared} condition: any of them }}"


CHECKS += [refused("too heavy", heavy(9), "r.yar:1: TooHeavy x")]
ALLOWED += [("nearly too heavy", heavy(8))]

ROWS = TEXT + INCLUDES + GRAMMAR + CHECKS


@pytest.mark.parametrize("one", ROWS, ids=names(ROWS))
def test_refused(program: Program, one: Row, tmp_path: Path) -> None:
    judge(program, one, tmp_path)
    if one.words[0] == "scan":
        # `check` takes the same rules and values, and no target.
        words = ["check", *(word for word in one.words[1:] if word != "t.bin")]
        assert program.run(words, tmp_path) == one.expected


@pytest.mark.parametrize(("name", "rules"), ALLOWED, ids=[name for name, _ in ALLOWED])
def test_allowed(program: Program, name: str, rules: str, tmp_path: Path) -> None:
    skip_large(program, len(rules))
    lay(tmp_path, {"r.yar": rules.encode()})
    rule_count = rules.count("rule ")
    string_count = rules.count("$") // 2 if name == "names of 128 bytes" else None
    answer = program.run(["check", "r.yar"], tmp_path)
    assert (answer.status, answer.err) == (0, b"")
    head, _, tail = answer.out.partition(b", ")
    assert head == b"rules %d" % rule_count
    if string_count is not None:
        assert tail == b"strings %d\n" % string_count


def test_too_much_text(program: Program, tmp_path: Path) -> None:
    """All text of a rule file with its includes has at most 16,777,216 bytes."""
    most = 16_777_216
    skip_large(program, most)
    lay(tmp_path, {"a.yar": b" " * most, "b.yar": b" " * (most + 1)})
    lay(tmp_path, {"c.yar": b'include "a.yar"'})
    assert program.run(["check", "a.yar"], tmp_path) == Answer(0, b"rules 0, strings 0\n", b"")
    assert program.run(["check", "b.yar"], tmp_path) == Answer(2, b"", b"b.yar: TextTooLong\n")
    assert program.run(["check", "c.yar"], tmp_path) == Answer(2, b"", b"a.yar: TextTooLong\n")
    each = program.run(["check", "a.yar", "a.yar"], tmp_path)
    assert each == Answer(0, b"rules 0, strings 0\n", b""), "each rule file has its own limit"
