"""Random rules and targets in the language that this project and YARA 4.2 have in common.

Left out are the forms that docs/DIFFERENCES.md names: expressions with more than one end that
alternatives decide, sets with a member twice, empty sets and loops, undefined places, numbers of
members and bounds, constants alone in a sum, and what limits differ in. Left out too is what YARA
4.2.3 has otherwise than its documentation: `#a in (n..m)` ends its scan with an error, and
`for none i in ..` always holds. Texts of meta are plain, since reports write other bytes in two ways.
"""

from __future__ import annotations

import base64
import random
from collections.abc import Sequence
from dataclasses import dataclass, field

# Few bytes, so that strings are found often, at borders of words and in either case.
LETTERS = "abAB"
OTHERS = "1_. -\n"
SPECIAL = frozenset(".^$*+?()[]{}|\\/-")


@dataclass
class Drawing:
    """What a rule is made of."""

    dice: random.Random
    # The names of the strings of the rule that is made, and of the rules before it.
    strings: list[str] = field(default_factory=list)
    rules: list[str] = field(default_factory=list)

    def chance(self, percent: int) -> bool:
        """Whether something of this chance comes about."""
        return self.dice.randrange(100) < percent

    def text(self, low: int, high: int) -> str:
        """A text of few letters."""
        letters = LETTERS * 3 + OTHERS
        return "".join(self.dice.choice(letters) for _ in range(self.dice.randint(low, high)))

    def some(self, items: Sequence[str], most: int = 3) -> list[str]:
        """A few of the items in their order."""
        count = self.dice.randint(1, min(most, len(items)))
        taken = set(self.dice.sample(range(len(items)), count))
        return [item for place, item in enumerate(items) if place in taken]


def quoted(text: str) -> str:
    """A text as rules have it."""
    return '"' + text.replace("\\", "\\\\").replace('"', '\\"').replace("\n", "\\n") + '"'


# Strings.


def text_string(draw: Drawing) -> str:
    """A text with modifiers that go together."""
    words = []
    kind = draw.dice.randrange(10)
    if kind == 0:
        return f"{quoted(draw.text(3, 6))} {draw.dice.choice(['base64', 'base64wide'])}"
    if kind == 1:
        low = draw.dice.randrange(256)
        words.append(draw.dice.choice(["xor", f"xor({low}-{draw.dice.randint(low, 255)})"]))
    elif draw.chance(30):
        words.append("nocase")
    words += draw.some(["wide", "ascii", "fullword"]) if draw.chance(50) else []
    draw.dice.shuffle(words)
    return " ".join([quoted(draw.text(2, 5)), *words])


def hex_bytes(draw: Drawing, least: int, most: int) -> str:
    """Bytes, some with one digit or none; the first has both."""
    made = []
    for place in range(draw.dice.randint(least, most)):
        digits = f"{ord(draw.text(1, 1)):02X}"
        if place and draw.chance(20):
            digits = draw.dice.choice([digits[0] + "?", "?" + digits[1], "??"])
        made.append(digits)
    return " ".join(made)


def hex_string(draw: Drawing) -> str:
    """Bytes, alternatives of one length, and jumps."""
    parts = [hex_bytes(draw, 2, 3)]
    for _ in range(draw.dice.randrange(3)):
        if draw.chance(50):
            low = draw.dice.randrange(4)
            ends = [str(low + 1), f"{low}-{low + draw.dice.randint(1, 3)}", f"{low}-"]
            parts.append(f"[{draw.dice.choice(ends)}]")
        else:
            size = draw.dice.randint(1, 2)
            branches = [hex_bytes(draw, size, size) for _ in range(draw.dice.randint(2, 3))]
            parts.append(f"( {' | '.join(branches)} )")
        parts.append(hex_bytes(draw, 1, 2))
    return f"{{ {' '.join(parts)} }}"


def expression_byte(draw: Drawing) -> str:
    """One byte of an expression, or a class."""
    if draw.chance(25):
        return draw.dice.choice(["[ab]", "[^b]", "[a-c_]", r"\w", r"\d", r"\s", ".", r"[^\w]"])
    byte = draw.text(1, 1)
    return {"\n": r"\n"}.get(byte, "\\" + byte if byte in SPECIAL else byte)


def expression(draw: Drawing, *, anchored: bool = True) -> str:
    """An expression that begins with a text and has one kind of quantifiers."""
    greed = "" if draw.chance(60) else "?"
    parts = ["".join(draw.dice.choice(LETTERS) for _ in range(2))]
    for _ in range(draw.dice.randrange(4)):
        part = expression_byte(draw)
        if draw.chance(20):
            size = draw.dice.randint(1, 2)
            branches = ["".join(expression_byte(draw) for _ in range(size)) for _ in range(2)]
            part = f"({'|'.join(branches)})"
        if draw.chance(40):
            part += draw.dice.choice(["*", "+", "?", "{1,3}", "{2,}"]) + greed
        parts.append(part)
    text = "".join(parts)
    if anchored and draw.chance(15):
        text = draw.dice.choice(["^{}", "{}$", r"\b{}", r"{}\b", r"\B{}"]).format(text)
    return f"/{text}/{draw.dice.choice(['', '', 'i', 's', 'is'])}"


def expression_string(draw: Drawing) -> str:
    """An expression with modifiers."""
    anchored = draw.chance(70)
    words = draw.some(["wide", "ascii"]) if not anchored and draw.chance(50) else []
    words += ["nocase"] if draw.chance(20) else []
    return " ".join([expression(draw, anchored=anchored), *words])


def string(draw: Drawing) -> str:
    """A string of any kind."""
    kind = draw.dice.choice([text_string, text_string, hex_string, expression_string])
    return kind(draw) + (" private" if draw.chance(8) else "")


# Conditions.


def number(draw: Drawing, depth: int) -> str:
    """A number, which may be undefined."""
    name = draw.dice.choice(draw.strings)
    place = draw.dice.randrange(12)
    plain = [
        f"#{name}", f"@{name}", f"!{name}", "filesize", str(place),
        f"@{name}[{draw.dice.randint(1, 3)}]", f"!{name}[{draw.dice.randint(1, 3)}]",
        f"{draw.dice.choice(['uint8', 'int16', 'uint32', 'uint16be', 'int32be'])}({place})",
    ]  # fmt: skip
    if depth == 0 or draw.chance(50):
        return draw.dice.choice(plain)
    first, second = number(draw, depth - 1), number(draw, 0)
    operator = draw.dice.choice(["+", "-", "*", "&", "|", "^", "%", "\\", "<<", ">>"])
    if operator in ("%", "\\"):
        second = str(draw.dice.randint(1, 5))
    if operator in ("<<", ">>"):
        second = str(draw.dice.randrange(70))
    if first.isdigit():
        first = "filesize"
    return f"({first} {operator} {second})"


def comparison(draw: Drawing) -> str:
    """Two numbers beside one another."""
    operator = draw.dice.choice(["<", "<=", ">", ">=", "==", "!="])
    return f"{number(draw, 2)} {operator} {number(draw, 1)}"


def quantifier(draw: Drawing, members: int) -> str:
    """A quantifier over so many members."""
    count = draw.dice.randint(1, members)
    return draw.dice.choice(["any", "all", str(count)])


def string_set(draw: Drawing) -> tuple[str, int]:
    """A set of strings, each named once, and how many it has."""
    if draw.chance(40):
        return "them", len(draw.strings)
    taken = draw.some(draw.strings)
    return f"({', '.join(f'${name}' for name in taken)})", len(taken)


def of_form(draw: Drawing) -> str:
    """How many strings of a set match."""
    members, count = string_set(draw)
    place = draw.dice.randrange(10)
    behind = draw.dice.choice(["", "", f" in ({place}..{place + 20})"])
    if not behind and draw.chance(20):
        return f"{draw.dice.randint(1, 100)}% of {members}"
    if not behind and draw.chance(20):
        return f"none of {members}"
    return f"{quantifier(draw, count)} of {members}{behind}"


def loop(draw: Drawing) -> str:
    """A loop over strings, numbers or a range that is not empty."""
    kind = draw.dice.randrange(3)
    if kind == 0:
        members, count = string_set(draw)
        body = draw.dice.choice(["$", "# > 1", "@ < 9", "! == 2", "$ at 0", "$ in (0..9)"])
        return f"for {quantifier(draw, count)} of {members} : ( {body} )"
    name = draw.dice.choice(draw.strings)
    body = draw.dice.choice([f"@{name}[i] > i", f"#{name} == i", f"${name} at i", "i % 2 == 1"])
    if kind == 1:
        low = draw.dice.randint(1, 4)
        high = low + draw.dice.randrange(4)
        return f"for {quantifier(draw, high - low + 1)} i in ({low}..{high}) : ( {body} )"
    items = [str(draw.dice.randint(0, 9)) for _ in range(draw.dice.randint(1, 4))]
    return f"for {quantifier(draw, len(items))} i in ({', '.join(items)}) : ( {body} )"


def text_test(draw: Drawing) -> str:
    """A comparison of texts, or of a text and an expression."""
    first, second = quoted(draw.text(1, 4)), quoted(draw.text(1, 2))
    if draw.chance(30):
        return f"{first} matches {expression(draw)}"
    operator = draw.dice.choice(
        ["contains", "icontains", "startswith", "istartswith", "endswith", "iendswith", "iequals",
         "==", "!="]
    )  # fmt: skip
    return f"{first} {operator} {second}"


def leaf(draw: Drawing) -> str:
    """A condition without `and`, `or` and `not`."""
    name = draw.dice.choice(draw.strings)
    place = draw.dice.randrange(16)
    choices = [
        lambda: f"${name}",
        lambda: f"${name} at {place}",
        lambda: f"${name} in ({place}..{place + draw.dice.randrange(20)})",
        lambda: comparison(draw),
        lambda: of_form(draw),
        lambda: loop(draw),
        lambda: text_test(draw),
        lambda: f"defined {number(draw, 0)}",
    ]
    if draw.rules:
        choices.append(lambda: draw.dice.choice(draw.rules))
        choices.append(lambda: f"any of ({', '.join(draw.some(draw.rules))})")
    return draw.dice.choice(choices)()


def condition(draw: Drawing, depth: int) -> str:
    """A condition."""
    if depth == 0 or draw.chance(30):
        return leaf(draw)
    if draw.chance(15):
        return f"not ({condition(draw, depth - 1)})"
    operator = draw.dice.choice([" and ", " or "])
    first, second = condition(draw, depth - 1), condition(draw, depth - 1)
    return f"({first}{operator}{second})"


# Files.


def rule(draw: Drawing, name: str) -> str:
    """A rule whose condition uses all of its strings."""
    draw.strings = [f"s{k}" for k in range(draw.dice.randint(1, 4))]
    declared = "\n    ".join(f"${one} = {string(draw)}" for one in draw.strings)
    words = draw.dice.choice([""] * 12 + ["private ", "global private "])
    if words == "global private ":
        return f"{words}rule {name} {{\n  condition:\n    filesize > {draw.dice.randrange(9)}\n}}\n"
    tags = f" : {' '.join(draw.some(['one', 'two', 'three']))}" if draw.chance(30) else ""
    meta = ""
    if draw.chance(30):
        plain = quoted(draw.text(0, 3).replace("\n", "-"))
        meta = f"  meta:\n    text = {plain}\n    yes = true\n"
    used = " or ".join(f"#{one} > 99" for one in draw.strings)
    return (
        f"{words}rule {name}{tags} {{\n{meta}  strings:\n    {declared}\n"
        f"  condition:\n    {condition(draw, 3)} or {used}\n}}\n"
    )


def planted(draw: Drawing, rules: str) -> bytes:
    """A target: random letters, and among them texts of the rules in several forms."""
    target = draw.text(0, 40).encode()
    texts = [piece for piece in rules.split('"')[1::2] if piece and "\\" not in piece]
    for _ in range(draw.dice.randrange(6)):
        if not texts:
            break
        piece = draw.dice.choice(texts).encode()
        form = draw.dice.randrange(6)
        if form == 1:
            piece = b"".join(bytes([byte, 0]) for byte in piece)
        elif form == 2:
            key = draw.dice.randrange(256)
            piece = bytes(byte ^ key for byte in piece)
        elif form == 3:
            piece = base64.b64encode(draw.text(0, 2).encode() + piece + b"ab")
        elif form == 4:
            piece = piece.swapcase()
        place = draw.dice.randint(0, len(target))
        target = target[:place] + piece + target[place:]
    return target


def drawn(seed: int) -> tuple[str, bytes]:
    """The rules and the target of a seed."""
    draw = Drawing(random.Random(f"common {seed}"))
    texts = []
    for number_of_rule in range(draw.dice.randint(1, 4)):
        name = f"r{number_of_rule}"
        texts.append(rule(draw, name))
        draw.rules.append(name)
    text = "".join(texts)
    return text, planted(draw, text)
