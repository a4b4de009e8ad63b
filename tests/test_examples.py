"""All rule files of examples/ on all of its targets, by rules and by their images."""

from __future__ import annotations

import re
from pathlib import Path

import pytest

from conftest import TOP
from support.rows import judge, row
from support.running import Answer, Program

RULES = sorted(place.name for place in (TOP / "examples" / "rules").glob("*.yar"))
TARGETS = sorted(place.name for place in (TOP / "examples" / "targets").iterdir())
# The externals of the files that need some.
VALUES = {"shared.yar": "limit=1000 team=response", "with_shared.yar": "limit=1000 team=response"}

# What holds, with matches that can be counted in a dump of the target. No other pair has a line.
# Debian's yara 4.2.3 answers the same.
FOUND: dict[tuple[str, str], list[str]] = {
    ("archives.yar", "picture.jpg"): ["Program_Behind_Picture", "0x0:3:$jpeg", "0xcc:7:$elf"],
    ("elf_loader.yar", "loader.elf"): ["Elf_Preload", "0x48:10:$variable"],
    ("gate.yar", "install.sh"): ["Has_Url", "0x12:23:$url", "Has_Few"],
    ("gate.yar", "loader.elf"): ["Has_Url", "0x53:14:$url"],
    ("gate.yar", "note.txt"): ["Has_Few"],
    ("gate.yar", "shell.php"): ["Has_Few"],
    ("hidden_text.yar", "mail.txt"): ["Hidden_Program", "0x6b:50:$base"],
    ("packers.yar", "packed.exe"): ["Long_Run_Of_One_Byte", "0x210:17:$nops"],
    ("pe_loader.yar", "packed.exe"): [
        "Pe_Packed", "Pe_Loader_In_Memory", "0x31c:12:$alloc", "0x329:14:$protect",
        "0x300:12:$load", "0x30d:14:$find",
    ],
    ("scripts.yar", "install.sh"): [
        "Shell_Download_And_Run", "0xa:36:$get", "0x4a:5:$tmp",
        "Crontab_Change", "0x30:10:$a", "0x42:7:$c",
    ],
    ("web_shells.yar", "shell.php"): ["Php_Shell_Eval", "0x0:5:$open", "0x30:13:$eval"],
    ("with_shared.yar", "note.txt"): [
        "Note_To_Pay", "0x4:30:$files", "0x2b:7:$pay1", "0x45:25:$onion", "0x46:24:$onion",
        "0x47:23:$onion", "0x48:22:$onion", "For_The_Team",
    ],
}  # fmt: skip


def test_the_table_names_what_is_there() -> None:
    """Each file of the table is an example, and each target has a rule that finds it."""
    assert {rules for rules, _ in FOUND} <= set(RULES)
    assert {target for _, target in FOUND} == set(TARGETS)


@pytest.mark.parametrize("rules", RULES)
def test_rules(program: Program, top: Path, rules: str, tmp_path: Path) -> None:
    """The report of a rule file on each target."""
    texts = {f"rules/{name}": (top / "examples/rules" / name).read_bytes() for name in RULES}
    for target in TARGETS:
        folder = tmp_path / target
        folder.mkdir()
        content = (top / "examples/targets" / target).read_bytes()
        lines = [
            line if line.startswith("0x") else f"{line} {target}"
            for line in FOUND.get((rules, target), [])
        ]
        words = f"scan -s rules/{rules} {target} {VALUES.get(rules, '')}"
        judge(program, row(target, words, {**texts, target: content}, *lines), folder)


@pytest.mark.parametrize("rules", RULES)
def test_check(program: Program, top: Path, rules: str) -> None:
    """The numbers of rules and strings are those that stand in the text."""
    folder = top / "examples" / "rules"
    texts = [(folder / rules).read_text()]
    texts += [(folder / name).read_text() for name in re.findall(r'include "(.+)"', texts[0])]
    text = "\n".join(texts)
    counted = len(re.findall(r"^(?:global |private )*rule ", text, re.M))
    strings = len(re.findall(r"^ *\$\w* = ", text, re.M))
    words = ["check", rules, *VALUES.get(rules, "").split()]
    said = f"rules {counted}, strings {strings}\n".encode()
    assert program.run(words, folder) == Answer(0, said, b"")


def test_all_together(program: Program, top: Path) -> None:
    """All rule files in one run, each with a namespace: the reports one after another."""
    folder = top / "examples"
    spaced = [f"{name.removesuffix('.yar')}:rules/{name}" for name in RULES if name != "shared.yar"]
    for target in TARGETS:
        words = ["scan", "-se", *spaced, f"targets/{target}", "limit=1000", "team=response"]
        lines = [
            line
            if line.startswith("0x")
            else f"{rules.removesuffix('.yar')}:{line} targets/{target}"
            for rules in RULES
            for line in FOUND.get((rules, target), [])
        ]
        expected = "".join(f"{line}\n" for line in lines).encode()
        assert program.run(words, folder) == Answer(0, expected, b""), target
