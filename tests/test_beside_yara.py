"""Beside Debian's yara: equal reports in the common language, and the table of differences."""

from __future__ import annotations

import re
import shutil
import subprocess
from dataclasses import dataclass
from pathlib import Path

import pytest

from conftest import TOP
from support.common import drawn
from support.differences import Difference, differences
from support.rows import lay
from support.running import Answer, Program

CASES = 1000
STRETCHES = 20
EACH = CASES // STRETCHES


@dataclass(frozen=True)
class Yara:
    """The other program."""

    path: str

    @staticmethod
    def found() -> Yara | None:
        """A `yara` that says a version of 4, the system's first."""
        for path in ("/usr/bin/yara", shutil.which("yara")):
            if path is None or not Path(path).is_file():
                continue
            said = subprocess.run(
                [path, "--version"], capture_output=True, text=True, check=False
            ).stdout
            if re.fullmatch(r"4\.\d+\.\d+\s*", said):
                return Yara(path)
        return None

    def run(self, flags: list[str], folder: Path) -> Answer:
        """A scan of `t.bin` by `r.yar`, without warnings, with lengths of matches."""
        done = subprocess.run(
            [self.path, "-w", *flags, "r.yar", "t.bin"],
            cwd=folder,
            capture_output=True,
            timeout=30,
            check=False,
        )
        return Answer(done.returncode, done.stdout, done.stderr)


@pytest.fixture(scope="session")
def yara() -> Yara:
    """Debian's yara, or a skip that says how it comes there."""
    found = Yara.found()
    if found is None:
        pytest.skip("beside yara: Debian's yara is not there (apt-get install -y yara)")
    return found


@pytest.mark.parametrize("stretch", range(STRETCHES))
def test_equal_reports(
    program: Program, yara: Yara, portion: float, stretch: int, tmp_path: Path
) -> None:
    """Random rules on random targets: one report, by rules, by their image, and by yara."""
    reports = 0
    for seed in range(stretch * EACH, stretch * EACH + max(1, round(EACH * portion))):
        rules, target = drawn(seed)
        lay(tmp_path, {"r.yar": rules.encode(), "t.bin": target})
        theirs = yara.run(["-L", "-g", "-m", "-e"], tmp_path)
        note = f"seed {seed}\n{rules}\n{target!r}\n{theirs}"
        assert (theirs.status, theirs.err) == (0, b""), note
        expected = Answer(0, theirs.out, b"")
        assert program.run(["scan", "-sgme", "r.yar", "t.bin"], tmp_path) == expected, note
        assert program.run(["compile", "r.yar", "r.img"], tmp_path) == Answer(0, b"", b""), note
        by_image = program.run(["scan", "-C", "-sgme", "r.img", "t.bin"], tmp_path)
        assert by_image == expected, note
        counted = len(re.findall(rb"^default:", theirs.out, re.M))
        number = program.run(["scan", "-c", "r.yar", "t.bin"], tmp_path)
        assert number == Answer(0, b"%d\n" % counted, b""), note
        reports += theirs.out != b""
    assert portion < 1 or reports >= EACH // 4, "enough of the rules hold"


# What differs by design.

ROWS = differences(TOP / "docs" / "DIFFERENCES.md")
NAMES = [f"line {row.line}" for row in ROWS]


def answers(answer: Answer, said: str) -> bool:
    """Whether an answer is what a cell of the table says."""
    if said == "matches":
        return answer.status == 0 and b"a t.bin" in answer.out.splitlines()
    if said == "no match":
        return answer.status == 0 and b"a t.bin" not in answer.out.splitlines()
    text = re.fullmatch(r"refused(?:: (.+))?", said)
    assert text, f"no answer: {said}"
    return answer.status != 0 and (text[1] or "").encode() in answer.err


@pytest.mark.parametrize("row", ROWS, ids=NAMES)
def test_our_answer(program: Program, row: Difference, tmp_path: Path) -> None:
    """The row's answer of this program, by rules and by their image."""
    lay(tmp_path, {"r.yar": row.rule.encode(), "t.bin": row.target})
    answer = program.run(["scan", "r.yar", "t.bin"], tmp_path)
    assert answer.status in (0, 2)
    assert answers(answer, row.ours), (row, answer)
    if answer.status == 0:
        assert program.run(["compile", "r.yar", "r.img"], tmp_path) == Answer(0, b"", b"")
        assert program.run(["scan", "-C", "r.img", "t.bin"], tmp_path) == answer


@pytest.mark.parametrize("row", ROWS, ids=NAMES)
def test_their_answer(yara: Yara, row: Difference, tmp_path: Path) -> None:
    """The row's answer of yara, which is another one."""
    lay(tmp_path, {"r.yar": row.rule.encode(), "t.bin": row.target})
    answer = yara.run([], tmp_path)
    assert answers(answer, row.theirs), (row, answer)
    assert row.ours != row.theirs


def test_every_row_is_read() -> None:
    """No row of the table is passed over because of its form."""
    document = TOP / "docs" / "DIFFERENCES.md"
    if not document.is_file():
        pytest.skip("docs/DIFFERENCES.md is not there")
    lines = [line for line in document.read_text().splitlines() if line.startswith("| ")]
    headings = [line for line in lines if line.startswith("| What |")]
    assert len(ROWS) == len(lines) - len(headings) > 0
