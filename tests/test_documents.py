"""The commands of README and docs, read from there and run as they stand."""

from __future__ import annotations

import os
import re
import shutil
import subprocess
from pathlib import Path

import pytest

from conftest import TOP
from support.documents import Block, Shown, blocks, documents, shown
from support.rows import standing
from support.running import Program

DOCUMENTS = documents(TOP)
WITH_COMMANDS = [place for place in DOCUMENTS if shown(place)]
# Where documents say that commands write.
SCRATCH = "/tmp/try"


def named(places: list[Path]) -> list[str]:
    """The names of documents, for pytest."""
    return [str(place.relative_to(TOP)) for place in places]


@pytest.fixture
def checkout(program: Program, top: Path, tmp_path: Path) -> Path:
    """A folder like a checkout, in which `./yara` is the program under test."""
    place = tmp_path / "checkout"
    place.mkdir()
    shutil.copytree(top / "examples", place / "examples")
    if (top / "fleet").is_dir():
        (place / "fleet").symlink_to(top / "fleet")
    for name in ("yara", "release/yara-x86_64-linux", "bin/yara"):
        (place / name).parent.mkdir(exist_ok=True)
        (place / name).symlink_to(program.path)
    (tmp_path / "try").mkdir()
    return place


def run(command: str, checkout: Path, *, seconds: float = 60) -> tuple[int, str]:
    """A command of a document in a shell: its status, and what it wrote on both outputs.

    The folder for tries is one of this test's own, under its documented name.
    """
    own = str(checkout.parent / "try")
    done = subprocess.run(
        ["bash", "-c", command.replace(SCRATCH, own)],
        cwd=checkout,
        stdin=subprocess.DEVNULL,
        stdout=subprocess.PIPE,
        stderr=subprocess.STDOUT,
        env={
            **os.environ,
            "PATH": f"{checkout / 'bin'}:{os.environ['PATH']}",
            "LC_ALL": "C",
            "TEGWOLISH_PROGRAM": str(checkout / "yara"),
        },
        timeout=seconds,
        check=False,
    )
    return done.returncode, done.stdout.decode("latin-1").replace(own, SCRATCH)


def left_out(one: Shown, checkout: Path) -> str | None:
    """Why a command is not run, or none."""
    first = one.command.split()[0]
    if first.startswith("fleet/") and not (checkout / first).exists():
        return f"{first} is not there"
    if re.match(r"(rt|git|apt-get|sudo|\./install|\./test|bash \.ci)\b", one.command):
        return "it proves, installs or tests the whole repository"
    if re.search(r"\./yara (--|help\b)", one.command):
        return "the script ./yara answers it by itself"
    return None


@pytest.mark.parametrize("document", WITH_COMMANDS, ids=named(WITH_COMMANDS))
def test_commands(program: Program, document: Path, checkout: Path) -> None:
    """Each command answers as its document shows, one after another in one checkout."""
    wrong = []
    for one in shown(document):
        if left_out(one, checkout):
            continue
        status, out = run(one.command, checkout, seconds=program.patience(30))
        # What a fleet writes is JSON with times; documents show only how it is called.
        as_shown = one.out is None or one.command.startswith("fleet/") or out == one.out
        if status != one.status or not as_shown:
            wrong.append(
                f"{document.name}:{one.line}: {one.command}\n"
                f"shown {one.status}, answered {status}\n--- shown\n{one.out}--- answered\n{out}"
            )
    assert not wrong, "\n".join(wrong)


def test_the_readme_shows_how_to_run_it() -> None:
    """The reader finds the commands of README: a scan, an image and a check at least."""
    commands = " ".join(one.command for one in shown(TOP / "README.md"))
    for words in ("./yara scan ", "./yara scan -C", "./yara compile", "./yara check"):
        assert words in commands


def test_the_reader_of_documents(tmp_path: Path) -> None:
    """Commands with answers, statuses, lines behind them, and indentation."""
    text = (
        "# A\n\n    ./yara check a.yar\n\n- b\n\n  ```console\n  $ cat << 'END' > x\n  c\n"
        "  END\n  $ d\n  e\n  # status 4\n  $ f\n  ```\n"
    )
    text = text.replace("<< 'END' > x", "> x << 'END'")
    (tmp_path / "d.md").write_text(text)
    assert shown(tmp_path / "d.md") == [
        Shown(3, "./yara check a.yar", None),
        Shown(8, "cat > x << 'END'\nc\nEND", ""),
        Shown(11, "d", "e\n", 4),
        Shown(14, "f", ""),
    ]


# Scripts that documents show: what must lie in the folder, and what they say then.


def with_words(words: str, kind: str) -> list[tuple[Path, Block]]:
    """The blocks of a kind that have these words."""
    return [
        (place, block)
        for place in DOCUMENTS
        for block in blocks(place.read_text())
        if block.kind == kind and words in "\n".join(block.lines)
    ]


SCRIPTS = [
    (place, block)
    for place in DOCUMENTS
    for block in blocks(place.read_text())
    if block.kind in ("sh", "bash")
]


@pytest.mark.parametrize(
    ("document", "block"),
    SCRIPTS,
    ids=[f"{place.relative_to(TOP)}:{block.line}" for place, block in SCRIPTS],
)
def test_scripts_can_be_parsed(document: Path, block: Block) -> None:
    """Each script of a document is one for the shell."""
    done = subprocess.run(
        ["bash", "-n"], input="\n".join(block.lines), text=True, capture_output=True, check=False
    )
    assert (done.returncode, done.stderr) == (0, ""), document


def first_of(found: list[tuple[Path, Block]], what: str) -> str:
    """The text of the first block, or a skip."""
    if not found:
        pytest.skip(f"no document shows {what}")
    return "\n".join(found[0][1].lines)


def test_a_loop_over_files_that_came_in(checkout: Path) -> None:
    """The loop of SECURITY names each file that was not scanned, with its status."""
    script = first_of(with_words("incoming", "sh"), "a loop over files that came in")
    (checkout / "incoming" / "a folder").mkdir(parents=True)
    (checkout / "incoming" / "b.bin").write_bytes(b"b")
    made = "./yara compile examples/rules/packers.yar rules.img"
    assert run(made, checkout) == (0, "")
    status, out = run(script, checkout)
    said = "./incoming/a folder was not scanned: 4 cannot read ./incoming/a folder\n"
    assert (status, out) == (0, said)


JOB = {"target": b"xxabab", "r.yar": b'rule a { strings: $a = "ab" condition: $a }'}
JOB_REPORT = "a {}\n0x2:2:$a\n0x4:2:$a\n"


def with_job(checkout: Path) -> None:
    """A folder `job` with rules, their image and a target."""
    (checkout / "job").mkdir()
    for name, content in JOB.items():
        (checkout / "job" / name).write_bytes(content)
    assert run("./yara compile job/r.yar job/rules.img", checkout) == (0, "")


def test_closed_in_by_bubblewrap(program: Program, checkout: Path) -> None:
    """The command of SECURITY for bubblewrap runs and reports."""
    script = first_of(with_words("bwrap", "sh"), "how to run it under bubblewrap")
    if program.sanitized:
        pytest.skip("bubblewrap: the program checks itself and needs more of the system")
    if shutil.which("bwrap") is None:
        pytest.skip("bubblewrap is not there (apt-get install -y bubblewrap)")
    probe = "bwrap --unshare-all --ro-bind / / true"
    if run(probe, checkout)[0] != 0:
        pytest.skip("bubblewrap may not be used here")
    with_job(checkout)
    assert run(script, checkout) == (0, JOB_REPORT.format("/job/target"))


def test_closed_in_by_seccomp(program: Program, checkout: Path) -> None:
    """The program of SECURITY that leaves only some system calls: each command still answers."""
    script = first_of(with_words("seccomp", "python"), "how to run it under seccomp")
    if program.sanitized:
        pytest.skip("seccomp: the program checks itself and needs more of the system")
    have = ["/usr/bin/python3", "-c", "import seccomp"]
    if subprocess.run(have, capture_output=True, check=False).returncode != 0:
        pytest.skip("python3-seccomp is not there (apt-get install -y python3-seccomp)")
    with_job(checkout)
    (checkout / "closed.py").write_text(script)
    closed = "/usr/bin/python3 closed.py ./yara"
    report = JOB_REPORT.format("job/target")
    assert run(f"{closed} scan -s job/r.yar job/target", checkout) == (0, report)
    assert run(f"{closed} scan -C -s job/rules.img job/target", checkout) == (0, report)
    assert run(f"{closed} compile job/r.yar new.img", checkout) == (0, "")
    assert standing(checkout)["new.img"] == standing(checkout)["job/rules.img"]
    assert run(f"{closed} check no.yar", checkout) == (4, "cannot read no.yar\n")
