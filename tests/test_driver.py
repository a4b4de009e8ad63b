"""`./test` itself: its last line and status, options apart from places, and what it says it lacks."""

from __future__ import annotations

import os
import shutil
import subprocess
from pathlib import Path

from support.running import Program

LACKS_PYTEST = (
    "test: pytest for Python 3.10 or later is not there; as root: "
    "apt-get install -y python3 python3-pytest\n"
)


def run(top: Path, *words: str, **environment: str) -> subprocess.CompletedProcess[str]:
    """./test with some words."""
    return subprocess.run(
        [top / "test", *words],
        env={**os.environ, **environment},
        capture_output=True,
        text=True,
        timeout=120,
        check=False,
    )


def test_the_last_line(program: Program, top: Path) -> None:
    """Options before and behind a place, and the counts of both workers in the last line."""
    place = str(top / "tests" / "test_images.py")
    words = ["--program", str(program.path), "--portion", "10", "--durations=1", place, "-q"]
    done = run(top, *words, "--workers", "2", "-k", "test_sizes or test_what_compile_writes")
    assert (done.returncode, done.stdout.splitlines()[-1]) == (0, "2 passed, 0 failed")


def test_a_failure_is_counted(top: Path, program: Program, tmp_path: Path) -> None:
    """A test that fails, one whose fixture is missing, and a file that cannot be read as one."""
    shutil.copy(top / "tests" / "conftest.py", tmp_path)
    failing = tmp_path / "test_failing.py"
    failing.write_text("def test_a(): assert False\ndef test_b(none): pass\ndef test_c(): pass\n")
    done = run(top, "--program", str(program.path), "--workers", "1", str(failing))
    assert (done.returncode, done.stdout.splitlines()[-1]) == (1, "1 passed, 2 failed")
    failing.write_text("(")
    done = run(top, "--program", str(program.path), "--workers", "1", str(failing))
    assert done.returncode == 1
    assert done.stdout.splitlines()[-1] == "0 passed, 1 failed"


def test_no_program(top: Path) -> None:
    """One line that names it, and status 70."""
    done = run(top, "--program", "/nowhere")
    said = "test: there is no program /nowhere\n"
    assert (done.returncode, done.stdout, done.stderr) == (70, "", said)


def test_no_pytest(top: Path, tmp_path: Path) -> None:
    """One line with the command that mends it, where nothing can be installed."""
    (tmp_path / "pytest.py").write_text("raise ImportError('hidden')\n")
    (tmp_path / "apt-get").write_text("#!/bin/sh\nexit 1\n")
    (tmp_path / "apt-get").chmod(0o755)
    path = f"{tmp_path}:{os.environ['PATH']}"
    done = run(top, PATH=path, PYTHONPATH=str(tmp_path))
    assert (done.returncode, done.stdout, done.stderr) == (70, "", LACKS_PYTEST)
