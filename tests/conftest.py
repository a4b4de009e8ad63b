"""Options and fixtures of the tests: the program under test, and how much of it is tried."""

from __future__ import annotations

import os
from collections.abc import Iterator
from pathlib import Path

import pytest

from support.running import Program

TOP = Path(__file__).resolve().parent.parent
RELEASED = TOP / "release" / "yara-x86_64-linux"
BUILT = TOP / "crates" / "yara" / "out" / "yara"


def default_program() -> Path:
    """The released program, or where there is none the one that was built."""
    return RELEASED if RELEASED.is_file() else BUILT


def pytest_addoption(parser: pytest.Parser) -> None:
    parser.addoption(
        "--program",
        type=Path,
        default=default_program(),
        help="the program under test (default: %(default)s)",
    )
    parser.addoption(
        "--portion",
        type=int,
        default=100,
        metavar="PERCENT",
        help="how much is tried of what is made from seeds (default: all)",
    )


def pytest_configure(config: pytest.Config) -> None:
    program: Path = config.getoption("--program")
    if not os.access(program, os.X_OK) or not program.is_file():
        raise pytest.UsageError(f"no program to test at {program}; name one with --program")


def pytest_report_header(config: pytest.Config) -> str:
    return f"program: {config.getoption('--program')}"


@pytest.fixture(scope="session")
def program(pytestconfig: pytest.Config) -> Program:
    """The program under test."""
    return Program.at(pytestconfig.getoption("--program"))


@pytest.fixture(scope="session")
def portion(pytestconfig: pytest.Config) -> float:
    """How much is tried of what is made from seeds, from 0 to 1."""
    return pytestconfig.getoption("--portion") / 100


@pytest.fixture(scope="session")
def top() -> Path:
    """The repository's folder."""
    return TOP


@pytest.fixture(scope="session")
def open_folder(tmp_path_factory: pytest.TempPathFactory) -> Iterator[Path]:
    """A folder that every user of the machine may enter."""
    import shutil
    import tempfile

    folder = Path(tempfile.mkdtemp(prefix="tegwolish-tests-"))
    folder.chmod(0o755)
    yield folder
    shutil.rmtree(folder)
