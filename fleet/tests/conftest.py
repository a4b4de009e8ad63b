"""Options and fixtures: the program is named by --program or YARA_PROGRAM."""

import os
import subprocess
import sys
from pathlib import Path

import pytest

FLEET = Path(__file__).resolve().parent.parent / "yara-fleet"
sys.path[:0] = [str(FLEET.parent), str(Path(__file__).parent)]
from tegwolish_fleet.program import Refused, find  # noqa: E402

RULE = """rule Needle : odd tree { meta: note = "a needle" n = -7
 strings: $n = "needle" condition: $n }
"""


def pytest_addoption(parser):
    parser.addoption("--program", default=os.environ.get("YARA_PROGRAM"))
    parser.addoption("--speed", action="store_true", help="also tests that need an idle machine")


@pytest.fixture(scope="session")
def program(request):
    named = request.config.getoption("--program")
    try:
        return find(named)
    except Refused as refused:
        pytest.skip(str(refused))


@pytest.fixture
def rules(tmp_path):
    path = tmp_path / "needle.yar"
    path.write_text(RULE)
    return path


@pytest.fixture
def words(program):
    return [sys.executable, str(FLEET), "scan", "--program", program, "--workers", "2"]


@pytest.fixture
def run():
    def run(*given, seconds=600):
        return subprocess.run(given, capture_output=True, timeout=seconds)

    return run
