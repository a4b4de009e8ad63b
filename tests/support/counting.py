"""A plugin for pytest: runs one share of the tests, and leaves the counts in a file.

`-p support.counting --share 1/2 --counts FILE`
"""

from __future__ import annotations

import json
from pathlib import Path

import pytest

KINDS = ("passed", "failed", "error", "skipped", "xfailed", "xpassed")


def pytest_addoption(parser: pytest.Parser) -> None:
    parser.addoption("--share", default="0/1", help="run every n-th test from the k-th: k/n")
    parser.addoption("--counts", type=Path, help="the file for the counts")


@pytest.hookimpl(trylast=True)
def pytest_collection_modifyitems(config: pytest.Config, items: list[pytest.Item]) -> None:
    number, of = (int(part) for part in config.getoption("--share").split("/"))
    items[:] = items[number::of]


def pytest_terminal_summary(terminalreporter, exitstatus: int, config: pytest.Config) -> None:
    counts = {kind: len(terminalreporter.stats.get(kind, ())) for kind in KINDS}
    place: Path | None = config.getoption("--counts")
    if place is not None:
        place.write_text(json.dumps(counts))
