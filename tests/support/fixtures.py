"""Fixtures of the tests that try the scripts of the repository in a small one."""

from __future__ import annotations

from pathlib import Path

import pytest

from support.checkout import Checkout
from support.running import Program


@pytest.fixture(scope="session")
def whole_checkout(
    tmp_path_factory: pytest.TempPathFactory, top: Path, program: Program
) -> Checkout:
    """A small repository with a released program, whose files no test changes."""
    made = Checkout.make(tmp_path_factory.mktemp("whole"), top, program.path)
    made.release()
    return made


@pytest.fixture
def checkout(whole_checkout: Checkout, tmp_path: Path) -> Checkout:
    """A copy of it."""
    return whole_checkout.copy(tmp_path)
