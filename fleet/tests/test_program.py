"""Where the program is found when nobody names it."""

import os
import shutil
import subprocess
import sys
from pathlib import Path

import pytest

FLEET = Path(__file__).resolve().parent.parent


@pytest.fixture
def repository(tmp_path):
    """The package alone, in a repository that has no program yet."""
    top = tmp_path / "repository"
    shutil.copytree(FLEET, top / "fleet", ignore=shutil.ignore_patterns("__pycache__", "tests"))
    return top


def scan(repository, rules, path):
    environment = {"PATH": str(path), "HOME": os.environ.get("HOME", "/")}
    return subprocess.run([sys.executable, repository / "fleet" / "yara-fleet", "scan",
                           "--without-dask", "--workers", "1", rules, "--", rules],
                          capture_output=True, env=environment)


def test_the_released_file_comes_first(program, repository, rules, tmp_path):
    (repository / "release").mkdir()
    shutil.copy(program, repository / "release" / "yara-x86_64-linux")
    ended = scan(repository, rules, tmp_path / "nowhere")
    assert ended.returncode == 0, ended.stderr


def test_the_path_is_looked_through(program, repository, rules, tmp_path):
    folder = tmp_path / "bin"
    folder.mkdir()
    (folder / "yara").symlink_to(Path(program).resolve())
    ended = scan(repository, rules, folder)
    assert ended.returncode == 0, ended.stderr


def test_another_yara_is_not_taken(repository, rules, tmp_path):
    folder = tmp_path / "bin"
    folder.mkdir()
    (folder / "yara").write_text("#!/bin/sh\necho usage >&2\nexit 1\n")
    (folder / "yara").chmod(0o755)
    ended = scan(repository, rules, folder)
    assert ended.returncode == 2
    assert b"no program" in ended.stderr
