"""./packaging/deb: a Debian package of the released program."""

from __future__ import annotations

import os
import shutil
import subprocess
from pathlib import Path

import pytest

from support.checkout import Checkout, refused, tools_without

pytest_plugins = ["support.fixtures"]


def test_the_package(checkout: Checkout, tmp_path: Path) -> None:
    if shutil.which("dpkg-deb") is None:
        pytest.skip("dpkg-deb is not there")
    made = []
    for folder in ("one", "two"):
        answer = checkout.run("./packaging/deb", tmp_path / folder)
        assert answer.returncode == 0, answer
        made.append(Path(answer.stdout.strip()))
    assert made[0].name == made[1].name and made[0].read_bytes() == made[1].read_bytes()
    root = tmp_path / "root"
    if os.geteuid():
        subprocess.run(["dpkg-deb", "-x", made[0], root], check=True)
    else:
        (root / "var/lib/dpkg/info").mkdir(parents=True)
        (root / "var/lib/dpkg/updates").mkdir()
        (root / "var/lib/dpkg/status").touch()
        dpkg = ["dpkg", f"--root={root}", "--force-depends"]
        # dpkg wants the tools of an administrator on PATH.
        around = {**os.environ, "PATH": f"{os.environ['PATH']}:/usr/sbin:/sbin"}
        subprocess.run([*dpkg, "-i", made[0]], check=True, capture_output=True, env=around)
    yara = root / "usr" / "bin" / "yara"
    assert checkout.run(yara, "--version").stdout.startswith("Tegwolish ")
    assert checkout.run(yara, "work", "1", "1").returncode == 0
    for name in ("man/man1/yara-tegwolish.1.gz", "zsh/vendor-completions/_yara"):
        assert (root / "usr" / "share" / name).is_file()
    if not os.geteuid():
        subprocess.run([*dpkg, "-r", "tegwolish"], check=True, capture_output=True, env=around)
        assert not (root / "usr").exists()


@pytest.mark.parametrize("tool", ["dpkg-deb", "gzip"])
def test_no_package_without_the_tools(checkout: Checkout, tmp_path: Path, tool: str) -> None:
    tools = tools_without(tmp_path / "tools", [tool])
    answer = checkout.run("./packaging/deb", tmp_path / "to", env={"PATH": str(tools)})
    refused(answer, f"{tool} is not there: apt-get install")
    assert not (tmp_path / "to").exists()


def test_no_package_without_a_release(checkout: Checkout, tmp_path: Path) -> None:
    if shutil.which("dpkg-deb") is None:
        pytest.skip("dpkg-deb is not there")
    (checkout.top / "release" / "yara-x86_64-linux").unlink()
    refused(checkout.run("./packaging/deb", tmp_path / "to"), "git checkout release")
    assert not (tmp_path / "to").exists()
