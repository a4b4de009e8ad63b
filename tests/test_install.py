"""./install and --remove: what they put where and take away, and what they refuse."""

from __future__ import annotations

import os
import shutil
import subprocess
from pathlib import Path

import pytest

from support.checkout import MADE, Checkout, refused, write_script

pytest_plugins = ["support.fixtures"]

FILES = {
    "bin/yara",
    "libexec/tegwolish/SOURCES",
    "libexec/tegwolish/VERSION",
    "libexec/tegwolish/help",
    "libexec/tegwolish/run",
    "libexec/tegwolish/yara",
    "share/bash-completion/completions/yara",
    "share/fish/vendor_completions.d/yara.fish",
    "share/man/man1/yara-tegwolish.1",
    "share/man/man5/yara-tegwolish-rules.5",
    "share/tegwolish/manifest",
    "share/zsh/site-functions/_yara",
}


@pytest.fixture
def prefix(tmp_path: Path) -> Path:
    """Where nothing is installed yet."""
    return tmp_path / "pre fix"


def files_in(folder: Path) -> dict[str, bytes]:
    """All files and links below a folder, by their names."""
    found = [it for it in folder.rglob("*") if it.is_file() or it.is_symlink()]
    return {str(it.relative_to(folder)): it.read_bytes() for it in found}


def test_everything_is_installed_and_runs(checkout: Checkout, prefix: Path) -> None:
    assert checkout.run("./install", prefix).returncode == 0
    assert set(files_in(prefix)) == FILES
    shutil.rmtree(checkout.top / "release")
    command = prefix / "bin" / "yara"
    answer = checkout.run(command, "work", "1", "1")
    assert answer.returncode == 0 and answer.stdout.startswith("rules ")
    assert checkout.run(command, "--version").stdout.startswith("Tegwolish ")
    assert checkout.run(command, "help", "scan").returncode == 0
    for name in FILES:
        may_run = name in ("bin/yara", "libexec/tegwolish/help", "libexec/tegwolish/yara")
        assert (prefix / name).stat().st_mode & 0o777 == (0o755 if may_run else 0o644)


def test_the_command_runs_by_its_name_and_through_a_link(checkout: Checkout, prefix: Path) -> None:
    assert checkout.run("./install", prefix).returncode == 0
    path = f"{prefix}/bin:/usr/bin:/bin"
    answer = checkout.run("sh", "-c", "yara work 1 1", env={"PATH": path})
    assert answer.returncode == 0
    link = prefix.parent / "linked"
    link.symlink_to(prefix / "bin" / "yara")
    assert checkout.run(link, "work", "1", "1").returncode == 0


def test_all_is_taken_away(checkout: Checkout, prefix: Path) -> None:
    assert checkout.run("./install", prefix).returncode == 0
    assert checkout.run("./install", prefix, "--remove").returncode == 0
    assert not prefix.exists()
    refused(checkout.run("./install", prefix, "--remove"), "nothing is installed there")


def test_what_others_have_put_there_stays(checkout: Checkout, prefix: Path) -> None:
    (prefix / "bin").mkdir(parents=True)
    (prefix / "share" / "man" / "man1").mkdir(parents=True)
    (prefix / "bin" / "other").write_text("other")
    assert checkout.run("./install", prefix).returncode == 0
    (prefix / "share" / "zsh" / "mine").write_text("mine")
    assert checkout.run("./install", prefix, "--remove").returncode == 0
    assert files_in(prefix) == {"bin/other": b"other", "share/zsh/mine": b"mine"}
    assert (prefix / "share" / "man" / "man1").is_dir()
    assert not (prefix / "share" / "man" / "man5").exists()


def test_another_yara_is_left_alone(checkout: Checkout, prefix: Path) -> None:
    write_script(prefix / "bin" / "yara", "#!/bin/sh\necho 4.5.0\n")
    before = files_in(prefix)
    refused(checkout.run("./install", prefix), "bin/yara is a yara of another kind", "--name NAME")
    assert files_in(prefix) == before
    assert checkout.run("./install", prefix, "--name", "teg").returncode == 0
    assert checkout.run(prefix / "bin" / "yara").stdout == "4.5.0\n"
    assert checkout.run(prefix / "bin" / "teg", "--help").stdout.count("  teg ") == 6
    completion = (prefix / "share/bash-completion/completions/teg").read_text()
    assert "complete -F _tegwolish teg\n" in completion
    assert (prefix / "share/zsh/site-functions/_teg").read_text().startswith("#compdef teg\n")
    fish = (prefix / "share/fish/vendor_completions.d/teg.fish").read_text()
    assert "set -l name teg\n" in fish
    assert checkout.run("./install", prefix, "--remove").returncode == 0
    assert files_in(prefix) == before


def test_a_second_install_renews_the_first(checkout: Checkout, prefix: Path) -> None:
    assert checkout.run("./install", prefix).returncode == 0
    before = files_in(prefix)
    (prefix / "libexec/tegwolish/help").write_text("damaged")
    assert checkout.run("./install", prefix).returncode == 0
    assert files_in(prefix).keys() == before.keys()
    assert (prefix / "libexec/tegwolish/help").read_text() != "damaged"
    assert checkout.run("./install", prefix, "--name=teg").returncode == 0
    assert not (prefix / "bin" / "yara").exists() and (prefix / "bin" / "teg").exists()
    assert checkout.run("./install", prefix, "--remove").returncode == 0
    assert not prefix.exists()


@pytest.mark.parametrize("name", MADE)
def test_a_release_that_is_not_whole(checkout: Checkout, prefix: Path, name: str) -> None:
    (checkout.top / "release" / name).unlink()
    refused(checkout.run("./install", prefix), "git checkout release")
    assert not prefix.exists()


def test_a_file_that_lacks(checkout: Checkout, prefix: Path) -> None:
    for name in ("completions/yara.zsh", "man/yara-tegwolish.1", "release/help"):
        (checkout.top / name).unlink()
        refused(checkout.run("./install", prefix), f"git checkout {name}")
        assert not prefix.exists()
        checkout.git("checkout", "-q", name)


def test_nothing_half_done_where_a_place_is_taken(checkout: Checkout, prefix: Path) -> None:
    prefix.mkdir()
    (prefix / "share").write_text("a file")
    refused(checkout.run("./install", prefix), "cannot be written")
    assert files_in(prefix) == {"share": b"a file"} and len(list(prefix.iterdir())) == 1


@pytest.mark.skipif(os.geteuid() != 0, reason="only root can become another user")
def test_nothing_half_done_without_permission(
    whole_checkout: Checkout, open_folder: Path
) -> None:
    checkout = whole_checkout.copy(open_folder)
    prefix = open_folder / "prefix"
    prefix.mkdir()
    how = {"user": 65534, "group": 65534, "extra_groups": []}
    refused(checkout.run("./install", prefix, **how), "cannot be written", "sudo ./install")
    assert list(prefix.iterdir()) == []
    assert checkout.run("./install", prefix).returncode == 0
    before = files_in(prefix)
    refused(checkout.run("./install", prefix, "--remove", **how), "sudo ./install")
    assert files_in(prefix) == before


@pytest.mark.skipif(os.geteuid() != 0, reason="only root can mount")
def test_nothing_half_done_where_the_disk_is_full(checkout: Checkout, tmp_path: Path) -> None:
    small = tmp_path / "small"
    small.mkdir()
    mount = ["mount", "-t", "tmpfs", "-o", "size=256k", "tmpfs", small]
    if subprocess.run(mount, capture_output=True, check=False).returncode:
        pytest.skip("nothing can be mounted here")
    try:
        refused(checkout.run("./install", small / "prefix"), "no room", "df -h")
        assert list(small.iterdir()) == []
    finally:
        subprocess.run(["umount", small], check=True)


@pytest.mark.parametrize(
    "words", [["--nam"], ["a", "b"], [""], ["--name"], ["p", "--remove", "--name", "x"]]
)
def test_wrong_words(checkout: Checkout, words: list[str]) -> None:
    answer = checkout.run("./install", *words)
    assert answer.returncode == 1 and answer.stderr.startswith("usage: ./install")


def test_a_name_that_is_none(checkout: Checkout, prefix: Path) -> None:
    refused(checkout.run("./install", prefix, "--name", "../yara"), "a NAME has letters")
    assert not prefix.exists()


def test_manual_pages_have_no_faults(top: Path) -> None:
    if shutil.which("mandoc") is None:
        pytest.skip("mandoc is not there")
    pages = sorted((top / "man").iterdir())
    assert len(pages) == 2
    answer = subprocess.run(
        ["mandoc", "-T", "lint", *pages], capture_output=True, text=True, check=False
    )
    assert (answer.returncode, answer.stdout, answer.stderr) == (0, "", "")


def complete(prefix: Path, folder: Path, *words: str) -> list[str]:
    """What bash offers for the last of these words, with the installed command on PATH."""
    script = """
        . "$1"; shift
        COMP_WORDS=("$@") COMP_CWORD=$(($# - 1))
        _tegwolish
        printf '%s\\n' "${COMPREPLY[@]}"
    """
    completion = prefix / "share/bash-completion/completions/yara"
    answer = subprocess.run(
        ["bash", "-c", script, "bash", completion, *words],
        cwd=folder,
        env={"PATH": f"{prefix}/bin:/usr/bin:/bin"},
        capture_output=True,
        text=True,
        check=True,
    )
    return sorted(filter(None, answer.stdout.splitlines()))


def test_bash_completes(checkout: Checkout, prefix: Path, tmp_path: Path) -> None:
    assert checkout.run("./install", prefix).returncode == 0
    work = tmp_path / "work"
    work.mkdir()
    (work / "rules.yar").write_text("rule a { condition: limit > 5 }")
    (work / "target").write_text("")
    assert complete(prefix, work, "yara", "s") == ["scan"]
    assert complete(prefix, work, "yara", "help", "c") == ["check", "compile"]
    assert complete(prefix, work, "yara", "scan", "--s") == ["--stats"]
    assert complete(prefix, work, "yara", "scan", "r") == ["rules.yar"]
    assert complete(prefix, work, "yara", "scan", "rules.yar", "target", "") == [
        "limit=",
        "rules.yar",
        "target",
    ]
    assert complete(prefix, work, "yara", "check", "rules.yar", "limit", "=", "t") == ["true"]


@pytest.mark.parametrize("shell", ["bash", "zsh", "fish"])
def test_shells_can_read_their_completions(top: Path, shell: str) -> None:
    if shutil.which(shell) is None:
        pytest.skip(f"{shell} is not there")
    answer = subprocess.run(
        [shell, "-n", top / "completions" / f"yara.{shell}"], capture_output=True, check=False
    )
    assert (answer.returncode, answer.stderr) == (0, b"")
