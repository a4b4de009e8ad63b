"""The released program: when ./yara runs it, what tells whether it fits, and how it is renewed."""

from __future__ import annotations

import os
import shutil
from pathlib import Path

import pytest

from support.checkout import MADE, Checkout, write_script

pytest_plugins = ["support.fixtures"]

LOW = "crates/yr_low/src/lib.rt"
RENEW = "./release/make renews it"


@pytest.fixture
def bare(checkout: Checkout) -> Checkout:
    """A copy without a released program."""
    for name in MADE:
        (checkout.top / "release" / name).unlink()
    return checkout


def start(checkout: Checkout) -> tuple[int, str]:
    """Runs ./yara with a rule file that is right, on a machine without the kit."""
    (checkout.top / "r.yar").write_text("rule a { condition: true }")
    env = checkout.environment(has_kit=False)
    answer = checkout.run("./yara", "check", "r.yar", env=env)
    return answer.returncode, answer.stdout + answer.stderr


def fits(checkout: Checkout) -> bool:
    """Whether ./yara runs the released program; if not, it must say what it needs instead."""
    status, said = start(checkout)
    if status == 0:
        assert said == "rules 1, strings 0\n"
        return True
    assert status == 70
    assert len(said.splitlines()) == 1 and said.endswith("is not on PATH: install the kit\n")
    return False


def test_the_released_program_is_run_at_once(checkout: Checkout) -> None:
    assert fits(checkout)
    assert not (checkout.top / "crates/yara/out").exists()


def test_it_is_run_through_a_link_and_from_other_folders(checkout: Checkout) -> None:
    link = checkout.top.parent / "linked"
    link.symlink_to(checkout.top / "yara")
    answer = checkout.run(link, "work", "1", "1")
    assert answer.returncode == 0 and answer.stdout


def test_without_a_release_it_is_built(bare: Checkout) -> None:
    assert not fits(bare)
    answer = bare.run("./yara", "work", "1", "1")
    assert answer.returncode == 0
    assert "there is no released program" in answer.stderr
    assert bare.run("./yara", "work", "1", "1").stderr == ""


def test_a_changed_line_is_noticed_at_once(checkout: Checkout) -> None:
    source = checkout.top / LOW
    text = source.read_text()
    for _ in range(3):
        assert fits(checkout)
        source.write_text(text.replace("one", "two"))
        assert not fits(checkout)
        source.write_text(text)
    assert fits(checkout)


def test_a_changed_line_is_noticed_where_the_time_was_set_back(checkout: Checkout) -> None:
    assert fits(checkout)
    source = checkout.top / LOW
    before = source.stat()
    source.write_text(source.read_text().replace("one", "two"))
    os.utime(source, ns=(before.st_atime_ns, before.st_mtime_ns))
    assert not fits(checkout)


@pytest.mark.parametrize(
    "name",
    ["crates.txt", "HANDLES", "crates/yr_low/specs/One.antt", "crates/yr_low/proofs/lib/one.antt"],
)
def test_each_kind_of_source_counts(checkout: Checkout, name: str) -> None:
    assert fits(checkout)
    with (checkout.top / name).open("a") as file:
        file.write("# more\n")
    assert not fits(checkout)


def test_new_and_removed_sources_count(checkout: Checkout) -> None:
    assert fits(checkout)
    new = checkout.top / "crates/yara/specs/New.antt"
    new.parent.mkdir()
    new.write_text("new\n")
    assert not fits(checkout)
    shutil.rmtree(new.parent)
    assert fits(checkout)
    (checkout.top / LOW).unlink()
    assert not fits(checkout)


def test_other_files_do_not_count(checkout: Checkout) -> None:
    assert fits(checkout)
    (checkout.top / "crates/speed_low/src/main.rt").write_text("fn main() { }\n")
    (checkout.top / "crates/yr_low/README.md").write_text("more\n")
    assert fits(checkout)


@pytest.mark.parametrize("name", ["yara-x86_64-linux", "SOURCES", "VERSION", "SHA256SUMS"])
def test_a_changed_byte_of_the_release_is_noticed(checkout: Checkout, name: str) -> None:
    assert fits(checkout)
    file = checkout.top / "release" / name
    data = bytearray(file.read_bytes())
    data[len(data) // 2] ^= 1
    file.write_bytes(data)
    assert not fits(checkout)


def test_build_says_that_the_result_is_the_released_one(checkout: Checkout) -> None:
    answer = checkout.run("./yara", "--build")
    assert answer.returncode == 0, answer
    assert "proved and built here, byte for byte" in answer.stdout


def test_build_says_that_the_result_is_another(checkout: Checkout, tmp_path: Path) -> None:
    other = tmp_path / "other"
    other.write_bytes(checkout.builds.read_bytes() + b"\0")
    other.chmod(0o755)
    answer = checkout.run("./yara", "--build", env=checkout.environment(BUILDS=str(other)))
    assert answer.returncode == 1
    assert RENEW in answer.stdout


def test_build_that_fails(checkout: Checkout, tmp_path: Path) -> None:
    env = checkout.environment(BUILDS=str(tmp_path / "nothing"))
    answer = checkout.run("./yara", "--build", env=env)
    assert answer.returncode == 70
    assert "not built; the whole log is" in answer.stderr


def gate(checkout: Checkout, **environment: str) -> tuple[int, list[str]]:
    """Runs the gate with tests that pass, and gives its status and lines."""
    write_script(checkout.top / "test", "#!/bin/sh\necho '7 passed, 0 failed'\n")
    answer = checkout.run(".ci/run", env=checkout.environment(**environment))
    return answer.returncode, answer.stdout.splitlines()


def test_the_gate_sums_all_parts(checkout: Checkout) -> None:
    status, lines = gate(checkout)
    assert (status, lines[-1]) == (0, "14 passed, 0 failed")


def test_the_gate_fails_for_another_program(checkout: Checkout) -> None:
    released = checkout.top / "release/yara-x86_64-linux"
    data = bytearray(released.read_bytes())
    data[-1] ^= 1
    released.write_bytes(data)
    status, lines = gate(checkout)
    assert (status, lines[-1]) == (1, "12 passed, 2 failed")
    assert any("yara-x86_64-linux is another program" in it and RENEW in it for it in lines)


def test_the_gate_fails_for_other_sources(checkout: Checkout) -> None:
    (checkout.top / LOW).write_text("pub fn two() {}\n")
    status, lines = gate(checkout)
    assert (status, lines[-1]) == (1, "13 passed, 1 failed")
    assert any("SOURCES is not of the files" in it and RENEW in it for it in lines)


def test_the_gate_fails_without_a_release(bare: Checkout) -> None:
    status, lines = gate(bare)
    assert (status, lines[-1]) == (1, "12 passed, 2 failed")


@pytest.mark.parametrize(
    ("last", "sum"),
    [
        ("4 passed, 1 failed", "13 passed, 1 failed"),
        ("killed", "9 passed, 1 failed"),
        ("", "9 passed, 1 failed"),
    ],
)
def test_the_gate_fails_where_the_proofs_fail(checkout: Checkout, last: str, sum: str) -> None:
    status, lines = gate(checkout, CI=last)
    assert (status, lines[-1]) == (1, sum)


def test_make_after_a_change(checkout: Checkout) -> None:
    (checkout.top / LOW).write_text("pub fn two() {}\n")
    checkout.git("commit", "-qam", "two")
    assert not fits(checkout)
    assert checkout.run("./yara", "--build").returncode == 1
    before = checkout.listing()
    assert checkout.run("./release/make").returncode == 0
    assert fits(checkout)
    after = checkout.listing()
    assert {name for name in before if before[name] != after[name]} == {
        "SOURCES",
        "SHA256SUMS",
        "VERSION",
    }


def test_make_writes_nothing_where_something_lacks(checkout: Checkout) -> None:
    before = checkout.listing()

    def refused(mend: str, **environment) -> None:
        answer = checkout.run("./release/make", env=checkout.environment(**environment))
        assert answer.returncode == 70 and answer.stderr.rstrip("\n").endswith(mend), answer
        assert len(answer.stderr.splitlines()) == 1
        assert checkout.listing() == before
        assert not list((checkout.top / "release").glob(".new*"))

    refused("./yara --build")
    assert checkout.run("./yara", "--build").returncode == 0
    refused("install the kit", has_kit=False)
    (checkout.top / "HANDLES").write_text("Handles allowed: Wait.\n")
    refused("./yara --build")
    assert checkout.run("./yara", "--build").returncode == 1
    refused("git commit")
    shutil.rmtree(checkout.top / ".git")
    refused("apt-get install git")
