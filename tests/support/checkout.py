"""A small repository with the scripts of this one, in which they are tried."""

from __future__ import annotations

import os
import shutil
import subprocess
from collections.abc import Iterable
from dataclasses import dataclass, replace
from pathlib import Path

MADE = ("yara-x86_64-linux", "VERSION", "SOURCES", "SHA256SUMS")
COPIED = (".ci", "completions", "install", "man", "packaging", "README.md", "release", "yara")
DOCUMENTS = ("COMMANDS.md", "LANGUAGE.md", "MODULES.md", "IMAGE.md")

# `yara` stands on yr_low, and speed_low is beside it.
CRATES = "yr_low:\nspeed_low: yr_low\nyara: yr_low # and no more\n"
SOURCES = {
    "crates/yr_low/src/lib.rt": "pub fn one() {}\n",
    "crates/yr_low/specs/One.antt": "one\n",
    "crates/yr_low/proofs/lib/one.antt": "one\n",
    "crates/speed_low/src/main.rt": "fn main() {}\n",
    "crates/yara/src/main.rt": "fn main() {}\n",
}

# A kit that proves nothing: `rt run` builds by a copy, and its llvm-strip copies too.
RT = """#!/bin/sh
case $1 in
version) echo 'kit of the tests' ;;
doc) echo "$KIT/START-HERE.md" ;;
run) mkdir -p out && cp "$BUILDS" out/yara && echo 'logic=proved' ;;
ci) (cd crates/yara && "$0" run) && echo "${CI-5 passed, 0 failed}" ;;
esac
"""
STRIP = '#!/bin/sh\ncp "$3" "$2"\n'


def write_script(place: Path, text: str) -> None:
    """Makes a file that can be started."""
    place.parent.mkdir(parents=True, exist_ok=True)
    place.write_text(text)
    place.chmod(0o755)


def tools_without(folder: Path, names: Iterable[str]) -> Path:
    """A folder with all commands of the machine but these."""
    folder.mkdir()
    for place in ("/bin", "/usr/bin"):
        for tool in Path(place).iterdir():
            link = folder / tool.name
            if tool.name not in names and not link.is_symlink():
                link.symlink_to(tool)
    return folder


def refused(answer: subprocess.CompletedProcess[str], *parts: str) -> None:
    """The answer must be one line with these parts, and status 70."""
    assert (answer.returncode, answer.stdout) == (70, "")
    assert len(answer.stderr.splitlines()) == 1
    for part in parts:
        assert part in answer.stderr


@dataclass(frozen=True)
class Checkout:
    """The repository, the folder of the kit's command, and the program that the kit builds."""

    top: Path
    kit: Path
    builds: Path

    @staticmethod
    def make(folder: Path, origin: Path, program: Path) -> Checkout:
        """Copies the scripts of `origin`, and commits them with a few sources."""
        made = Checkout(folder / "checkout", folder / "kit", program)
        for name in COPIED:
            if (origin / name).is_dir():
                left_out = shutil.ignore_patterns(*MADE, ".verified*", "out")
                shutil.copytree(origin / name, made.top / name, ignore=left_out)
            else:
                made.top.mkdir(exist_ok=True)
                shutil.copy2(origin / name, made.top / name)
        (made.top / "docs").mkdir()
        for name in DOCUMENTS:
            shutil.copy2(origin / "docs" / name, made.top / "docs" / name)
        (made.top / "crates.txt").write_text(CRATES)
        (made.top / "HANDLES").write_text("Handles allowed: none.\n")
        (made.top / ".gitignore").write_text("out/\n.verified*\n")
        for name, text in SOURCES.items():
            place = made.top / name
            place.parent.mkdir(parents=True, exist_ok=True)
            place.write_text(text)
        write_script(made.kit / "bin" / "rt", RT)
        write_script(made.kit / "toolchain" / "bin" / "clang", STRIP)
        made.git("init", "-q")
        made.git("add", "-A")
        made.git("commit", "-q", "-m", "all")
        return made

    def copy(self, folder: Path) -> Checkout:
        """The same in another folder, with the same kit."""
        shutil.copytree(self.top, folder / self.top.name)
        return replace(self, top=folder / self.top.name)

    def environment(self, *, has_kit: bool = True, **more: str) -> dict[str, str]:
        """The environment of a run, with the kit's command on PATH or not."""
        path = "/usr/bin:/bin"
        return {
            "PATH": f"{self.kit}/bin:{path}" if has_kit else path,
            "HOME": str(self.top),
            "KIT": str(self.kit),
            "BUILDS": str(self.builds),
            **more,
        }

    def git(self, *words: str) -> None:
        """Runs git here, as somebody."""
        who = ["-c", "user.name=tests", "-c", "user.email=tests@example.org"]
        subprocess.run(["git", *who, *words], cwd=self.top, check=True, capture_output=True)

    def run(self, *words: str | Path, **how) -> subprocess.CompletedProcess[str]:
        """Runs a script of the checkout, and keeps what it writes."""
        environment = how.pop("env", None) or self.environment()
        return subprocess.run(
            words,
            cwd=self.top,
            env=environment,
            stdin=subprocess.DEVNULL,
            capture_output=True,
            text=True,
            timeout=300,
            check=False,
            **how,
        )

    def release(self) -> None:
        """Builds the program and makes it the released one."""
        out = self.top / "crates" / "yara" / "out"
        out.mkdir(exist_ok=True)
        shutil.copy2(self.builds, out / "yara")
        os.utime(out / "yara")
        assert self.run("./release/make").returncode == 0
        shutil.rmtree(out)

    def listing(self) -> dict[str, bytes]:
        """Every file of release/ that ./release/make writes, with its bytes."""
        release = self.top / "release"
        return {name: (release / name).read_bytes() for name in MADE if (release / name).exists()}
