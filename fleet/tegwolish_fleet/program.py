"""The program: where it is found, and what it is asked once a run."""

from __future__ import annotations

import os
import shutil
import subprocess
import sys
import tempfile
from pathlib import Path
from typing import Sequence

MAGIC = b"YRI"
REPOSITORY = Path(__file__).resolve().parent.parent.parent
BESIDE = (
    REPOSITORY / "release" / "yara-x86_64-linux",
    REPOSITORY / "crates" / "yara" / "out" / "yara",
)
IN_PATH = ("yara-tegwolish", "yara")


class Refused(Exception):
    """Words, rules or an image are refused, or the program is not there; the text says so."""


def takes_our_words(program: str) -> bool:
    """Whether it is Tegwolish's program: without words it says so in its own way."""
    try:
        ended = subprocess.run([program], stdin=subprocess.DEVNULL, capture_output=True, timeout=30)
    except (OSError, subprocess.TimeoutExpired):
        return False
    return (ended.returncode, ended.stdout, ended.stderr) == (1, b"", b"bad command line\n")


def find(named: str | None) -> str:
    """The program's path."""
    named = named or os.environ.get("YARA_PROGRAM")
    if named:
        if not os.access(named, os.X_OK) or not os.path.isfile(named):
            raise Refused(f"{named}: no program")
        return named
    for path in BESIDE:
        if path.is_file() and os.access(path, os.X_OK):
            return str(path)
    for name in IN_PATH:
        path = shutil.which(name)
        if path is not None and takes_our_words(path):
            return path
    raise Refused("no program: ./yara builds it; or name it with --program FILE or YARA_PROGRAM")


def is_image(name: str) -> bool:
    try:
        with open(name, "rb") as file:
            return file.read(len(MAGIC)) == MAGIC
    except OSError:
        return False


def read(name: str) -> bytes:
    try:
        return Path(name).read_bytes()
    except OSError as fault:
        raise Refused(f"cannot read {name}: {fault.strerror}") from fault


def compile_rules(program: str, rules: Sequence[str], values: Sequence[str]) -> bytes:
    """The image of these rules; a refusal is the program's own text."""
    with tempfile.TemporaryDirectory(prefix="yara-fleet-") as folder:
        output = os.path.join(folder, "rules.img")
        words = [program, "compile", "--", *rules, output, *values]
        ended = subprocess.run(words, stdin=subprocess.DEVNULL, stderr=subprocess.PIPE)
        if ended.returncode != 0:
            text = os.fsdecode(ended.stderr).rstrip("\n")
            raise Refused(text or f"the program ended with {ended.returncode}")
        return read(output)


def link(program: str, words: Sequence[str]) -> int:
    """Hands `link` to the program; more than two images are linked one after the other."""
    images, output = list(words[:-1]), words[-1:]
    if len(images) <= 2:
        return subprocess.run([program, "link", *words]).returncode
    with tempfile.TemporaryDirectory(prefix="yara-fleet-") as folder:
        first = images[0]
        for place, second in enumerate(images[1:], 1):
            last = place == len(images) - 1
            target = output[0] if last else os.path.join(folder, f"{place}.img")
            status = subprocess.run([program, "link", first, second, target]).returncode
            if status != 0:
                return status
            first = target
    return 0


def certify(program: str, words: Sequence[str]) -> int:
    sys.stdout.flush()
    return subprocess.run([program, "certify", *words]).returncode
