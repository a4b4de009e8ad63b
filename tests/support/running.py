"""Runs the program under test and says how it ended."""

from __future__ import annotations

import os
import resource
import shutil
import subprocess
import tempfile
import threading
from collections.abc import Mapping, Sequence
from dataclasses import dataclass, field
from pathlib import Path
from typing import BinaryIO

KIB = 1024
MIB = 1024 * KIB

# How much longer and larger a run may be where the program checks itself at each step.
CHECKED_FACTOR = 20

Word = str | bytes


@dataclass(frozen=True)
class Answer:
    """How a run ended. A negative status is the number of the signal that ended it."""

    status: int
    out: bytes
    err: bytes
    # The largest resident memory in bytes; what the starter held before is counted too.
    peak: int = field(compare=False, default=0)
    # Processor time in seconds.
    seconds: float = field(compare=False, default=0.0)

    @property
    def lines(self) -> list[str]:
        """The lines of the first output."""
        return self.out.decode("latin-1").splitlines()


@dataclass(frozen=True)
class Limits:
    """What a run may use, in bytes; None stands for what the tests have."""

    stack: int | None = None
    memory: int | None = None
    file_size: int | None = None

    def rows(self) -> list[tuple[int, int]]:
        """The limits that are asked for, by the system's numbers."""
        asked = [
            (resource.RLIMIT_STACK, self.stack),
            (resource.RLIMIT_AS, self.memory),
            (resource.RLIMIT_FSIZE, self.file_size),
        ]
        return [(number, value) for number, value in asked if value is not None]


def _limiter(limits: Limits):
    rows = limits.rows()
    if not rows:
        return None

    def limit() -> None:
        for number, value in rows:
            resource.setrlimit(number, (value, value))

    return limit


def wait(process: subprocess.Popen, seconds: float) -> tuple[int, resource.struct_rusage, bool]:
    """Waits for a process; where it lasts longer than `seconds` it is killed, and that is said."""
    late = threading.Event()

    def stop() -> None:
        late.set()
        process.kill()

    timer = threading.Timer(seconds, stop)
    timer.start()
    try:
        _, status, usage = os.wait4(process.pid, 0)
    finally:
        timer.cancel()
    process.returncode = os.waitstatus_to_exitcode(status)
    return process.returncode, usage, late.is_set()


@dataclass(frozen=True)
class Program:
    """The program under test."""

    path: Path
    # Built with checks of memory in every step: slow, and with memory and stack of its own.
    sanitized: bool

    @staticmethod
    def at(path: Path) -> Program:
        """The program that lies there."""
        return Program(path.resolve(), b"__asan_init" in path.read_bytes())

    def patience(self, seconds: float) -> float:
        """How long a run may last that shall end within `seconds`."""
        return seconds * CHECKED_FACTOR if self.sanitized else seconds

    def run(
        self,
        words: Sequence[Word],
        folder: Path,
        *,
        limits: Limits = Limits(),
        seconds: float = 30.0,
        out: int | BinaryIO | None = None,
        environment: Mapping[str, str] | None = None,
        user: int | None = None,
    ) -> Answer:
        """Runs the program with these words in a folder.

        `out` takes the first output in place of the answer; `user` is who runs it.
        """
        with tempfile.TemporaryFile() as first, tempfile.TemporaryFile() as second:
            process = subprocess.Popen(
                [self.path, *words],
                cwd=folder,
                stdin=subprocess.DEVNULL,
                stdout=first if out is None else out,
                stderr=second,
                env={**os.environ, **(environment or {})},
                preexec_fn=_limiter(limits),
                user=user,
                group=user,
                extra_groups=None if user is None else [],
            )
            status, usage, late = wait(process, self.patience(seconds))
            assert not late, f"still running after {self.patience(seconds)} s: {words}"
            first.seek(0)
            second.seek(0)
            return Answer(
                status,
                first.read(),
                second.read(),
                usage.ru_maxrss * KIB,
                usage.ru_utime + usage.ru_stime,
            )

    def copy_to(self, folder: Path) -> Program:
        """The same program as another file that anybody may start."""
        place = folder / "program"
        shutil.copyfile(self.path, place)
        place.chmod(0o755)
        return Program(place, self.sanitized)
