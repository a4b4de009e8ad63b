"""The ledger of a run: a file that only grows, with one line a file that has its answer.

The first line names the image, the values and the options that shape answers. Each later line is
an answer as JSON lines have it. Lines are on the disk before the run shows the answer anywhere.
A line that was cut by a crash is dropped when the run goes on, and its file is scanned again.
"""

from __future__ import annotations

import fcntl
import json
import os
import stat
from typing import Any, Sequence

from . import answers
from .program import Refused


class LedgerFull(Exception):
    """The ledger cannot be written any more; all that it holds is whole."""


def line_of(head: dict[str, Any]) -> bytes:
    return json.dumps(head).encode("ascii") + b"\n"


class Ledger:
    """An open ledger. `known` has the place and length of each final answer by the file's name."""

    def __init__(self, name: str, head: dict[str, Any]):
        self.name = name
        self.known: dict[bytes, tuple[int, int]] = {}
        self.end = 0
        try:
            flags = os.O_RDWR | os.O_CREAT | os.O_APPEND | os.O_CLOEXEC
            self.fd = os.open(name, flags, 0o600)
        except OSError as fault:
            raise Refused(f"{name}: cannot open the ledger: {fault.strerror}") from fault
        try:
            if not stat.S_ISREG(os.fstat(self.fd).st_mode):
                raise Refused(f"{name}: a ledger is a regular file")
            self._lock()
            self._read(head)
        except BaseException:
            os.close(self.fd)
            raise

    def close(self) -> None:
        os.close(self.fd)

    def _lock(self) -> None:
        try:
            fcntl.flock(self.fd, fcntl.LOCK_EX | fcntl.LOCK_NB)
        except OSError as fault:
            raise Refused(f"{self.name}: another run writes this ledger") from fault

    def _read(self, head: dict[str, Any]) -> None:
        """Takes what the ledger holds, and cuts off what a crash left unfinished at its end."""
        bad_line = None
        first = line_of(head)
        with open(self.fd, "rb", closefd=False) as file:
            for number, line in enumerate(file, 1):
                if number == 1 and not line.endswith(b"\n") and not first.startswith(line):
                    raise Refused(f"{self.name}: no ledger of yara-fleet")
                if not line.endswith(b"\n") or not self._take(number, line, head):
                    bad_line = bad_line or number
                elif bad_line:
                    raise Refused(f"{self.name}:{bad_line}: the ledger is damaged")
        try:
            if os.fstat(self.fd).st_size != self.end:
                os.ftruncate(self.fd, self.end)
            if self.end == 0:
                self._write(first)
        except OSError as fault:
            raise Refused(f"{self.name}: cannot write the ledger: {fault.strerror}") from fault

    def _take(self, number: int, line: bytes, head: dict[str, Any]) -> bool:
        try:
            record = json.loads(line)
            if number == 1:
                if not isinstance(record, dict) or "ledger" not in record:
                    raise Refused(f"{self.name}: no ledger of yara-fleet")
                if record != head:
                    raise Refused(f"{self.name}: the ledger of other rules, values or options")
            else:
                self._learn(answers.name_of(record), record["answer"], len(line))
        except (ValueError, KeyError, TypeError):
            if number == 1 and line.endswith(b"\n"):
                raise Refused(f"{self.name}: no ledger of yara-fleet") from None
            return False
        self.end += len(line)
        return True

    def _learn(self, name: bytes, answer: str, length: int) -> None:
        if answer in answers.FINAL:
            self.known[name] = (self.end, length)
        else:
            self.known.pop(name, None)

    def answer(self, name: bytes) -> answers.Answer | None:
        """The final answer that the ledger has for this file."""
        place = self.known.get(name)
        if place is None:
            return None
        start, length = place
        return answers.decode(os.pread(self.fd, length, start))

    def append(self, new: Sequence[answers.Answer]) -> None:
        """Writes answers and returns when the disk has them; else the ledger is as before."""
        if not new:
            return
        try:
            self._write(b"".join(answer.line for answer in new))
        except OSError as fault:
            try:
                os.ftruncate(self.fd, self.end)
                os.fsync(self.fd)
            except OSError:
                pass
            text = f"{self.name}: cannot write the ledger: {fault.strerror}"
            raise LedgerFull(text) from fault

    def _write(self, content: bytes) -> None:
        rest = memoryview(content)
        while rest:
            rest = rest[os.write(self.fd, rest):]
        os.fsync(self.fd)
        self.end += len(content)
