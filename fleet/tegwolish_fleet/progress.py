"""Counts of a run, its line on a terminal, and its end line."""

from __future__ import annotations

import os
import sys
import time
from collections import Counter

from . import answers, report

EVERY = 0.2
NAMES = (
    "scanned", "matched", "refused", "too-long", "unreadable", "timed-out", "irregular", "lost",
)


def amount(size: float) -> str:
    for unit in ("B", "kB", "MB", "GB"):
        if size < 1000:
            return f"{size:.0f} {unit}" if unit == "B" else f"{size:.1f} {unit}"
        size /= 1000
    return f"{size:.1f} TB"


class Progress:
    def __init__(self, quiet: bool):
        self.quiet = quiet
        self.terminal = sys.stderr.isatty() and not quiet
        self.began = time.monotonic()
        self.shown = 0.0
        self.counts: Counter[str] = Counter()
        self.statuses: Counter[int] = Counter()
        self.files = self.again = self.bytes = self.matches = 0
        self.slowest: tuple[float, bytes] = (0.0, b"")

    def add(self, answer: answers.Answer, from_ledger: bool = False) -> None:
        self.files += 1
        self.again += from_ledger
        self.bytes += answer.size
        self.matches += answer.matches
        self.counts[answer.answer] += 1
        self.counts["matched"] += answer.rules > 0
        if answer.answer == "refused":
            self.statuses[answer.status] += 1
        self.slowest = max(self.slowest, (answer.seconds, answer.name))

    def all_answered(self) -> bool:
        return all(self.counts[name] == 0 for name in NAMES if name not in {
            *answers.GOOD, "matched"})

    def show(self, waiting: int) -> None:
        now = time.monotonic()
        if not self.terminal or now - self.shown < EVERY:
            return
        self.shown = now
        rate = self.files / max(now - self.began, 0.001)
        seconds, name = self.slowest
        slowest = report.shown_name(os.path.basename(name)).decode("utf-8", "replace")
        line = (
            f"{self.files} files, {amount(self.bytes)}, {self.counts['matched']} matched, "
            f"{self.matches} matches, {rate:.0f} files/s, {waiting} under way, slowest "
            f"{seconds:.1f} s {slowest}"
        )
        width = os.get_terminal_size(sys.stderr.fileno()).columns
        sys.stderr.write("\r\x1b[K" + line[: width - 1])
        sys.stderr.flush()

    def say(self, line: str) -> None:
        """A line of its own on standard error."""
        sys.stderr.write(("\r\x1b[K" if self.terminal else "") + f"yara-fleet: {line}\n")
        sys.stderr.flush()

    def end(self) -> None:
        if self.quiet:
            return
        seconds = time.monotonic() - self.began
        counts = ", ".join(f"{self.counts[name]} {name}" for name in NAMES)
        if self.statuses:
            each = (f"{status}: {count}" for status, count in sorted(self.statuses.items()))
            counts += f" (refused by status: {', '.join(each)})"
        again = f", {self.again} of them from the ledger" if self.again else ""
        self.say(f"{self.files} files{again}: {counts}; {amount(self.bytes)} in {seconds:.1f} s")
