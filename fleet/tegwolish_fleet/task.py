"""What a worker does: it opens files, runs the program on each, and answers with JSON lines.

Everything here travels to the workers with the job, so they need Python and Dask and nothing else.
"""

from __future__ import annotations

import errno
import hashlib
import os
import stat
import time
from dataclasses import dataclass
from typing import Any, Callable, Iterator, NamedTuple, Sequence

from . import answers, cache, child, report

TARGET_LIMIT = 268_435_456
# A task comes back after this time or this much, with the answers that it has.
SLICE_SECONDS = 2.0
SLICE_BYTES = 8 << 20
CHUNK = 1 << 20
CHECK_SECONDS = 20.0

OPEN_FLAGS = os.O_RDONLY | os.O_CLOEXEC | os.O_NONBLOCK | os.O_NOCTTY


class ImageRefused(Exception):
    """The program does not take the image, or cannot be run here."""


@dataclass(frozen=True)
class Job:
    """What all files of a run have in common."""

    program: bytes
    image: bytes
    image_name: str
    externals: tuple[bytes, ...]
    timeout: float | None
    digest: bool
    matched_bytes: int


class File(NamedTuple):
    """A file to scan: its name as it was given, where the worker finds it, or its bytes.

    It travels as a plain tuple.
    """

    name: bytes
    path: bytes
    size: int
    follow: bool
    content: bytes | None = None


@dataclass
class Opened:
    """An open target, or the answer that it has already."""

    file: File
    fd: int = -1
    found: os.stat_result | None = None
    answer: answers.Answer | None = None

    def close(self) -> None:
        if self.fd >= 0:
            os.close(self.fd)
            self.fd = -1


@dataclass
class Under:
    """A file under way: what runs on it, and how that ended."""

    target: Opened
    running: child.Running | None = None
    ended: child.Ended | None = None

    def wait(self, runner: child.Runner) -> None:
        if self.running is not None:
            self.ended = runner.wait(self.running)
            self.running = None


def open_content(content: bytes) -> int:
    fd = os.memfd_create("target")
    rest = memoryview(content)
    while rest:
        rest = rest[os.write(fd, rest):]
    return fd


def open_target(file: File) -> Opened:
    """Opens the file without waiting for anything, and looks at its kind and size."""
    opened = Opened(file)
    try:
        if file.content is not None:
            opened.fd = child.raised(open_content(file.content))
        else:
            flags = OPEN_FLAGS | (0 if file.follow else os.O_NOFOLLOW)
            opened.fd = child.raised(os.open(file.path, flags))
        opened.found = found = os.fstat(opened.fd)
    except OSError as fault:
        opened.close()
        if fault.errno == errno.ELOOP and not file.follow:
            opened.answer = answers.irregular(file.name, "link")
        elif fault.errno in (errno.ENXIO, errno.ENODEV):
            opened.answer = answers.irregular(file.name, "socket or device")
        else:
            opened.answer = answers.unreadable(file.name, os.strerror(fault.errno or 0))
        return opened
    if not stat.S_ISREG(found.st_mode):
        opened.answer = answers.irregular(file.name, answers.kind_of(found.st_mode))
    elif found.st_size > TARGET_LIMIT:
        opened.answer = answers.too_long(file.name, found.st_size)
    elif file.content is None:
        os.posix_fadvise(opened.fd, 0, 0, os.POSIX_FADV_WILLNEED)
    if opened.answer is not None:
        opened.close()
    return opened


def sha256_of(fd: int) -> str:
    digest = hashlib.sha256()
    at = 0
    while chunk := os.pread(fd, CHUNK, at):
        digest.update(chunk)
        at += len(chunk)
    return digest.hexdigest()


def stamp(found: os.stat_result) -> tuple[int, int, int]:
    return found.st_size, found.st_mtime_ns, found.st_ctime_ns


class Scanner:
    """The program and an image, open on this worker."""

    def __init__(self, job: Job):
        self.job = job
        self.program = child.raised(cache.deliver(job.program, cache.digest_of(job.program), 0o700))
        self.image = child.raised(cache.deliver(job.image, cache.digest_of(job.image), 0o600))
        self._check()

    def close(self) -> None:
        os.close(self.program)
        os.close(self.image)

    def _runner(self) -> child.Runner:
        return child.Runner(self.program, self.image, self.job.externals)

    def _check(self) -> None:
        """The program itself says whether it takes the image and the externals."""
        nothing = os.open("/dev/null", os.O_RDONLY | os.O_CLOEXEC)
        try:
            with self._runner() as runner:
                ended = runner.run(nothing, min(self.job.timeout or CHECK_SECONDS, CHECK_SECONDS))
        except OSError as fault:
            where = f"{cache.folder()} (TEGWOLISH_FLEET_CACHE names another folder)"
            raise ImageRefused(f"cannot run the program from {where}: {fault.strerror}") from fault
        finally:
            os.close(nothing)
        # An image whose rules run that long on nothing was taken; its files time out by themselves.
        if ended.status != 0 and not ended.timed_out:
            text = ended.err.decode("utf-8", "replace").rstrip("\n")
            text = text.replace(child.IMAGE.decode(), self.job.image_name)
            raise ImageRefused(text or f"the program ended with {ended.status}")

    def scan(self, files: Sequence[File]) -> list[answers.Answer]:
        """Answers for the first files, at least one: as many as fit into a slice."""
        until = time.monotonic() + SLICE_SECONDS
        found: list[answers.Answer] = []
        size = 0

        def enough() -> bool:
            return time.monotonic() >= until or size >= SLICE_BYTES

        with self._runner() as runner:
            for answer in self._answers(runner, files, enough):
                found.append(answer)
                size += len(answer.line)
        return found

    def _answers(
        self, runner: child.Runner, files: Sequence[File], enough: Callable[[], bool]
    ) -> Iterator[answers.Answer]:
        """While one file is scanned, the next is opened and read, and the last is answered."""
        last: Under | None = None
        for file in files:
            if last is not None and enough():
                break
            target = open_target(file)
            if last is not None:
                last.wait(runner)
            this = self._begin(runner, target)
            if last is not None:
                yield self._end(runner, last)
            last = this
        if last is not None:
            last.wait(runner)
            yield self._end(runner, last)

    def _begin(self, runner: child.Runner, target: Opened) -> Under:
        under = Under(target)
        if target.answer is None:
            try:
                under.running = runner.start(target.fd, self.job.timeout)
            except OSError as fault:
                text = f"the program cannot be started: {os.strerror(fault.errno or 0)}"
                target.answer = answers.lost(target.file.name, text)
        return under

    def _end(self, runner: child.Runner, under: Under) -> answers.Answer:
        """The answer on a file whose run has ended."""
        try:
            return under.target.answer or self._answer(runner, under.target, under.ended)
        finally:
            under.target.close()

    def _answer(
        self, runner: child.Runner, target: Opened, ended: child.Ended | None
    ) -> answers.Answer:
        assert ended is not None
        name, seconds = target.file.name, ended.seconds
        try:
            with_matches = not ended.too_much
            if ended.too_much and not ended.timed_out:
                ended = runner.run(target.fd, self.job.timeout, child.FLAGS_WITHOUT_MATCHES)
                seconds += ended.seconds
            if ended.timed_out:
                return answers.timed_out(name, self.job.timeout, seconds)
            if ended.status != 0:
                return self._refused(name, ended, target)
            rules = report.parse(ended.out, child.TARGET)
            record = self._record(target, rules, with_matches)
        except report.NotAReport as fault:
            return answers.refused(name, 0, f"not a report: {fault}")
        except OSError as fault:
            return answers.unreadable(name, os.strerror(fault.errno or 0))
        matches = sum(len(rule["matches"] or ()) for rule in rules)
        return answers.Answer(
            name, "scanned", answers.encode(record), len(rules), matches, record["size"], seconds,
        )

    def _refused(self, name: bytes, ended: child.Ended, target: Opened) -> answers.Answer:
        text = ended.err.decode("utf-8", "replace").rstrip("\n")
        if ended.status == 7:
            return answers.too_long(name, os.fstat(target.fd).st_size)
        if ended.status == 4:
            return answers.unreadable(name, "the program could not read it")
        text = text.replace(child.TARGET.decode(), "the file")
        return answers.refused(name, ended.status, text)

    def _record(
        self, target: Opened, rules: list[dict[str, Any]], with_matches: bool
    ) -> dict[str, Any]:
        assert target.found is not None
        record = answers.named(target.file.name)
        record |= {"answer": "scanned", "size": target.found.st_size}
        if self.job.digest:
            record["sha256"] = sha256_of(target.fd)
        if not with_matches:
            for rule in rules:
                rule["matches"] = None
        elif self.job.matched_bytes:
            self._add_bytes(target.fd, rules)
        if stamp(os.fstat(target.fd)) != stamp(target.found) and target.file.content is None:
            record["changed"] = True
        record["rules"] = rules
        return record

    def _add_bytes(self, fd: int, rules: list[dict[str, Any]]) -> None:
        for rule in rules:
            for match in rule["matches"]:
                wanted = min(self.job.matched_bytes, match["length"])
                match["bytes"] = os.pread(fd, wanted, match["offset"]).hex()
