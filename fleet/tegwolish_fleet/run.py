"""A run: from the names that were given to one answer a file."""

from __future__ import annotations

import os
import signal
import sys
import time
from collections import deque
from contextlib import ExitStack
from types import FrameType
from typing import Iterator

from . import answers, cache, engines, program, walk
from .ledger import Ledger, LedgerFull
from .outputs import OutputFault, Outputs
from .progress import Progress
from .task import Job, File
from .walk import Found, Walk
from .words import Scan

FIRST_FILES = 4
MOST_FILES = 128
MOST_BYTES = 32 << 20
MOST_SENT = 8 << 20
# Answers that need no worker are written together, as those of a batch are.
MOST_READY = 256
SIGNALS = (signal.SIGINT, signal.SIGTERM, signal.SIGHUP)


class Interrupted(Exception):
    """A signal asks the run to end."""


class Stop:
    """Takes signals: before the run's loop they end the command at once, then at its next turn."""

    def __init__(self) -> None:
        self.asked: str | None = None
        self.at_once = True
        for number in SIGNALS:
            signal.signal(number, self._take)

    def _take(self, number: int, _: FrameType | None) -> None:
        self.asked = signal.Signals(number).name
        if self.at_once:
            self.check()

    def check(self) -> None:
        if self.asked is not None:
            raise Interrupted(f"interrupted by {self.asked}")


def make_job(options: Scan) -> Job:
    path = program.find(options.program)
    if options.image or (len(options.rules) == 1 and program.is_image(options.rules[0])):
        name, values = options.rules[0], options.values
        image = program.read(name)
    else:
        name, values = "the compiled rules", ()
        image = program.compile_rules(path, options.rules, options.values)
    return Job(
        program.read(path), image, name, tuple(os.fsencode(value) for value in values),
        options.timeout, options.digest, options.matched_bytes,
    )


def head_of(job: Job) -> dict[str, object]:
    """What a ledger is bound to."""
    return {
        "ledger": 1,
        "image": cache.digest_of(job.image),
        "values": [os.fsdecode(value) for value in job.externals],
        "digest": job.digest,
        "bytes": job.matched_bytes,
    }


class Run:
    def __init__(
        self, options: Scan, engine: engines.Engine, outputs: Outputs, ledger: Ledger | None,
        progress: Progress, stop: Stop, listed: Iterator[bytes] | None,
    ):
        self.options = options
        self.listed = listed
        self.engine = engine
        self.outputs = outputs
        self.ledger = ledger
        self.progress = progress
        self.stop = stop
        self.folder = os.getcwdb()
        self.again: deque[engines.Batch] = deque()
        self.ready: list[answers.Answer] = []
        self.under_way = 0
        self.submitted = 0

    def all(self) -> None:
        """Ends when each file has its answer."""
        batches = self._batches()
        more = True
        while more or self.under_way or self.again:
            self.stop.check()
            while self.under_way < 2 * self.engine.slots + 1:
                batch = self.again.popleft() if self.again else next(batches, None)
                if batch is None:
                    more = False
                    break
                self._submit(batch)
            if self.under_way:
                for batch, outcome in self.engine.finished(0.2):
                    self.under_way -= 1
                    self._take(batch, outcome)
            self.progress.show(self.under_way)
        self._flush()

    def _submit(self, batch: engines.Batch) -> None:
        batch.began = time.monotonic()
        self.under_way += 1
        self.submitted += 1
        self.engine.submit(batch)

    def _flush(self) -> None:
        self._write(self.ready)
        self.ready = []

    def _write(self, new: list[answers.Answer]) -> None:
        """The one place where answers leave: into the ledger, then to the outputs."""
        if self.ledger is not None:
            self.ledger.append(new)
        self.outputs.put(new)
        for answer in new:
            self.progress.add(answer)

    def _repeat(self, known: answers.Answer) -> None:
        """An answer that the ledger has; it is not written there again."""
        self.outputs.put([known])
        self.progress.add(known, from_ledger=True)

    def _take(self, batch: engines.Batch, outcome: list[answers.Answer] | BaseException) -> None:
        if isinstance(outcome, BaseException):
            self._retry(batch, outcome)
            return
        # A task may come back early; what it left is a batch of its own.
        self._write(outcome)
        rest = batch.files[len(outcome):]
        if rest:
            self.again.appendleft(engines.Batch(rest))

    def _retry(self, batch: engines.Batch, fault: BaseException) -> None:
        """The batch's worker died: it is tried again, at last file by file."""
        if batch.tries < self.options.retries:
            self.again.append(engines.Batch(batch.files, batch.tries + 1))
        elif len(batch.files) > 1:
            for file in batch.files:
                self.again.append(engines.Batch([file]))
        else:
            text = f"{type(fault).__name__}: {fault}".split("\n")[0]
            self._write([answers.lost(batch.files[0].name, text)])

    def _batches(self) -> Iterator[engines.Batch]:
        """Batches of new files; they grow from a few files to many, so that all workers start."""
        files: list[File] = []
        size = 0
        most_bytes = MOST_SENT if self.options.send else MOST_BYTES
        for file in self._files():
            most_files = min(MOST_FILES, FIRST_FILES << min(self.submitted // self.engine.slots, 9))
            if files and (len(files) >= most_files or size + file.size > most_bytes):
                yield engines.Batch(files)
                files, size = [], 0
            files.append(file)
            size += file.size
        if files:
            yield engines.Batch(files)

    def _files(self) -> Iterator[File]:
        """The files that a worker has to scan; all others are answered here."""
        for found in Walk(self.options.paths, self.listed, self.options.follow):
            self.stop.check()
            known = self.ledger.answer(found.name) if self.ledger is not None else None
            if known is not None:
                self._repeat(known)
            elif isinstance(found, answers.Answer):
                self._now(found)
            else:
                file = self._file(found)
                if file is not None:
                    yield file

    def _now(self, answer: answers.Answer) -> None:
        self.ready.append(answer)
        if len(self.ready) >= MOST_READY:
            self._flush()

    def _file(self, found: Found) -> File | None:
        path = os.path.join(self.folder, found.name)
        file = File(found.name, path, found.size, found.follow)
        if not self.options.send:
            return file
        content = read_content(file)
        if isinstance(content, answers.Answer):
            self._now(content)
            return None
        return file._replace(content=content, size=len(content))


def read_content(file: File) -> bytes | answers.Answer:
    """The bytes of a file that is sent; it is opened as a worker would open it."""
    from .task import TARGET_LIMIT, open_target

    opened = open_target(file)
    if opened.answer is not None:
        return opened.answer
    try:
        with open(opened.fd, "rb", closefd=False) as opened_file:
            content = opened_file.read(TARGET_LIMIT + 1)
    except OSError as fault:
        return answers.unreadable(file.name, fault.strerror or "unreadable")
    finally:
        opened.close()
    return content if len(content) <= TARGET_LIMIT else answers.too_long(file.name, len(content))


def open_list(name: str | None, stack: ExitStack) -> Iterator[bytes] | None:
    """The names of a list, read as they are needed."""
    if name is None:
        return None
    if name == "-":
        return walk.listed(sys.stdin.buffer)
    try:
        return walk.listed(stack.enter_context(open(name, "rb")))
    except OSError as fault:
        raise program.Refused(f"cannot read {name}: {fault.strerror}") from fault


def scan(options: Scan) -> int:
    progress = Progress(options.quiet)
    stop = Stop()
    whole = False
    with ExitStack() as stack:
        try:
            job = make_job(options)
            ledger = None
            if options.resume:
                ledger = Ledger(options.resume, head_of(job))
                stack.callback(ledger.close)
            outputs = Outputs(options)
            stack.callback(lambda: outputs.close(whole))
            listed = open_list(options.listed, stack)
            engine = engines.start(job, options.workers, options.scheduler, options.without_dask)
            stack.callback(engine.close)
            stop.at_once = False
            Run(options, engine, outputs, ledger, progress, stop, listed).all()
            whole = True
        except (Interrupted, LedgerFull, OutputFault, engines.ClusterFault) as fault:
            go_on = f"; the same words go on from {options.resume}" if options.resume else ""
            progress.say(f"{fault}; the run is not whole{go_on}")
        for number in SIGNALS:
            signal.signal(number, signal.SIG_IGN)
    progress.end()
    return 0 if whole and progress.all_answered() else 1
