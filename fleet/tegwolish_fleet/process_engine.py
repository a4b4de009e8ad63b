"""Workers by Python alone: processes of this machine."""

from __future__ import annotations

import multiprocessing
import queue
from concurrent.futures import Future, ProcessPoolExecutor
from concurrent.futures.process import BrokenProcessPool
from typing import Sequence

from .answers import Answer
from .engines import Batch, Outcome, drain
from .forking import start_server
from .task import File, Job, Scanner

_scanner: Scanner | None = None


def start_scanner(job: Job) -> None:
    global _scanner
    _scanner = Scanner(job)


def scan_here(files: Sequence[File]) -> list[Answer]:
    assert _scanner is not None
    return _scanner.scan(files)


class ProcessEngine:
    """Processes of this machine; where one dies, all are started again."""

    def __init__(self, job: Job, workers: int):
        self.job = job
        self.slots = workers
        self.done: queue.SimpleQueue[Outcome] = queue.SimpleQueue()
        self.pool = self._start()

    def _start(self) -> ProcessPoolExecutor:
        start_server(__name__)
        context = multiprocessing.get_context("forkserver")
        return ProcessPoolExecutor(self.slots, context, start_scanner, (self.job,))

    def submit(self, batch: Batch) -> None:
        try:
            future = self.pool.submit(scan_here, batch.files)
        except BrokenProcessPool:
            self.pool.shutdown(wait=False)
            self.pool = self._start()
            future = self.pool.submit(scan_here, batch.files)
        future.add_done_callback(lambda ended: self._put(batch, ended))

    def _put(self, batch: Batch, ended: Future[list[Answer]]) -> None:
        if not ended.cancelled():
            self.done.put((batch, ended.exception() or ended.result()))

    def finished(self, seconds: float) -> list[Outcome]:
        return drain(self.done, seconds)

    def close(self) -> None:
        self.pool.shutdown(wait=True, cancel_futures=True)
