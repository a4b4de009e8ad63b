"""Engines that run batches on workers: Dask where it is there, else Python's own processes."""

from __future__ import annotations

import queue
from dataclasses import dataclass, field
from importlib.util import find_spec
from typing import Protocol, Sequence, Union

from .answers import Answer
from .program import Refused
from .task import File, ImageRefused, Job, Scanner


class ClusterFault(Exception):
    """The scheduler is gone, or a worker cannot do its work at all."""


@dataclass
class Batch:
    """Files that one task scans; `tries` counts the workers that it has outlived."""

    files: Sequence[File]
    tries: int = 0
    began: float = field(default=0.0, compare=False)


# A batch with its answers, or with what went wrong.
Outcome = tuple[Batch, Union[list[Answer], BaseException]]


class Engine(Protocol):
    slots: int

    def submit(self, batch: Batch) -> None:
        """Hands a batch to a worker."""

    def finished(self, seconds: float) -> list[Outcome]:
        """Waits that long for an outcome, and takes all that are there; each comes once."""

    def close(self) -> None:
        """Lets the workers go."""


def drain(done: queue.SimpleQueue[Outcome], seconds: float) -> list[Outcome]:
    found = []
    try:
        found.append(done.get(timeout=seconds))
        while True:
            found.append(done.get_nowait())
    except queue.Empty:
        return found


def has_dask() -> bool:
    return find_spec("distributed") is not None


def start(job: Job, workers: int, scheduler: str | None, without_dask: bool) -> Engine:
    """The engine that the words ask for; the image is tried here first."""
    with_dask = has_dask() and not without_dask
    if scheduler is not None and not with_dask:
        raise Refused("--scheduler needs Dask (Debian: python3-distributed)")
    if with_dask:
        from . import dask_engine

        if scheduler is None:
            dask_engine.prepare()
    try:
        Scanner(job).close()
    except ImageRefused as fault:
        raise Refused(str(fault)) from fault
    if with_dask:
        return dask_engine.DaskEngine(job, workers, scheduler)
    from .process_engine import ProcessEngine

    return ProcessEngine(job, workers)
