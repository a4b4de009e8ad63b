"""What Dask's workers hold of a run. It comes to them as source text, with `answers`, `cache`,
`child`, `report` and `task`, so they need Python and Dask and not this package."""

from __future__ import annotations

import pickle
from typing import Any

from .task import File, ImageRefused, Job, Scanner


class Delivery:
    """A plugin of Dask's workers: it brings program and image to each, once, also to late ones."""

    def __init__(self, name: str, *job: Any):
        self.name = name
        self.job: Job | None = Job(*job)
        self.scanner: Scanner | None = None
        self.fault = ""

    def setup(self, worker: Any) -> None:
        try:
            assert self.job is not None
            self.scanner = Scanner(self.job)
        except (ImageRefused, OSError) as fault:
            self.fault = f"{worker.address}: {fault}"
        self.job = None

    def teardown(self, worker: Any) -> None:
        if self.scanner is not None:
            self.scanner.close()

    def transition(self, *_: Any, **__: Any) -> None:
        pass


def scan(name: str, packed: bytes) -> bytes | str:
    """Answers as plain tuples, or what keeps this worker from all work.

    Files and answers travel as one piece of bytes: Dask would wrap each of their bytes by itself.
    """
    from distributed import get_worker

    delivery = get_worker().plugins[name]
    if delivery.scanner is None:
        return delivery.fault
    found = delivery.scanner.scan([File(*file) for file in pickle.loads(packed)])
    return pickle.dumps([tuple(answer) for answer in found], protocol=4)
