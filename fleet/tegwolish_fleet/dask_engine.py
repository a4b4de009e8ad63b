"""Dask's workers: of a cluster that stands, or of this machine for the time of the run.

Files and answers travel as plain tuples, what workers run as `shipping` says.
"""

from __future__ import annotations

import dataclasses
import logging
import pickle
import queue
import time
import uuid
import warnings
from typing import Any

from .answers import Answer
from .engines import Batch, ClusterFault, Outcome, drain
from .forking import start_server
from .program import Refused
from .shipping import ByValue, Shipped, call_there
from .task import Job

# How often Dask itself gives a task to another worker before it tells us.
DEATHS = 5
CONNECT_SECONDS = 30
# How often a cluster is asked for its workers, which may come and go.
COUNT_SECONDS = 2.0
# How often, and how far apart, the job is delivered where a worker dies at that moment.
DELIVERIES = 20
RETRY_SECONDS = 0.3


def prepare() -> None:
    """Starts the server that local workers are forked from, while Dask is still loaded here."""
    start_server(f"{__package__}.dask_loaded")


class DaskEngine:
    def __init__(self, job: Job, workers: int, scheduler: str | None):
        import dask
        import distributed

        warnings.filterwarnings("ignore", message="Large object of size", category=UserWarning)
        logging.getLogger("distributed").setLevel(logging.CRITICAL)
        dask.config.set({"distributed.comm.timeouts.connect": CONNECT_SECONDS})
        self.done: queue.SimpleQueue[Outcome] = queue.SimpleQueue()
        self.cluster = None if scheduler else self._local(dask, distributed, workers)
        address = scheduler or self.cluster.scheduler_address
        try:
            self.client = distributed.Client(address, set_as_default=False)
        except (OSError, TimeoutError, ValueError) as fault:
            self._close_cluster()
            raise Refused(f"{address}: no scheduler answers: {fault}") from fault
        self.name = f"yara-fleet-{uuid.uuid4().hex}"
        self.task = ByValue(call_there)
        self.slots = workers
        try:
            fields = [getattr(job, field.name) for field in dataclasses.fields(job)]
            delivery = Shipped("Delivery", self.name, *fields)
            self.package = delivery.package
            self._deliver(delivery)
            if scheduler:
                self._count()
        except BaseException:
            self.close()
            raise

    def _deliver(self, delivery: Any) -> None:
        """Gives the job to all workers, those that come later too. A worker may die meanwhile."""
        for left in reversed(range(DELIVERIES)):
            try:
                self.client.register_worker_plugin(delivery, name=self.name)
                return
            except OSError as fault:
                if left == 0:
                    raise Refused(f"the workers do not stay: {fault}") from fault
                time.sleep(RETRY_SECONDS)

    def _local(self, dask: Any, distributed: Any, workers: int) -> Any:
        from . import dask_loaded  # noqa: F401

        dask.config.set({
            "distributed.worker.multiprocessing-method": "forkserver",
            "distributed.scheduler.allowed-failures": DEATHS,
            "distributed.worker.profile.enabled": False,
            "distributed.worker.http.routes": [],
            "distributed.scheduler.http.routes": [],
            "distributed.diagnostics.nvml": False,
        })
        return distributed.LocalCluster(
            n_workers=workers, threads_per_worker=1, host="127.0.0.1", memory_limit=0,
            silence_logs=logging.CRITICAL,
            # No dashboard; the scheduler still serves its health, on a free port of this machine.
            scheduler_kwargs={"dashboard": False, "dashboard_address": "127.0.0.1:0"},
        )

    def submit(self, batch: Batch) -> None:
        files = pickle.dumps([tuple(file) for file in batch.files], protocol=4)
        try:
            key = f"{self.name}-{uuid.uuid4().hex}"
            words = (self.package, "scan", self.name, files)
            future = self.client.submit(self.task, *words, key=key, pure=False)
        except Exception as fault:
            raise ClusterFault(f"the scheduler is gone: {fault}") from fault
        future.add_done_callback(lambda ended: self._put(batch, ended))

    def _put(self, batch: Batch, ended: Any) -> None:
        try:
            fault = ended.exception()
            found = ended.result() if fault is None else fault
        except BaseException as other:
            found = other
        if isinstance(found, bytes):
            found = [Answer(*answer) for answer in pickle.loads(found)]
        self.done.put((batch, ClusterFault(found) if isinstance(found, str) else found))

    def _count(self) -> None:
        """As many slots as the cluster's workers have threads now."""
        self.counted = time.monotonic()
        self.slots = max(1, sum(self.client.nthreads().values()))

    def finished(self, seconds: float) -> list[Outcome]:
        found = drain(self.done, seconds)
        for _, outcome in found:
            if isinstance(outcome, ClusterFault):
                raise outcome
        if self.client.status != "running":
            raise ClusterFault(f"the scheduler is gone ({self.client.status})")
        if self.cluster is None and time.monotonic() - self.counted > COUNT_SECONDS:
            try:
                self._count()
            except Exception as fault:
                raise ClusterFault(f"the scheduler is gone: {fault}") from fault
        return found

    def _close_cluster(self) -> None:
        if self.cluster is not None:
            self.cluster.close()

    def close(self) -> None:
        try:
            if self.client.status == "running":
                self.client.unregister_worker_plugin(self.name)
        except Exception:
            pass
        try:
            self.client.close(timeout=2)
        except Exception:
            pass  # A scheduler that is gone does not say goodbye.
        self._close_cluster()
