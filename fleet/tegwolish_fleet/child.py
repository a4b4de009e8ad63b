"""One run of the program: started without a shell, on descriptors, with limits on time and output.

The program sees its target as `/dev/fd/3` and its image as `/dev/fd/4`, whatever their names are.
What it writes goes into two files in memory, so that nothing has to be read while it runs.
"""

from __future__ import annotations

import errno
import fcntl
import os
import resource
import select
import signal
import time
from dataclasses import dataclass
from typing import Sequence

TARGET = b"/dev/fd/3"
IMAGE = b"/dev/fd/4"
FLAGS = b"-sgme"
FLAGS_WITHOUT_MATCHES = b"-gme"
REPORT_LIMIT = 16 << 20
# Descriptors of ours stay above those that the program is given.
FIRST_OWN = 10
AFTER_KILL = 5.0


@dataclass(frozen=True)
class Ended:
    """How a run ended; the status is negative where a signal ended it."""

    status: int
    out: bytes
    err: bytes
    timed_out: bool
    too_much: bool
    seconds: float


@dataclass
class Running:
    """A run under way; it writes into two files in memory that no other run writes into."""

    pid: int
    out: int
    err: int
    began: float
    timeout: float | None

    def left(self) -> float | None:
        """How many seconds it may still take."""
        if self.timeout is None:
            return None
        return max(0.0, self.began + self.timeout - time.monotonic())


def raised(fd: int) -> int:
    """The same file under a descriptor that the program is not given."""
    if fd >= FIRST_OWN:
        return fd
    higher = fcntl.fcntl(fd, fcntl.F_DUPFD_CLOEXEC, FIRST_OWN)
    os.close(fd)
    return higher


def ends_within(pid: int, seconds: float | None) -> bool:
    """Whether the process ends in that time; it is left to be waited for."""
    try:
        handle = os.pidfd_open(pid)
    except OSError:
        return ends_within_polled(pid, seconds)
    try:
        poll = select.poll()
        poll.register(handle, select.POLLIN)
        return bool(poll.poll(None if seconds is None else seconds * 1000))
    finally:
        os.close(handle)


def ends_within_polled(pid: int, seconds: float | None) -> bool:
    """The same on kernels that have no descriptors for processes."""
    until = None if seconds is None else time.monotonic() + seconds
    while True:
        if os.waitid(os.P_PID, pid, os.WEXITED | os.WNOHANG | os.WNOWAIT) is not None:
            return True
        if until is not None and time.monotonic() >= until:
            return False
        time.sleep(0.0005)


class Runner:
    """Runs the program on one target after another, also on one while another's run goes on."""

    def __init__(self, program: int, image: int, externals: Sequence[bytes]):
        self.program = b"/proc/self/fd/%d" % program
        self.image = image
        self.externals = list(externals)
        self.null = raised(os.open("/dev/null", os.O_RDONLY | os.O_CLOEXEC))
        self.spare: list[tuple[int, int]] = []
        self.running: list[Running] = []

    def close(self) -> None:
        """Ends what still runs, and closes all descriptors."""
        for running in list(self.running):
            os.kill(running.pid, signal.SIGKILL)
            self._reap(running)
        os.close(self.null)
        for pair in self.spare:
            for fd in pair:
                os.close(fd)

    def __enter__(self) -> Runner:
        return self

    def __exit__(self, *_: object) -> None:
        self.close()

    def run(self, target: int, timeout: float | None, flags: bytes = FLAGS) -> Ended:
        return self.wait(self.start(target, timeout, flags))

    def start(self, target: int, timeout: float | None, flags: bytes = FLAGS) -> Running:
        """Starts to scan the target, which may be closed when the run has ended."""
        out, err = self.spare.pop() if self.spare else self._pair()
        began = time.monotonic()
        try:
            pid = self._spawn(target, out, err, flags)
        except BaseException:
            self.spare.append((out, err))
            raise
        running = Running(pid, out, err, began, timeout)
        self.running.append(running)
        self._limit(pid, timeout)
        return running

    def wait(self, running: Running) -> Ended:
        """Waits for the run's end, and ends it where its time is over."""
        timed_out = not ends_within(running.pid, running.left())
        if timed_out:
            os.kill(running.pid, signal.SIGKILL)
        seconds = time.monotonic() - running.began
        status = self._reap(running)
        if status is None:
            return Ended(-signal.SIGKILL, b"", b"", True, False, seconds)
        out, too_much = written(running.out)
        err, _ = written(running.err)
        self.spare.append((running.out, running.err))
        return Ended(status, out, err, timed_out, too_much, seconds)

    def _pair(self) -> tuple[int, int]:
        return raised(os.memfd_create("report")), raised(os.memfd_create("texts"))

    def _reap(self, running: Running) -> int | None:
        """The status of a run that ended or was killed; none where it hangs in the kernel.

        What such a run may still write is not to be seen by others, so its files are given up.
        """
        self.running.remove(running)
        if not ends_within(running.pid, AFTER_KILL):
            os.close(running.out)
            os.close(running.err)
            return None
        return os.waitstatus_to_exitcode(os.waitpid(running.pid, 0)[1])

    def _spawn(self, target: int, out: int, err: int, flags: bytes) -> int:
        words = [b"yara", b"scan", b"-C", flags, IMAGE, TARGET, *self.externals]
        places = ((self.null, 0), (out, 1), (err, 2), (target, 3), (self.image, 4))
        actions = [(os.POSIX_SPAWN_DUP2, old, new) for old, new in places]
        for attempt in range(50):
            try:
                return os.posix_spawn(self.program, words, {}, file_actions=actions, setpgroup=0)
            except OSError as fault:
                # Another thread's child may hold the program open for writing for a moment.
                if fault.errno != errno.ETXTBSY or attempt == 49:
                    raise
                time.sleep(0.01)
        raise AssertionError("unreachable")

    def _limit(self, pid: int, timeout: float | None) -> None:
        """Bounds what the run may write and, should we die before it, its processor time."""
        try:
            resource.prlimit(pid, resource.RLIMIT_FSIZE, (REPORT_LIMIT, REPORT_LIMIT))
            if timeout is not None:
                seconds = int(timeout) + 2
                resource.prlimit(pid, resource.RLIMIT_CPU, (seconds, seconds))
        except ProcessLookupError:
            pass


def written(fd: int) -> tuple[bytes, bool]:
    """What a run wrote into a file in memory, which is emptied."""
    size = os.lseek(fd, 0, os.SEEK_CUR)
    if size == 0:
        return b"", False
    content = os.pread(fd, size, 0)
    os.ftruncate(fd, 0)
    os.lseek(fd, 0, os.SEEK_SET)
    return content, size >= REPORT_LIMIT
