"""A private folder in which a worker keeps the program and images, each under its SHA-256."""

from __future__ import annotations

import hashlib
import os
import stat
import tempfile
import time
from pathlib import Path

KEEP_DAYS = 30
NAME = "tegwolish-fleet"


def digest_of(content: bytes) -> str:
    return hashlib.sha256(content).hexdigest()


def folder() -> Path:
    """The folder, made if need be; nobody else may write into it."""
    named = os.environ.get("TEGWOLISH_FLEET_CACHE")
    home = os.environ.get("XDG_CACHE_HOME") or os.path.expanduser("~/.cache")
    choices = [Path(named)] if named else [
        Path(home) / NAME,
        Path(tempfile.gettempdir()) / f"{NAME}-{os.getuid()}",
    ]
    for choice in choices:
        try:
            choice.mkdir(mode=0o700, parents=True, exist_ok=True)
            found = choice.lstat()
        except OSError:
            continue
        private = stat.S_ISDIR(found.st_mode) and found.st_uid == os.getuid()
        if private and not found.st_mode & 0o022 and os.access(choice, os.W_OK | os.X_OK):
            return choice
    raise PermissionError(f"no private folder among {', '.join(map(str, choices))}")


def open_checked(path: Path, digest: str) -> int | None:
    """A descriptor of the file, where it is there and has that digest."""
    try:
        fd = os.open(path, os.O_RDONLY | os.O_CLOEXEC | os.O_NOFOLLOW)
    except OSError:
        return None
    with open(fd, "rb", closefd=False) as file:
        if hashlib.file_digest(file, "sha256").hexdigest() == digest:
            return fd
    os.close(fd)
    return None


def remove_old(where: Path) -> None:
    oldest = time.time() - KEEP_DAYS * 86400
    for entry in os.scandir(where):
        try:
            if entry.stat(follow_symlinks=False).st_mtime < oldest:
                os.unlink(entry.path)
        except OSError:
            pass


def deliver(content: bytes, digest: str, mode: int) -> int:
    """A descriptor of a file that has this content: the one that is there, or a new one."""
    where = folder()
    path = where / digest
    fd = open_checked(path, digest)
    if fd is not None:
        os.utime(path)
        return fd
    remove_old(where)
    beside, name = tempfile.mkstemp(prefix=".new-", dir=where)
    try:
        with open(beside, "wb") as file:
            file.write(content)
            file.flush()
            os.fchmod(file.fileno(), mode)
            os.fsync(file.fileno())
        os.rename(name, path)
    except BaseException:
        os.unlink(name)
        raise
    fd = open_checked(path, digest)
    if fd is None:
        raise OSError(f"{path} does not hold what was written to it")
    return fd
