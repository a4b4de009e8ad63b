"""The files below the names that were given, each once, and an answer for all that is no file."""

from __future__ import annotations

import os
import stat
from dataclasses import dataclass
from itertools import chain
from typing import BinaryIO, Iterator, Sequence

from . import answers
from .task import TARGET_LIMIT

Identity = tuple[int, int]


@dataclass(frozen=True)
class Found:
    """A regular file to scan."""

    name: bytes
    size: int
    follow: bool


@dataclass(frozen=True)
class Folder:
    """A folder that is being walked, with what is left of it and those that it lies in."""

    rest: Iterator[os.DirEntry[bytes]]
    above: frozenset[Identity]


def listed(file: BinaryIO) -> Iterator[bytes]:
    """The names of a list in which each is ended by a zero byte."""
    rest = b""
    while chunk := file.read(1 << 16):
        *names, rest = (rest + chunk).split(b"\0")
        yield from names
    if rest:
        yield rest


def entries(name: bytes) -> Iterator[os.DirEntry[bytes]]:
    with os.scandir(name) as found:
        return iter(sorted(found, key=lambda entry: entry.name))


class Walk:
    """Walks names in the order in which they were given, folders by the order of their bytes."""

    def __init__(self, names: Sequence[bytes], more: Iterator[bytes] | None, follow: bool):
        self.names = chain(names, more or ())
        self.follow = follow
        one = more is None and len(names) == 1
        self.seen: set[bytes] | None = None if one else set()

    def __iter__(self) -> Iterator[Found | answers.Answer]:
        for name in self.names:
            for found in self._below(name):
                if self.seen is not None:
                    if found.name in self.seen:
                        continue
                    self.seen.add(found.name)
                yield found

    def _below(self, name: bytes) -> Iterator[Found | answers.Answer]:
        try:
            found = os.stat(name)
        except (OSError, ValueError) as fault:
            yield answers.unreadable(name, getattr(fault, "strerror", None) or str(fault))
            return
        if not stat.S_ISDIR(found.st_mode):
            if stat.S_ISREG(found.st_mode):
                yield self._file(name, found.st_size, True)
            else:
                kind = answers.kind_of(found.st_mode)
                yield answers.unreadable(name, f"not a regular file: {kind}")
            return
        folders: list[Folder] = []
        yield from self._enter(folders, name, found, frozenset())
        while folders:
            entry = next(folders[-1].rest, None)
            if entry is None:
                folders.pop()
            else:
                yield from self._visit(folders, entry)

    def _enter(
        self, folders: list[Folder], name: bytes, found: os.stat_result, above: frozenset[Identity]
    ) -> Iterator[answers.Answer]:
        identity = found.st_dev, found.st_ino
        if identity in above:
            yield answers.irregular(name, "link into a folder that it lies in")
            return
        try:
            folders.append(Folder(entries(name), above | {identity}))
        except OSError as fault:
            yield answers.unreadable(name, fault.strerror or "unreadable")

    def _visit(
        self, folders: list[Folder], entry: os.DirEntry[bytes]
    ) -> Iterator[Found | answers.Answer]:
        try:
            found = entry.stat(follow_symlinks=self.follow)
        except FileNotFoundError as fault:
            if entry.is_symlink():
                yield answers.irregular(entry.path, "link to nothing")
            else:
                yield answers.unreadable(entry.path, fault.strerror or "unreadable")
            return
        except OSError as fault:
            yield answers.unreadable(entry.path, fault.strerror or "unreadable")
            return
        if stat.S_ISDIR(found.st_mode):
            yield from self._enter(folders, entry.path, found, folders[-1].above)
        elif stat.S_ISREG(found.st_mode):
            yield self._file(entry.path, found.st_size, self.follow)
        else:
            yield answers.irregular(entry.path, answers.kind_of(found.st_mode))

    def _file(self, name: bytes, size: int, follow: bool) -> Found | answers.Answer:
        if size > TARGET_LIMIT:
            return answers.too_long(name, size)
        return Found(name, size, follow)
