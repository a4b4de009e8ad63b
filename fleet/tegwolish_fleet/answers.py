"""Answers: one a file, each a JSON line, with the few facts that are counted."""

from __future__ import annotations

import base64
import json
import stat
from typing import Any, NamedTuple

# With these the program, or its definition, has spoken on the file; with all others a file is
# tried again when a run goes on.
FINAL = frozenset({"scanned", "too-long", "irregular"})
# With these the run as a whole may end with status 0.
GOOD = frozenset({"scanned", "irregular"})


class Answer(NamedTuple):
    """It travels as a plain tuple."""

    name: bytes
    answer: str
    line: bytes
    rules: int = 0
    matches: int = 0
    size: int = 0
    seconds: float = 0.0
    status: int = 0


def named(name: bytes) -> dict[str, Any]:
    """The name of a file: as text, and as bytes in base64 too where it is not UTF-8."""
    try:
        return {"path": name.decode("utf-8")}
    except UnicodeDecodeError:
        return {
            "path": name.decode("utf-8", "replace"),
            "path_base64": base64.b64encode(name).decode("ascii"),
        }


def name_of(record: dict[str, Any]) -> bytes:
    if "path_base64" in record:
        return base64.b64decode(record["path_base64"], validate=True)
    return record["path"].encode("utf-8")


def encode(record: dict[str, Any]) -> bytes:
    """The record as one line of ASCII: no name can end it early or hide in it."""
    return json.dumps(record, separators=(",", ":")).encode("ascii") + b"\n"


def decode(line: bytes) -> Answer:
    """The answer that a line of a ledger holds."""
    record = json.loads(line)
    rules = record.get("rules") or []
    matches = sum(len(rule["matches"] or ()) for rule in rules)
    return Answer(
        name_of(record), record["answer"], line, len(rules), matches, record.get("size", 0),
        0.0, record.get("status", 0),
    )


def plain(name: bytes, answer: str, **more: Any) -> Answer:
    line = encode(named(name) | {"answer": answer} | more)
    return Answer(
        name, answer, line, size=more.get("size", 0), seconds=more.get("seconds", 0.0),
        status=more.get("status", 0),
    )


def irregular(name: bytes, kind: str) -> Answer:
    return plain(name, "irregular", kind=kind)


def unreadable(name: bytes, text: str) -> Answer:
    return plain(name, "unreadable", text=text)


def too_long(name: bytes, size: int) -> Answer:
    return plain(name, "too-long", size=size)


def timed_out(name: bytes, limit: float | None, seconds: float) -> Answer:
    return plain(name, "timed-out", limit=limit, seconds=round(seconds, 3))


def refused(name: bytes, status: int, text: str) -> Answer:
    return plain(name, "refused", status=status, text=text)


def lost(name: bytes, text: str) -> Answer:
    return plain(name, "lost", text=text)


def kind_of(mode: int) -> str:
    kinds = (
        (stat.S_ISDIR, "folder"), (stat.S_ISLNK, "link"), (stat.S_ISFIFO, "fifo"),
        (stat.S_ISSOCK, "socket"), (stat.S_ISCHR, "device"), (stat.S_ISBLK, "device"),
    )
    return next((kind for test, kind in kinds if test(mode)), "other")
