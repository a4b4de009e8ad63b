"""Trees of files with odd names, and what is expected of their answers."""

from __future__ import annotations

import json
import os
from collections import Counter
from pathlib import Path
from typing import Sequence

from tegwolish_fleet import answers

ODD = [b"a b", b"n=1", b"new\nline", b"\xff\xfe", b"-x", b"0x0:6:$n", b"quote\"'", b"back\\slash"]


def make_tree(
    folder: Path, count: int, ends: Sequence[bytes] = ODD
) -> dict[bytes, int | None]:
    """Files by name, with the offset of the needle where there is one."""
    made: dict[bytes, int | None] = {}
    top = os.fsencode(folder)
    os.mkdir(top)
    for number in range(count):
        name = os.path.join(top, b"%05d " % number + ends[number % len(ends)])
        at = number % 97 if number % 3 == 0 else None
        with open(name, "wb") as file:
            file.write(b"x" * 97 if at is None else b"y" * at + b"needle")
        made[name] = at
    return made


def check(output: bytes, made: dict[bytes, int | None]) -> None:
    """Each file is answered exactly once, and rightly."""
    records = [json.loads(line) for line in output.splitlines()]
    counts = Counter(answers.name_of(record) for record in records)
    assert counts == Counter(made.keys())
    for record in records:
        at = made[answers.name_of(record)]
        found = [(m["offset"], m["length"]) for r in record["rules"] for m in r["matches"]]
        assert record["answer"] == "scanned"
        assert found == ([] if at is None else [(at, 6)])
