"""Where answers go: JSON lines, the program's report, a table, and a column file."""

from __future__ import annotations

import json
import os
import sys
from contextlib import ExitStack
from typing import Any, BinaryIO, Callable, Sequence

from . import answers, report
from .program import Refused
from .words import Scan

ROWS_AT_ONCE = 10_000
HEADING = f"{'ANSWER':<10} {'SIZE':>11}  FILE: RULES\n".encode("ascii")


class OutputFault(Exception):
    """The answers cannot be written."""


def report_lines(answer: answers.Answer, flags: str) -> bytes:
    record = json.loads(answer.line)
    return b"".join(report.write(record.get("rules", []), answer.name, flags))


def table_lines(answer: answers.Answer) -> bytes:
    if answer.answer in answers.GOOD and not answer.rules:
        return b""
    record = json.loads(answer.line)
    rules = ", ".join(rule["rule"] for rule in record.get("rules", []))
    text = rules or record.get("text", "")
    size = record.get("size", "-")
    front = f"{answer.answer:<10} {size:>11}  ".encode("ascii")
    shown = report.shown_name(text.encode("utf-8"))
    return front + report.shown_name(answer.name) + b": " + shown + b"\n"


class Columns:
    """A column file, written beside its name and renamed when the run ends."""

    def __init__(self, name: str):
        try:
            import pyarrow
            import pyarrow.parquet
        except ImportError as fault:
            raise Refused("--parquet needs the Python package pyarrow") from fault
        self.pyarrow = pyarrow
        text, whole = pyarrow.string(), pyarrow.int64()
        match = pyarrow.struct(
            [("offset", whole), ("length", whole), ("string", text), ("bytes", text)]
        )
        self.schema = pyarrow.schema([
            ("path", text), ("path_bytes", pyarrow.binary()), ("answer", text), ("size", whole),
            ("sha256", text), ("status", whole), ("text", text), ("namespace", text),
            ("rule", text), ("tags", pyarrow.list_(text)), ("meta", text),
            ("matches", pyarrow.list_(match)),
        ])
        self.name, self.beside = name, f"{name}.part"
        self.rows: list[dict[str, Any]] = []
        try:
            self.writer = pyarrow.parquet.ParquetWriter(self.beside, self.schema)
        except OSError as fault:
            raise Refused(f"{name}: cannot write: {fault}") from fault

    def put(self, answer: answers.Answer) -> None:
        """A row for each rule that holds, or one row without a rule."""
        record = json.loads(answer.line)
        common = {key: record.get(key) for key in ("path", "answer", "size", "sha256", "status")}
        common |= {"path_bytes": answer.name, "text": record.get("text")}
        for rule in record.get("rules") or [{}]:
            row = common | {key: rule.get(key) for key in ("namespace", "rule", "tags", "matches")}
            row["meta"] = json.dumps(rule["meta"]) if rule else None
            self.rows.append(row)
        if len(self.rows) >= ROWS_AT_ONCE:
            self.flush()

    def flush(self) -> None:
        if self.rows:
            self.writer.write_table(self.pyarrow.Table.from_pylist(self.rows, self.schema))
            self.rows = []

    def close(self, whole: bool) -> None:
        if whole:
            self.flush()
        self.writer.close()
        if whole:
            os.replace(self.beside, self.name)
        else:
            os.unlink(self.beside)


class Outputs:
    """All outputs of a run."""

    def __init__(self, options: Scan):
        self.matched = options.matched
        self.form = self._form(options)
        self.columns = Columns(options.parquet) if options.parquet else None
        self.named = options.output
        self.file: BinaryIO = sys.stdout.buffer
        with ExitStack() as undo:
            if self.columns:
                undo.callback(self.columns.close, False)
            if options.output:
                try:
                    self.file = open(options.output, "wb")
                except OSError as fault:
                    raise Refused(f"{options.output}: cannot write: {fault.strerror}") from fault
            undo.pop_all()
        self.heading = HEADING if options.form == "table" else b""

    def _form(self, options: Scan) -> Callable[[answers.Answer], bytes]:
        if options.form == "report":
            return lambda answer: report_lines(answer, options.flags)
        if options.form == "table":
            return table_lines
        return lambda answer: answer.line

    def put(self, new: Sequence[answers.Answer]) -> None:
        try:
            if self.heading:
                self.file.write(self.heading)
                self.heading = b""
            for answer in new:
                if self.matched and answer.answer in answers.GOOD and not answer.rules:
                    continue
                self.file.write(self.form(answer))
                if self.columns:
                    self.columns.put(answer)
            self.file.flush()
        except OSError as fault:
            raise OutputFault(f"cannot write output: {fault.strerror or fault}") from fault

    def close(self, whole: bool) -> None:
        try:
            if self.columns:
                self.columns.close(whole)
            if self.named:
                self.file.close()
        except OSError as fault:
            raise OutputFault(f"cannot write output: {fault.strerror or fault}") from fault
