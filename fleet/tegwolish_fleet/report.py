"""The program's report, read strictly by its grammar, and written again.

A report that the fleet asks for has for each rule the line

    SPACE:RULE [TAG,TAG] [KEY=VALUE,KEY=VALUE] TARGET

and after it a line `0xOFFSET:LENGTH:$STRING` for each match. TARGET is a word of our own and never
a file's name, so no name can look like a line of the report.
"""

from __future__ import annotations

import base64
import re
from typing import Any, Iterator

WORD = rb"[A-Za-z_][A-Za-z0-9_]{0,127}"
# Printed ASCII but quote and backslash, these two after a backslash, other bytes as \xdd.
TEXT = rb'"(?:[ !#-\[\]-~]|\\["\\]|\\x(?:[018-9a-f][0-9a-f]|7f))*"'
VALUE = rb"(?:" + TEXT + rb"|-?[0-9]+|true|false)"
ENTRY = WORD + rb"=" + VALUE

RULE_LINE = re.compile(
    rb"(?P<space>" + WORD + rb"):(?P<name>" + WORD + rb")"
    rb" \[(?P<tags>(?:" + WORD + rb"(?:," + WORD + rb")*)?)\]"
    rb" \[(?P<meta>(?:" + ENTRY + rb"(?:," + ENTRY + rb")*)?)\]"
    rb" (?P<target>[!-~]+)"
)
ENTRIES = re.compile(rb"(" + WORD + rb")=(" + VALUE + rb")(?:,|\Z)")
ESCAPES = re.compile(rb'\\(["\\]|x[0-9a-f]{2})')
MATCH_LINE = re.compile(
    rb"0x(0|[1-9a-f][0-9a-f]{0,7}):([1-9][0-9]{0,9}):(\$[A-Za-z0-9_]{0,128})"
)


class NotAReport(ValueError):
    """What the program wrote does not follow the grammar."""


def unescaped(text: bytes) -> bytes:
    """The bytes that a text of meta stands for, without its quotes."""

    def byte(found: re.Match[bytes]) -> bytes:
        form = found[1]
        return form if len(form) == 1 else bytes([int(form[1:], 16)])

    return ESCAPES.sub(byte, text[1:-1])


def escaped(text: bytes) -> bytes:
    """A text of meta as the report has it, with its quotes."""
    parts = []
    for byte in text:
        if byte in b'"\\':
            parts.append(b"\\%c" % byte)
        elif 0x20 <= byte <= 0x7E:
            parts.append(b"%c" % byte)
        else:
            parts.append(b"\\x%02x" % byte)
    return b'"' + b"".join(parts) + b'"'


def as_json(text: bytes) -> Any:
    """A text as JSON holds it: itself where it is UTF-8, else its bytes in base64."""
    try:
        return text.decode("utf-8")
    except UnicodeDecodeError:
        return {"base64": base64.b64encode(text).decode("ascii")}


def from_json(value: Any) -> bytes:
    return base64.b64decode(value["base64"]) if isinstance(value, dict) else value.encode("utf-8")


def read_value(value: bytes) -> Any:
    if value.startswith(b'"'):
        return as_json(unescaped(value))
    if value in (b"true", b"false"):
        return value == b"true"
    number = int(value)
    if not -(2**63) <= number < 2**63:
        raise NotAReport("a number of meta has more than 64 bits")
    return number


def read_rule(line: bytes, target: bytes) -> dict[str, Any]:
    found = RULE_LINE.fullmatch(line)
    if found is None or found["target"] != target:
        raise NotAReport("a line is neither a rule nor a match")
    tags = found["tags"].decode("ascii")
    meta = ENTRIES.findall(found["meta"])
    return {
        "rule": found["name"].decode("ascii"),
        "namespace": found["space"].decode("ascii"),
        "tags": tags.split(",") if tags else [],
        "meta": [[key.decode("ascii"), read_value(value)] for key, value in meta],
        "matches": [],
    }


def parse(report: bytes, target: bytes) -> list[dict[str, Any]]:
    """The rules of a report that was asked for with `-s -g -m -e`, in its order."""
    if report and not report.endswith(b"\n"):
        raise NotAReport("the last line is cut")
    rules: list[dict[str, Any]] = []
    for line in report.split(b"\n")[:-1]:
        match = MATCH_LINE.fullmatch(line)
        if match is None:
            rules.append(read_rule(line, target))
        elif not rules:
            raise NotAReport("a match stands before all rules")
        else:
            offset, length, string = match.groups()
            rules[-1]["matches"].append(
                {"offset": int(offset, 16), "length": int(length), "string": string.decode("ascii")}
            )
    return rules


def write_value(value: Any) -> bytes:
    if isinstance(value, bool):
        return b"true" if value else b"false"
    if isinstance(value, int):
        return b"%d" % value
    return escaped(from_json(value))


def shown_name(path: bytes) -> bytes:
    """A name as lines show it: `\\` doubled and bytes below 20, and 7f, as \\xdd."""
    if b"\\" not in path and not any(byte < 0x20 or byte == 0x7F for byte in path):
        return path
    parts = []
    for byte in path:
        if byte == 0x5C:
            parts.append(b"\\\\")
        elif byte < 0x20 or byte == 0x7F:
            parts.append(b"\\x%02x" % byte)
        else:
            parts.append(b"%c" % byte)
    return b"".join(parts)


def write(rules: list[dict[str, Any]], path: bytes, flags: str) -> Iterator[bytes]:
    """The lines of the program's report on a file, for those of the flags `sgme` that are given."""
    for rule in rules:
        line = rule["rule"].encode("ascii")
        if "e" in flags:
            line = rule["namespace"].encode("ascii") + b":" + line
        if "g" in flags:
            line += b" [" + ",".join(rule["tags"]).encode("ascii") + b"]"
        if "m" in flags:
            entries = (k.encode("ascii") + b"=" + write_value(v) for k, v in rule["meta"])
            line += b" [" + b",".join(entries) + b"]"
        yield line + b" " + shown_name(path) + b"\n"
        if "s" in flags:
            for match in rule["matches"] or ():
                string = match["string"].encode("ascii")
                yield b"0x%x:%d:%s\n" % (match["offset"], match["length"], string)
