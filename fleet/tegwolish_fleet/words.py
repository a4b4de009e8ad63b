"""The command line."""

from __future__ import annotations

import argparse
import os
from dataclasses import dataclass
from typing import NoReturn, Sequence

from .program import Refused

USAGE = """\
yara-fleet scan [OPTION].. RULES.. -- PATH..
       yara-fleet scan [OPTION].. IMAGE -- PATH..
       yara-fleet scan [OPTION].. --files0-from LIST RULES..|IMAGE
       yara-fleet link IMAGE IMAGE.. OUTPUT
       yara-fleet certify IMAGE"""


@dataclass(frozen=True)
class Scan:
    rules: tuple[str, ...]
    paths: tuple[bytes, ...]
    listed: str | None
    image: bool
    values: tuple[str, ...]
    program: str | None
    workers: int
    scheduler: str | None
    without_dask: bool
    send: bool
    follow: bool
    timeout: float | None
    retries: int
    digest: bool
    matched_bytes: int
    form: str
    flags: str
    matched: bool
    output: str | None
    parquet: str | None
    resume: str | None
    quiet: bool


@dataclass(frozen=True)
class Passed:
    """A command that the program answers."""

    command: str
    words: tuple[str, ...]
    program: str | None


class Parser(argparse.ArgumentParser):
    def error(self, message: str) -> NoReturn:
        raise Refused(f"{message}\nusage: {USAGE}")


def at_least(least: int, most: int = 2**31 - 1):
    def number(word: str) -> int:
        value = int(word)
        if not least <= value <= most:
            raise argparse.ArgumentTypeError(f"not from {least} to {most}: {word}")
        return value

    return number


def seconds(word: str) -> float:
    value = float(word)
    if not 0 <= value <= 1e6:
        raise argparse.ArgumentTypeError(f"not from 0 to 1000000: {word}")
    return value


def scan_parser() -> Parser:
    parser = Parser(prog="yara-fleet scan", usage=USAGE, add_help=True, allow_abbrev=False)
    add = parser.add_argument
    add("rules", nargs="+", metavar="RULES",
        help="rule files, SPACE:FILE for a namespace, or one image")
    add("-C", "--image", action="store_true", help="what is given is an image, whatever it holds")
    add("-d", dest="values", action="append", default=[], metavar="NAME=VALUE",
        help="give an external variable a value")
    add("--program", metavar="PATH", help="the program (else YARA_PROGRAM, else found)")
    where = parser.add_argument_group("where")
    where.add_argument("--workers", type=at_least(1, 4096), metavar="N",
                       default=len(os.sched_getaffinity(0)),
                       help="local workers (the processors)")
    where.add_argument("--scheduler", metavar="tcp://HOST:PORT",
                       help="a Dask cluster in place of local workers")
    where.add_argument("--without-dask", action="store_true",
                       help="local workers by Python alone, as where Dask is missing")
    where.add_argument("--send", action="store_true",
                       help="send the bytes of the files to the workers")
    what = parser.add_argument_group("which files")
    what.add_argument("--follow", action="store_true", help="follow symbolic links in folders")
    what.add_argument("--files0-from", dest="listed", metavar="LIST",
                      help="a file with names, each ended by a zero byte (- for standard input)")
    what.add_argument("--timeout", type=seconds, default=300.0, metavar="SECONDS",
                      help="for one file (300; 0 for none)")
    what.add_argument("--retries", type=at_least(0, 1000), default=5, metavar="N",
                      help="how often a file is tried again whose worker died (5)")
    what.add_argument("--resume", metavar="LEDGER",
                      help="keep a ledger of answers, and go on where it ends")
    out = parser.add_argument_group("answers")
    form = out.add_mutually_exclusive_group()
    form.add_argument("--report", dest="form", action="store_const", const="report",
                      help="the program's report in place of JSON lines")
    form.add_argument("--table", dest="form", action="store_const", const="table",
                      help="a table of files with rules, and of those without an answer")
    for flag, text in (("s", "matches"), ("g", "tags"), ("m", "meta"), ("e", "namespaces")):
        out.add_argument(f"-{flag}", dest="flags", action="append_const", const=flag,
                         help=f"with --report: {text}")
    out.add_argument("--matched", action="store_true",
                     help="leave out files in which no rule holds")
    out.add_argument("--digest", action="store_true", help="the SHA-256 of each file")
    out.add_argument("--bytes", dest="matched_bytes", type=at_least(0, 1 << 20), default=0,
                     metavar="N", help="the first N bytes of each match, in hexadecimal")
    out.add_argument("-o", "--output", metavar="FILE", help="a file in place of standard output")
    out.add_argument("--parquet", metavar="FILE", help="a column file too (needs pyarrow)")
    out.add_argument("-q", "--quiet", action="store_true", help="no progress and no end line")
    parser.set_defaults(form="json", flags=None)
    return parser


def read_scan(words: Sequence[str]) -> Scan:
    split = list(words).index("--") if "--" in words else len(words)
    found = scan_parser().parse_args(words[:split])
    paths = tuple(os.fsencode(path) for path in words[split + 1:])
    if not paths and found.listed is None:
        missing = "no files to scan" if "--" in words else "`--` and the files to scan are missing"
        raise Refused(f"{missing}\nusage: {USAGE}")
    if found.flags and found.form != "report":
        raise Refused("-s, -g, -m and -e go with --report; JSON lines always have all of it")
    if found.scheduler and found.without_dask:
        raise Refused("--scheduler and --without-dask exclude each other")
    if found.image and len(found.rules) > 1:
        raise Refused("one image at a time; `link` makes one of several")
    return Scan(
        rules=tuple(found.rules), paths=paths, listed=found.listed, image=found.image,
        values=tuple(found.values),
        program=found.program, workers=found.workers, scheduler=found.scheduler,
        without_dask=found.without_dask, send=found.send, follow=found.follow,
        timeout=found.timeout or None, retries=found.retries, digest=found.digest,
        matched_bytes=found.matched_bytes, form=found.form, flags="".join(found.flags or ()),
        matched=found.matched, output=found.output, parquet=found.parquet, resume=found.resume,
        quiet=found.quiet,
    )


def read_passed(command: str, words: Sequence[str]) -> Passed:
    """`link` and `certify`: all but --program is the program's."""
    program = None
    rest = list(words)
    if rest[:1] == ["--program"] and len(rest) > 1:
        program, rest = rest[1], rest[2:]
    return Passed(command, tuple(rest), program)


def read(words: Sequence[str]) -> Scan | Passed:
    command, rest = (words[0], words[1:]) if words else ("", [])
    if command == "scan":
        return read_scan(rest)
    if command in ("link", "certify"):
        return read_passed(command, rest)
    raise Refused(f"no such command: {command}\nusage: {USAGE}" if command else f"usage: {USAGE}")
