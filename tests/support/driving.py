"""Starts pytest over the folders of tests, in several processes, and sums what they say.

`./test` starts this by a Python that has pytest.
"""

from __future__ import annotations

import argparse
import importlib.util
import json
import os
import subprocess
import sys
import tempfile
from collections import Counter
from dataclasses import dataclass
from pathlib import Path
from typing import IO

TESTS = Path(__file__).resolve().parent.parent
TOP = TESTS.parent
FLEET = TOP / "fleet" / "tests"
RELEASED = TOP / "release" / "yara-x86_64-linux"
BUILT = TOP / "crates" / "yara" / "out" / "yara"

MOST_WORKERS = 4
# What pytest ends with: tests passed, tests failed, nothing was collected.
PASSED, FAILED, NOTHING = 0, 1, 5
LACKING = 70


@dataclass
class Worker:
    """One pytest process with its output and its counts."""

    process: subprocess.Popen
    said: IO[bytes] | None
    counts: Path

    def finish(self) -> tuple[Counter, bool]:
        """Waits, shows what was kept back, and gives the counts and whether it ended well."""
        status = self.process.wait()
        if self.said is not None:
            self.said.seek(0)
            sys.stdout.flush()
            sys.stdout.buffer.write(self.said.read())
            sys.stdout.flush()
        if not self.counts.exists():
            return Counter(), False
        return Counter(json.loads(self.counts.read_text())), status in (PASSED, FAILED, NOTHING)


def arguments(words: list[str]) -> tuple[argparse.Namespace, list[str]]:
    """Our own options, and the words for pytest."""
    parser = argparse.ArgumentParser(prog="./test", add_help=False, allow_abbrev=False)
    parser.add_argument("-h", "--help", action="store_true")
    parser.add_argument("--program", type=Path)
    parser.add_argument("--portion", type=int, default=100)
    parser.add_argument("--workers", type=int)
    return parser.parse_known_args(words)


def default_program() -> Path:
    """The released program, or where there is none the one that was built."""
    return RELEASED if RELEASED.is_file() else BUILT


def default_workers(words: list[str]) -> int:
    """One where pytest shall talk with the user, else one a processor."""
    if {"-s", "--pdb", "--trace", "--collect-only", "--co", "-x"} & set(words):
        return 1
    return min(len(os.sched_getaffinity(0)), MOST_WORKERS)


def start(one: Share, counts: Path, program: Path, *, shown: bool) -> Worker:
    """Starts pytest on one share of the tests."""
    said = None if shown else tempfile.TemporaryFile()
    process = subprocess.Popen(
        [
            sys.executable, "-m", "pytest", *one.tests, "-q", "-r", "sx",
            "-p", "support.counting", "--share", one.share, "--counts", counts,
            *one.words,
        ],
        stdout=said,
        stderr=subprocess.STDOUT if said else None,
        env={
            **os.environ,
            "PYTHONPATH": os.pathsep.join(
                [str(TESTS), *filter(None, [os.environ.get("PYTHONPATH")])]
            ),
            "PYTHONDONTWRITEBYTECODE": "1",
            "TEGWOLISH_PROGRAM": str(program),
        },
    )  # fmt: skip
    return Worker(process, said, counts)


@dataclass(frozen=True)
class Share:
    """A share of some tests, for one pytest process."""

    tests: list[str]
    words: list[str]
    share: str = "0/1"


def shares(tests: list[str], words: list[str], workers: int) -> list[Share]:
    """Tests in as many shares."""
    return [Share(tests, words, f"{k}/{workers}") for k in range(workers)]


def run(started: list[Share], program: Path) -> tuple[Counter, bool]:
    """Runs all shares side by side, the first one shown as it goes."""
    counts: Counter = Counter()
    well = True
    with tempfile.TemporaryDirectory(prefix="tegwolish-counts-") as folder:
        workers = [
            start(one, Path(folder) / str(number), program, shown=number == 0)
            for number, one in enumerate(started)
        ]
        try:
            for worker in workers:
                more, ended = worker.finish()
                counts += more
                well = well and ended
        except KeyboardInterrupt:
            for worker in workers:
                worker.process.terminate()
                worker.process.wait()
            raise SystemExit(130) from None
    return counts, well


def is_place(word: str) -> bool:
    """Whether a word for pytest names tests."""
    return not word.startswith("-") and Path(word.split("::")[0]).exists()


def is_of_fleet(word: str) -> bool:
    """Whether a place is among the tests of fleets, which know no options of ours."""
    return Path(word.split("::")[0]).resolve().is_relative_to(FLEET)


def with_fleet() -> bool:
    """Whether the tests of fleets are run; where they are not, a line says so."""
    if not FLEET.is_dir():
        return False
    if importlib.util.find_spec("distributed") is None:
        print("skipped: fleet/tests, since Dask is not there (apt-get install python3-distributed)")
        return False
    return True


def main(words: list[str]) -> int:
    """Runs all, or what the words name."""
    own, rest = arguments(words)
    if own.help:
        print("./test [--program PATH] [--portion PERCENT] [--workers N] [pytest words..]")
        return 0
    program = own.program or default_program()
    if not (program.is_file() and os.access(program, os.X_OK)):
        made = "" if own.program else "; ./yara --build makes it"
        print(f"test: there is no program {program}{made}", file=sys.stderr)
        return LACKING
    program = program.resolve()
    workers = own.workers or default_workers(rest)
    # Each with its value in one word: pytest takes a word behind an option for a place until it
    # has read our conftest.
    ours = [
        f"--rootdir={TESTS}", f"--program={program}", f"--portion={own.portion}",
        "-c", str(TESTS / "pytest.ini"),
    ]  # fmt: skip
    print(f"program: {program}", flush=True)
    named = [word for word in rest if is_place(word)]
    others = [word for word in rest if word not in named]
    if named and all(is_of_fleet(word) for word in named):
        started = [Share(named, others)]
    else:
        started = shares(named or [str(TESTS)], [*ours, *others], workers)
    if not named and with_fleet():
        # Mostly waiting, so it goes beside the others.
        started.append(Share([str(FLEET)], others))
    counts, well = run(started, program)
    failed = counts["failed"] + counts["error"] + counts["xpassed"]
    if not well:
        print("test: pytest did not end as it should", file=sys.stderr)
        failed = max(failed, 1)
    if counts["skipped"] or counts["xfailed"]:
        print(f"skipped {counts['skipped']}, known to fail {counts['xfailed']}")
    print(f"{counts['passed']} passed, {failed} failed")
    return 1 if failed else 0


if __name__ == "__main__":
    sys.exit(main(sys.argv[1:]))
