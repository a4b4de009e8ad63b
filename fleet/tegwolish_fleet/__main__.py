"""The command `yara-fleet`."""

from __future__ import annotations

import os
import sys
import traceback
from typing import NoReturn, Sequence

from . import program, words
from .program import Refused


def main(given: Sequence[str]) -> int:
    try:
        options = words.read(list(given))
        if isinstance(options, words.Passed):
            path = program.find(options.program)
            passed = program.link if options.command == "link" else program.certify
            return passed(path, options.words)
        from . import run

        return run.scan(options)
    except Refused as refused:
        text = os.fsencode(f"yara-fleet: {refused}\n")
        sys.stderr.flush()
        os.write(2, text)
        return 2


def run_and_end(given: Sequence[str]) -> NoReturn:
    """Ends the process with the status at once, whatever threads a cluster has left behind."""
    status = 1
    try:
        status = main(given)
    except SystemExit as ended:
        status = ended.code if isinstance(ended.code, int) else 0
    except BaseException:
        traceback.print_exc()
    finally:
        try:
            sys.stdout.flush()
            sys.stderr.flush()
        except OSError:
            status = status or 1
        os._exit(status)


if __name__ == "__main__":
    run_and_end(sys.argv[1:])
