"""The server that local workers are forked from, with their modules loaded once."""

from __future__ import annotations

import os
from multiprocessing import forkserver
from pathlib import Path


def start_server(module: str) -> None:
    """Starts it with this module, which it has to find by itself."""
    forkserver.set_forkserver_preload([module])
    before = os.environ.get("PYTHONPATH")
    here = str(Path(__file__).resolve().parent.parent)
    os.environ["PYTHONPATH"] = f"{here}{os.pathsep}{before}" if before else here
    try:
        forkserver.ensure_running()
    finally:
        if before is None:
            del os.environ["PYTHONPATH"]
        else:
            os.environ["PYTHONPATH"] = before
