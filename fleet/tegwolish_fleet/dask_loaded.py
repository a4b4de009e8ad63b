"""Dask as this machine's processes load it, so that a run starts soon."""

from __future__ import annotations

import distributed.nanny
import distributed.versions
import distributed.worker

# Each process would import pandas and others, half a second long, only to tell their versions.
distributed.versions.optional_packages = []
