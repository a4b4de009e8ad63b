"""A preloaded allocator that refuses the n-th request for memory, built where `cc` is there."""

from __future__ import annotations

import shutil
import struct
import subprocess
from collections.abc import Sequence
from dataclasses import dataclass
from pathlib import Path

import pytest

from support.running import Answer, Program

SOURCE = r"""
#include <errno.h>
#include <fcntl.h>
#include <stdlib.h>
#include <sys/mman.h>
#include <unistd.h>

extern void *__libc_malloc(size_t);
extern void *__libc_calloc(size_t, size_t);
extern void *__libc_realloc(void *, size_t);

/* How many requests there were, in a file that outlives the process. */
static volatile long *asked;
static long refused;

__attribute__((constructor)) static void begin(void) {
    const char *number = getenv("REFUSED_REQUEST");
    const char *name = getenv("REQUESTS_FILE");
    int file = name ? open(name, O_RDWR) : -1;
    if (!number || file < 0)
        return;
    void *place = mmap(0, sizeof *asked, PROT_READ | PROT_WRITE, MAP_SHARED, file, 0);
    close(file);
    refused = atol(number);
    if (place != MAP_FAILED)
        asked = place;
}

static int refuses(void) {
    if (!asked || ++*asked != refused)
        return 0;
    errno = ENOMEM;
    return 1;
}

void *malloc(size_t size) { return refuses() ? 0 : __libc_malloc(size); }
void *calloc(size_t count, size_t size) { return refuses() ? 0 : __libc_calloc(count, size); }
void *realloc(void *old, size_t size) { return refuses() ? 0 : __libc_realloc(old, size); }
"""


@dataclass(frozen=True)
class Refusing:
    """The allocator as a library, and the file in which it counts."""

    library: Path
    counted: Path

    @staticmethod
    def built(program: Program, folder: Path) -> Refusing:
        """The library, or a skip where it cannot be made or the program has its own allocator."""
        compiler = shutil.which("cc")
        if compiler is None:
            pytest.skip("refused requests for memory: cc is not there (apt-get install -y gcc)")
        if program.sanitized:
            pytest.skip("refused requests for memory: the program brings its own allocator")
        source = folder / "refusing.c"
        source.write_text(SOURCE)
        library = folder / "refusing.so"
        made = subprocess.run(
            [compiler, "-shared", "-fPIC", "-O1", "-o", library, source],
            capture_output=True,
            text=True,
            check=False,
        )
        if made.returncode != 0:
            pytest.skip(f"refused requests for memory: cc makes no library: {made.stderr[-200:]}")
        return Refusing(library, folder / "requests")

    def run(
        self, program: Program, words: Sequence[str], folder: Path, number: int
    ) -> tuple[Answer, int]:
        """A run in which request `number` is refused (none with 0), and how many there were."""
        self.counted.write_bytes(bytes(8))
        answer = program.run(
            words,
            folder,
            environment={
                "LD_PRELOAD": str(self.library),
                "REFUSED_REQUEST": str(number),
                "REQUESTS_FILE": str(self.counted),
            },
        )
        return answer, struct.unpack("@l", self.counted.read_bytes())[0]
