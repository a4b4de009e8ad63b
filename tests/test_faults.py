"""Faults of the machine: files that cannot be read, outputs that cannot be written, signals."""

from __future__ import annotations

import os
import signal
import subprocess
import threading
import time
from collections.abc import Iterator
from contextlib import contextmanager
from dataclasses import dataclass
from pathlib import Path

import pytest

from support.rows import lay
from support.running import KIB, Answer, Limits, Program, wait

RULES = b'rule a { strings: $a = "ab" condition: $a }'
REPORT = b"a t.bin\n0x2:2:$a\n0x4:2:$a\n"
NOBODY = 65534


@dataclass(frozen=True)
class Role:
    """A place in a command line where a file is read."""

    name: str
    words: tuple[str, ...]
    file: str
    content: bytes


# Each reads `FILE` in one role; the answer to the whole files is REPORT.
ROLES = [
    Role("target", ("scan", "-s", "r.yar", "t.bin"), "t.bin", b"xxabab"),
    Role("rule file", ("scan", "-s", "r.yar", "t.bin"), "r.yar", RULES),
    Role("include", ("scan", "-s", "with.yar", "t.bin"), "r.yar", RULES),
    Role("image", ("scan", "-C", "-s", "r.img", "t.bin"), "r.img", b""),
    Role("target of an image", ("scan", "-C", "-s", "r.img", "t.bin"), "t.bin", b"xxabab"),
]
ROLE_NAMES = [role.name for role in ROLES]


@pytest.fixture
def folder(program: Program, tmp_path: Path) -> Path:
    """A folder with rules, an including file, an image and a target."""
    return filled(program, tmp_path)


def filled(program: Program, place: Path) -> Path:
    """Puts rules, an including file, an image and a target into a folder."""
    lay(place, {"r.yar": RULES, "with.yar": b'include "r.yar"', "t.bin": b"xxabab"})
    assert program.run(["compile", "r.yar", "r.img"], place) == Answer(0, b"", b"")
    return place


@pytest.fixture
def strangers(program: Program, open_folder: Path) -> Iterator[tuple[Program, Path, int | None]]:
    """A program, a folder and a user who is bound by the rights of files."""
    place = open_folder / f"rights-{time.monotonic_ns()}"
    place.mkdir()
    if os.geteuid() != 0:
        yield program, filled(program, place), None
        return
    copy = program.copy_to(place)
    filled(copy, place)
    place.chmod(0o755)
    yield copy, place, NOBODY


def unread(name: str) -> Answer:
    """What a file that cannot be read gives."""
    return Answer(4, b"", b"cannot read " + name.encode() + b"\n")


# What stands in the place of the file.


def missing(place: Path) -> None:
    """Nothing."""
    place.unlink()


def a_folder(place: Path) -> None:
    """A folder."""
    place.unlink()
    place.mkdir()


def a_loop(place: Path) -> None:
    """A link to itself."""
    place.unlink()
    place.symlink_to(place.name)


def a_dangling_link(place: Path) -> None:
    """A link to nothing."""
    place.unlink()
    place.symlink_to("nowhere")


@pytest.mark.parametrize("role", ROLES, ids=ROLE_NAMES)
@pytest.mark.parametrize("change", [missing, a_folder, a_loop, a_dangling_link])
def test_cannot_be_read(program: Program, folder: Path, role: Role, change) -> None:
    change(folder / role.file)
    before = sorted(path.name for path in folder.iterdir())
    assert program.run(role.words, folder) == unread(role.file)
    assert sorted(path.name for path in folder.iterdir()) == before


@pytest.mark.parametrize("role", ROLES, ids=ROLE_NAMES)
def test_no_right_to_read(strangers, role: Role) -> None:
    program, folder, user = strangers
    assert program.run(role.words, folder, user=user) == Answer(0, REPORT, b"")
    (folder / role.file).chmod(0)
    assert program.run(role.words, folder, user=user) == unread(role.file)


@pytest.mark.parametrize(
    "name", ["t.bin/", "t.bin/x", "no/t.bin", "n" * 300, "/proc/self/mem"],
    ids=["a file as a folder", "below a file", "no folder", "a long name", "memory of the run"],
)  # fmt: skip
def test_names_that_lead_nowhere(program: Program, folder: Path, name: str) -> None:
    assert program.run(["scan", "r.yar", name], folder) == unread(name)
    assert program.run(["scan", name, "t.bin"], folder) == unread(name)
    assert program.run(["scan", "-C", name, "t.bin"], folder) == unread(name)


@pytest.mark.parametrize("role", ROLES, ids=ROLE_NAMES)
def test_a_pipe_is_read_whole(program: Program, folder: Path, role: Role) -> None:
    """A FIFO is read to its end, in however many pieces its bytes come."""
    place = folder / role.file
    content = place.read_bytes()
    place.unlink()
    os.mkfifo(place)

    def write() -> None:
        with open(place, "wb", buffering=0) as pipe:
            for at in range(0, len(content), 40):
                pipe.write(content[at : at + 40])
                time.sleep(0.002)

    writer = threading.Thread(target=write)
    writer.start()
    answer = program.run(role.words, folder)
    writer.join()
    assert answer == Answer(0, REPORT, b"")


def test_an_endless_file(program: Program, folder: Path) -> None:
    """A device without an end is too long, in each role."""
    assert program.run(["scan", "r.yar", "/dev/zero"], folder, seconds=60) == Answer(
        7, b"", b"/dev/zero: too long\n"
    )
    assert program.run(["check", "/dev/zero"], folder) == Answer(
        2, b"", b"/dev/zero: TextTooLong\n"
    )
    assert program.run(["scan", "r.yar", "/dev/null"], folder) == Answer(0, b"", b"")


@pytest.mark.parametrize("growing", ["t.bin", "r.yar"])
def test_a_file_that_grows(program: Program, folder: Path, growing: str) -> None:
    """A file that grows while it is read is taken as it was at one moment."""
    piece = b"x" * 65536
    place = folder / growing
    if growing == "t.bin":
        rules = 'rule a { strings: $a = "x" condition: #a == filesize }'
        (folder / "r.yar").write_text(rules)
        place.write_bytes(piece)
    else:
        piece = b"// " + piece + b"\n"
        place.write_bytes(RULES + b"\n")
    stop = threading.Event()

    def grow() -> None:
        with open(place, "ab", buffering=0) as file:
            for _ in range(100):
                if stop.is_set():
                    return
                file.write(piece)

    writer = threading.Thread(target=grow)
    writer.start()
    try:
        answer = program.run(["scan", "r.yar", "t.bin"], folder)
    finally:
        stop.set()
        writer.join()
    if growing == "t.bin" or answer.status == 0:
        assert answer == Answer(0, b"a t.bin\n", b"")
    else:
        # A comment that was cut where the file ended has no fault; nothing else may come.
        raise AssertionError(answer)


# Outputs.

COMMANDS = {
    "scan": ["scan", "-s", "r.yar", "t.bin"],
    "scan by an image": ["scan", "-C", "-s", "r.img", "t.bin"],
    "check": ["check", "r.yar"],
    "work": ["work", "1", "1"],
}
UNWRITTEN = (5, b"cannot write output\n")


@pytest.mark.parametrize("words", COMMANDS.values(), ids=COMMANDS.keys())
def test_a_full_device(program: Program, folder: Path, words: list[str]) -> None:
    with open("/dev/full", "wb") as full:
        answer = program.run(words, folder, out=full)
    assert (answer.status, answer.err) == UNWRITTEN


def test_nothing_to_write_to_a_full_device(program: Program, folder: Path) -> None:
    """An empty report is written whole, wherever it goes."""
    (folder / "t.bin").write_bytes(b"")
    with open("/dev/full", "wb") as full:
        answer = program.run(["scan", "r.yar", "t.bin"], folder, out=full)
    assert (answer.status, answer.err) == (0, b"")


@pytest.mark.parametrize("words", COMMANDS.values(), ids=COMMANDS.keys())
def test_a_pipe_that_nobody_reads(program: Program, folder: Path, words: list[str]) -> None:
    """A reader that went away is a write fault, and no signal."""
    reader, writer = os.pipe()
    os.close(reader)
    try:
        answer = program.run(words, folder, out=writer)
    finally:
        os.close(writer)
    assert (answer.status, answer.err) == UNWRITTEN


def through_shell(program: Program, folder: Path, line: str, *words: str) -> Answer:
    """Runs a line of the shell, in which "$@" stands for the program and its words."""
    done = subprocess.run(
        ["/bin/sh", "-c", line, "sh", program.path, *words],
        cwd=folder,
        capture_output=True,
        timeout=program.patience(30),
        check=False,
    )
    return Answer(done.returncode, done.stdout, done.stderr)


@pytest.mark.parametrize("words", COMMANDS.values(), ids=COMMANDS.keys())
def test_a_closed_output(program: Program, folder: Path, words: list[str]) -> None:
    """No output at all: the answer could not be written, and no file takes its place."""
    before = {path.name: path.read_bytes() for path in folder.iterdir()}
    answer = through_shell(program, folder, 'exec "$@" >&-', *words)
    assert (answer.status, answer.err) == UNWRITTEN
    assert {path.name: path.read_bytes() for path in folder.iterdir()} == before


def test_a_closed_second_output(program: Program, folder: Path) -> None:
    """Where the text cannot be written the status is the same."""
    for line in ('exec "$@" 2>&-', 'exec "$@" 2>/dev/full'):
        answer = through_shell(program, folder, line, "check", "no.yar")
        assert answer == Answer(4, b"", b""), line
        answer = through_shell(program, folder, line, "scan")
        assert answer == Answer(1, b"", b""), line
    answer = through_shell(program, folder, 'exec "$@" >/dev/full 2>&-', "check", "r.yar")
    assert answer == Answer(5, b"", b"")


def test_all_closed(program: Program, folder: Path) -> None:
    """Without any open file an image is still written whole, and to its own name."""
    line = 'exec "$@" <&- >&- 2>&-'
    answer = through_shell(program, folder, line, "compile", "r.yar", "new.img")
    assert answer == Answer(0, b"", b"")
    assert (folder / "new.img").read_bytes() == (folder / "r.img").read_bytes()
    assert through_shell(program, folder, line, "check", "no.yar").status == 4
    assert (folder / "r.yar").read_bytes() == RULES


@pytest.mark.parametrize(
    "name", ["no/r.img", "d", "t.bin/x", "/dev/full", "n" * 300],
    ids=["no folder", "a folder", "below a file", "a full device", "a long name"],
)  # fmt: skip
def test_an_image_that_cannot_be_written(program: Program, folder: Path, name: str) -> None:
    (folder / "d").mkdir()
    answer = program.run(["compile", "r.yar", name], folder)
    assert answer == Answer(5, b"", b"cannot write " + name.encode() + b"\n")
    assert (folder / "t.bin").read_bytes() == b"xxabab"
    assert list((folder / "d").iterdir()) == []


def test_no_right_to_write(strangers) -> None:
    program, folder, user = strangers
    image = (folder / "r.img").read_bytes()
    (folder / "r.img").chmod(0o444)
    folder.chmod(0o555)
    for name in ("r.img", "new.img"):
        answer = program.run(["compile", "r.yar", name], folder, user=user)
        assert answer == Answer(5, b"", b"cannot write " + name.encode() + b"\n")
    assert (folder / "r.img").read_bytes() == image
    assert not (folder / "new.img").exists()
    folder.chmod(0o755)


REFUSALS = [
    ("words", ["compile", "-x", "r.yar", "r.img"], 1),
    ("a value twice", ["compile", "r.yar", "r.img", "n=1", "n=1"], 8),
    ("grammar", ["compile", "bad.yar", "r.img"], 2),
    ("checks", ["compile", "r.yar", "r.yar", "r.img"], 2),
    ("a missing rule file", ["compile", "no.yar", "r.img"], 4),
    ("a missing second rule file", ["compile", "r.yar", "no.yar", "r.img"], 4),
]


@pytest.mark.parametrize(
    ("words", "status"), [case[1:] for case in REFUSALS], ids=[case[0] for case in REFUSALS]
)
def test_an_older_image_stands(
    program: Program, folder: Path, words: list[str], status: int
) -> None:
    """After a refusal or a read fault no file has changed, and none has come."""
    lay(folder, {"bad.yar": b"rule", "r.img": b"an older image"})
    before = {path.name: (path.read_bytes(), path.stat().st_mtime_ns) for path in folder.iterdir()}
    answer = program.run(words, folder)
    assert (answer.status, answer.out) == (status, b"")
    after = {path.name: (path.read_bytes(), path.stat().st_mtime_ns) for path in folder.iterdir()}
    assert after == before


def test_a_longer_image_is_replaced(program: Program, folder: Path) -> None:
    """Nothing of a longer older image is left."""
    image = (folder / "r.img").read_bytes()
    (folder / "r.img").write_bytes(b"x" * 100_000)
    assert program.run(["compile", "r.yar", "r.img"], folder) == Answer(0, b"", b"")
    assert (folder / "r.img").read_bytes() == image


def test_an_image_over_a_link(program: Program, folder: Path) -> None:
    """A link in OUTPUT's place is followed or replaced; the image stands under the name."""
    (folder / "link.img").symlink_to("far.img")
    assert program.run(["compile", "r.yar", "link.img"], folder) == Answer(0, b"", b"")
    assert (folder / "link.img").read_bytes() == (folder / "r.img").read_bytes()


def test_an_image_into_a_pipe(program: Program, folder: Path) -> None:
    """A FIFO takes the image's bytes."""
    os.mkfifo(folder / "pipe")
    taken: list[bytes] = []
    reader = threading.Thread(target=lambda: taken.append((folder / "pipe").read_bytes()))
    reader.start()
    answer = program.run(["compile", "r.yar", "pipe"], folder)
    reader.join()
    assert answer == Answer(0, b"", b"")
    assert taken == [(folder / "r.img").read_bytes()]


# A full disk.


@contextmanager
def small_disk(place: Path) -> Iterator[Path]:
    """A file system of 16 KiB, or a skip where it may not be mounted."""
    place.mkdir()
    mounted = subprocess.run(
        ["mount", "-t", "tmpfs", "-o", "size=16k", "tmpfs", place], capture_output=True, check=False
    )
    if mounted.returncode != 0:
        pytest.skip("a full disk: no small tmpfs may be mounted here")
    try:
        yield place
    finally:
        subprocess.run(["umount", "-l", place], check=True)


MANY = b"rule m { strings: " + b" ".join(
    b'$s%d = "%s"' % (k, bytes([97 + k % 26]) * 30) for k in range(400)
) + b" condition: any of them }"  # fmt: skip


def test_a_full_disk(program: Program, folder: Path) -> None:
    lay(folder, {"many.yar": MANY, "long.bin": b"ab" * 20_000})
    whole = program.run(["scan", "-s", "r.yar", "long.bin"], folder)
    assert whole.status == 0 and len(whole.out) > 100_000
    with small_disk(folder / "disk") as disk:
        answer = program.run(["compile", "many.yar", "disk/m.img"], folder)
        assert answer == Answer(5, b"", b"cannot write disk/m.img\n")
        (disk / "m.img").unlink(missing_ok=True)
        assert program.run(["compile", "r.yar", "disk/r.img"], folder) == Answer(0, b"", b"")
        assert (disk / "r.img").read_bytes() == (folder / "r.img").read_bytes()
        with open(disk / "report", "wb") as report:
            answer = program.run(["scan", "-s", "r.yar", "long.bin"], folder, out=report)
        assert (answer.status, answer.err) == UNWRITTEN
        stands = (disk / "report").read_bytes()
        assert 0 < len(stands) < len(whole.out)
        assert whole.out.startswith(stands)


def test_a_limit_on_files(program: Program, folder: Path) -> None:
    """Past the largest file that a user may write: a write fault, or the end by that signal."""
    lay(folder, {"many.yar": MANY, "long.bin": b"ab" * 20_000})
    limits = Limits(file_size=4 * KIB)
    answer = program.run(["compile", "many.yar", "m.img"], folder, limits=limits)
    assert answer in (
        Answer(5, b"", b"cannot write m.img\n"),
        Answer(-signal.SIGXFSZ, b"", b""),
    )
    whole = program.run(["scan", "-s", "r.yar", "long.bin"], folder)
    with open(folder / "report", "wb") as report:
        answer = program.run(
            ["scan", "-s", "r.yar", "long.bin"], folder, out=report, limits=limits
        )
    assert (answer.status, answer.err) in (UNWRITTEN, (-signal.SIGXFSZ, b""))
    assert whole.out.startswith((folder / "report").read_bytes())


# Signals.


@pytest.mark.parametrize(
    "number", [signal.SIGTERM, signal.SIGINT, signal.SIGHUP, signal.SIGKILL],
    ids=lambda number: number.name,
)  # fmt: skip
def test_a_signal_while_it_writes(program: Program, folder: Path, number: signal.Signals) -> None:
    """The signal ends the run; a part of the report may stand, and nothing else."""
    (folder / "t.bin").write_bytes(b"ab" * 20_000)
    words = ["scan", "-s", "r.yar", "t.bin"]
    whole = program.run(words, folder).out
    process = subprocess.Popen(
        [program.path, *words], cwd=folder, stdout=subprocess.PIPE, stderr=subprocess.PIPE
    )
    # A pipe takes 64 KiB, so the program stands in a write once some bytes are there.
    first = process.stdout.read(1)
    time.sleep(0.05)
    process.send_signal(number)
    rest = process.stdout.read()
    said = process.stderr.read()
    status, _, late = wait(process, program.patience(30))
    assert not late
    assert (status, said) == (-number, b"")
    assert len(first + rest) < len(whole)
    assert whole.startswith(first + rest)


def test_stopped_and_continued(program: Program, folder: Path) -> None:
    """A run that is stopped and goes on writes the whole report."""
    (folder / "t.bin").write_bytes(b"ab" * 20_000)
    words = ["scan", "-s", "r.yar", "t.bin"]
    whole = program.run(words, folder).out
    process = subprocess.Popen(
        [program.path, *words], cwd=folder, stdout=subprocess.PIPE, stderr=subprocess.PIPE
    )
    taken = process.stdout.read(1)
    for _ in range(20):
        process.send_signal(signal.SIGSTOP)
        process.send_signal(signal.SIGCONT)
        taken += process.stdout.read(4096)
    taken += process.stdout.read()
    said = process.stderr.read()
    status, _, late = wait(process, program.patience(30))
    assert not late
    assert (status, taken, said) == (0, whole, b"")
