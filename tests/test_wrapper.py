"""What ./yara and the installed command add to the program: help, a version, and a last line."""

from __future__ import annotations

import os
import pty
import signal
import subprocess
import time
from pathlib import Path

import pytest

from support.checkout import Checkout

pytest_plugins = ["support.fixtures"]


@pytest.fixture(scope="module")
def commands(
    whole_checkout: Checkout, tmp_path_factory: pytest.TempPathFactory
) -> tuple[Path, Path]:
    """The script of the checkout, and the installed command."""
    prefix = tmp_path_factory.mktemp("prefix")
    assert whole_checkout.run("./install", prefix).returncode == 0
    return whole_checkout.top / "yara", prefix / "bin" / "yara"


@pytest.fixture(params=[0, 1], ids=["./yara", "installed"])
def command(request: pytest.FixtureRequest, commands: tuple[Path, Path]) -> Path:
    """Each of them."""
    return commands[request.param]


def ask(command: Path, *words: str) -> tuple[int, str, str]:
    """Runs the command with pipes for its outputs."""
    answer = subprocess.run(
        [command, *words], stdin=subprocess.DEVNULL, capture_output=True, text=True, check=False
    )
    return answer.returncode, answer.stdout, answer.stderr


@pytest.mark.parametrize("words", [["--help"], ["-h"], ["help"]])
def test_help(command: Path, words: list[str]) -> None:
    status, out, err = ask(command, *words)
    assert (status, err) == (0, "")
    for form in ("scan [-s]", "scan -C", "compile RULES..", "check RULES..", "work NUMBER"):
        assert f"  yara {form}" in out


@pytest.mark.parametrize("name", ["scan", "compile", "check", "work"])
@pytest.mark.parametrize("words", [["help", "{}"], ["--help", "{}"], ["{}", "--help"]])
def test_help_on_a_command(command: Path, name: str, words: list[str]) -> None:
    status, out, _ = ask(command, *[word.format(name) for word in words])
    assert status == 0 and out.startswith(f"yara {name} ")


def test_no_help_on_other_words(command: Path) -> None:
    status, out, err = ask(command, "help", "sweep")
    assert (status, out) == (1, "") and "there is no help on sweep" in err


@pytest.mark.parametrize("word", ["--version", "-v", "version"])
def test_version(command: Path, word: str) -> None:
    status, out, _ = ask(command, word)
    lines = out.splitlines()
    assert status == 0 and len(lines) == 3
    assert lines[0].startswith("Tegwolish ")
    assert lines[1] == "proved with kit of the tests"
    assert lines[2].startswith("sources sha256 ") and len(lines[2].split()[-1]) == 64


def test_a_pipe_gets_what_the_program_writes(command: Path) -> None:
    assert ask(command, "scan") == (1, "", "bad command line\n")
    assert ask(command) == (1, "", "bad command line\n")


END = b"<end>"


class Terminal:
    """A command whose messages go to a terminal."""

    def __init__(self, *words: str | Path, **how) -> None:
        self.ours, self.theirs = pty.openpty()
        self.process = subprocess.Popen(words, stdout=subprocess.PIPE, stderr=self.theirs, **how)

    def end(self) -> tuple[int, str, str]:
        """Waits for the end, and gives status, output and messages."""
        out, _ = self.process.communicate(timeout=60)
        os.write(self.theirs, END)
        told = b""
        while not told.endswith(END):
            told += os.read(self.ours, 4096)
        os.close(self.ours)
        os.close(self.theirs)
        text = told.removesuffix(END).decode().replace("\r\n", "\n")
        return self.process.returncode, out.decode(), text


@pytest.mark.parametrize(
    ("words", "form"),
    [
        (["scan"], "yara scan [-s]"),
        (["scan", "-x", "r.yar", "t"], "yara scan [-s]"),
        (["scan", "-sC", "r.img"], "yara scan -C"),
        (["scan", "--", "-C"], "yara scan [-s]"),
        (["compile", "r.yar"], "yara compile RULES.. OUTPUT"),
        (["check"], "yara check RULES.."),
        (["work", "1", "2k"], "yara work NUMBER SIZE"),
        (["sweep", "x"], "yara scan | compile | check | work"),
        ([], "yara scan | compile | check | work"),
    ],
)
def test_a_terminal_gets_the_form_that_was_meant(
    command: Path, words: list[str], form: str
) -> None:
    status, out, told = Terminal(command, *words).end()
    assert (status, out) == (1, "")
    first, last = told.splitlines()
    assert first == "bad command line" and last.startswith(f"usage: {form}")


def test_a_terminal_gets_nothing_more_for_other_statuses(command: Path) -> None:
    status, out, told = Terminal(command, "check", "/nothing.yar").end()
    assert (status, out, told.strip()) == (4, "", "cannot read /nothing.yar")
    status, out, told = Terminal(command, "work", "1", "1").end()
    assert status == 0 and out.startswith("rules ") and told == ""


def test_input_is_handed_on(command: Path, tmp_path: Path) -> None:
    rules = tmp_path / "in.yar"
    rules.write_text("rule a { condition: true }")
    with rules.open() as text:
        status, out, _ = Terminal(command, "check", "/dev/stdin", stdin=text).end()
    assert (status, out) == (0, "rules 1, strings 0\n")


def test_input_may_be_closed(command: Path, tmp_path: Path) -> None:
    rules = tmp_path / "in.yar"
    rules.write_text("rule a { condition: true }")
    closing = ["sh", "-c", 'exec "$0" "$@" <&-']
    status, out, _ = Terminal(*closing, command, "check", rules).end()
    assert (status, out) == (0, "rules 1, strings 0\n")


@pytest.fixture
def blocked(tmp_path: Path) -> list[str]:
    """Words that the program waits with: the file is a pipe that nobody writes to."""
    pipe = tmp_path / "pipe.yar"
    os.mkfifo(pipe)
    return ["check", str(pipe)]


def children(process: int) -> list[int]:
    """The processes below one."""
    return [int(it) for it in Path(f"/proc/{process}/task/{process}/children").read_text().split()]


def runs_program(process: int) -> bool:
    """Whether the process has become the program."""
    try:
        return Path(f"/proc/{process}/exe").readlink().name in ("yara", "yara-x86_64-linux")
    except OSError:
        return False


def wait_until(holds) -> None:
    """Waits for a moment, ten seconds at most."""
    for _ in range(1000):
        if holds():
            return
        time.sleep(0.01)
    raise AssertionError("it did not come to that")


def test_a_script_becomes_the_program(command: Path, blocked: list[str]) -> None:
    process = subprocess.Popen([command, *blocked], stderr=subprocess.DEVNULL)
    wait_until(lambda: runs_program(process.pid))
    process.terminate()
    assert process.wait(10) == -signal.SIGTERM


@pytest.mark.parametrize(
    "number", [signal.SIGHUP, signal.SIGINT, signal.SIGQUIT, signal.SIGTERM, signal.SIGUSR1]
)
def test_signals_reach_the_program(command: Path, blocked: list[str], number: int) -> None:
    ran = Terminal(command, *blocked)
    wait_until(lambda: any(runs_program(it) for it in children(ran.process.pid)))
    (child,) = children(ran.process.pid)
    ran.process.send_signal(number)
    status, out, _ = ran.end()
    assert (status, out) == (-number, "")
    assert not Path(f"/proc/{child}").exists()


@pytest.mark.parametrize("number", [signal.SIGINT, signal.SIGTERM])
def test_signals_reach_a_program_that_has_just_begun(
    command: Path, blocked: list[str], number: int
) -> None:
    for moment in range(20):
        ran = Terminal("sh", "-c", 'exec sh "$0" "$@"', command, *blocked)
        time.sleep(0.02 + moment / 1000)
        ran.process.send_signal(number)
        assert ran.end()[:2] == (-number, "")


def test_ignored_signals_stay_ignored(command: Path, blocked: list[str]) -> None:
    ran = Terminal("sh", "-c", 'trap "" INT; exec "$0" "$@"', command, *blocked)
    wait_until(lambda: any(runs_program(it) for it in children(ran.process.pid)))
    for process in (*children(ran.process.pid), ran.process.pid):
        os.kill(process, signal.SIGINT)
    Path(blocked[1]).write_text("rule a { condition: true }")
    assert ran.end() == (0, "rules 1, strings 0\n", "")
