"""Rules that last too long, schedulers that go away, images and words that are refused."""

import json
import subprocess
import sys
import time
from contextlib import contextmanager

import pytest
from trees import check, make_tree

SLOW = """rule Slow { condition: filesize > 100 and
 for all i in (0..2000000) : ( for all j in (0..2000000) : ( i + j >= 0 ) ) }
"""
WAIT = 120


def module(name, *words):
    return subprocess.Popen([sys.executable, "-m", f"distributed.cli.{name}", *words],
                            stdout=subprocess.DEVNULL, stderr=subprocess.DEVNULL)


def until(there, seconds=WAIT):
    end = time.monotonic() + seconds
    while not there():
        assert time.monotonic() < end
        time.sleep(0.02)


@contextmanager
def cluster(folder):
    """A scheduler and two workers that were started by hand; the scheduler and its address."""
    pytest.importorskip("distributed")
    where = folder / "scheduler.json"
    scheduler = module("dask_scheduler", "--host", "127.0.0.1", "--port", "0", "--no-dashboard",
                       "--scheduler-file", where)
    started = [scheduler]
    try:
        until(where.exists)
        started.append(module("dask_worker", "--scheduler-file", where, "--nworkers", "2",
                              "--nthreads", "1", "--no-dashboard", "--death-timeout", "5",
                              "--local-directory", folder))
        until(lambda: where.read_text().strip().endswith("}"))
        yield scheduler, json.loads(where.read_text())["address"]
    finally:
        for process in reversed(started):
            process.terminate()
        for process in started:
            try:
                process.wait(20)
            except subprocess.TimeoutExpired:
                process.kill()
                process.wait()


@pytest.mark.parametrize("more", [[], ["--without-dask"]])
def test_a_rule_times_out(words, run, tmp_path, more):
    rules, tree = tmp_path / "slow.yar", tmp_path / "tree"
    rules.write_text(SLOW)
    tree.mkdir()
    for name in ("a", "c", "d"):
        (tree / name).write_bytes(b"short")
    (tree / "b").write_bytes(b"long" * 100)
    ended = run(*words, *more, "--timeout", "2", rules, "--", tree)
    assert ended.returncode == 1
    records = [json.loads(line) for line in ended.stdout.splitlines()]
    found = {record["path"][-1]: record["answer"] for record in records}
    assert len(records) == 4
    assert found == {"a": "scanned", "b": "timed-out", "c": "scanned", "d": "scanned"}
    assert b"1 timed-out" in ended.stderr


def test_cluster_by_hand(words, run, rules, tmp_path):
    made = make_tree(tmp_path / "tree", 300)
    with cluster(tmp_path) as (_, address):
        for more in ([], ["--send"]):
            ended = run(*words, *more, "--scheduler", address, rules, "--", tmp_path / "tree")
            assert ended.returncode == 0, ended.stderr
            check(ended.stdout, made)


def test_scheduler_goes_away(words, run, rules, tmp_path):
    made = make_tree(tmp_path / "tree", 2000)
    ledger = tmp_path / "ledger"
    given = ["--resume", ledger, rules, "--", tmp_path / "tree"]
    with cluster(tmp_path) as (scheduler, address):
        fleet = subprocess.Popen([*words, "--scheduler", address, *given],
                                 stdout=subprocess.PIPE, stderr=subprocess.PIPE)
        until(lambda: ledger.exists() and ledger.read_bytes().count(b"\n") > 4)
        scheduler.kill()
        out, err = fleet.communicate(timeout=WAIT)
    assert fleet.returncode == 1
    assert b"the run is not whole; the same words go on from" in err
    known = ledger.read_bytes().splitlines(keepends=True)[1:]
    assert 4 <= len(known) < 2000
    assert b"".join(known) == out
    ended = run(*words, *given)
    assert ended.returncode == 0, ended.stderr
    assert b"%d of them from the ledger" % len(known) in ended.stderr
    check(ended.stdout, made)


def test_no_scheduler(words, run, rules, tmp_path):
    pytest.importorskip("distributed")
    ended = run(*words, "--scheduler", "tcp://127.0.0.1:1", rules, "--", tmp_path)
    assert ended.returncode == 2
    assert b"no scheduler answers" in ended.stderr


def test_image_is_refused(words, run, program, rules, tmp_path):
    image = tmp_path / "x.img"
    subprocess.run([program, "compile", rules, image], check=True)
    content = image.read_bytes()
    image.write_bytes(content[:-1])
    alone = run(program, "scan", "-C", image, rules)
    ended = run(*words, image, "--", tmp_path)
    assert (ended.returncode, alone.returncode) == (2, 3)
    assert ended.stderr == b"yara-fleet: " + alone.stderr


def test_rules_are_refused_in_the_programs_words(words, run, program, tmp_path):
    rules = tmp_path / "bad.yar"
    rules.write_text("rule a { condition: b }")
    alone = run(program, "check", rules)
    ended = run(*words, rules, "--", tmp_path)
    assert (ended.returncode, alone.returncode) == (2, 2)
    assert ended.stderr == b"yara-fleet: " + alone.stderr


@pytest.mark.parametrize("command", ["link", "certify"])
def test_commands_that_are_passed_on(words, run, program, tmp_path, command):
    alone = run(program, command, tmp_path / "x", tmp_path / "y", tmp_path / "z")
    passed = run(*words[:2], command, "--program", program,
                 tmp_path / "x", tmp_path / "y", tmp_path / "z")
    assert (passed.returncode, passed.stderr) == (alone.returncode, alone.stderr)


def test_nothing_is_imported_from_the_folder(words, rules, tmp_path):
    folder = tmp_path / "folder"
    folder.mkdir()
    for name in ("multiprocessing", "distributed", "pandas", "signal", "json"):
        (folder / f"{name}.py").write_text(f"open({str(tmp_path / 'ran')!r}, 'w')\n")
    for more in ([], ["--without-dask"]):
        ended = subprocess.run([*words, *more, rules, "--", "."], cwd=folder, capture_output=True)
        assert ended.returncode == 0, ended.stderr
        assert len(ended.stdout.splitlines()) == 5
    assert not (tmp_path / "ran").exists()
