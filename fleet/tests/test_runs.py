"""Whole runs: each file is answered exactly once, whatever happens."""

import json
import os
import random
import subprocess
import time

import pytest
from trees import check, make_tree

from tegwolish_fleet import answers, report



def test_report_is_read_strictly():
    line = b'x:a [t,u] [note="a\\"b\\x01",n=-7,f=true] /dev/fd/3\n0x2:2:$a\n'
    rules = report.parse(line, b"/dev/fd/3")
    assert rules[0]["meta"] == [["note", 'a"b\x01'], ["n", -7], ["f", True]]
    assert rules[0]["matches"] == [{"offset": 2, "length": 2, "string": "$a"}]
    assert b"".join(report.write(rules, b"t.bin", "sgme")) == line.replace(b"/dev/fd/3", b"t.bin")
    for bad in (line[:-1], b"0x2:2:$a\n", b"x:a [] [] other\n", b"x:a [] /dev/fd/3\n"):
        with pytest.raises(report.NotAReport):
            report.parse(bad, b"/dev/fd/3")


@pytest.mark.parametrize("more", [[], ["--without-dask"], ["--send"]])
def test_odd_names(words, run, rules, tmp_path, more):
    made = make_tree(tmp_path / "tree", 2000)
    ended = run(*words, *more, rules, "--", tmp_path / "tree")
    assert ended.returncode == 0, ended.stderr
    check(ended.stdout, made)


def test_as_one_run_a_file(words, run, rules, tmp_path, program):
    make_tree(tmp_path / "tree", 2000)
    image = tmp_path / "needle.img"
    subprocess.run([program, "compile", rules, image], check=True)
    ended = run(*words, image, "--", tmp_path / "tree")
    assert ended.returncode == 0, ended.stderr
    records = [json.loads(line) for line in ended.stdout.splitlines()]
    assert len(records) == 2000
    for record in records:
        with open(answers.name_of(record), "rb") as file:
            one = subprocess.run([program, "scan", "-C", "-sgme", image, "/dev/fd/0"], stdin=file,
                                 capture_output=True, check=True)
        assert report.parse(one.stdout, b"/dev/fd/0") == record["rules"]


def test_workers_are_killed(words, rules, tmp_path):
    psutil = pytest.importorskip("psutil")
    made = make_tree(tmp_path / "tree", 2000)
    with open(tmp_path / "out", "wb") as out:
        fleet = subprocess.Popen([*words, "--retries", "100", rules, "--", tmp_path / "tree"],
                                 stdout=out, stderr=subprocess.PIPE)
        drawn, killed = random.Random(36), 0
        while fleet.poll() is None and killed < 6:
            time.sleep(0.4)
            below = [c for c in psutil.Process(fleet.pid).children()
                     if any("forkserver" in word for word in c.cmdline())]
            workers = [w for server in below for w in server.children()]
            if workers:
                os.kill(drawn.choice(workers).pid, 9)
                killed += 1
        try:
            fleet.communicate(timeout=120)
        except subprocess.TimeoutExpired:
            for below in psutil.Process(fleet.pid).children(recursive=True):
                below.kill()
            fleet.kill()
            fleet.communicate()
            pytest.xfail("the run can wait for ever where workers die while they start")
    assert killed >= 1
    assert fleet.returncode == 0
    check((tmp_path / "out").read_bytes(), made)


def test_resume_after_cuts(words, run, rules, tmp_path):
    made = make_tree(tmp_path / "tree", 200)
    ledger = tmp_path / "ledger"
    given = [*words, "--without-dask", "--resume", ledger, rules, "--", tmp_path / "tree"]
    assert run(*given).returncode == 0
    whole = ledger.read_bytes()
    drawn = random.Random(36)
    for cut in [0, 10] + [drawn.randrange(len(whole)) for _ in range(10)]:
        ledger.write_bytes(whole[:cut])
        ended = run(*given)
        assert ended.returncode == 0, ended.stderr
        check(ended.stdout, made)
        check(b"\n".join(ledger.read_bytes().splitlines()[1:]), made)


def test_words_and_rules_refused(words, run, rules, tmp_path):
    assert run(*words, rules).returncode == 2
    assert run(*words, tmp_path / "none.yar", "--", tmp_path).returncode == 2
    assert run(*words, rules, "--", tmp_path / "none").returncode == 1


def test_full_disk_under_the_ledger(words, run, rules, tmp_path):
    disk = tmp_path / "disk"
    disk.mkdir()
    mounted = subprocess.run(["mount", "-t", "tmpfs", "-o", "size=64k", "none", disk])
    if mounted.returncode != 0:
        pytest.skip("no small disk may be mounted here")
    made = make_tree(tmp_path / "tree", 2000)
    given = [*words, "--resume", disk / "ledger", rules, "--", tmp_path / "tree"]
    try:
        ended = run(*given)
        assert ended.returncode == 1
        assert b"cannot write the ledger: No space left" in ended.stderr
        lines = (disk / "ledger").read_bytes().splitlines(keepends=True)
        assert b"".join(lines[1:]) == ended.stdout
        subprocess.run(["mount", "-o", "remount,size=4m", disk], check=True)
        ended = run(*given)
        assert ended.returncode == 0
        check(ended.stdout, made)
    finally:
        subprocess.run(["umount", disk])
