"""The forms of answers, and which files have one."""

import hashlib
import json
import os
import pty
import socket
import subprocess

import pytest


def records_of(ended):
    return {r["path"]: r for r in map(json.loads, ended.stdout.splitlines())}


@pytest.fixture
def plain(words):
    return [*words, "--without-dask"]


@pytest.fixture
def tree(tmp_path):
    tree = tmp_path / "tree"
    tree.mkdir()
    (tree / "hit").write_bytes(b"--needle--needle")
    (tree / "a\n0x1:2:$n b\\c").write_bytes(b"needle")
    (tree / "none").write_bytes(b"")
    return tree


def test_digest_and_bytes(plain, run, rules, tree):
    ended = run(*plain, "--digest", "--bytes", "4", rules, "--", tree)
    assert ended.returncode == 0
    hit = records_of(ended)[f"{tree}/hit"]
    assert hit["sha256"] == hashlib.sha256(b"--needle--needle").hexdigest()
    (rule,) = hit["rules"]
    assert (rule["rule"], rule["namespace"]) == ("Needle", "default")
    assert rule["tags"] == ["odd", "tree"]
    assert rule["meta"] == [["note", "a needle"], ["n", -7]]
    assert rule["matches"] == [
        {"offset": at, "length": 6, "string": "$n", "bytes": b"need".hex()} for at in (2, 10)]


def test_report_and_table(plain, run, rules, tree):
    name = os.fsencode(tree)
    odd = name + b"/a\\x0a0x1:2:$n b\\\\c"
    ended = run(*plain, "--report", "-sgme", "--workers", "1", rules, "--", tree)
    line = b'default:Needle [odd,tree] [note="a needle",n=-7] '
    assert ended.stdout == (line + odd + b"\n0x0:6:$n\n"
                            + line + name + b"/hit\n0x2:6:$n\n0xa:6:$n\n")
    ended = run(*plain, "--table", "--workers", "1", rules, "--", tree)
    assert ended.stdout.splitlines()[1:] == [
        b"scanned              6  " + odd + b": Needle",
        b"scanned             16  " + name + b"/hit: Needle"]


def test_matched_only(plain, run, rules, tree):
    ended = run(*plain, "--matched", rules, "--", tree)
    assert f"{tree}/none" not in records_of(ended)
    assert len(records_of(ended)) == 2
    assert b"3 scanned, 2 matched" in ended.stderr


def test_files_that_are_none(plain, run, rules, tree):
    os.mkfifo(tree / "fifo")
    (tree / "sub").mkdir()
    (tree / "sub" / "up").symlink_to(tree)
    (tree / "link").symlink_to(tree / "hit")
    (tree / "nothing").symlink_to(tree / "nowhere")
    with open(tree / "large", "wb") as large:
        large.truncate(268_435_457)
    with socket.socket(socket.AF_UNIX) as listening:
        listening.bind(os.path.relpath(tree / "socket"))
    ended = run(*plain, rules, "--", tree)
    found = {k.removeprefix(f"{tree}/"): v for k, v in records_of(ended).items()}
    kinds = {k: v["kind"] for k, v in found.items() if v["answer"] == "irregular"}
    assert kinds == {"fifo": "fifo", "sub/up": "link", "link": "link", "nothing": "link",
                     "socket": "socket"}
    assert found["large"] == {"path": f"{tree}/large", "answer": "too-long", "size": 268_435_457}
    assert ended.returncode == 1
    os.unlink(tree / "large")
    ended = run(*plain, "--follow", rules, "--", tree)
    found = {k.removeprefix(f"{tree}/"): v for k, v in records_of(ended).items()}
    kinds = {k: v["kind"] for k, v in found.items() if v["answer"] == "irregular"}
    assert kinds == {"fifo": "fifo", "sub/up": "link into a folder that it lies in",
                     "nothing": "link to nothing", "socket": "socket"}
    assert len(found["link"]["rules"][0]["matches"]) == 2
    assert ended.returncode == 0


def test_named_files_that_are_none(plain, run, rules, tree):
    os.mkfifo(tree / "fifo")
    ended = run(*plain, rules, "--", tree / "fifo", tree / "gone", tree / "hit", tree)
    found = records_of(ended)
    assert ended.returncode == 1
    assert found[f"{tree}/fifo"]["answer"] == "unreadable"
    assert found[f"{tree}/gone"]["answer"] == "unreadable"
    assert len(ended.stdout.splitlines()) == len(found) == 5


@pytest.mark.parametrize("end", [b"", b"\0"])
def test_list_of_names(plain, run, rules, tree, tmp_path, end):
    names = [os.fsencode(path) for path in (tree / "hit", tree / "a\n0x1:2:$n b\\c", tree / "hit")]
    listed = b"\0".join(names) + end
    (tmp_path / "list").write_bytes(listed)
    ended = run(*plain, "--files0-from", tmp_path / "list", rules)
    assert ended.returncode == 0, ended.stderr
    assert sorted(records_of(ended)) == sorted(map(os.fsdecode, set(names)))
    assert len(ended.stdout.splitlines()) == 2
    piped = subprocess.run([*plain, "--files0-from", "-", rules], input=listed,
                           capture_output=True)
    assert sorted(piped.stdout.splitlines()) == sorted(ended.stdout.splitlines())
    assert run(*plain, "--files0-from", tmp_path / "gone", rules).returncode == 2


def test_externals_and_namespaces(plain, run, tmp_path, tree):
    rules = tmp_path / "r.yar"
    rules.write_text("rule a { condition: limit == 7 }")
    ended = run(*plain, "-d", "limit=7", f"one:{rules}", f"two:{rules}", "--", tree / "hit")
    (record,) = records_of(ended).values()
    assert [rule["namespace"] for rule in record["rules"]] == ["one", "two"]


def test_progress_on_a_terminal(plain, rules, tmp_path):
    tree = tmp_path / "many"
    tree.mkdir()
    for number in range(600):
        (tree / f"{number}").write_bytes(b"needle")
    ours, theirs = pty.openpty()
    fleet = subprocess.Popen([*plain, rules, "--", tree], stdout=subprocess.DEVNULL, stderr=theirs)
    os.close(theirs)
    shown = b""
    try:
        while part := os.read(ours, 65536):
            shown += part
    except OSError:
        pass  # So a terminal ends.
    os.close(ours)
    assert fleet.wait() == 0
    lines = shown.split(b"\r\x1b[K")
    assert any(b"files/s" in line and b"slowest" in line for line in lines)
    assert lines[-1].startswith(b"yara-fleet: 600 files: 600 scanned, 600 matched")


def test_columns(plain, run, rules, tree, tmp_path):
    parquet = pytest.importorskip("pyarrow.parquet")
    ended = run(*plain, "--digest", "--parquet", tmp_path / "x.parquet", rules, "--", tree)
    assert ended.returncode == 0, ended.stderr
    rows = {row["path"]: row for row in parquet.read_table(tmp_path / "x.parquet").to_pylist()}
    hit = rows[f"{tree}/hit"]
    assert (hit["rule"], hit["tags"], hit["size"]) == ("Needle", ["odd", "tree"], 16)
    assert [match["offset"] for match in hit["matches"]] == [2, 10]
    assert rows[f"{tree}/none"]["rule"] is None


def test_columns_are_refused_without_pyarrow(plain, run, rules, tree, tmp_path):
    try:
        import pyarrow  # noqa: F401
    except ImportError:
        ended = run(*plain, "--parquet", tmp_path / "x", rules, "--", tree)
        assert ended.returncode == 2
        assert b"pyarrow" in ended.stderr
    else:
        pytest.skip("pyarrow is here")
