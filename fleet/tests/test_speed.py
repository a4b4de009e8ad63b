"""Time beside xargs: needs an idle machine, so it runs where --speed is given."""

import subprocess
import time

import pytest
from trees import check, make_tree

ROUNDS = 3
MOST = 1.3


@pytest.fixture
def speed(request):
    if not request.config.getoption("--speed"):
        pytest.skip("needs an idle machine: --speed")


def seconds_of(words, **more):
    began = time.monotonic()
    ended = subprocess.run(words, stdout=subprocess.PIPE, stderr=subprocess.DEVNULL, check=True,
                           **more)
    return time.monotonic() - began, ended.stdout


def test_two_workers_beside_xargs(speed, words, rules, program, tmp_path):
    """The middle ratio of three rounds, the start of Dask included."""
    # Names that the program takes as words, which those that are no UTF-8 are not.
    made = make_tree(tmp_path / "tree", 5000, [b"plain"])
    image = tmp_path / "needle.img"
    subprocess.run([program, "compile", rules, image], check=True)
    names = b"\0".join(made)
    one = ["xargs", "-0", "-n1", "-P2", program, "scan", "-C", "-sgme", image]
    ratios = []
    for _ in range(ROUNDS):
        beside, _ = seconds_of(one, input=names)
        ours, found = seconds_of([*words, image, "--", tmp_path / "tree"])
        check(found, made)
        ratios.append(ours / beside)
    print("ratios", ratios)
    assert sorted(ratios)[ROUNDS // 2] <= MOST, ratios
