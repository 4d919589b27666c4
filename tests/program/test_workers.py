"""One picture with all tile sizes and numbers of workers, and workers that are there at the same time."""

from __future__ import annotations

import contextlib
import os
import subprocess
import tempfile
from collections import Counter

import pytest

from tests.program.lists import HALF, WHITE, draw, draw_list, white_before
from tests.program.program import check_always_written
from tools.places import PROGRAM


def test_draws_the_same_bytes() -> None:
    """Row j has white pixels 0 to 63 - j. The header has 13 bytes, and a row 195."""
    file = white_before(65, 65, 64)
    assert len(file) == 12_688
    check_always_written(HALF, file)


def test_draws_each_tile_row_of_each_batch() -> None:
    """700 by 600 pixels, which several workers draw in more than one batch of tile rows at each tile size.

    A triangle goes over the upper left half of 600 by 600 of them: row j has white pixels 0 to 598 - j, since the other
    centres of the half lie on the hypotenuse, a right edge.
    """
    half = draw(f"[0,0,{WHITE}],[153600,0,{WHITE}],[0,153600,{WHITE}]")
    check_always_written(draw_list(700, 600, half), white_before(700, 600, 599))


# 1024 by 1024 pixels of four samples, all of which blended triangles cover: enough work for several workers to be seen.
LABORIOUS = draw_list(
    1024,
    1024,
    draw(
        "[0,0,0,255,0,0,9],[524288,0,0,0,255,0,99],[0,524288,0,0,0,255,199]",
        ',"blend":"over"',
        ",".join(["[0,1,2]"] * 40),
    ),
    keys=',"samples":4',
)


def most_threads(workers: int) -> int:
    """The most threads that the program is seen to have at once, more than now and then, while it draws with this many
    workers. One that has ended is still listed for a moment, when the next may have begun."""
    looks: Counter[int] = Counter()
    with tempfile.TemporaryFile() as text:
        text.write(LABORIOUS.encode())
        text.seek(0)
        with subprocess.Popen([PROGRAM, "--workers", str(workers)], stdin=text, stdout=subprocess.DEVNULL) as child:
            while child.poll() is None:
                with contextlib.suppress(OSError):
                    looks[len(os.listdir(f"/proc/{child.pid}/task"))] += 1
        assert child.returncode == 0
    return max(threads for threads, seen in looks.items() if seen > sum(looks.values()) / 50)


@pytest.mark.skipif(not os.path.isdir("/proc/self/task"), reason="threads are counted by /proc")
def test_several_workers_are_there_at_once() -> None:
    """The calling thread is the only one if one worker is asked for. With four it has up to four more."""
    assert most_threads(1) == 1
    assert 2 < most_threads(4) <= 5
