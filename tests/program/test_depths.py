"""Pictures of depths: small ones computed by hand, drawn with all tile sizes and several numbers of workers."""

from __future__ import annotations

import pytest

from tests.program.lists import corner, draw, draw_list
from tests.program.program import check_always_written, depth_file

# Pixels (0, 0), (1, 0) and (0, 1) under depths 0, 3 and 0 at the corners: at the second centre 3 by half is 1.
CORNER = "0000 0001 FFFF  0000 FFFF FFFF  FFFF FFFF FFFF"

# The clear depth alone.
CLEAR = "FFFF FFFF FFFF  FFFF FFFF FFFF  FFFF FFFF FFFF"

WHITE = "255,255,255,255"


def check(text: str, size: tuple[int, int], pixels: str) -> None:
    """Checks that these are the depths of the list, with each tile size and several numbers of workers."""
    check_always_written(text, depth_file(*size, pixels))


@pytest.mark.parametrize(
    ("keys", "pixels"),
    [
        pytest.param(',"depth_write":true', CORNER, id="stored depths"),
        pytest.param("", CLEAR, id="the clear depth, where none is stored"),
    ],
)
def test_shows_stored_depths(keys: str, pixels: str) -> None:
    drawn = draw(f"[128,128,0,{WHITE}],[640,128,3,{WHITE}],[128,640,0,{WHITE}]", keys)
    check(draw_list(3, 3, drawn, keys=',"output":"depth"'), (3, 3), pixels)


def test_shows_the_clear_depth_of_a_list_without_draws() -> None:
    check('{"width":2,"height":1,"clear_depth":258,"output":"depth","draws":[]}', (2, 1), "0102 0102")
    check('{"width":1,"height":1,"samples":4,"output":"depth","draws":[]}', (1, 1), "FFFF")


@pytest.mark.parametrize(
    ("depth", "keys", "pixels"),
    [
        # 258 is 1 * 256 + 2: the more significant byte comes first.
        pytest.param(258, ',"depth_write":true', "0102", id="a depth that is stored"),
        pytest.param(7, "", "FFFF", id="a depth that is not stored"),
    ],
)
def test_shows_a_depth_only_if_it_is_stored(depth: int, keys: str, pixels: str) -> None:
    drawn = draw(f"[128,128,{depth},{WHITE}],[640,128,{depth},{WHITE}],[128,640,{depth},{WHITE}]", keys)
    check(draw_list(1, 1, drawn, keys=',"output":"depth"'), (1, 1), pixels)


@pytest.mark.parametrize(
    ("keys", "pixels"),
    [
        # The depth at sample 0 is 255 by 24576 over 65536, rounded down: 95.
        pytest.param(',"depth_write":true', "005F", id="the first sample"),
        pytest.param(',"depth_write":true,"sample_mask":14', "FFFF", id="none of the others"),
    ],
)
def test_shows_the_depth_of_the_first_sample(keys: str, pixels: str) -> None:
    """One pixel of four samples, with a triangle over samples 0 and 2."""
    drawn = draw(f"[0,0,0,{WHITE}],[256,0,255,{WHITE}],[0,256,0,{WHITE}]", keys)
    check(draw_list(1, 1, drawn, keys=',"samples":4,"output":"depth"'), (1, 1), pixels)


def test_writes_two_bytes_a_pixel() -> None:
    assert len(depth_file(3, 3, CORNER)) == 31
    assert len(depth_file(1, 1, "005F")) == 15
