"""Strips and quads, with every tile size and several numbers of workers."""

from __future__ import annotations

import pytest

from tests.program.lists import BLACK, CORNER
from tests.program.program import check_always_written, check_refused, colour_file

# Pixels (0, 0), (1, 0), (0, 1) and (1, 1) in white.
SQUARE = "FFFFFF FFFFFF 000000  FFFFFF FFFFFF 000000  000000 000000 000000"

# The same in half white: each is drawn over black exactly once.
GREY_SQUARE = "808080 808080 000000  808080 808080 000000  000000 000000 000000"


def over_a_square(keys: str, alpha: int = 255) -> str:
    """A draw list of 3 by 3 pixels with one draw, over the corners of a square from centre to centre.

    They are its upper left, upper right, lower left and lower right corner, in white with this alpha.
    """
    white = f"0,255,255,255,{alpha}"
    vertices = f"[128,128,{white}],[640,128,{white}],[128,640,{white}],[640,640,{white}]"
    return f'{{"width":3,"height":3,"draws":[{{"vertices":[{vertices}],{keys}}}]}}'


def check(keys: str, pixels: str, alpha: int = 255) -> None:
    """Checks that one draw over the square gives these pixels, whatever the tiles and workers."""
    check_always_written(over_a_square(keys, alpha), colour_file(3, 3, pixels), workers=(1, 3, 16))


@pytest.mark.parametrize(
    ("keys", "pixels"),
    [
        ('"strip":[0,1,2,3]', SQUARE),
        ('"cull":"back","strip":[0,1,2,3]', SQUARE),
        ('"cull":"front","strip":[0,1,2,3]', BLACK),
        # The other way round.
        ('"cull":"back","strip":[1,0,3,2]', BLACK),
        ('"cull":"front","strip":[1,0,3,2]', SQUARE),
        # An odd number of triangles.
        ('"cull":"back","strip":[0,1,2]', CORNER),
        ('"cull":"front","strip":[0,1,2]', BLACK),
        ('"cull":"back","strip":[0,1,2,3,2]', SQUARE),
    ],
)
def test_keeps_the_orientation_of_a_strip(keys: str, pixels: str) -> None:
    check(keys, pixels)


@pytest.mark.parametrize("keys", ['"strip":[]', '"strip":[3]', '"strip":[0,1]'])
def test_draws_no_triangle_of_a_short_strip(keys: str) -> None:
    check(keys, BLACK)


@pytest.mark.parametrize(
    ("keys", "pixels"),
    [
        ('"strip":[0,0,1,2,2,3]', CORNER),
        ('"cull":"front","strip":[0,0,1,2,2,3]', CORNER),
        ('"cull":"back","strip":[0,0,1,2,2,3]', BLACK),
    ],
)
def test_draws_nothing_where_a_strip_repeats_an_index(keys: str, pixels: str) -> None:
    """Of these four triangles only the second has an area: its indices are 0, 2 and 1."""
    check(keys, pixels)


@pytest.mark.parametrize(
    "keys",
    [
        '"blend":"over","strip":[0,1,2,3]',
        '"blend":"over","quads":[[0,1,3,2]]',
        '"blend":"over","quads":[[1,3,2,0]]',
        '"blend":"over","quads":[[3,2,0,1]]',
        '"blend":"over","quads":[[2,0,1,3]]',
        '"blend":"over","quads":[[2,3,1,0]]',
        '"blend":"over","quads":[[0,2,3,1]]',
        '"blend":"over","quads":[[1,0,2,3]]',
        '"blend":"over","quads":[[3,1,0,2]]',
    ],
)
def test_blends_each_sample_once(keys: str) -> None:
    """No sample of the inner edge of a strip or a quad is drawn twice or left out, wherever the quad begins."""
    check(keys, GREY_SQUARE, alpha=128)


@pytest.mark.parametrize(
    ("keys", "pixels"),
    [
        ('"cull":"back","quads":[[0,1,3,2]]', SQUARE),
        ('"cull":"front","quads":[[0,1,3,2]]', BLACK),
        ('"cull":"back","quads":[[0,2,3,1]]', BLACK),
        ('"cull":"front","quads":[[0,2,3,1]]', SQUARE),
        ('"quads":[]', BLACK),
    ],
)
def test_culls_both_triangles_of_a_quad(keys: str, pixels: str) -> None:
    check(keys, pixels)


@pytest.mark.parametrize(
    "keys",
    [
        '"triangles":[],"strip":[]',
        '"triangles":[],"quads":[]',
        '"strip":[],"quads":[]',
        '"triangles":[],"strip":[],"quads":[]',
    ],
)
def test_refuses_two_lists_of_primitives(keys: str) -> None:
    check_refused(over_a_square(keys), "list fault 9 TwoLists in draw 0")


@pytest.mark.parametrize(
    "vertices",
    [
        pytest.param("[128,128,0,0,0,0,0],[640,128,0,0,0,0,0],[256,256,0,0,0,0,0],[128,640,0,0,0,0,0]", id="a dent"),
        pytest.param("[128,128,0,0,0,0,0],[640,640,0,0,0,0,0],[640,128,0,0,0,0,0],[128,640,0,0,0,0,0]", id="crossed"),
        pytest.param(
            "[128,128,0,0,0,0,0],[384,128,0,0,0,0,0],[640,128,0,0,0,0,0],[128,640,0,0,0,0,0]", id="three on one line"
        ),
        pytest.param(
            "[128,128,0,0,0,0,0],[640,128,0,0,0,0,0],[640,128,0,0,0,0,0],[128,640,0,0,0,0,0]", id="a corner twice"
        ),
    ],
)
def test_refuses_quads_that_are_not_convex(vertices: str) -> None:
    text = f'{{"width":3,"height":3,"draws":[{{"vertices":[{vertices}],"quads":[[0,1,2,3]]}}]}}'
    check_refused(text, "list fault 10 NotConvex in draw 0")
