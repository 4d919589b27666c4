"""Tiles of generated lists, which bin/refused_tiles draws one after another in one tile buffer, and compares with the
picture of the reference crate. Nothing is refused here.

    python3 -m pytest tests/program/test_tiles.py
"""

from __future__ import annotations

import random
from typing import Any

import pytest

from tools.answers import drawn
from tools.draw_list import Draw, DrawList, draw, draw_list, encode, vertex
from tests.reference.generated_lists import accepted_text
from tools.places import TILES_PROGRAM, is_built

# A scissor that holds the whole picture, one that cuts through blocks, one along blocks, and one that is empty.
SCISSORS = ([0, 0, 4096, 4096], [3, 2, 11, 9], [8, 0, 16, 8], [9, 1, 9, 10])
# Five choices of two, and the scissors.
COMBINATIONS = range(32 * len(SCISSORS))
# 12 by 11 pixels, which is no multiple of a tile size, are two by two tiles of 8 pixels.
WIDTH, HEIGHT, TILES = 12, 11, 4


def combined(number: int) -> dict[str, Any]:
    """The state of a combination. Number 2 writes colour and depth of every sample."""
    has = [number >> choice & 1 == 1 for choice in range(5)]
    return {
        "depth_test": "less" if has[0] else "always",
        "depth_write": has[1],
        "write": [True, not has[2], True],
        "blend": "over" if has[3] else "none",
        "sample_mask": 6 if has[4] else 15,
        "scissor": SCISSORS[number // 32],
    }


def over_blocks(pick: random.Random, state: dict[str, Any], is_flat: bool) -> Draw:
    """A draw of a triangle that covers whole blocks and of two others; if it is flat, all vertices have one
    depth and colour."""
    places = [(-1000, -500), (5000, -500), (500, 5000)] + [
        (pick.randrange(-6000, 26_768), pick.randrange(-6000, 26_768)) for _ in "ab"
    ]
    values = [[pick.randrange(65_536), *(pick.randrange(256) for _ in "rgba")] for _ in places]
    vertices = [[x, y, *(values[0] if is_flat else own)] for (x, y), own in zip(places, values)]
    return draw(vertices, [[0, 1, 2], [0, 3, 4], [2, 4, 3]], **state)


def two_draws(pick: random.Random, number: int, is_flat: bool, **top: Any) -> DrawList:
    """A list of a draw in the state of a combination over another draw."""
    draws = over_blocks(pick, combined(2), False), over_blocks(pick, combined(number), is_flat)
    clear = {"clear": [pick.randrange(256) for _ in "rgb"], "clear_depth": pick.randrange(65_536)}
    return draw_list(WIDTH, HEIGHT, *draws, **clear, **top)


def check(text: bytes, tiles: int) -> None:
    """Checks that each tile of 8 pixels is its part of the reference's picture."""
    if not is_built(TILES_PROGRAM):
        pytest.fail(f"{TILES_PROGRAM} has to be built first, by make {TILES_PROGRAM}")
    answer = drawn(TILES_PROGRAM, text)
    assert (answer.status, answer.output) == (0, f"{tiles} tiles right, 0 wrong, 0 refused\n".encode()), text


@pytest.mark.parametrize("is_flat", [False, True])
@pytest.mark.parametrize("top", [{}, {"samples": 4}, {"samples": 4, "output": "depth"}], ids=str)
def test_draws_every_combination(is_flat: bool, top: dict[str, Any]) -> None:
    pick = random.Random(5)
    for number in COMBINATIONS:
        check(encode(two_draws(pick, number, is_flat, **top)), TILES)


def test_draws_what_each_sample_takes_by_itself() -> None:
    for number in range(200):
        text = accepted_text(2, number)
        answer = drawn(TILES_PROGRAM, text)
        right, _tiles, rest = answer.output.split(b" ", 2)
        assert (int(right) > 0, rest) == (True, b"right, 0 wrong, 0 refused\n"), text


def test_draws_at_the_end_of_the_screen() -> None:
    corners = [vertex(1_048_576, 0), vertex(1_048_576, 512), vertex(1_040_000, 512)]
    check(encode(draw_list(4096, 2, draw(corners), samples=4)), 512)


@pytest.mark.parametrize(
    ("lists", "tiles"),
    [
        (draw_list(3, 3, draw([vertex(128, 128), vertex(640, 128), vertex(128, 640)])), 1),
        (draw_list(1, 1, draw([vertex(0, 0), vertex(256, 0), vertex(0, 256)]), samples=4), 1),
        (draw_list(65, 65, draw([vertex(0, 0), vertex(16_640, 0), vertex(0, 16_640)])), 81),
    ],
    ids=["a corner", "half a pixel", "several tiles"],
)
def test_draws_what_the_program_is_expected_to_draw(lists: DrawList, tiles: int) -> None:
    """The bytes of these pictures are worked in tests/program."""
    check(encode(lists), tiles)
