"""What pictures alone show of a renderer: who owns an edge, where samples lie, how many subpixel bits are kept.

Each is read in the same way from the driver's pictures and from the program's, so that the two stand side by side.
"""

from __future__ import annotations

from math import log2
from typing import Callable

from conformance.comparison import colour_at, planes
from conformance.renderer import CannotAsk, Renderer
from conformance.suites.coverage import LEVER, POSITION_CELL, POSITION_SIDE, lever_list, position_list
from conformance.suites.shapes import PIXEL, PLACES, draw, flat, halves, scene


def owned_edges(renderer: Renderer) -> str:
    """The sides of an upright square, all of them through pixel centres, whose centres are drawn."""
    low, high = 2 * PIXEL + 128, 5 * PIXEL + 128
    square = [flat(points) for points in halves(low, low, high, high)]
    picture = renderer.picture(scene([draw(square)], 1, 8, 8))
    middles = (("top", 3, 2), ("right", 5, 3), ("bottom", 3, 5), ("left", 2, 3))
    return ", ".join(name for name, column, row in middles if any(colour_at(picture, 8, (column, row)))) or "none"


def last_edges(renderer: Renderer, samples: int, axis: str) -> list[int | None]:
    """For each sample index the last of the 256 places in a pixel at which a shape may begin and still draw it."""
    cells = POSITION_SIDE // POSITION_CELL
    places = [(POSITION_CELL * (n % cells) + 1, POSITION_CELL * (n // cells) + 1) for n in range(PIXEL)]
    last: list[int | None] = []
    for picture in planes(renderer, position_list(samples, axis)):
        drawn = [n for n, place in enumerate(places) if any(colour_at(picture, POSITION_SIDE, place))]
        last.append(max(drawn, default=None))
    return last


def positions(renderer: Renderer, samples: int) -> str:
    pairs = zip(last_edges(renderer, samples, "x"), last_edges(renderer, samples, "y"))
    return ", ".join(f"({x}, {y})" for x, y in pairs)


def crossing(picture: bytes, row: int) -> int:
    """The first column of a row that is drawn."""
    start = 3 * LEVER * row
    line = picture[start : start + 3 * LEVER]
    return (len(line) - len(line.lstrip(b"\0"))) // 3


def kept_positions(renderer: Renderer) -> str:
    """How many of the 256 positions in a pixel the renderer distinguishes, as a number of bits."""
    picture = renderer.picture(lever_list("y"))
    different = len({crossing(picture, row) for row in range(256)})
    return f"{round(log2(different))} ({different} of 256 positions distinguished)"


QUESTIONS = (
    ("edges through pixel centres that are drawn", owned_edges),
    ("subpixel bits that are kept", kept_positions),
    ("last left and top edge that draws the sample, in 1/256 pixel", lambda renderer: positions(renderer, 1)),
    ("the same for each of four samples", lambda renderer: positions(renderer, len(PLACES[4]))),
)


def answer(ask: Callable[[Renderer], str], renderer: Renderer) -> str:
    try:
        return ask(renderer)
    except CannotAsk as error:
        return f"cannot be asked: {error}"


def findings(program: Renderer, driver: Renderer) -> list[tuple[str, str, str]]:
    """Rows of a question, what the program's pictures show, and what the driver's show."""
    return [(question, answer(ask, program), answer(ask, driver)) for question, ask in QUESTIONS]
