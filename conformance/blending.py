"""Blend equations, by the words of the rule: integers of 0 to 255, each equation rounded once, to the nearest.

A factor is a numerator over 255, and the second renderer says which. The numbers of factors and operations are Direct3D
11's. Whatever an equation reads of a stored pixel is what was stored before the draw. Rounding is a choice of this
rule: Direct3D and Vulkan leave it open.
"""

from __future__ import annotations

from functools import lru_cache
from typing import NamedTuple, Sequence

from tools.draw_list import Draw, DrawList, Vertex, triangles_of
from tests.reference import blending

PIXEL = 256
# Red, green, blue and alpha.
Pixel = tuple[int, int, int, int]


class Equation(NamedTuple):
    """How a new colour and a new alpha meet the stored ones, and the constant colour."""

    color_source: int
    color_stored: int
    color_operation: int
    alpha_source: int
    alpha_stored: int
    alpha_operation: int
    red: int = 0
    green: int = 0
    blue: int = 0
    alpha: int = 0


FACTORS = blending.FACTOR_NUMBERS
# What each factor is of colours, and of alpha.
OF_COLORS = {FACTORS[name]: rule for name, rule in blending.FACTORS.items()}
OF_ALPHA = {**OF_COLORS, **{FACTORS[name]: rule for name, rule in blending.ALPHA_FACTORS.items()}}
OPERATIONS = {"add": 1, "subtract": 2, "reverse_subtract": 3, "min": 4, "max": 5}
ADD, SUBTRACT, REVERSE_SUBTRACT, MIN, MAX = OPERATIONS.values()
NONE = Equation(2, 1, ADD, 2, 1, ADD)
OVER = Equation(5, 6, ADD, 2, 6, ADD)
PREMULTIPLIED = Equation(2, 6, ADD, 2, 6, ADD)
PRESETS = {
    "none": NONE, "over": OVER, "premultiplied": PREMULTIPLIED, "add": Equation(5, 2, ADD, 2, 2, ADD),
    "multiply": Equation(9, 1, ADD, 7, 1, ADD), "keep": Equation(1, 2, ADD, 1, 2, ADD),
}


def equation_of(draw: Draw) -> Equation:
    """The equation of a draw. One without replaces what was stored; `over` of a draw list has its own word."""
    return Equation(*draw["equation"]) if "equation" in draw else NONE


def factor(number: int, channel: int, source: Pixel, stored: Pixel, constant: Sequence[int]) -> int:
    """A factor of this channel, 3 for alpha, as a numerator over 255."""
    rules = OF_ALPHA if channel == blending.ALPHA else OF_COLORS
    return rules[number](
        source[channel], source[blending.ALPHA], stored[channel], stored[blending.ALPHA], constant[channel]
    )


def channel_of(new: int, old: int, by: int, other: int, operation: int) -> int:
    """The new value of a channel: two values, their factors, and what is made of the products."""
    if operation in (MIN, MAX):
        return min(new, old) if operation == MIN else max(new, old)
    one, two = new * by, old * other
    x = {ADD: one + two, SUBTRACT: one - two, REVERSE_SUBTRACT: two - one}[operation]
    return max(0, min(255, (x + 127) // 255))


@lru_cache(maxsize=None)
def blended(equation: Equation, source: Pixel, stored: Pixel) -> Pixel:
    """What is stored after a draw."""
    constant = equation[6:]
    made = []
    for channel in range(4):
        first, second, operation = equation[3:6] if channel == 3 else equation[:3]
        by, other = (factor(number, channel, source, stored, constant) for number in (first, second))
        made.append(channel_of(source[channel], stored[channel], by, other, operation))
    return made[0], made[1], made[2], made[3]


def box_of(vertices: Sequence[Vertex]) -> tuple[range, range]:
    """The columns and the rows of a rectangle of whole pixels, by its vertices."""
    sides = [sorted({corner[axis] for corner in vertices}) for axis in (0, 1)]
    if any(len(side) != 2 or side[0] % PIXEL or side[1] % PIXEL for side in sides):
        raise ValueError("not a rectangle of whole pixels")
    across, down = (range(side[0] // PIXEL, side[1] // PIXEL) for side in sides)
    return across, down


def pixels(scene: DrawList) -> bytes:
    """Red, green, blue and alpha of a list's pixels, row by row, one after another. Its triangles are pairs that make
    rectangles of whole pixels, each of one colour."""
    width = scene["width"]
    red, green, blue = scene.get("clear", (0, 0, 0))
    cleared: Pixel = (red, green, blue, scene.get("clear_alpha", 0))
    stored = [cleared] * (width * scene["height"])
    for draw in scene["draws"]:
        equation, triangles = equation_of(draw), triangles_of(draw)
        for first, second in zip(triangles[::2], triangles[1::2]):
            corners = [draw["vertices"][corner] for corner in (*first, *second)]
            red, green, blue, alpha = corners[0][3:]
            across, down = box_of(corners)
            for at in (width * row + column for row in down for column in across):
                stored[at] = blended(equation, (red, green, blue, alpha), stored[at])
    return bytes(channel for pixel in stored for channel in pixel)
