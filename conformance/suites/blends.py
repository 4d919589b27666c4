"""Blend equations and alpha: each preset, and pairs of factors and operations that a seed chooses."""

from __future__ import annotations

import random

from conformance.blending import FACTORS, OPERATIONS, OVER, PREMULTIPLIED, PRESETS, Equation
from conformance.suites.shapes import Lists, Triangle, box_of_pixels, draw, rectangle, scene

SIDE = 64  # columns and rows of a picture
RANDOM_EQUATIONS = 58
ENDS = (0, 1, 127, 128, 254, 255)
LAYERS = 4


def any_value(rng: random.Random) -> int:
    return rng.choice((*ENDS, *(rng.getrandbits(8) for _ in ENDS)))


def any_pixel(rng: random.Random) -> tuple[tuple[int, int, int], int]:
    """A colour and an alpha."""
    red, green, blue, alpha = (any_value(rng) for _ in range(4))
    return (red, green, blue), alpha


def stripes(rng: random.Random, across: bool) -> list[Triangle]:
    """A column for each pixel of the picture's width, or a row for each of its height, each of another
    colour and alpha."""
    shapes: list[Triangle] = []
    for n in range(SIDE):
        colour, alpha = any_pixel(rng)
        box = (n, 0, n + 1, SIDE) if across else (0, n, SIDE, n + 1)
        shapes += rectangle(*box, colour, alpha=alpha)
    return shapes


def any_equation(rng: random.Random) -> Equation:
    factors = list(FACTORS.values())
    source, stored, alpha_source, alpha_stored = (rng.choice(factors) for _ in range(4))
    operation, alpha_operation = (rng.choice(list(OPERATIONS.values())) for _ in range(2))
    return Equation(
        source, stored, operation, alpha_source, alpha_stored, alpha_operation, *(any_value(rng) for _ in range(4))
    )


def name_of(equation: Equation) -> str:
    factors, operations = ({number: name for name, number in table.items()} for table in (FACTORS, OPERATIONS))

    def words(source: int, stored: int, operation: int) -> str:
        return f"{operations[operation]}: {factors[source]}, {factors[stored]}"

    return f"{words(*equation[:3])}; alpha {words(*equation[3:6])}; constant {list(equation[6:])}"


def equations(rng: random.Random, samples: int) -> Lists:
    """Columns of stored pixels, and rows of new ones that are drawn over them by an equation."""
    chosen = [*PRESETS.items(), *((name_of(one), one) for one in (any_equation(rng) for _ in range(RANDOM_EQUATIONS)))]
    for name, equation in chosen:
        draws = [draw(stripes(rng, True)), draw(stripes(rng, False), equation=list(equation))]
        yield name, scene(draws, samples, SIDE, SIDE, clear_alpha=0)


def layered_alpha(rng: random.Random, samples: int) -> Lists:
    """Layers over a picture that was cleared to nothing: what is stored as alpha meets the next layer."""
    for n in range(16):
        name, equation = (("over", OVER), ("premultiplied", PREMULTIPLIED))[n % 2]
        draws = []
        for _ in range(LAYERS):
            colour, alpha = any_pixel(rng)
            shown = colour if equation == OVER else tuple(channel * alpha // 255 for channel in colour)
            draws.append(
                draw(
                    rectangle(*box_of_pixels(rng, SIDE), (shown[0], shown[1], shown[2]), alpha=alpha),
                    equation=list(equation),
                )
            )
        yield f"{name}, {n}", scene(draws, samples, SIDE, SIDE, clear_alpha=0)
