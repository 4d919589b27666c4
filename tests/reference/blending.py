"""Blending on canvases by the words of its rule, in whole numbers, one channel at a time, and colours by their alpha.

Channels are 0 to 255. s is the new channel and a the new alpha, d the stored channel and e the stored alpha, which is
255 on a canvas without alpha, and k the constant's channel; in the equation of alpha s is a, and d is e. A factor is a
number of 255ths. f is s by its factor, and g is d by its factor.
"""

from __future__ import annotations

from typing import Callable, NamedTuple, Sequence

Factor = Callable[[int, int, int, int, int], int]
FACTORS: dict[str, Factor] = {
    "zero": lambda s, a, d, e, k: 0,
    "one": lambda s, a, d, e, k: 255,
    "source_color": lambda s, a, d, e, k: s,
    "inverse_source_color": lambda s, a, d, e, k: 255 - s,
    "source_alpha": lambda s, a, d, e, k: a,
    "inverse_source_alpha": lambda s, a, d, e, k: 255 - a,
    "stored_color": lambda s, a, d, e, k: d,
    "inverse_stored_color": lambda s, a, d, e, k: 255 - d,
    "stored_alpha": lambda s, a, d, e, k: e,
    "inverse_stored_alpha": lambda s, a, d, e, k: 255 - e,
    "constant": lambda s, a, d, e, k: k,
    "inverse_constant": lambda s, a, d, e, k: 255 - k,
    "source_alpha_saturated": lambda s, a, d, e, k: min(a, 255 - e),
}
# Their numbers in Direct3D 11.
FACTOR_NUMBERS = {
    "zero": 1, "one": 2, "source_color": 3, "inverse_source_color": 4, "source_alpha": 5, "inverse_source_alpha": 6,
    "stored_alpha": 7, "inverse_stored_alpha": 8, "stored_color": 9, "inverse_stored_color": 10,
    "source_alpha_saturated": 11, "constant": 14, "inverse_constant": 15,
}
# The factors that are others in the equation of alpha.
ALPHA_FACTORS: dict[str, Factor] = {"source_alpha_saturated": lambda s, a, d, e, k: 255}
# The number of alpha among the channels.
ALPHA = 3
OPERATIONS: dict[str, Callable[[int, int], int]] = {
    "add": lambda f, g: f + g, "subtract": lambda f, g: f - g, "reverse_subtract": lambda f, g: g - f,
}
# These take no factors.
ENDS: dict[str, Callable[[int, int], int]] = {"min": min, "max": max}


class Equation(NamedTuple):
    """What is made of the new and the stored colour. The equation of alpha has no effect on a canvas without alpha."""

    color_source: str = "one"
    color_stored: str = "zero"
    color_operation: str = "add"
    alpha_source: str = "one"
    alpha_stored: str = "zero"
    alpha_operation: str = "add"
    constant: Sequence[int] = (0, 0, 0, 0)


PRESETS = {
    "none": Equation(),
    "over": Equation("source_alpha", "inverse_source_alpha", "add", "one", "inverse_source_alpha"),
    "premultiplied": Equation("one", "inverse_source_alpha", "add", "one", "inverse_source_alpha"),
    "add": Equation("source_alpha", "one", "add", "one", "one"),
    "multiply": Equation("stored_color", "zero", "add", "stored_color", "zero"),
    "keep": Equation("zero", "one", "add", "zero", "one"),
}


def blended(given: str | Equation, channel: int, s: int, a: int, d: int, e: int = 255) -> int:
    """The new value of a channel, of 0 to 3 for red, green, blue and alpha, by an equation or by the one of a name."""
    equation = PRESETS[given] if isinstance(given, str) else given
    source, stored, operation = equation[3:6] if channel == ALPHA else equation[:3]
    if operation in ENDS:
        return ENDS[operation](s, d)
    factors = {**FACTORS, **ALPHA_FACTORS} if channel == ALPHA else FACTORS
    k = equation.constant[channel]
    f = s * factors[source](s, a, d, e, k)
    g = d * factors[stored](s, a, d, e, k)
    x = OPERATIONS[operation](f, g)
    # The q with 255 q <= x + 127 < 255 (q + 1).
    q = (x + 127) // 255
    return min(max(q, 0), 255)


def straight(c: int, a: int) -> int:
    """A channel that was multiplied by its alpha, divided by it."""
    if a == 0:
        return 0
    # The q with a q <= 255 c + a / 2 < a (q + 1), where a / 2 is rounded down.
    return min((255 * c + a // 2) // a, 255)


def multiplied(c: int, a: int) -> int:
    """A channel multiplied by its alpha: the q with 255 q <= c a + 127 < 255 (q + 1)."""
    return (c * a + 127) // 255
