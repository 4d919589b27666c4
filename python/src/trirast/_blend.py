"""What a new colour does to the stored one, as Direct3D 11 blends."""

from typing import Any, Dict, Literal, NamedTuple, Tuple, Union

from ._arguments import chosen, color_of, shown
from ._declarations import CBlend
from ._numbers import FACTORS, OPERATIONS, Factor, Operation

Preset = Literal["none", "over", "premultiplied", "add", "multiply", "keep"]


class Blend(NamedTuple):
    """How a draw blends: an equation for red, green and blue, one for alpha, and a constant colour.

    `color_source` is the factor of the new colour, `color_stored` that of the stored one, and `color_operation` what is
    made of the two products; the same for alpha. A factor is a number of 255ths, and the result is rounded to the
    nearest integer and clamped to 0 to 255: docs/canvas.md has the rule. "min" and "max" take no factors. `constant` is
    red, green, blue and alpha of "constant" and "inverse_constant", 0 to 255 each. A canvas without alpha has 255
    there. As it is made without values, the new colour replaces the stored one. `BLENDS` has those with names.
    """

    color_source: Factor = "one"
    color_stored: Factor = "zero"
    color_operation: Operation = "add"
    alpha_source: Factor = "one"
    alpha_stored: Factor = "zero"
    alpha_operation: Operation = "add"
    constant: Tuple[int, int, int, int] = (0, 0, 0, 0)


# The blends with names.
BLENDS: Dict[str, Blend] = {
    "none": Blend(),
    "over": Blend("source_alpha", "inverse_source_alpha", "add", "one", "inverse_source_alpha"),
    "premultiplied": Blend("one", "inverse_source_alpha", "add", "one", "inverse_source_alpha"),
    "add": Blend("source_alpha", "one", "add", "one", "one"),
    "multiply": Blend("stored_color", "zero", "add", "stored_color", "zero"),
    "keep": Blend("zero", "one", "add", "zero", "one"),
}
KNOWN_NUMBERS = (FACTORS, FACTORS, OPERATIONS)


def blend_in_c(blend: Union[Preset, Blend]) -> CBlend:
    """A blend, or the one of a name, as C has it. Raises ValueError at any other, and TypeError at what is neither."""
    if isinstance(blend, Blend):
        return numbered(blend)
    if not isinstance(blend, str):
        raise TypeError(f"blend: expected a name or a trirast.Blend, got {shown(blend)}")
    return numbered(chosen("blend", BLENDS, blend))


def numbered(blend: Blend) -> CBlend:
    """The numbers of a blend."""
    numbers: Dict[str, Any] = {}
    for (name, value), known in zip(zip(Blend._fields, blend[:6]), 2 * KNOWN_NUMBERS):
        numbers[name] = chosen(f"blend.{name}", known, value)
    return CBlend(**numbers, constant=color_of("blend.constant", blend.constant, 4))
