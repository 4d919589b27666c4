"""Positions of floats as the integers that are drawn."""

from typing import Any, SupportsFloat

from ._arguments import of_length, real, shown
from ._buffers import buffer_of, family_of, refuse_masked
from ._records import HIGH, LOW, UNIT

# The guard band in pixels.
BAND = f"{LOW // UNIT} to {HIGH / UNIT} pixels"


def snap(xy: Any, scale: SupportsFloat = 1) -> Any:
    """Positions in 1/256 pixel, as `Canvas.draw` takes them: `scale` times x and y in doubles, times 256, rounded to
    the nearest integer, and to the even one at a half.

    `xy` has rows of x and y: an array of the shape (n, 2), or a sequence of pairs, of floats or integers.
    `scale` is the number of pixels of one unit of `xy`. Returns a numpy array of 32-bit integers, or without
    numpy a list of pairs.

    Raises ValueError at NaN, infinities and positions outside of the guard band, -32768 to 32767.99609375 pixels, and
    at another shape. Raises TypeError at what is no number. Both name the row.
    """
    factor = real("scale", scale)
    refuse_masked("xy", xy)
    try:
        import numpy
    except ImportError:
        return pairs_of(xy, factor)
    view = buffer_of(xy)
    if view is None or view.shape == (0,) or family_of(view) not in ("int", "uint", "float"):
        return numpy.array(pairs_of(xy, factor), numpy.int32).reshape(-1, 2)
    given = numpy.asarray(view)
    if given.ndim != 2 or given.shape[1] != 2:
        raise ValueError(f"xy: expected rows of x and y, got the shape {given.shape}")
    with numpy.errstate(over="ignore", invalid="ignore"):
        # A copy, which no other thread changes.
        floats = given.astype(numpy.float64)
        found = numpy.rint(UNIT * (factor * floats))
        outside = ~((found >= LOW) & (found <= HIGH))
    if outside.any():
        row = int(outside.any(axis=1).argmax())
        snapped_pair(row, floats[row].tolist(), factor)
    return found.astype(numpy.int32)


def pairs_of(rows: Any, factor: float) -> Any:
    """The same without numpy."""
    try:
        listed = rows.tolist() if isinstance(rows, memoryview) else list(rows)
    except (TypeError, NotImplementedError):
        raise TypeError(f"xy: expected rows of x and y, got {shown(rows)}") from None
    return [snapped_pair(row, pair, factor) for row, pair in enumerate(listed)]


def snapped_pair(row: int, pair: Any, factor: float) -> Any:
    """One row. Raises the error of its first number that is refused."""
    x, y = of_length(f"xy[{row}]", pair, 2)
    return snapped(f"xy[{row}].x", x, factor), snapped(f"xy[{row}].y", y, factor)


def snapped(name: str, value: Any, factor: float) -> int:
    """One number."""
    # An infinity, which a product may be, has no nearest integer.
    found = round(min(max(UNIT * (factor * real(name, value)), 2 * LOW), 2 * HIGH))
    if not LOW <= found <= HIGH:
        scaled = f" by the scale {shown(factor)}" * (factor != 1)
        raise ValueError(f"{name}: expected {BAND}, got {shown(value)}{scaled}")
    return found
