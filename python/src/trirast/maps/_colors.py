"""Colours of values: by a colour map of matplotlib, by classes, or by names."""

from __future__ import annotations

from typing import Any, Optional, Sequence

import numpy as np

from .._arguments import color_of

CLASSES = ("equal", "quantiles")


def one_color(name: str, color: Any) -> Any:
    """A colour as a row of four bytes."""
    return np.array((*color_of(name, color, 3, 4), 255)[:4], np.uint8)


def breaks_of(values: Any, classes: str, count: int) -> Any:
    """The least value of each class but the first: by equal steps, or with as many values in each as can be."""
    if classes not in CLASSES:
        raise ValueError(f"classes: expected one of {', '.join(CLASSES)} or numbers that rise, got {classes!r}")
    shares = np.arange(1, count) / count
    if classes == "quantiles":
        return np.quantile(values, shares)
    low, high = values.min(), values.max()
    return low + shares * (high - low)


def colors_of(
    values: Any, cmap: Any, limits: Sequence[Optional[float]], classes: Any, count: int, missing: Any
) -> Any:
    """Rows of four bytes for values, which may be numbers or names. What is no number has the colour `missing`."""
    array = np.asarray(values)
    if array.dtype.kind not in "iufb":
        return named_colors(array, cmap, missing)
    numbers = array.astype(np.float64)
    known = np.isfinite(numbers)
    shares = np.zeros(len(numbers))
    if known.any():
        shares[known] = shares_of(numbers[known], limits, classes, count)
    found = map_of(cmap)(shares, bytes=True)
    found[~known] = one_color("missing", missing)
    return found


def shares_of(numbers: Any, limits: Sequence[Optional[float]], classes: Any, count: int) -> Any:
    """The place of each number in a colour map, of 0 to 1."""
    if classes is not None:
        breaks = breaks_of(numbers, classes, count) if isinstance(classes, str) else np.asarray(classes, np.float64)
        if (np.diff(breaks) < 0).any():
            raise ValueError(f"classes: expected numbers that rise, got {classes}")
        return np.searchsorted(breaks, numbers, "right") / max(len(breaks), 1)
    low, high = (each if each is not None else end for each, end in zip(limits, (numbers.min(), numbers.max())))
    return np.clip((numbers - low) / (high - low), 0, 1) if high > low else np.zeros(len(numbers))


def named_colors(values: Any, cmap: Any, missing: Any) -> Any:
    """Colours of names, each of which has the next one of the map, in the order of the alphabet."""
    texts = [None if each is None or each != each else str(each) for each in values.tolist()]
    names = sorted({each for each in texts if each is not None})
    colors = map_of(cmap)
    is_listed = getattr(colors, "N", 256) < 256
    each = {name: n if is_listed else n / max(len(names) - 1, 1) for n, name in enumerate(names)}
    if is_listed:
        each = {name: n % colors.N for name, n in each.items()}
    nothing = one_color("missing", missing)
    rows = [nothing if text is None else colors(each[text], bytes=True) for text in texts]
    return np.array(rows, np.uint8).reshape(-1, 4)


def map_of(cmap: Any) -> Any:
    """A colour map of matplotlib, by its name, or what is called as one is."""
    if callable(cmap):
        return cmap
    try:
        import matplotlib
    except ImportError as error:
        raise ImportError(
            f"cmap: expected matplotlib, or a function from values of 0 to 1 to rows of four bytes, got {error}; "
            "install python3-matplotlib"
        ) from error
    try:
        return matplotlib.colormaps[cmap]
    except KeyError as error:
        wanted = "the name of a colour map of matplotlib, as 'viridis'"
        raise ValueError(f"cmap: expected {wanted}, got {cmap!r}") from error
