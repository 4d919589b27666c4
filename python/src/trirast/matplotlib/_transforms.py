"""Transforms in rows: xx, yx, xy, yy, x0, y0, so that x' = xx x + xy y + x0 and y' = yx x + yy y + y0.

All is computed in Agg's order, so that positions are the same numbers, and what is snapped falls to the same pixel.
"""

from __future__ import annotations

from typing import Any

import numpy as np

# Its functions have no types.
ma: Any = np.ma


def affine(matrix: Any) -> Any:
    """The transform of a 3 by 3 matrix, or of several."""
    matrix = np.asarray(matrix, np.float64)
    return np.stack([matrix[..., row, column] for column in range(3) for row in range(2)], -1)


def after(first: Any, then: Any) -> Any:
    """The transform that is one and then another."""
    xx, yx, xy, yy, x0, y0 = np.moveaxis(first, -1, 0)
    a, b, c, d, e, f = np.moveaxis(then, -1, 0)
    return np.stack(
        (xx * a + yx * c, xx * b + yx * d, xy * a + yy * c, xy * b + yy * d, x0 * a + y0 * c + e, x0 * b + y0 * d + f),
        -1,
    )


def applied(transform: Any, points: Any) -> Any:
    """Points transformed: each by its own, or all by one."""
    x, y = points[..., 0], points[..., 1]
    if transform.ndim == 1:
        xx, yx, xy, yy, x0, y0 = transform.tolist()
        found = np.empty(points.shape)
    else:
        xx, yx, xy, yy, x0, y0 = np.moveaxis(transform, -1, 0)
        found = np.empty(np.broadcast(x, xx).shape + (2,))
    with np.errstate(invalid="ignore", over="ignore"):
        np.multiply(x, xx, out=found[..., 0])
        np.multiply(y, yy, out=found[..., 1])
        # Else, where one coordinate is no number, the other is not looked at.
        if np.any(xy) or np.any(yx):
            found[..., 0] += y * xy
            np.add(x * yx, found[..., 1], out=found[..., 1])
        found[..., 0] += x0
        found[..., 1] += y0
    return found


def downwards(transform: Any, height: int) -> Any:
    """The transform with y downwards from the top of a picture of this height."""
    found = np.array(transform, np.float64)
    found[..., [1, 3, 5]] *= -1
    found[..., 5] += height
    return found


def matrix_of(transform: Any) -> Any:
    xx, yx, xy, yy, x0, y0 = transform
    return np.array(((xx, xy, x0), (yx, yy, y0), (0.0, 0.0, 1.0)))


def placed(master_transform: Any, transforms: Any, offsets: Any, offset_transform: Any, count: int, height: int) -> Any:
    """The transforms of a collection's items, y downwards: one for each, or one for all."""
    if not len(transforms) and len(offsets) <= 1:
        return placed_once(master_transform, offsets, offset_transform, height)
    found = affine(master_transform.get_matrix())[None]
    if len(transforms):
        found = after(affine(np.asarray(transforms)), found)
    if len(offsets):
        moved = applied(affine(offset_transform.get_matrix()), unmasked(offsets))
        if max(len(found), len(moved)) > 1:
            found, moved = cycled(found, count), cycled(moved, count)
        found[:, 4:] += moved
    elif len(found) > 1:
        found = cycled(found, count)
    return downwards(found, height)


def placed_once(master_transform: Any, offsets: Any, offset_transform: Any, height: int) -> Any:
    """The one transform of items that have at most one offset: the same numbers, without arrays, which take longer."""
    (xx, xy, x0), (yx, yy, y0), _row = master_transform.get_matrix().tolist()
    for x, y in unmasked(offsets).tolist():
        (a, c, e), (b, d, f), _row = offset_transform.get_matrix().tolist()
        left, down = x * a, y * d
        if c or b:
            left, down = left + y * c, x * b + down
        x0, y0 = x0 + (left + e), y0 + (down + f)
    return np.array(((xx, -yx, xy, -yy, x0, -y0 + height),))


def unmasked(values: Any) -> Any:
    """Numbers, of which masked ones are none."""
    return (
        ma.filled(ma.asarray(values, np.float64), np.nan)
        if ma.isMaskedArray(values) else np.asarray(values, np.float64)
    )


def cycled(values: Any, count: int) -> Any:
    """The values, again and again, as a collection takes them; none if there is none."""
    values = np.asarray(values)
    if not len(values) or len(values) == count:
        return values.copy()
    return np.repeat(values, count, 0) if len(values) == 1 else values[np.arange(count) % len(values)]
