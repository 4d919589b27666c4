"""Draws triangles into the pixels of a figure: red, green, blue and alpha in bytes, not multiplied by alpha,
as Agg keeps them."""

from __future__ import annotations

from typing import Iterator, Optional

import numpy as np
from numpy.typing import NDArray

from .._box import Box
from .._canvas import Canvas
from ._colors import OPAQUE
from ._mesh import Gouraud
from ._polygons import is_near
from ._triangles import bounds_of

# A canvas of this side takes 103 MB with four samples a pixel. With more of them it has half of this side.
MAX_SIDE = 2048
# Rows of pixels that are laid over each other at once: few enough to stay in a processor's caches.
BAND = 32

Pixels = NDArray[np.uint8]
Shares = NDArray[np.float32]


def draw_triangles(
    figure: Pixels, triangles: Gouraud, clip: Box, mask: Optional[Pixels] = None, threads: int = 1, samples: int = 4
) -> None:
    """Draws triangles over a figure of the shape (height, width, 4), inside of a box of its pixels. `mask` has for each
    pixel of the figure the share that is drawn, 255 for all of it."""
    for window in windows(bounds_of(triangles.points, clip), MAX_SIDE if samples <= 4 else MAX_SIDE // 2):
        draw_window(figure, triangles, window, mask, threads, samples)


def windows(box: Box, side: int) -> Iterator[Box]:
    """The parts of a box, each for a canvas of at most this side, row after row."""
    for top in range(box.top, box.bottom, side):
        for left in range(box.left, box.right, side):
            yield Box(left, top, min(left + side, box.right), min(top + side, box.bottom))


def draw_window(
    figure: Pixels, triangles: Gouraud, window: Box, mask: Optional[Pixels], threads: int, samples: int
) -> None:
    """Draws triangles over a window of a figure."""
    place = slice(window.top, window.bottom), slice(window.left, window.right)
    below = np.ascontiguousarray(figure[place])
    shares = None if mask is None else mask[place][..., None].astype(np.float32) / 255
    has_alpha = bool((below[..., 3] != OPAQUE).any())
    x, y = window[:2]
    if not is_near(triangles.points, x, y):
        # They are cut where they are too far from this window.
        triangles, x, y = triangles.moved(-x, -y), 0, 0
    memory = np.empty(Canvas.size(window.width, window.height, samples), np.uint8)
    canvas = Canvas(window.width, window.height, samples, alpha=has_alpha, origin=(x, y), memory=memory)
    if has_alpha:
        canvas.clear(threads=threads)
    else:
        canvas.load(below, threads=threads)
    for batch in triangles.batches(x, y):
        canvas.draw(batch.vertices, batch.indices, blend="none" if batch.is_opaque else "over", threads=threads)
    above = canvas.rgba(threads=threads)
    laid = over_clear if has_alpha else over_opaque
    for first in range(0, window.height, BAND):
        some = slice(first, first + BAND)
        below[some] = laid(below[some], above[some], None if shares is None else shares[some])
    figure[place] = below


def over_opaque(below: Pixels, above: Pixels, shares: Optional[Shares]) -> Pixels:
    """An opaque picture, and the same with triangles drawn over it, by their shares."""
    if shares is None:
        return above
    old, new = below.astype(np.float32), above.astype(np.float32)
    return rounded(old + shares * (new - old))


def over_clear(below: Pixels, above: Pixels, shares: Optional[Shares]) -> Pixels:
    """A picture of which some is transparent, with triangles over it. They were drawn on nothing, so that their
    colours are multiplied by their alpha, and are laid over the picture as one layer. Where it has nothing, the
    picture's bytes stay."""
    layer = above.astype(np.float32)
    alpha = layer[..., 3] / OPAQUE
    if shares is not None:
        layer *= shares
        alpha *= shares[..., 0]
    left = (1 - alpha) * below[..., 3] / np.float32(OPAQUE)
    whole = alpha + left
    found = below * four_times(left)
    found += layer
    found /= four_times(np.maximum(whole, np.float32(1e-6)))
    np.multiply(whole, OPAQUE, out=found[..., 3])
    chosen = np.where(alpha > 0, rounded(found).view(np.uint32)[..., 0], below.view(np.uint32)[..., 0])
    return chosen.view(np.uint8).reshape(below.shape)


def four_times(values: Shares) -> Shares:
    """Of each value four: numpy takes less time for numbers of one array each than for one number of several."""
    found = np.empty((*values.shape, 4), values.dtype)
    for channel in range(4):
        found[..., channel] = values
    return found


def rounded(values: Shares) -> Pixels:
    """Numbers as bytes, in their own array."""
    values += np.float32(0.5)
    if values.min() < 0 or values.max() >= 256:
        np.clip(values, 0, 255, out=values)
    return values.astype(np.uint8)
