"""Images that lie over a finished picture: labels, a legend and a scale bar."""

from __future__ import annotations

from typing import Any, Iterable, Iterator, NamedTuple, Sequence

import numpy as np


class Mark(NamedTuple):
    """An image of the shape (height, width, 4), not multiplied by its alpha, and the pixel of its upper left corner,
    which may lie outside of the picture."""

    left: int
    top: int
    image: Any


def marked(rows: Iterable[Any], marks: Sequence[Mark], top: int) -> Iterator[Any]:
    """Rows of a picture's pixels, of which the first ones begin at the row `top`, with marks over them."""
    for pixels in rows:
        for mark in marks:
            lay(pixels, mark, top)
        top += len(pixels)
        yield pixels


def lay(pixels: Any, mark: Mark, top: int) -> None:
    """Lays a mark over pixels of the shape (height, width, 3), which begin at the row `top`."""
    height, width = mark.image.shape[:2]
    first, end = max(mark.top, top), min(mark.top + height, top + len(pixels))
    left, right = max(mark.left, 0), min(mark.left + width, pixels.shape[1])
    if first >= end or left >= right:
        return
    image = mark.image[first - mark.top : end - mark.top, left - mark.left : right - mark.left].astype(np.uint16)
    place = pixels[first - top : end - top, left:right]
    alpha = image[..., 3:]
    place[...] = (alpha * image[..., :3] + (255 - alpha) * place + 127) // 255
