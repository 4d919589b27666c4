"""Colours in bytes, rounded as Agg does."""

from __future__ import annotations

from typing import Any, NamedTuple

import numpy as np

from ._inside import face_alpha
from ._transforms import cycled

OPAQUE = 255
# The width in points that matplotlib gives edges by default, and at most which those in a face's colour are left out.
OWN = 1.0


def face_bytes(gc: Any, color: Any) -> Any:
    """A face's colour in four bytes, which may be clear."""
    return [byte_of(value) for value in (*color[:3], face_alpha(gc, color))]


def byte_of(value: float) -> int:
    return int(min(max(value, 0), 1) * 255 + 0.5)


def edge_alpha(gc: Any) -> float:
    color = gc.get_rgb()
    alpha: float = color[3] if len(color) > 3 else 1.0
    return alpha


def is_own_edge(gc: Any, face: Any) -> bool:
    """Whether a thin edge has the colour of a translucent face, in bytes: it would show as a darker line."""
    if face[3] == OPAQUE or gc.get_linewidth() > OWN:
        return False
    return [byte_of(value) for value in (*gc.get_rgb()[:3], edge_alpha(gc))] == list(face)


def color_bytes(colors: Any) -> Any:
    """Rows of red, green, blue and alpha of 0 to 1 in bytes."""
    rows = rows_of_colors(colors)
    if not np.isfinite(rows.sum()):
        rows = np.nan_to_num(rows, posinf=1.0, neginf=0.0)
    return bytes_of(rows)


def bytes_of(colors: Any) -> Any:
    """Numbers of 0 to 1 in bytes."""
    scaled = np.multiply(colors, 255.0)
    # It takes less time to see that all are in range than to put them there.
    if scaled.size and (scaled.min() < 0 or scaled.max() > 255):
        np.clip(scaled, 0, 255, out=scaled)
    scaled += 0.5
    return scaled.astype(np.uint8)


def as_agg_blends(colors: Any, ground: Any) -> Any:
    """Colours that a canvas, which rounds to the nearest, lays over an opaque ground with the bytes that Agg, which
    rounds down (`fixed_blender_rgba_plain`), makes of the given ones there. Each is as near to the given one as can be,
    or is that itself where there is none."""
    color, alpha = colors[:, :3].astype(np.int32), colors[:, 3:].astype(np.int32)
    below = ground[:3].astype(np.int32)
    wanted = (256 * alpha * color + OPAQUE * (256 - alpha) * below) // (256 * OPAQUE + alpha)
    is_laid = (alpha > 0) & (alpha < OPAQUE)
    found = colors.copy()
    # Where a face without light is too light, it covers the ground by one more. The given alpha wins, if it can.
    for covering in (np.minimum(alpha + 1, OPAQUE), np.maximum(alpha, 1)):
        rest = OPAQUE * wanted - (OPAQUE - covering) * below
        # What times `covering` is within 127 of the rest, so that it is rounded to what is wanted.
        low, high = np.maximum(-((127 - rest) // covering), 0), np.minimum((rest + 127) // covering, OPAQUE)
        fits = is_laid & (low <= high).all(1, keepdims=True)
        np.copyto(found[:, :3], np.clip(color, low, high), where=fits, casting="unsafe")
        np.copyto(found[:, 3:], covering, where=fits, casting="unsafe")
    return found


def rows_of_colors(colors: Any) -> Any:
    return np.asarray(colors, np.float64).reshape(-1, 4)


class Edges(NamedTuple):
    """The edge of each item: its width in points, its colour in bytes, and whether it is seen."""

    widths: Any
    colors: Any
    seen: Any

    def are_own(self, faces: Any) -> Any:
        """Which items have a thin translucent edge in the colour of their face: it would show as a darker line."""
        return self.seen & (self.widths <= OWN) & (faces[:, 3] < OPAQUE) & (self.colors == faces).all(1)


def edges_of(edgecolors: Any, linewidths: Any, count: int) -> Edges:
    """The edges of as many items, of colours and widths that are taken again and again."""
    if not len(edgecolors):
        return Edges(np.zeros(count), np.zeros((count, 4), np.uint8), np.zeros(count, bool))
    widths = cycled(np.asarray(linewidths, np.float64) if len(linewidths) else np.ones(1), count)
    colors = cycled(color_bytes(edgecolors), count)
    return Edges(widths, colors, (widths != 0) & (colors[:, 3] > 0))
