"""What the tests of the backend of matplotlib share: small figures by Agg and by this backend, and things to draw."""

import importlib.util
import unittest
from typing import Any, Callable, Optional

for needed in ("numpy", "matplotlib"):
    if importlib.util.find_spec(needed) is None:
        raise unittest.SkipTest(f"the backend needs {needed}")

import numpy as np
from matplotlib.backend_bases import RendererBase
from matplotlib.backends.backend_agg import FigureCanvasAgg
from matplotlib.figure import Figure
from matplotlib.path import Path

from trirast.matplotlib import FigureCanvasTrirast, RendererTrirast

Draws = Callable[[Any], Any]
BOTH = (FigureCanvasAgg, FigureCanvasTrirast)
WHITE = [255] * 4
OUTER = [(0.1, 0.1), (0.9, 0.15), (0.8, 0.9), (0.1, 0.1)]
CLOSED = [Path.MOVETO, Path.LINETO, Path.LINETO, Path.CLOSEPOLY]
# A ring with another inside of it, and with lines behind it.
HOLE = Path(OUTER + [(0.4, 0.3), (0.5, 0.6), (0.6, 0.4), (0.4, 0.3)], CLOSED * 2)
BEHIND = Path(OUTER + [(0.2, 0.8), (0.05, 0.5)], CLOSED + [Path.LINETO, Path.LINETO])
# The pixels of the axes: 32 to 288 and 24 to 216.
INSIDE = (slice(30, 210), slice(40, 280))


def drawn(
    draw: Draws, canvas_class: Any = FigureCanvasTrirast, renderer_class: Optional[Any] = None, **more: Any
) -> Any:
    """The pixels of a figure with axes that show 0 to 1 in both directions."""
    figure = Figure(figsize=(3.2, 2.4), dpi=100, **more)
    canvas = canvas_class(figure)
    axes = figure.add_axes((0.1, 0.1, 0.8, 0.8))
    axes.set(xlim=(0, 1), ylim=(0, 1))
    draw(axes)
    if renderer_class:
        canvas.renderer, canvas._drawn_for = renderer_class(320, 240, 100), (320.0, 240.0, 100)
    canvas.draw()
    return np.array(canvas.buffer_rgba())


def differences(draw: Draws, **more: Any) -> Any:
    """The greatest difference of a channel at each pixel."""
    agg, ours = (drawn(draw, canvas, **more).astype(int) for canvas in BOTH)
    return np.abs(agg - ours).max(2)


def unlike(a: Any, b: Any) -> int:
    """How many pixels are not the same."""
    return int((a != b).any(2).sum())


class OneByOne(RendererTrirast):
    """Draws each item of a collection as a path of its own."""

    def draw_path_collection(self, *given: Any, **more: Any) -> None:
        RendererBase.draw_path_collection(self, *given, **more)


def stars(count: int, seed: int = 1, corners: int = 5) -> Any:
    """Polygons that overlap each other and themselves."""
    random = np.random.default_rng(seed)
    return random.random((count, 1, 2)) + random.uniform(-0.15, 0.15, (count, corners, 2))


def tiles(columns: int = 6, rows: int = 5) -> Any:
    """Slanted quads side by side."""
    column, row = np.meshgrid(np.arange(columns + 1) / columns, np.arange(rows + 1) / rows)
    points = np.stack((0.05 + 0.8 * column + 0.1 * row, 0.05 + 0.8 * row + 0.08 * column), 2)
    return np.stack((points[:-1, :-1], points[:-1, 1:], points[1:, 1:], points[1:, :-1]), 2).reshape(-1, 4, 2)


def twice(values: Any) -> Any:
    """The values of a collection that is not drawn as a marker, even if it has one item."""
    return np.concatenate((values, values))


def colors(count: int, alpha: float, seed: int = 2) -> Any:
    return np.append(np.random.default_rng(seed).random((count, 3)), np.full((count, 1), alpha), 1)
