"""Canvases of figures that draw by `RendererTrirast`: one without a window, and what those with one have of it."""

from __future__ import annotations

from contextlib import contextmanager
from typing import Any, Iterator, List, Optional, Tuple

from matplotlib.backends.backend_agg import FigureCanvasAgg

from ._inside import rasterized_by
from ._renderer import RendererTrirast
from ._report import Drawn


class DrawsByTrirast:
    """What a canvas has that draws by `RendererTrirast`. It stands before a class of Agg's."""

    _drawn_for: Optional[Tuple[float, float, float]] = None
    figure: Any

    def get_renderer(self, cleared: bool = False) -> RendererTrirast:
        """The renderer of a figure, anew if its size changed."""
        width, height = self.figure.bbox.size
        wanted = (width, height, self.figure.dpi)
        if self._drawn_for != wanted:
            self.renderer = RendererTrirast(*wanted)
            self.renderer.log.figure = self.figure
            self._drawn_for = wanted
        elif cleared:
            self.renderer.clear()
        return self.renderer

    @contextmanager
    def _switch_canvas_and_return_print_method(self, *given: Any, **named: Any) -> Iterator[Any]:
        """What PDF and SVG rasterize is drawn by this package too."""
        switched: Any = super()
        with rasterized_by(RendererTrirast), switched._switch_canvas_and_return_print_method(*given, **named) as method:
            yield method


class FigureCanvasTrirast(DrawsByTrirast, FigureCanvasAgg):
    """A figure's canvas with that renderer."""


def report(figure: Any) -> List[Drawn]:
    """Draws a figure into memory, and returns who draws the areas of its artists, and why: by trirast, by Agg, or by
    both. Lines, text and images, which Agg draws, are not listed."""
    width, height = figure.bbox.size
    renderer = RendererTrirast(width, height, figure.dpi)
    renderer.log.is_quiet = True
    figure.draw(renderer)
    return renderer.log.drawn()
