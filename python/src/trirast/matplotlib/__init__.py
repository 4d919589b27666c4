"""A matplotlib backend: Agg, except that a canvas draws filled areas and Gouraud triangles, without seams.

    import matplotlib
    matplotlib.use("module://trirast.matplotlib")

All other code stays as it is, for files and buffers of pixels. "module://trirast.matplotlib.tkagg" and
"module://trirast.matplotlib.qtagg" open windows. docs/reference/matplotlib.md says what differs from Agg.
The backend needs numpy and matplotlib 3.6 or later. Its import fails if the library is missing. A Figure() of
your own, without pyplot, needs FigureCanvasTrirast(figure). Where Agg draws areas whose seams may show, a warning says
so once for each figure; report(figure) lists who draws what, and why.

Settings hold for all figures, from their next draw on:

    RendererTrirast.samples = 16    # of a pixel: one of trirast.Canvas.SAMPLE_COUNTS. Fewer take less time and memory,
                                    # and edges have fewer steps
    RendererTrirast.smooth = True   # or False: collections and meshes whose antialiasing is off are Agg's, as contourf
                                    # is by default
    RendererTrirast.threads = 1     # 1 or more, which share the drawing, and change no pixel

Any other value is an error when a face is drawn.
"""

from .._ffi import library
from ._canvas import FigureCanvasTrirast, report
from ._renderer import RendererTrirast

__all__ = ["FigureCanvas", "FigureCanvasTrirast", "RendererTrirast", "report"]

library()

# The name by which matplotlib finds a backend's canvas.
FigureCanvas = FigureCanvasTrirast
