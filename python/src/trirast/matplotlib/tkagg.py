"""The backend in a window of Tk: matplotlib.use("module://trirast.matplotlib.tkagg")."""

from __future__ import annotations

from typing import Any

from matplotlib.backends._backend_tk import _BackendTk
from matplotlib.backends.backend_tkagg import FigureCanvasTkAgg

from ._canvas import DrawsByTrirast

_export: Any = _BackendTk.export


class FigureCanvasTkTrirast(DrawsByTrirast, FigureCanvasTkAgg):
    """A figure's canvas in a window of Tk."""


@_export
class _BackendTkTrirast(_BackendTk):
    FigureCanvas = FigureCanvasTkTrirast
