"""The backend in a window of Qt: matplotlib.use("module://trirast.matplotlib.qtagg")."""

from __future__ import annotations

from typing import Any

from matplotlib.backends.backend_qt import _BackendQT
from matplotlib.backends.backend_qtagg import FigureCanvasQTAgg

from ._canvas import DrawsByTrirast

_export: Any = _BackendQT.export


class FigureCanvasQTTrirast(DrawsByTrirast, FigureCanvasQTAgg):
    """A figure's canvas in a window of Qt."""


@_export
class _BackendQTTrirast(_BackendQT):
    FigureCanvas = FigureCanvasQTTrirast
