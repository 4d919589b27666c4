"""Figures as notebooks show them: matplotlib's inline backend stays, and this one draws the picture."""

import importlib.util
import io
import os
import sys
import unittest
from typing import Any

for needed in ("numpy", "matplotlib"):
    if importlib.util.find_spec(needed) is None:
        raise unittest.SkipTest(f"the backend needs {needed}")

import numpy as np
from matplotlib.backends.backend_agg import FigureCanvasAgg
from matplotlib.figure import Figure
from matplotlib.image import imread

from .common import run
from .neighbours import COLOR

BACKEND = "module://trirast.matplotlib"
# Two lines of docs/matplotlib.md make IPython call this at each figure, and show as an image what it gives.
CELLS = """
    import base64, sys
    from IPython.core.interactiveshell import InteractiveShell
    from IPython.core.pylabtools import select_figure_formats
    from python.tests.test_matplotlib_notebooks import figure_of
    shell = InteractiveShell.instance()
    select_figure_formats(shell, {{"png"}}, bbox_inches="tight", **{more})
    shown, _metadata = shell.display_formatter.format(figure_of(), include={{"image/png"}})
    data = shown["image/png"]
    sys.stdout.buffer.write(data if isinstance(data, bytes) else base64.b64decode(data))
"""


def figure_of() -> Figure:
    """Levels of one colour at half opacity."""
    figure = Figure(figsize=(3.2, 2.4))
    FigureCanvasAgg(figure)
    axes = figure.add_axes((0.1, 0.1, 0.8, 0.8), xlim=(0, 1), ylim=(0, 1), title="levels")
    x, y = np.meshgrid(np.linspace(0, 1, 40), np.linspace(0, 1, 30))
    axes.contourf(x, y, np.sin(6 * x) * np.cos(5 * y), 12, colors=[COLOR], alpha=0.5)
    return figure


def seams_of(png: bytes) -> int:
    """The pixels well inside of the axes that have another colour than most."""
    picture = imread(io.BytesIO(png))[60:-60, 60:-60]
    counts = np.unique(picture.reshape(-1, picture.shape[2]), axis=0, return_counts=True)[1]
    return int(picture.shape[0] * picture.shape[1] - counts.max())


class Notebooks(unittest.TestCase):
    def test_figures_as_a_notebook_asks_for_them(self) -> None:
        """By the keywords of IPython's print_figure and those of docs/matplotlib.md."""
        found = []
        kinds: Any = ({"backend": BACKEND}, {})
        for more in kinds:
            figure, file = figure_of(), io.BytesIO()
            figure.canvas.print_figure(
                file, format="png", facecolor=figure.get_facecolor(), edgecolor=figure.get_edgecolor(), dpi=figure.dpi,
                bbox_inches="tight", **more,
            )
            self.assertIs(type(figure.canvas), FigureCanvasAgg)
            found.append(seams_of(file.getvalue()))
        self.assertEqual(found[0], 0)
        self.assertGreater(found[1], 100)

    @unittest.skipUnless(importlib.util.find_spec("IPython"), "needs IPython")
    def test_ipython(self) -> None:
        found = []
        for more in ({"backend": BACKEND}, {}):
            ended = run(CELLS.format(more=more), PYTHONPATH=os.pathsep.join(sys.path))
            self.assertEqual(ended.returncode, 0, ended.stderr.decode())
            found.append(seams_of(ended.stdout))
        self.assertEqual(found[0], 0)
        self.assertGreater(found[1], 100)


if __name__ == "__main__":
    unittest.main()
