"""Times figures of 600,000 Gouraud triangles by matplotlib's Agg and by trirast.matplotlib, and prints one table.

    PYTHONPATH=python/src /usr/bin/python3 -m bench.gouraud [--runs 7] [--side 400]

Needs `make library`, numpy and matplotlib. For each mesh it gives the least times of some rounds of a canvas's draw(),
by one thread: the whole figure, axes and labels too. The two take turns, so that a busy machine slows both. The ratio
is that of the processor times.
"""

from __future__ import annotations

import argparse
import time
from typing import Any, Callable

import numpy as np
from matplotlib.backends.backend_agg import FigureCanvasAgg
from matplotlib.figure import Figure
from matplotlib.tri import Triangulation

from trirast.matplotlib import FigureCanvasTrirast

from bench import report
from bench.options import add_runs

Draws = Callable[[Any, int], int]


def pcolormesh(axes: Any, side: int, **more: Any) -> int:
    """A grid of points, four triangles between each four of them. Returns the number of triangles."""
    x, y = np.meshgrid(np.linspace(0, 1, side), np.linspace(0, 1, side))
    axes.pcolormesh(x, y, np.sin(30 * x * y), shading="gouraud", **more)
    return 4 * (side - 1) ** 2


def tripcolor(axes: Any, side: int, **more: Any) -> int:
    """A mesh of as many triangles over a grid of more points that are moved at random."""
    count = int(np.sqrt(2) * (side - 1)) + 1
    x, y = np.meshgrid(np.linspace(0, 1, count), np.linspace(0, 1, count))
    moved = np.random.default_rng(1).uniform(-0.3, 0.3, (2, count, count)) / count
    corners = (np.arange(count - 1)[:, None] * count + np.arange(count - 1)).ravel()
    upper, lower = ((corners, corners + 1, corners + count), (corners + count, corners + 1, corners + count + 1))
    triangles = np.concatenate([np.stack(half, 1) for half in (upper, lower)])
    axes.tripcolor(
        Triangulation((x + moved[0]).ravel(), (y + moved[1]).ravel(), triangles), np.sin(30 * x * y).ravel(),
        shading="gouraud", **more,
    )
    return len(triangles)


MESHES: dict[str, tuple[Draws, dict[str, Any]]] = {
    "pcolormesh": (pcolormesh, {}),
    "pcolormesh, alpha 0.5": (pcolormesh, {"alpha": 0.5}),
    "tripcolor": (tripcolor, {}),
    "pcolormesh, transparent figure": (pcolormesh, {"alpha": 0.5, "facecolor": "none"}),
}


def canvas_of(canvas_class: Any, name: str, side: int) -> tuple[Any, int]:
    """A canvas with a figure of a mesh, drawn once, and the number of triangles."""
    draw, more = MESHES[name]
    given = dict(more)
    figure = Figure(figsize=(6.4, 4.8), dpi=100, facecolor=given.pop("facecolor", "white"))
    canvas = canvas_class(figure)
    axes = figure.add_subplot()
    axes.set_facecolor(figure.get_facecolor())
    count = draw(axes, side, **given)
    canvas.draw()
    return canvas, count


def seconds(canvas: Any) -> tuple[float, float]:
    """The time of one drawing, and its processor time."""
    begin, used = time.perf_counter(), time.process_time()
    canvas.draw()
    return time.perf_counter() - begin, time.process_time() - used


def row_of(name: str, side: int, rounds: int) -> str:
    """The table's row of a mesh."""
    (agg, count), (ours, _) = (canvas_of(each, name, side) for each in (FigureCanvasAgg, FigureCanvasTrirast))
    times = [(*seconds(agg), *seconds(ours)) for _ in range(rounds)]
    least = [min(each) for each in zip(*times)]
    cells = [f"{1000 * least[k]:.0f}" for k in (0, 2, 1, 3)]
    return report.row([name, f"{count:,}", *cells, f"{least[3] / least[1]:.2f}"])


def main() -> None:
    parser = argparse.ArgumentParser(description="Times Gouraud triangles in matplotlib.")
    add_runs(parser, 7, "rounds of which the least counts")
    parser.add_argument("--side", type=int, default=400, help="points of a side of the grid (default 400)")
    options = parser.parse_args()
    print(report.machine())
    print(f"Least of {options.runs} rounds, milliseconds.\n")
    report.print_head(("mesh", "triangles", "Agg", "trirast", "Agg, processor", "trirast, processor", "ratio"))
    for name in MESHES:
        print(row_of(name, options.side, options.runs), flush=True)
    report.print_end()


if __name__ == "__main__":
    main()
