"""Times figures with faces by matplotlib's Agg and by trirast.matplotlib, and prints one table.

    PYTHONPATH=python/src /usr/bin/python3 -m bench.faces [--runs 5] [--dpi 100] [--memory]

Needs `make library`, numpy and matplotlib. For each figure it gives the least processor times of some rounds of a
canvas's draw(), by one thread: the whole figure, axes and labels too. The two take turns, so that a busy machine slows
both, and both draw smoothly what matplotlib draws without antialiasing by default. With --memory each figure is drawn
once by each in a process of its own, and the table has the greatest memory of the process in place of times.
"""

from __future__ import annotations

import argparse
import subprocess
import sys
import time
from typing import Any, Callable, Dict

import numpy as np
from matplotlib.backends.backend_agg import FigureCanvasAgg
from matplotlib.collections import PolyCollection
from matplotlib.figure import Figure
from matplotlib.tri import Triangulation

from bench import report
from bench.options import add_runs
from python.tests.neighbours import bent_grid
from trirast.matplotlib import FigureCanvasTrirast

COLUMNS, ROWS = 400, 250
BOTH: Dict[str, Any] = {"Agg": FigureCanvasAgg, "trirast": FigureCanvasTrirast}
# The greatest memory of a process in KB, as Linux counts it.
MEMORY = "import resource; print(resource.getrusage(resource.RUSAGE_SELF).ru_maxrss)"


def quads(columns: int, rows: int) -> Any:
    points = np.stack(bent_grid(columns, rows), 2)
    return np.stack((points[:-1, :-1], points[:-1, 1:], points[1:, 1:], points[1:, :-1]), 2).reshape(-1, 4, 2)


def colors(count: int, alpha: float = 1.0) -> Any:
    return np.append(np.random.default_rng(1).random((count, 3)), np.full((count, 1), alpha), 1)


def faces(axes: Any, alpha: float = 1.0, columns: int = COLUMNS, rows: int = ROWS, **more: Any) -> None:
    axes.add_collection(PolyCollection(quads(columns, rows), facecolors=colors(columns * rows, alpha), **more))


def mesh(axes: Any) -> None:
    axes.pcolormesh(
        *bent_grid(COLUMNS, ROWS), np.random.default_rng(1).random((ROWS, COLUMNS)), antialiased=True, snap=False
    )


def triangles(axes: Any) -> None:
    x, y = np.random.default_rng(1).random((2, 50_000))
    found = Triangulation(x, y)
    axes.tripcolor(found, facecolors=np.random.default_rng(2).random(len(found.triangles)), antialiased=True)


def contours(axes: Any) -> None:
    x, y = np.meshgrid(np.linspace(0, 1, 500), np.linspace(0, 1, 500))
    axes.contourf(x, y, np.sin(20 * x) * np.cos(15 * y) + x, 30, antialiased=True)


def stack(axes: Any) -> None:
    x = np.linspace(0, 1, 2000)
    axes.stackplot(x, [(1.1 + np.sin(9 * x + n) + 0.1 * np.sin(300 * x * n)) / 60 for n in range(20)])


def bars(axes: Any, **more: Any) -> None:
    axes.bar(np.linspace(0, 1, 1000), np.random.default_rng(1).random(1000), 0.001, **more)


def dots(axes: Any) -> None:
    x, y, c = np.random.default_rng(1).random((3, 10_000))
    axes.scatter(x, y, c=c)


def lines(axes: Any) -> None:
    x = np.linspace(0, 1, 10_000)
    axes.plot(x, 0.5 + 0.4 * np.sin(40 * x), x, x)


FIGURES: Dict[str, Callable[[Any], None]] = {
    "100,000 faces": faces,
    "100,000 faces, alpha 0.5": lambda axes: faces(axes, 0.5),
    "100,000 faces with edges": lambda axes: faces(axes, edgecolors="k", linewidths=0.2),
    "1,000 faces": lambda axes: faces(axes, columns=40, rows=25),
    "300 faces with edges, alpha 0.5": lambda axes: faces(axes, 0.5, 20, 15, edgecolors="k"),
    "100,000 faces by pcolormesh": mesh,
    "100,000 faces by tripcolor": triangles,
    "30 contours of 500 x 500 values": contours,
    "stack of 20 times 2,000 points": stack,
    "1,000 bars": bars,
    "1,000 bars with edges": lambda axes: bars(axes, edgecolor="k"),
    "10,000 dots with edges": dots,
    "two lines": lines,
}


def canvas_of(canvas_class: Any, name: str, dpi: int) -> Any:
    figure = Figure(figsize=(6.4, 4.8), dpi=dpi)
    canvas = canvas_class(figure)
    axes = figure.add_subplot()
    FIGURES[name](axes)
    axes.set(xlim=(0, 1), ylim=(0, 1))
    return canvas


def row_of(name: str, dpi: int, rounds: int) -> str:
    """The table's row of times."""
    canvases = [canvas_of(each, name, dpi) for each in BOTH.values()]
    least = [float("inf")] * 2
    for _ in range(rounds):
        for n, canvas in enumerate(canvases):
            begin = time.process_time()
            canvas.draw()
            least[n] = min(least[n], time.process_time() - begin)
    return f"| {name} | {1000 * least[0]:.0f} | {1000 * least[1]:.0f} | {least[1] / least[0]:.2f} |"


def memory_row_of(name: str, dpi: int) -> str:
    """The table's row of memory, in MB."""
    found = []
    for backend in BOTH:
        program = f"from bench import faces; faces.canvas_of(faces.BOTH[{backend!r}], {name!r}, {dpi}).draw(); {MEMORY}"
        found.append(
            int(subprocess.run([sys.executable, "-c", program], check=True, stdout=subprocess.PIPE).stdout) / 1024
        )
    return f"| {name} | {found[0]:.0f} | {found[1]:.0f} | {found[1] / found[0]:.2f} |"


def main() -> None:
    parser = argparse.ArgumentParser(description="Times figures with faces in matplotlib.")
    add_runs(parser, 5, "rounds of which the least counts")
    parser.add_argument(
        "--dpi", type=int, default=100, help="pixels per inch of figures of 6.4 by 4.8 inches (default 100)"
    )
    parser.add_argument("--memory", action="store_true", help="the memory of processes in place of times")
    options = parser.parse_args()
    what = (
        "Greatest memory of a process, MB"
        if options.memory else f"Least of {options.runs} rounds, milliseconds of a processor"
    )
    print(report.machine())
    print(f"{what}; {6.4 * options.dpi:.0f} x {4.8 * options.dpi:.0f} pixels.\n")
    report.print_head(("figure", "Agg", "trirast", "ratio"))
    for name in FIGURES:
        print(
            memory_row_of(name, options.dpi) if options.memory else row_of(name, options.dpi, options.runs), flush=True
        )
    report.print_end()


if __name__ == "__main__":
    main()
