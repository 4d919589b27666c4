"""Draws figures of matplotlib's clients by Agg and by trirast.matplotlib, and prints one table.

    PYTHONPATH=python/src /usr/bin/python3 -m bench.clients [--runs 5] [--dpi 100] [--only WORD ..]

Needs `make library`, numpy and matplotlib; geopandas, cartopy, xarray and seaborn too, as Debian has them. It
names those that are missing, and leaves their figures out. Times are the least CPU times of some runs of a canvas's
draw() by one thread. The two backends take turns, so that a busy machine slows both. "Differ" counts the pixels that
are not the same. "Seams" are those of figures whose areas can have one colour: pixels inside of all areas, at an alpha
of 0.5, that have another colour than most.
"""

from __future__ import annotations

import argparse
import importlib.util
import time
import warnings
from typing import Any, Callable, Dict, NamedTuple, Optional, Tuple

import numpy as np
from matplotlib import pyplot as plt
from matplotlib.backends.backend_agg import FigureCanvasAgg
from matplotlib.collections import PolyCollection
from matplotlib.figure import Figure

from bench import report
from bench.options import add_runs
from python.tests.neighbours import bent_grid, commonest
from trirast.matplotlib import FigureCanvasTrirast

BOTH: Tuple[Any, ...] = (FigureCanvasAgg, FigureCanvasTrirast)
SIZE = (6.4, 4.8)
COLOR = "#1f6fb4"
# How much of the work is done again and again, instead of all of it.
Redraw = Callable[[Any], None]


class Client(NamedTuple):
    """A figure: what makes it, in one colour of this alpha or in its own colours; what it needs; and what is drawn in
    place of the whole figure."""

    make: Callable[[Any, Optional[float]], Any]
    needs: str = ""
    redraw: Optional[Callable[[Any, Any], None]] = None
    has_seams: bool = False
    dpi: float = 1.0


def waves(count: int = 60) -> Any:
    x, y = np.meshgrid(np.linspace(0, 3, count), np.linspace(0, 3, count))
    return x, y, np.sin(2 * x) * np.cos(3 * y) + 0.3 * x


def levels(axes: Any, alpha: Optional[float], **more: Any) -> Any:
    colors: Dict[str, Any] = {"cmap": "viridis"} if alpha is None else {"colors": [COLOR], "alpha": alpha}
    return axes.contourf(*waves(), 12, **colors, **more)


def hatched(figure: Any, alpha: Optional[float]) -> None:
    figure.add_subplot().contourf(*waves(), 6, hatches=["//", "..", "xx", None], cmap="viridis")


def by_xkcd(figure: Any, alpha: Optional[float]) -> None:
    with plt.xkcd():
        axes = figure.add_subplot()
        axes.bar(range(5), [3, 5, 2, 4, 1])
        axes.fill_between(np.linspace(0, 4, 30), 1 + np.sin(np.linspace(0, 9, 30)), alpha=0.5)


def bars_3d(figure: Any, alpha: Optional[float]) -> None:
    x, y = (each.ravel() for each in np.meshgrid(range(10), range(10)))
    figure.add_subplot(projection="3d").bar3d(x, y, 0, 0.8, 0.8, 1 + np.sin(x) * np.cos(y) + 1)


def streams(figure: Any, alpha: Optional[float]) -> None:
    x, y, z = waves()
    figure.add_subplot().streamplot(x[0], y[:, 0], z, np.cos(x * y), density=1.5)


def pie(figure: Any, alpha: Optional[float]) -> None:
    figure.add_subplot().pie([3, 5, 2, 4], explode=[0, 0.1, 0, 0], shadow=True, labels=list("abcd"))


def surface(figure: Any, alpha: Optional[float]) -> None:
    figure.add_subplot(projection="3d").plot_surface(*waves(), rcount=50, ccount=50, alpha=0.6, cmap="viridis")


def triangles(figure: Any, alpha: Optional[float]) -> None:
    x, y = np.random.default_rng(1).random((2, 1500))
    figure.add_subplot(projection="3d").plot_trisurf(x, y, np.sin(5 * x) * y, cmap="viridis")


def subplots(figure: Any, alpha: Optional[float]) -> None:
    for axes in figure.subplots(5, 5).ravel():
        levels(axes, alpha)


def curvilinear(figure: Any, alpha: Optional[float]) -> None:
    x, y = bent_grid(80, 60)
    colors: Dict[str, Any] = {"cmap": "viridis"} if alpha is None else {"cmap": one_map(), "alpha": alpha}
    figure.add_subplot().pcolormesh(x, y, np.random.default_rng(1).random((60, 80)), **colors)


def one_map() -> Any:
    from matplotlib.colors import ListedColormap

    return ListedColormap([COLOR])


def quads_of(x: Any, y: Any) -> Any:
    points = np.stack((x, y), 2)
    return np.stack((points[:-1, :-1], points[:-1, 1:], points[1:, 1:], points[1:, :-1]), 2).reshape(-1, 4, 2)


def cells(figure: Any, alpha: Optional[float], edge: Any = "black") -> None:
    quads = quads_of(*bent_grid(40, 20))
    colors = np.append(np.random.default_rng(1).random((800, 3)), np.full((800, 1), 0.6), 1)
    shown: Dict[str, Any] = {"facecolors": colors} if alpha is None else {"facecolors": COLOR, "alpha": alpha}
    axes = figure.add_subplot()
    edges = edge if alpha is None else "face"
    axes.add_collection(PolyCollection(quads, edgecolors=edges, linewidths=0.5, **shown))
    axes.set(xlim=(0, 1), ylim=(0, 1))


def hexagons(figure: Any, alpha: Optional[float]) -> None:
    x, y = np.random.default_rng(1).normal(size=(2, 20_000))
    colors: Dict[str, Any] = {"cmap": "viridis"} if alpha is None else {"cmap": one_map(), "alpha": alpha}
    axes = figure.add_subplot()
    axes.hexbin(x, y, gridsize=40, **colors)
    axes.set(xlim=(-1, 1), ylim=(-1, 1))


def patch(figure: Any, alpha: Optional[float]) -> None:
    from matplotlib.patches import Circle

    axes = figure.add_subplot()
    axes.contourf(*waves(), 12)
    axes.add_patch(Circle((1, 1), 0.1, facecolor="red", animated=True))


def redraw_patch(figure: Any, canvas: Any) -> None:
    axes = figure.axes[0]
    region = canvas.copy_from_bbox(axes.bbox)
    for _ in range(20):
        canvas.restore_region(region)
        axes.draw_artist(axes.patches[0])


def animated_levels(figure: Any, alpha: Optional[float]) -> None:
    for each in levels(figure.add_subplot(), alpha).collections:
        each.set_animated(True)


def redraw_levels(figure: Any, canvas: Any) -> None:
    axes = figure.axes[0]
    for _ in range(5):
        for each in axes.collections:
            axes.draw_artist(each)


def frame_of_cells(count: int) -> Any:
    import geopandas
    from shapely.geometry import Polygon

    quads = [Polygon(corners) for corners in quads_of(*bent_grid(count, count))]
    values = np.random.default_rng(1).random(len(quads))
    values[::7] = np.nan
    return geopandas.GeoDataFrame({"value": values}, geometry=quads)


def missing(figure: Any, alpha: Optional[float]) -> None:
    style = {"color": "lightgrey", "edgecolor": "red", "hatch": "///"}
    frame_of_cells(14).plot(column="value", ax=figure.add_subplot(), missing_kwds=style)


def borders(figure: Any, alpha: Optional[float]) -> None:
    frame_of_cells(14).plot(column="value", ax=figure.add_subplot(), edgecolor="white", linewidth=0.5, alpha=0.6)


def globe(figure: Any) -> Any:
    import cartopy.crs as ccrs

    return figure.add_subplot(projection=ccrs.Orthographic(10, 40)), ccrs.PlateCarree()


def globe_mesh(figure: Any, alpha: Optional[float]) -> None:
    axes, degrees = globe(figure)
    colors: Dict[str, Any] = {"cmap": "viridis"} if alpha is None else {"cmap": one_map(), "alpha": alpha}
    values = np.random.default_rng(1).random((40, 60))
    axes.pcolormesh(np.linspace(-180, 180, 61), np.linspace(-90, 90, 41), values, transform=degrees, **colors)


def globe_levels(figure: Any, alpha: Optional[float]) -> None:
    axes, degrees = globe(figure)
    x, y, z = waves()
    axes.contourf(60 * x - 90, 30 * y - 45, z, 12, transform=degrees)


def array_levels(figure: Any, alpha: Optional[float]) -> None:
    import xarray

    x, y, z = waves()
    array = xarray.DataArray(z, coords={"y": y[:, 0], "x": x[0]}, dims=("y", "x"))
    array.plot.contourf(ax=figure.add_subplot(), levels=12)


def densities(figure: Any, alpha: Optional[float]) -> None:
    import seaborn

    random = np.random.default_rng(1)
    values = {name: random.normal(n, 1, 300) for n, name in enumerate("abc")}
    seaborn.kdeplot(data=values, multiple="stack", ax=figure.add_subplot())


CLIENTS: Dict[str, Client] = {
    "contourf with hatches": Client(hatched),
    "xkcd": Client(by_xkcd),
    "bar3d": Client(bars_3d),
    "streamplot": Client(streams),
    "pie with shadow": Client(pie),
    "plot_trisurf": Client(triangles),
    "plot_surface, alpha 0.6": Client(surface),
    "5 by 5 subplots of contourf": Client(subplots, has_seams=True),
    "curvilinear pcolormesh": Client(curvilinear, has_seams=True),
    "800 areas with edges": Client(cells, has_seams=True),
    "800 areas with edges, 3 times the dpi": Client(cells, has_seams=True, dpi=3.0),
    "hexbin": Client(hexagons, has_seams=True),
    "blitting a small patch": Client(patch, redraw=redraw_patch),
    "contourf, artist by artist": Client(animated_levels, redraw=redraw_levels),
    "geopandas with missing_kwds and a hatch": Client(missing, "geopandas"),
    "geopandas with borders, alpha 0.6": Client(borders, "geopandas"),
    "cartopy, pcolormesh on a globe": Client(globe_mesh, "cartopy", has_seams=True),
    "cartopy, contourf on a globe": Client(globe_levels, "cartopy"),
    "xarray, contourf": Client(array_levels, "xarray"),
    "seaborn, stacked kdeplot": Client(densities, "seaborn"),
}


def canvas_of(client: Client, canvas_class: Any, dpi: float, alpha: Optional[float] = None) -> Tuple[Any, Any]:
    figure = Figure(figsize=SIZE, dpi=dpi * client.dpi)
    canvas = canvas_class(figure)
    with warnings.catch_warnings():
        warnings.simplefilter("ignore")
        client.make(figure, alpha)
        canvas.draw()
    return figure, canvas


def least_times(client: Client, dpi: float, runs: int) -> Tuple[float, float]:
    """The least CPU times of both backends, in milliseconds."""
    made = [canvas_of(client, each, dpi) for each in BOTH]
    least = [float("inf")] * 2
    for _ in range(runs):
        for n, (figure, canvas) in enumerate(made):
            begin = time.process_time()
            canvas.draw() if client.redraw is None else client.redraw(figure, canvas)
            least[n] = min(least[n], 1000 * (time.process_time() - begin))
    return least[0], least[1]


def pixels_of(client: Client, canvas_class: Any, dpi: float, alpha: Optional[float] = None) -> Any:
    return np.array(canvas_of(client, canvas_class, dpi, alpha)[1].buffer_rgba())


def seams_of(client: Client, dpi: float) -> Tuple[int, int]:
    """The pixels inside of all areas that have another colour than most, by both backends."""
    opaque = pixels_of(client, FigureCanvasTrirast, dpi, 1.0)
    inside = (opaque == (*bytes.fromhex(COLOR[1:]), 255)).all(2)
    for axis in (0, 1):
        inside = inside & np.roll(inside, 1, axis) & np.roll(inside, -1, axis)
    shown = [pixels_of(client, each, dpi, 0.5)[inside] for each in BOTH]
    first, second = (int((pixels != commonest(pixels)).any(1).sum()) for pixels in shown)
    return first, second


def row_of(name: str, dpi: float, runs: int) -> str:
    client = CLIENTS[name]
    seams = ("", "")
    if client.has_seams:
        first, second = seams_of(client, dpi)
        seams = (f"{first:,}", f"{second:,}")
    agg, ours = (pixels_of(client, each, dpi) for each in BOTH)
    by_agg, by_us = least_times(client, dpi, runs)
    differ = f"{int((agg != ours).any(2).sum()):,}"
    return report.row((name, *seams, differ, f"{by_agg:.1f}", f"{by_us:.1f}", f"{by_us / by_agg:.2f}"))


def main() -> None:
    parser = argparse.ArgumentParser(description="Draws figures of matplotlib's clients by two backends.")
    add_runs(parser, 5, "rounds of which the least counts")
    parser.add_argument("--dpi", type=int, default=100, help="pixels per inch (default 100)")
    parser.add_argument("--only", nargs="+", default=[""], metavar="WORD", help="figures whose names have one of these")
    options = parser.parse_args()
    print(report.machine())
    report.print_head(("figure", "seams, Agg", "seams, trirast", "differ", "Agg, ms", "trirast, ms", "trirast / Agg"))
    absent = set()
    for name, client in CLIENTS.items():
        if client.needs and importlib.util.find_spec(client.needs) is None:
            absent.add(client.needs)
        elif any(word in name for word in options.only):
            print(row_of(name, options.dpi, options.runs), flush=True)
    report.print_end()
    if absent:
        print(f"Not installed, and left out: {', '.join(sorted(absent))}")


if __name__ == "__main__":
    main()
