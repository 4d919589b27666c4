"""Ten plots of faces that lie side by side without a gap, and a count of the pixels that show a seam between them.

Each plot draws on axes with the colours that `palette(count)` gives. WHOLE draws the union of a plot's faces as one
face; plots that are not named there fill their axes.
"""

from typing import Any, Callable, Dict

import numpy as np
from matplotlib.collections import PolyCollection
from matplotlib.colors import BoundaryNorm, ListedColormap
from matplotlib.figure import Figure
from matplotlib.patches import PathPatch
from matplotlib.path import Path
from matplotlib.transforms import Affine2D
from matplotlib.tri import Triangulation

Palette = Callable[[int], Any]
Plot = Callable[[Any, Palette], None]

SIZE, DPI = (6.4, 4.8), 100
COLOR = (0.1, 0.3, 0.7)


def bent_grid(columns: int, rows: int) -> Any:
    x, y = np.meshgrid(np.linspace(-0.1, 1.1, columns + 1), np.linspace(-0.1, 1.1, rows + 1))
    return x + 0.03 * np.sin(7 * y), y + 0.03 * np.sin(5 * x)


def indexed(palette: Palette, count: int) -> Dict[str, Any]:
    """The keywords by which value n has colour n."""
    return {"cmap": ListedColormap(palette(count)), "norm": BoundaryNorm(np.arange(count + 1) - 0.5, count)}


def contourf(axes: Any, palette: Palette, **more: Any) -> None:
    x, y = np.meshgrid(np.linspace(-0.1, 1.1, 90), np.linspace(-0.1, 1.1, 70))
    z = np.sin(6 * x) * np.cos(5 * y) + 0.3 * x
    axes.contourf(x, y, z, np.linspace(z.min() - 0.01, z.max() + 0.01, 25), colors=palette(24), **more)


def pcolormesh(axes: Any, palette: Palette) -> None:
    x, y = bent_grid(40, 30)
    axes.pcolormesh(x, y, np.arange(1200).reshape(30, 40), snap=False, **indexed(palette, 1200))


def pcolor(axes: Any, palette: Palette) -> None:
    x, y = bent_grid(20, 15)
    axes.pcolor(x, y, np.arange(300).reshape(15, 20), snap=False, **indexed(palette, 300))


def tripcolor(axes: Any, palette: Palette) -> None:
    x, y = np.random.default_rng(2).uniform(-0.1, 1.1, (2, 800))
    x[:4], y[:4] = (-0.1, 1.1, -0.1, 1.1), (-0.1, -0.1, 1.1, 1.1)
    mesh = Triangulation(x, y)
    count = len(mesh.triangles)
    axes.tripcolor(mesh, facecolors=np.arange(count), alpha=None, **indexed(palette, count))


def honeycomb(axes: Any, palette: Palette) -> None:
    """Cells of six corners, which are moved at random."""
    columns, rows = 36, 30
    column, row = np.meshgrid(np.arange(columns), np.arange(rows))
    x, y = (column - 2) * 1.3 / columns, (row + (column + row) % 2 / 3 - 1) * 1.3 / rows
    points = np.stack((x, y), 2) + np.random.default_rng(3).uniform(-0.008, 0.008, (rows, columns, 2))
    first = np.argwhere((column + row)[:-1, :-2] % 2 == 0)
    around = ((0, 0), (0, 1), (0, 2), (1, 2), (1, 1), (1, 0))
    cells = np.stack([points[tuple((first + step).T)] for step in around], 1)
    axes.add_collection(PolyCollection(cells, facecolors=palette(len(cells))))


def heights() -> Any:
    return np.random.default_rng(4).uniform(0.03, 0.12, (8, 60)).cumsum(1) % 0.09 + 0.03


def stackplot(axes: Any, palette: Palette, **more: Any) -> None:
    axes.stackplot(np.linspace(0.02, 0.98, 60), heights(), colors=palette(8), **more)


def fill_between(axes: Any, palette: Palette) -> None:
    x, tops = np.linspace(0.02, 0.98, 60), np.cumsum(heights(), 0)
    for n, color in enumerate(palette(8)):
        axes.fill_between(x, tops[n - 1] if n else 0, tops[n], facecolor=color)


def bars(axes: Any, palette: Palette) -> None:
    edges = np.linspace(0.02, 0.98, 61)
    axes.bar(edges[:-1], heights()[0] * 7, np.diff(edges), align="edge", color=palette(60))


def turned_bars(axes: Any, palette: Palette) -> None:
    """A histogram turned by 20 degrees: sides of neighbours end at different places."""
    edges = np.linspace(0.2, 0.9, 61)
    axes.bar(edges[:-1], heights()[0] * 5, np.diff(edges), align="edge", color=palette(60), transform=turned(axes))


def turned(axes: Any) -> Any:
    return Affine2D().rotate_deg_around(0.5, 0.5, 20) + axes.transData


def choropleth(axes: Any, palette: Palette) -> None:
    """Regions with ragged borders, each a patch of its own."""
    columns, rows, pieces = 9, 7, 16
    random = np.random.default_rng(5)
    x, y = np.meshgrid(np.linspace(-0.2, 1.2, columns + 1), np.linspace(-0.2, 1.2, rows + 1))
    corners = np.stack((x, y), 2) + random.uniform(-0.04, 0.04, (rows + 1, columns + 1, 2))

    def border(a: Any, b: Any) -> Any:
        line = a + np.linspace(0, 1, pieces + 1)[:, None] * (b - a)
        # Moved across alone, and straight near the ends, so that borders do not cross.
        line[3:-3] += random.uniform(-0.1, 0.1, (pieces - 5, 1)) * np.array((a[1] - b[1], b[0] - a[0]))
        return line

    across = {(r, c): border(corners[r, c], corners[r, c + 1]) for r in range(rows + 1) for c in range(columns)}
    down = {(r, c): border(corners[r, c], corners[r + 1, c]) for r in range(rows) for c in range(columns + 1)}
    colors = iter(palette(rows * columns))
    for r in range(rows):
        for c in range(columns):
            ring = np.concatenate((across[r, c][:-1], down[r, c + 1][:-1], across[r + 1, c][:0:-1], down[r, c][:0:-1]))
            axes.add_patch(
                PathPatch(Path(np.append(ring, ring[:1], 0), closed=True), facecolor=next(colors), linewidth=0)
            )


PLOTS: Dict[str, Plot] = {
    "contourf": contourf,
    "pcolormesh": pcolormesh,
    "pcolor": pcolor,
    "tripcolor": tripcolor,
    "PolyCollection, a honeycomb": honeycomb,
    "stackplot": stackplot,
    "fill_between, stacked": fill_between,
    "bars side by side": bars,
    "bars, turned": turned_bars,
    "choropleth of patches": choropleth,
}


def whole_axes(axes: Any, color: Any) -> None:
    corners = np.array(((-1, -1), (2, -1), (2, 2), (-1.01, 2), (-1, -1)))
    axes.add_patch(PathPatch(Path(corners, closed=True), facecolor=color, linewidth=0))


def whole_stack(axes: Any, color: Any) -> None:
    axes.fill_between(np.linspace(0.02, 0.98, 60), 0, heights().sum(0), facecolor=color, linewidth=0)


def whole_bars(axes: Any, color: Any) -> None:
    axes.stairs(heights()[0] * 7, np.linspace(0.02, 0.98, 61), fill=True, color=color, linewidth=0)


def whole_turned(axes: Any, color: Any) -> None:
    axes.stairs(
        heights()[0] * 5, np.linspace(0.2, 0.9, 61), fill=True, color=color, linewidth=0, transform=turned(axes)
    )


WHOLE: Dict[Plot, Callable[[Any, Any], None]] = {
    stackplot: whole_stack, fill_between: whole_stack, bars: whole_bars, turned_bars: whole_turned,
}


# ---- Counted


def drawn(draw: Callable[[Any], Any], canvas_class: Any, dpi: int = DPI, **more: Any) -> Any:
    """The pixels of a figure whose axes, without a frame, show 0 to 1 in both directions."""
    figure = Figure(figsize=SIZE, dpi=dpi, **more)
    canvas = canvas_class(figure)
    axes = figure.add_axes((0.1, 0.1, 0.8, 0.8), frameon=False)
    draw(axes)
    axes.set(xlim=(0, 1), ylim=(0, 1), xticks=(), yticks=())
    canvas.draw()
    return np.array(canvas.buffer_rgba())


def one_color(alpha: float) -> Palette:
    return lambda count: [(*COLOR, alpha)] * count


def many_colors(alpha: float) -> Palette:
    return lambda count: np.append(np.random.default_rng(count).random((count, 3)), np.full((count, 1), alpha), 1)


def commonest(pixels: Any) -> Any:
    """The colour that most of some pixels have."""
    colors, counts = np.unique(pixels, axis=0, return_counts=True)
    return colors[counts.argmax()]


def inside(plot: Plot, canvas_class: Any, alpha: float, dpi: int = DPI) -> Any:
    """The pixels inside of the union of a plot's faces: they and the eight around them have its colour."""
    picture = drawn(lambda axes: WHOLE.get(plot, whole_axes)(axes, (*COLOR, alpha)), canvas_class, dpi)
    found = (picture == commonest(picture[(picture != 255).any(2)])).all(2)
    for axis in (0, 1):
        found = found & np.roll(found, 1, axis) & np.roll(found, -1, axis)
    return found


def seams(plot: Plot, canvas_class: Any, alpha: float, dpi: int = DPI, **more: Any) -> Any:
    """Which pixels inside show a seam: all faces have one colour, and they have another one than most."""
    within = inside(plot, canvas_class, alpha, dpi)
    assert within.sum() > 10000 or dpi < DPI
    picture = drawn(lambda axes: plot(axes, one_color(alpha)), canvas_class, dpi, **more)
    return within & (picture != commonest(picture[within])).any(2)


def near_edges(plot: Plot, canvas_class: Any) -> Any:
    """The pixels at most 1.5 pixels from an edge of a face."""

    def draw(axes: Any) -> None:
        plot(axes, many_colors(1))
        for artist in (*axes.collections, *axes.patches):
            if hasattr(artist, "set_array"):
                artist.set_array(None)
            artist.set(facecolor="none", edgecolor="black", linewidth=3 * 72 / DPI, antialiased=True, snap=False)

    return (drawn(draw, canvas_class) != 255).any(2)
