"""Areas of the backend of matplotlib that lie far away or have edges: meshes with vertices that are far or no numbers,
edges above areas that do not overlap, and what is said of areas that Agg draws."""

import unittest
import warnings
from typing import Any, Dict
from unittest import mock

from .figures import BOTH, INSIDE, colors, drawn, stars, tiles, unlike

import numpy as np
from matplotlib.collections import PatchCollection, PolyCollection, QuadMesh
from matplotlib.figure import Figure
from matplotlib.patches import PathPatch
from matplotlib.path import Path

from trirast.matplotlib import FigureCanvasTrirast, RendererTrirast, _inside, _overlaps, report
from trirast.matplotlib._report import Drawn

from . import neighbours

COLUMNS, ROWS = 60, 40
BLUE = (0.1, 0.3, 0.7)


def grid_with(x: float, y: float) -> Any:
    """A bent grid of points, one of which is moved."""
    found = np.stack(neighbours.bent_grid(COLUMNS, ROWS), 2)
    found[20, 30] = x, y
    return found


def quads_of(points: Any) -> Any:
    found = np.stack((points[:-1, :-1], points[:-1, 1:], points[1:, 1:], points[1:, :-1]), 2)
    return found.reshape(-1, 4, 2)


def mesh(axes: Any, points: Any, alpha: float, count: int = 1, **more: Any) -> None:
    palette = neighbours.one_color(alpha) if count == 1 else neighbours.many_colors(alpha)
    values = np.arange(COLUMNS * ROWS).reshape(ROWS, COLUMNS) % count
    # pcolormesh takes finite numbers alone: projections make others.
    axes.add_collection(QuadMesh(points, array=values, snap=False, **neighbours.indexed(palette, count), **more))


class FarVertices(unittest.TestCase):
    def test_a_mesh_without_a_vertex_has_no_seams(self) -> None:
        """Four cells become triangles, as in Agg, and leave a hole."""
        hole = np.zeros((240, 320), bool)
        hole[90:150, 130:190] = True
        for x, y in ((np.nan, 0.5), (0.5, np.nan), (np.inf, 0.5), (0.5, -np.inf)):
            points = grid_with(x, y)
            shown = drawn(lambda axes: mesh(axes, points, 0.5))
            beside = shown[INSIDE][~hole[INSIDE]]
            self.assertTrue((beside == beside[0]).all(), (x, y))

    def test_a_mesh_with_a_far_vertex_is_drawn_as_its_cells(self) -> None:
        for x, y in ((1e4, 1e4), (-1e4, 0.5), (0.5, 1e7), (1e4, 0.6), (np.nan, 0.5), (np.inf, np.inf)):
            points = grid_with(x, y)
            palette = neighbours.many_colors(0.5)(COLUMNS * ROWS)
            # Of a quad without one of its corners the others are left.
            kept = [quad[np.isfinite(quad).all(1)] for quad in quads_of(points)]
            cells = PolyCollection(kept, facecolors=palette, snap=False)
            whole = drawn(lambda axes: mesh(axes, points, 0.5, COLUMNS * ROWS))
            self.assertEqual(unlike(whole, drawn(lambda axes: axes.add_collection(cells))), 0, (x, y))

    def test_an_upright_mesh_with_a_far_border_is_snapped(self) -> None:
        x, y = np.meshgrid(np.linspace(0, 1, 13), np.linspace(0, 1, 9))
        x[:, 0] = -1e6
        values = np.arange(96).reshape(8, 12)
        agg, ours = (drawn(lambda axes: axes.pcolormesh(x, y, values, cmap="viridis"), each) for each in BOTH)
        self.assertEqual(unlike(agg, ours), 0)


class EdgesAboveAreas(unittest.TestCase):
    def both(self, shapes: Any, faces: Any, edge: Any, width: Any, **more: Any) -> None:
        """A collection beside its areas and then its edges alone."""

        def in_two(axes: Any) -> None:
            axes.add_collection(PolyCollection(shapes, facecolors=faces))
            axes.add_collection(PolyCollection(shapes, facecolors=_inside.HIDDEN, edgecolors=edge, linewidths=width))

        def in_one(axes: Any) -> None:
            axes.add_collection(PolyCollection(shapes, facecolors=faces, edgecolors=edge, linewidths=width))

        self.assertEqual(unlike(drawn(in_one, **more), drawn(in_two, **more)), 0)

    def test_many_areas_that_do_not_overlap(self) -> None:
        """So many neighbours that they do not fit into rounds."""
        shapes = tiles(20, 16)
        pairs = ((0.6, "black"), (1, (1, 0, 0, 0.6)), (0.6, colors(320, 1)))
        for faces, edge in ((colors(320, alpha), edge) for alpha, edge in pairs):
            self.both(shapes, faces, edge, 0.5)
        self.both(shapes, colors(320, 1), "white", 6.0)

    def test_edges_that_leave_the_picture(self) -> None:
        shapes = 1.6 * tiles(20, 16) - 0.3
        whole = drawn(
            lambda axes: axes.add_collection(
                PolyCollection(shapes, facecolors=colors(320, 0.6), edgecolors="k", linewidths=0.5, clip_on=False)
            )
        )
        self.assertGreater(unlike(whole, np.uint8(255)), 30000)

    def test_holes(self) -> None:
        """Rings with others inside of them, which are apart, as a lake and its island."""
        outer = np.array(((0.1, 0.1), (0.9, 0.2), (0.8, 0.9), (0.1, 0.1)))
        inner = np.array(((0.55, 0.35), (0.6, 0.55), (0.7, 0.4), (0.55, 0.35)))
        codes = [Path.MOVETO, Path.LINETO, Path.LINETO, Path.CLOSEPOLY]
        # By the nonzero rule a hole runs the other way round.
        lake = Path(np.concatenate((outer, inner if turns(inner) * turns(outer) < 0 else inner[::-1])), codes * 2)
        patches = [PathPatch(lake), PathPatch(Path(inner, codes))]
        faces = colors(2, 0.5)

        def in_one(axes: Any) -> None:
            axes.add_collection(PatchCollection(patches, facecolors=faces, edgecolors="k", linewidths=1))

        def in_two(axes: Any) -> None:
            axes.add_collection(PatchCollection(patches, facecolors=faces, edgecolors="none", linewidths=0))
            axes.add_collection(PatchCollection(patches, facecolors=_inside.HIDDEN, edgecolors="k", linewidths=1))

        self.assertEqual(unlike(drawn(in_one), drawn(in_two)), 0)

    def test_a_mesh_with_edges(self) -> None:
        points = np.stack(neighbours.bent_grid(20, 15), 2)
        palette = neighbours.many_colors(0.6)
        values = np.arange(300).reshape(15, 20)
        shown: Dict[str, Any] = {"snap": False, "linewidth": 0.5, **neighbours.indexed(palette, 300)}

        def in_one(axes: Any) -> None:
            axes.pcolormesh(points[..., 0], points[..., 1], values, edgecolors="k", antialiased=True, **shown)

        def in_two(axes: Any) -> None:
            axes.pcolormesh(points[..., 0], points[..., 1], values, **shown)
            edges = {"edgecolors": "k", "linewidths": 0.5, "snap": False, "antialiased": True}
            axes.add_collection(QuadMesh(points, facecolors=_inside.HIDDEN, **edges))

        self.assertEqual(unlike(drawn(in_one), drawn(in_two)), 0)

    def test_areas_that_overlap(self) -> None:
        self.assertFalse(apart(stars(40)))
        self.assertTrue(apart(tiles(20, 16)))
        shifted = tiles(20, 16)
        shifted[::2] += 0.02
        self.assertFalse(apart(shifted))
        # By less than a pixel.
        self.assertTrue(apart(tiles(20, 16) * (1 + 1e-3)))


def apart(shapes: Any) -> bool:
    """Whether areas are apart in a picture of 320 by 240 pixels."""
    found = []
    hidden = _overlaps.are_apart

    def asked(polygons: Any, box: Any) -> bool:
        found.append(hidden(polygons, box))
        return found[-1]

    with mock.patch.object(_overlaps, "are_apart", asked):
        shown = PolyCollection(shapes, facecolors=colors(len(shapes), 0.6), edgecolors="k", linewidths=0.5)
        with mock.patch("trirast.matplotlib._renderer.have_common_sides", lambda polygons: True):
            with warnings.catch_warnings():
                warnings.simplefilter("ignore")
                drawn(lambda axes: axes.add_collection(shown))
    return found[0]


def turns(ring: Any) -> float:
    """The doubled area of a ring of three corners, negative if it runs clockwise."""
    (a, b), (c, d) = ring[1] - ring[0], ring[2] - ring[0]
    return float(a * d - b * c)


class OwnEdges(unittest.TestCase):
    """Translucent edges in the colours of their areas, which would show as darker lines."""

    def test_no_seams(self) -> None:
        def stack(axes: Any, palette: Any) -> None:
            x, tops = np.linspace(0.02, 0.98, 60), np.cumsum(neighbours.heights(), 0)
            for n, color in enumerate(palette(8)):
                axes.fill_between(x, tops[n - 1] if n else 0, tops[n], color=color)

        def honeycomb(axes: Any, palette: Any) -> None:
            neighbours.honeycomb(axes, palette)
            axes.collections[0].set(edgecolor="face", linewidth=1)

        def hexagons(axes: Any, palette: Any) -> None:
            x, y = np.random.default_rng(1).uniform(-0.5, 1.5, (2, 4000))
            shown = axes.hexbin(x, y, gridsize=(24, 14), mincnt=0)
            shown.set_array(None)
            shown.set(facecolor=palette(len(shown.get_offsets())), edgecolor="face")

        neighbours.WHOLE[stack] = neighbours.whole_stack
        try:
            for plot in (stack, honeycomb, hexagons):
                agg, ours = (int(neighbours.seams(plot, each, 0.5).sum()) for each in BOTH)
                self.assertGreater(agg, 1000, plot.__name__)
                self.assertEqual(ours, 0, plot.__name__)
        finally:
            del neighbours.WHOLE[stack]

    def test_markers_keep_their_edges(self) -> None:
        x, y = np.random.default_rng(3).random((2, 30))
        agg, ours = (drawn(lambda axes: axes.scatter(x, y, 90, alpha=0.5, marker="^"), each) for each in BOTH)
        self.assertEqual(unlike(agg, ours), 0)


class Reports(unittest.TestCase):
    def figure(self, count: int, alpha: float) -> Any:
        figure = Figure(figsize=(3.2, 2.4))
        FigureCanvasTrirast(figure)
        axes = figure.add_axes((0.1, 0.1, 0.8, 0.8))
        edges = colors(count, 0.5, 5)
        faces = colors(count, alpha)
        axes.add_collection(PolyCollection(stars(count), facecolors=faces, edgecolors=edges, linewidths=1))
        axes.contourf(np.arange(12).reshape(3, 4) % 5)
        return figure

    def test_one_warning_for_a_figure(self) -> None:
        figure = self.figure(700, 0.5)
        with mock.patch("trirast.matplotlib._renderer.have_common_sides", lambda polygons: True):
            with self.assertWarnsRegex(UserWarning, "Agg draws areas, .*: PolyCollection: areas with edges overlap"):
                figure.canvas.draw()
            with warnings.catch_warnings():
                warnings.simplefilter("error")
                figure.canvas.draw()
                figure.set_dpi(120)
                figure.canvas.draw()
                listed = report(figure)
        self.assertIn(Drawn("PolyCollection", "Agg", "areas with edges overlap each other too often", 1), listed)
        self.assertIn(("PathCollection", "trirast"), [each[:2] for each in listed])
        self.assertIs(type(figure.canvas), FigureCanvasTrirast)

    def test_no_warning_without_a_reason(self) -> None:
        with warnings.catch_warnings():
            warnings.simplefilter("error")
            self.figure(3, 1).canvas.draw()

    def test_who_draws_what(self) -> None:
        figure = Figure()
        axes = figure.add_subplot()
        axes.bar([1, 2], [3, 4])
        axes.fill_between([0, 1, 2], [0, 2, 1])
        axes.pcolormesh(*np.meshgrid([0, 1, 2], [0, 1, 2]), [[1, 2], [3, 4]])
        found = {(each.artist, each.by, each.reason) for each in report(figure)}
        self.assertIn(("PolyCollection", "trirast", ""), found)
        self.assertIn(("patch", "Agg", "rectangles of whole pixels"), found)
        self.assertIn(("QuadMesh", "Agg", "rectangles of whole pixels"), found)
        with mock.patch.object(RendererTrirast, "smooth", False):
            self.assertIn(("QuadMesh", "Agg", "antialiasing is off"), {each[:3] for each in report(figure)})


if __name__ == "__main__":
    unittest.main()
