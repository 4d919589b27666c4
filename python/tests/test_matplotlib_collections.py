"""Collections of the backend of matplotlib: in which order faces and edges are drawn, and each item as
a path of its own."""

import unittest
import warnings
from typing import Any, Callable, Dict, Tuple
from unittest import mock

from .figures import (
    BEHIND, BOTH, HOLE, INSIDE, Draws, OneByOne, colors, differences, drawn, stars, tiles, twice, unlike,
)

import numpy as np
from matplotlib import rc_context
from matplotlib.backends.backend_agg import FigureCanvasAgg
from matplotlib.collections import EllipseCollection, PatchCollection, PolyCollection
from matplotlib.patches import Circle, Ellipse, PathPatch, Rectangle, Wedge
from matplotlib.path import Path

from trirast.matplotlib import FigureCanvasTrirast, RendererTrirast, _items, _renderer, _rounds

from . import neighbours

ALL = slice(None)
BLUE = (0, 0, 1, 0.5)


class Order(unittest.TestCase):
    def one_by_one(self, make: Callable[[Any], Any], count: int, **more: Any) -> Any:
        """A collection beside one collection for each of its items."""
        with mock.patch.object(_renderer, "have_common_sides", lambda polygons: True):
            whole = drawn(lambda axes: axes.add_collection(make(ALL)), **more)

            def draw(axes: Any) -> None:
                for n in range(count):
                    axes.add_collection(make(slice(n, n + 1)))

            self.assertEqual(unlike(whole, drawn(draw, **more)), 0)
        return whole

    def test_faces_and_edges(self) -> None:
        shapes, faces, edges = stars(60), colors(60, 0.6), colors(60, 0.7, 5)
        widths = np.random.default_rng(4).uniform(0, 6, 60)
        widths[::3] = 0
        for joins in ("miter", "round"):
            self.one_by_one(
                lambda some: PolyCollection(
                    shapes[some], facecolors=faces[some], edgecolors=edges[some], linewidths=twice(widths[some]),
                    joinstyle=joins,
                ),
                60,
            )

    def test_edges_that_reach_far(self) -> None:
        """Thick edges and mitres, which touch later faces that lie apart."""
        shapes = np.array(
            (
                ((0.3, 0.3), (0.5, 0.3), (0.5, 0.32)), ((0.55, 0.32), (0.6, 0.32), (0.6, 0.4)),
                ((0.22, 0.2), (0.27, 0.2), (0.27, 0.5)),
            )
        )
        faces, edges, widths = colors(3, 0.8), colors(3, 1, 6), np.array((30, 1, 0))
        self.one_by_one(
            lambda some: PolyCollection(
                shapes[some], facecolors=faces[some], edgecolors=edges[some], linewidths=twice(widths[some]),
                joinstyle="miter",
            ),
            3,
        )

    def test_edges_from_outside_of_the_picture(self) -> None:
        """Items outside, whose edges cover earlier faces and are covered by later ones."""
        square = np.array(((-0.2, 0.0), (-0.14, 0.0), (-0.14, 0.06), (-0.2, 0.06)))
        outside = square + 0.08 * np.arange(12)[:, None, None] * (0, 1)
        shapes = (
            np.stack((outside, outside + (0.06, 0.02)), 1).reshape(24, 4, 2)[np.random.default_rng(3).permutation(24)]
        )
        faces, edges, widths = colors(24, 0.7), colors(24, 0.8, 6), np.full(24, 9.0)
        self.one_by_one(
            lambda some: PolyCollection(
                shapes[some], facecolors=faces[some], edgecolors=edges[some], linewidths=twice(widths[some]),
                clip_on=False,
            ),
            24,
        )

    def test_some_faces_not_antialiased(self) -> None:
        shapes, faces, smooth = stars(40), colors(40, 0.6), np.arange(40) % 3 > 0
        with mock.patch.object(RendererTrirast, "smooth", False):
            self.one_by_one(
                lambda some: PolyCollection(shapes[some], facecolors=faces[some], antialiaseds=smooth[some]), 40
            )

    def test_hatches(self) -> None:
        shapes, faces = stars(20), colors(20, 0.6)
        self.one_by_one(
            lambda some: PolyCollection(shapes[some], facecolors=faces[some], edgecolors="k", hatch="//"), 20
        )

    def test_rectangles_with_edges(self) -> None:
        corner = np.random.default_rng(6).random((40, 2))
        faces = colors(40, 0.5)
        self.one_by_one(
            lambda some: PatchCollection(
                [Rectangle(p, 0.2, 0.1) for p in corner[some]], facecolors=faces[some], edgecolors="k",
                linewidths=(1.3, 1.3),
            ),
            40,
        )

    def test_too_many_rounds(self) -> None:
        """Translucent ones that overlap are Agg's. Opaque faces are drawn below Agg's, where they close its seams."""
        shapes = np.concatenate((tiles(20, 15), tiles(20, 15)[:1] + 0.01))

        def draw(alpha: float) -> Draws:
            return lambda axes: axes.add_collection(
                PolyCollection(shapes, facecolors=(0, 0, 1, alpha), edgecolors=(0, 0, 1), linewidths=twice((0.1,)))
            )

        with mock.patch.object(_rounds, "MAX_ROUNDS", 3), warnings.catch_warnings():
            warnings.simplefilter("ignore")
            self.assertEqual(unlike(*(drawn(draw(0.5), canvas) for canvas in BOTH)), 0)
            agg, ours = (drawn(draw(1), canvas)[100:140, 140:180].reshape(-1, 4) for canvas in BOTH)
        self.assertGreater(int((agg != (0, 0, 255, 255)).any(1).sum()), 100)
        self.assertTrue((ours == (0, 0, 255, 255)).all())

    def test_mesh_with_edges(self) -> None:
        x, y = neighbours.bent_grid(30, 20)
        values = np.arange(600).reshape(20, 30)
        difference = differences(lambda axes: axes.pcolormesh(x, y, values, edgecolors="k", antialiased=True))
        self.assertEqual(int((difference > 64).sum()), 0)

    def test_rounds_keep_the_order_where_items_touch(self) -> None:
        random = np.random.default_rng(5)
        for _ in range(20):
            corner, size = 4 * random.integers(0, 20, (60, 2)), 4 * random.integers(1, 4, (60, 2)) - 2
            boxes = np.stack((corner, corner + size * (1, 0), corner + size, corner + size * (0, 1)), 1)
            edges = random.random(60) < 0.6
            polygons = _items.faces_of(
                _items.Items(
                    [Path(box) for box in boxes], np.arange(60), np.array([[1.0, 0, 0, 1, 0, 0]]), np.zeros(60)
                ),
                False, True, (96, 96),
            ).polygons
            rounds = _rounds.rounds_of(polygons, np.ones(60, bool), edges, np.ones(60), 96, 96)
            assert rounds is not None
            seen = 0
            for n in range(60):
                for m in range(n + 1, 60):
                    # Where faces touch, or an edge and a face: what is first stays so.
                    if edges[n] and meet(boxes[n], boxes[m], 3):
                        seen += 1
                        self.assertLess(rounds[n], rounds[m])
                    elif meet(boxes[n], boxes[m], 0):
                        self.assertLessEqual(rounds[n], rounds[m])
            self.assertGreater(seen, 20)


def meet(a: Any, b: Any, margin: int) -> bool:
    return bool((np.maximum(a.min(0), b.min(0)) < np.minimum(a.max(0), b.max(0)) + margin).all())


class Items(unittest.TestCase):
    def check(self, make: Callable[[Any], Any], **more: Any) -> None:
        """Drawn as a whole, and each item as a path of its own."""
        with mock.patch.object(_renderer, "have_common_sides", lambda polygons: True), mock.patch.object(
            _renderer, "has_curve", lambda path: False
        ):
            whole, parts = (
                drawn(lambda axes: axes.add_collection(make(axes)), renderer_class=each, **more)
                for each in (RendererTrirast, OneByOne)
            )
        self.assertGreater(unlike(whole, np.uint8(255)), 1000)
        self.assertEqual(unlike(whole, parts), 0)

    def test_offsets_and_transforms(self) -> None:
        random = np.random.default_rng(8)
        places, sizes = random.random((2, 40)), random.uniform(5, 900, 40)
        for edge in ("none", "k"):
            for marker in ("o", "*", "s", "D"):
                self.check(
                    lambda axes: axes.scatter(
                        *places, s=sizes, c=colors(40, 0.5), marker=marker, edgecolors=edge, snap=False
                    )
                )

    def test_ellipses(self) -> None:
        random = np.random.default_rng(10)
        sizes, angles, places = random.uniform(5, 50, (2, 40)), random.uniform(0, 180, 40), random.random((40, 2))
        self.check(
            lambda axes: EllipseCollection(
                *sizes, angles, units="points", offsets=places, offset_transform=axes.transData,
                facecolors=colors(7, 0.5), edgecolors="none",
            )
        )

    def test_patches(self) -> None:
        random = np.random.default_rng(11)
        shapes = [Wedge(p, 0.1, 20, 200) for p in random.random((20, 2))] + [
            Ellipse(p, 0.2, 0.1, angle=30) for p in random.random((20, 2))
        ]
        for snap in (None, False, True):
            self.check(
                lambda axes: PatchCollection(
                    shapes, facecolors=colors(40, 0.5), edgecolors="k", linewidths=(0, 2), snap=snap
                )
            )

    def test_rectangles(self) -> None:
        """Snapped to the centres of pixels, by edges of an odd width through which faces are seen."""
        boxes = [Rectangle(corner, 0.2, 0.1) for corner in np.random.default_rng(6).random((20, 2))]
        edge = (1, 0, 0, 0.3)
        self.check(
            lambda axes: PatchCollection(boxes, facecolors=colors(20, 1), edgecolors=[edge], linewidths=(0.72, 0.72))
        )

    def test_holes_and_lines_behind_a_closed_ring(self) -> None:
        self.check(
            lambda axes: PatchCollection(
                [PathPatch(HOLE), PathPatch(BEHIND)], facecolors=[(0, 0, 1, 0.5), (1, 0, 0, 0.5)]
            )
        )

    def test_numbers_that_are_none(self) -> None:
        shapes = stars(40)
        shapes[::4, 1] = np.nan
        shapes[1::4, 0, 0] = np.inf
        self.check(lambda axes: PolyCollection(shapes, facecolors=colors(40, 0.5)))
        places = np.random.default_rng(12).random((40, 2))
        places[::5] = np.nan
        self.check(
            lambda axes: EllipseCollection(
                30, 20, 0, units="points", offsets=places, offset_transform=axes.transData, facecolors=colors(7, 0.5)
            )
        )

    def test_alike_items_are_as_any(self) -> None:
        """Items of one ring each and of as many corners take another way."""
        for shapes in (stars(30), tiles(), np.array([((0, 0), (0.1, 0), (0.1, 0.2), (0, 0.2))]) + stars(9)[:, :1]):
            for snap in (None, True, False):
                draw: Draws = lambda axes: axes.add_collection(
                    PolyCollection(shapes, facecolors=colors(len(shapes), 0.5), snap=snap)
                )
                whole = drawn(draw)
                with mock.patch.object(_items, "alike_items", lambda items: None):
                    self.assertEqual(unlike(whole, drawn(draw)), 0)

    def test_quad_mesh(self) -> None:
        x, y = neighbours.bent_grid(6, 5)
        draw: Draws = lambda axes: axes.pcolormesh(x, y, np.arange(30).reshape(5, 6), alpha=0.6, snap=False)
        quads = np.stack((x, y), 2)
        cells = np.stack((quads[:-1, :-1], quads[:-1, 1:], quads[1:, 1:], quads[1:, :-1]), 2).reshape(-1, 4, 2)

        def apart(axes: Any) -> None:
            axes.add_collection(PolyCollection(cells, array=np.arange(30), alpha=0.6))

        self.assertEqual(unlike(drawn(draw), drawn(apart)), 0)

    def test_one_item_with_an_edge(self) -> None:
        """matplotlib draws it as a marker. Agg's picture is half a pixel lower and to the right then,
        and so is this one."""
        for shape in (stars(1)[0], np.array(((0.2, 0.2), (0.7, 0.2), (0.7, 0.61), (0.2, 0.61)))):
            for width in (0, 1, 2.5):
                draw: Draws = lambda axes: axes.add_collection(
                    PolyCollection([shape], facecolor=(0, 0, 1, 0.5), edgecolor=(0, 0, 0.9, 0.5), linewidth=width)
                )
                self.assertLess(int((differences(draw) > 24).sum()), 60)
        x, tops = np.linspace(0, 1, 60), neighbours.heights().cumsum(0)

        def stacked(axes: Any) -> None:
            for n in range(8):
                axes.fill_between(x, tops[n - 1] if n else 0, tops[n], color=(0, 0, 1, 0.5), linewidth=0)

        picture = drawn(stacked)
        within = (
            picture == drawn(lambda axes: axes.fill_between(x, 0, tops[-1], color=(0, 0, 1, 0.5), linewidth=0))
        ).all(2)
        self.assertTrue(within[32:208, 42:278].all())
        self.assertLess(picture[205, 160, 0], 200)


class Clips(unittest.TestCase):
    def test_clip_path(self) -> None:
        clip = Circle((0.5, 0.5), 0.35)

        def draw(axes: Any) -> None:
            mesh = axes.add_collection(PolyCollection(stars(100, corners=3), facecolors=colors(100, 1)))
            clip.set_transform(axes.transData)
            mesh.set_clip_path(clip)

        radius = np.hypot((np.arange(320) + 0.5 - 160) / 256, (np.arange(240)[:, None] + 0.5 - 120) / 192)
        picture = drawn(draw)
        frame = np.zeros((240, 320), bool)
        frame[INSIDE] = True
        self.assertTrue((picture[(radius > 0.365) & frame] == 255).all())
        self.assertGreater(int((picture[radius < 0.33] != 255).any(1).sum()), 10000)
        self.assertLess(np.mean(differences(draw)[radius < 0.33] > 40), 0.03)

    def test_two_clip_paths_that_share_a_border(self) -> None:
        """A face that is drawn once inside of each of two clip paths is drawn as a whole, and so is a mesh."""
        left = Path([(0.41, 0), (0.63, 1), (0, 1), (0, 0), (0.41, 0)], closed=True)
        right = Path([(0.63, 1), (0.41, 0), (1, 0), (1, 1), (0.63, 1)], closed=True)

        def patch(axes: Any) -> Any:
            return axes.add_patch(Rectangle((-1, -1), 3, 3, facecolor=(0, 0, 1, 0.5), snap=False))

        def mesh(axes: Any) -> Any:
            return axes.tripcolor((-1, 3, -1), (-1, -1, 3), (1, 1, 1), shading="gouraud", alpha=0.5)

        def clipped(make: Callable[[Any], Any]) -> Draws:
            def draw(axes: Any) -> None:
                for path in (left, right):
                    make(axes).set_clip_path(path, axes.transData)
                axes.set(xlim=(0, 1), ylim=(0, 1))

            return draw

        for make in (patch, mesh):
            shown = drawn(clipped(make))[INSIDE].reshape(-1, 4)
            self.assertTrue((shown == shown[0]).all())
            self.assertLess(shown[0].min(), 200)


# The keyword by which each plot has a hatch.
HATCHED: Tuple[Tuple[Any, Dict[str, Any]], ...] = (
    (neighbours.contourf, {"hatches": ["//"]}),
    (neighbours.contourf, {"hatches": [None, "//"]}),
    (neighbours.stackplot, {"hatch": "//"}),
)


class Hatches(unittest.TestCase):
    """Faces of collections of one item and of others, by samples, with hatches by Agg."""

    def test_no_seams(self) -> None:
        """With strokes that are clear, and away from those that are seen."""
        for plot, hatch in HATCHED:

            def shown(alpha: float, canvas_class: Any, color: str = "black") -> Any:
                with rc_context({"hatch.color": color}):
                    return neighbours.drawn(lambda axes: plot(axes, neighbours.one_color(alpha), **hatch), canvas_class)

            within = neighbours.inside(plot, FigureCanvasTrirast, 0.5)
            away = within & (shown(0, FigureCanvasAgg) == 255).all(2)
            self.assertGreater(int(within.sum()), int(away.sum()) + 10000)
            for pixels in (shown(0.5, FigureCanvasTrirast, "none")[within], shown(0.5, FigureCanvasTrirast)[away]):
                self.assertGreater(len(pixels), 60000)
                self.assertTrue((pixels == pixels[0]).all(), plot)
            by_agg = shown(0.5, FigureCanvasAgg)[away]
            self.assertGreater(int((by_agg != neighbours.commonest(by_agg)).any(1).sum()), 3000)

    def test_strokes_are_those_of_agg(self) -> None:
        for plot, hatch in HATCHED:
            far = ~neighbours.near_edges(plot, FigureCanvasAgg)
            agg, ours, plain = (
                neighbours.drawn(lambda axes: plot(axes, neighbours.many_colors(1), **more), canvas)
                for canvas, more in ((FigureCanvasAgg, hatch), (FigureCanvasTrirast, hatch), (FigureCanvasTrirast, {}))
            )
            self.assertTrue((agg[far] == ours[far]).all())
            self.assertGreater(unlike(ours, plain), 10000)

    def test_neighbours_in_two_collections(self) -> None:
        """Each collection has no two faces with a side in common; of the second one all are round, as dots are."""
        cells = tiles().reshape(5, 6, 4, 2)
        even = np.indices((5, 6)).sum(0) % 2 == 0
        halves = [[Wedge((0.3 * n, 0.5), 0.4, start, start + 180) for n in (1, 2)] for start in (20, 200)]
        makes: Tuple[Callable[..., Any], ...] = (
            lambda axes, hatch: [
                axes.add_collection(PolyCollection(each, facecolors=BLUE, hatch=hatch))
                for each in (cells[even], cells[~even])
            ],
            lambda axes, hatch: [
                axes.add_collection(PatchCollection(each, facecolors=BLUE, hatch=hatch, linewidths=0))
                for each in halves
            ],
        )
        for make in makes:
            with rc_context({"hatch.color": "none"}):
                plain, hatched, agg = (
                    drawn(lambda axes: make(axes, hatch), canvas)
                    for hatch, canvas in (
                        (None, FigureCanvasTrirast), ("x", FigureCanvasTrirast), ("x", FigureCanvasAgg)
                    )
                )
            self.assertEqual(unlike(plain, hatched), 0)
            self.assertGreater(unlike(agg, hatched), 500)

    def test_upright_rectangles_are_those_of_agg(self) -> None:
        """They have no partly covered pixel."""
        boxes = [Rectangle((0.11 * n, 0.1), 0.11, 0.09 * n) for n in range(1, 8)]
        for some in (boxes, boxes[:1]):

            def draw(axes: Any) -> None:
                axes.add_collection(PatchCollection(some, facecolors=BLUE, hatch="//", linewidths=0))

            self.assertEqual(unlike(*(drawn(draw, canvas) for canvas in BOTH)), 0)


if __name__ == "__main__":
    unittest.main()
