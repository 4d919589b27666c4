"""Faces of the backend of matplotlib beside Agg's: what is equal byte for byte, what differs on edges
alone, and seams."""

import io
import unittest
import warnings
from typing import Any, Dict, List
from unittest import mock

from .figures import BEHIND, BOTH, HOLE, INSIDE, WHITE, Draws, colors, differences, drawn, stars, tiles, twice, unlike

import numpy as np
from matplotlib.backends.backend_agg import FigureCanvasAgg, RendererAgg
from matplotlib.backends.backend_pdf import RendererPdf
from matplotlib.collections import PatchCollection, PolyCollection
from matplotlib.figure import Figure
from matplotlib.patches import Circle, Ellipse, PathPatch, Polygon, Rectangle, Wedge
from matplotlib.path import Path
from matplotlib.transforms import Bbox, IdentityTransform

from trirast import Canvas, Polygons
from trirast.matplotlib import FigureCanvasTrirast, RendererTrirast, _colors, _corners, _inside, _polygons

from . import neighbours


class NoNumbers(unittest.TestCase):
    """Faces with corners that are no numbers: Agg leaves these out, and what is left is one face of several rings."""

    def check(self, draw: Draws) -> None:
        found = differences(draw)
        self.assertLess(int((found > 64).sum()), 6)

    def test_beside_faces_of_which_nothing_is_left(self) -> None:
        nan = np.nan
        nowhere, parted = [(nan, nan)] * 4, [(0.1, 0.1), (0.4, 0.1), (0.2, 0.4), (nan, nan), (0.6, 0.6), (0.9, 0.6)]
        crossed = [(0.1, 0.1), (0.7, 0.2), (0.4, 0.8), (nan, 0.5), (0.3, 0.1), (0.9, 0.3), (0.5, 0.9), (0.2, 0.6)]
        faces = [(nowhere, "red"), ([*parted, (0.7, 0.9)], "blue"), (nowhere, "red"), (crossed, "green")]
        for given in (faces[:2], faces):
            paths = [Path(corners) for corners, _color in given]

            def one_by_one(axes: Any) -> None:
                for path, (_corners, color) in zip(paths, given):
                    axes.add_patch(PathPatch(path, facecolor=color, linewidth=0))

            def by_fill(axes: Any) -> None:
                for corners, color in given:
                    axes.fill(*zip(*corners), color)

            def together(axes: Any) -> None:
                colors = [color for _corners, color in given]
                axes.add_collection(PolyCollection([corners for corners, _color in given], facecolor=colors))

            for draw in (one_by_one, by_fill, together):
                self.check(draw)

    def test_anywhere(self) -> None:
        random = np.random.default_rng(4)
        for number in range(6):
            corners = random.random((random.integers(3, 9), 2))
            corners[random.integers(len(corners), size=2)] = np.nan
            self.check(lambda axes: axes.fill(*corners.T, "red", alpha=(0.5, 1)[number % 2]))


class EqualToAgg(unittest.TestCase):
    """Byte for byte."""

    def check(self, draw: Draws, **more: Any) -> Any:
        agg, ours = (drawn(draw, canvas, **more) for canvas in BOTH)
        self.assertEqual(unlike(agg, ours), 0)
        return agg

    def test_no_fills(self) -> None:
        def draw(axes: Any) -> None:
            x = np.linspace(0, 1, 200)
            axes.plot(x, 0.5 + 0.4 * np.sin(20 * x), "--", x, x, "o-", markevery=20)
            axes.set(title="Lines $x^2$", xlabel="text")
            axes.imshow(np.arange(12).reshape(3, 4), extent=(0.2, 0.5, 0.2, 0.5), alpha=0.5)
            axes.grid()
            axes.errorbar(x[::40], x[::40], 0.1, capsize=3)
            axes.add_patch(Circle((0.7, 0.3), 0.2, fill=False))

        self.assertGreater(unlike(self.check(draw), np.uint8(255)), 2000)

    def test_antialiasing_off(self) -> None:
        """By the switch, and of single patches anyway."""
        x, y = np.meshgrid(np.linspace(0, 1, 30), np.linspace(0, 1, 20))
        with mock.patch.object(RendererTrirast, "smooth", False):
            self.check(lambda axes: axes.contourf(x, y, np.sin(9 * x) * y, alpha=0.5))
            self.check(lambda axes: axes.pcolormesh(x + 0.1 * y, y, x * y, alpha=0.5))
            self.check(lambda axes: axes.pcolor(x + 0.1 * y, y, x * y, alpha=0.5))
            self.check(lambda axes: axes.tripcolor(x.ravel(), y.ravel(), (x * y).ravel()))
        self.check(lambda axes: axes.add_patch(Circle((0.5, 0.5), 0.3, antialiased=False)))

    def test_whole_pixels(self) -> None:
        """Upright meshes and bars, which Agg snaps, also half transparent ones and with edges."""
        x, y = np.meshgrid(np.linspace(0, 1, 30), np.linspace(0, 1, 20))
        for alpha in (0.5, 1):
            self.check(lambda axes: axes.pcolormesh(x, y, x * y, alpha=alpha))
            self.check(lambda axes: axes.pcolormesh(x, y, x * y, alpha=alpha, antialiased=False))
            self.check(lambda axes: axes.bar(x[0], y[:, 0].repeat(2)[:30], 0.03, color=colors(30, alpha)))
            self.check(
                lambda axes: axes.bar(x[0], y[:, 0].repeat(2)[:30], 0.03, color=colors(30, alpha), edgecolor="k")
            )
            self.check(lambda axes: axes.hist(x.ravel() * y.ravel(), 20, density=True, alpha=alpha))

    def test_snapped_rectangles(self) -> None:
        """With edges of even and odd widths, and without."""
        random = np.random.default_rng(3)
        for width in (0, 0.3, 0.72, 1, 1.44, 3):
            places, tops, corners = random.random(20), random.random(20), random.random((9, 2))

            def draw(axes: Any) -> None:
                edge = "black" if width else None
                axes.bar(places, tops, 0.037, color=colors(20, 0.5), edgecolor=edge, linewidth=width)
                boxes = [Rectangle(corner, 0.1, 0.07) for corner in corners]
                axes.add_collection(PatchCollection(boxes, facecolor=colors(9, 0.6), linewidth=width, edgecolor="red"))

            # Bars and boxes lie on one another, where half transparent colours are rounded to the nearest byte here,
            # and down by Agg.
            self.assertLessEqual(differences(draw).max(), 2, width)

    def test_clip_rectangle(self) -> None:
        def draw(axes: Any) -> None:
            patch = axes.add_patch(Rectangle((-1, -1), 3, 3, facecolor=(0.2, 0.4, 0.6), snap=False))
            patch.set_clip_box(Bbox([[20.6, 31.4], [217.5, 180.49]]))

        self.assertGreater(unlike(self.check(draw), np.uint8(255)), 20000)

    def test_alpha_of_the_context(self) -> None:
        """A face's alpha is the context's if that forces it, or if the colour has none."""
        path = Path([(20, 20), (90, 20), (90, 70), (20.5, 70), (20, 20)], closed=True)
        for face in ((1, 0.5, 0), (1, 0.5, 0, 0.4)):
            for forced in (None, 0.7):
                pictures = []
                for renderer in (RendererAgg(120, 90, 100), RendererTrirast(120, 90, 100)):
                    np.asarray(renderer.buffer_rgba())[...] = 255
                    gc = renderer.new_gc()
                    gc.set_alpha(forced)
                    gc.set_linewidth(3)
                    renderer.draw_path(gc, path, IdentityTransform(), face)
                    pictures.append(np.array(renderer.buffer_rgba()).astype(int))
                self.assertGreater(unlike(pictures[0], 255), 3000)
                difference = np.abs(pictures[0] - pictures[1])
                # The left side is slanted.
                self.assertEqual(int(difference[:, 26:].max()), 0)
                self.assertLess(int(difference.max()), 24)

    def test_hidden_faces(self) -> None:
        self.check(lambda axes: axes.add_collection(PolyCollection(stars(5), facecolors=(0, 0, 0, 0), edgecolors="k")))
        self.check(lambda axes: axes.add_collection(PolyCollection(stars(5), facecolors="none", edgecolors="k")))

    def test_collections_with_edges_and_no_common_sides(self) -> None:
        x, y = np.random.default_rng(1).random((2, 200))
        self.check(lambda axes: axes.scatter(x, y, c=x, alpha=0.5))
        self.check(
            lambda axes: axes.add_collection(PolyCollection(stars(20), facecolors=colors(20, 0.5), edgecolors="k"))
        )


class Translucent(unittest.TestCase):
    """Agg rounds blends down, and a canvas to the nearest."""

    def test_away_from_edges_they_are_agg_s(self) -> None:
        for name, plot in neighbours.PLOTS.items():
            far = ~neighbours.near_edges(plot, FigureCanvasAgg)
            self.assertGreater(int(far.sum()), 10000, name)
            agg, ours = (neighbours.drawn(lambda axes: plot(axes, neighbours.many_colors(0.5)), each) for each in BOTH)
            self.assertEqual(int((agg != ours)[far].sum()), 0, name)

    def test_on_other_grounds(self) -> None:
        """Of each axes its own, also where something else is drawn in between, or faces wait that make the ground."""
        for ground in ("black", "0.9", (0.92, 0.92, 0.95), (0.2, 0.25, 0.3)):

            def draw(axes: Any) -> None:
                axes.add_patch(Rectangle((-0.1, -0.1), 1.2, 1.2, facecolor=ground, snap=False))
                for n, color in enumerate(colors(8, 0.4)):
                    left = 0.04 + 0.115 * n
                    corners = [(left, 0.1), (left + 0.1, 0.15), (left + 0.1, 0.9), (left, 0.8)]
                    axes.add_patch(Polygon(corners, facecolor=color, zorder=2 * n + 2))
                    axes.axhline(0.95, zorder=2 * n + 3)

            agg, ours = (drawn(draw, canvas) for canvas in BOTH)
            inside = np.s_[100:170, 40:280]
            differ = (agg != ours)[inside].any(2).mean(0)
            # Columns with an upright side of a polygon alone.
            self.assertLess(int((differ > 0).sum()), 18, ground)
            self.assertGreater(len(np.unique(ours[inside].reshape(-1, 4), axis=0)), 8)

    def test_colors_for_a_ground(self) -> None:
        """What a canvas makes of them there is what Agg makes of the given ones, over channels of 0 and from 123 on.
        Opaque and clear ones stay."""
        alpha, color = (each.ravel() for each in np.mgrid[:256, :256])
        given = np.stack((color, 255 - color, color // 2, alpha), 1).astype(np.uint8)
        for channels in ((255, 255, 255), (0, 0, 0), (229, 229, 229), (123, 124, 125), (0, 123, 200)):
            ground = (*channels, 255)
            found = _colors.as_agg_blends(given, np.array(ground, np.uint8))
            laid = (alpha > 0) & (alpha < 255)
            self.assertTrue((found[~laid] == given[~laid]).all())
            c, a, p = (each.astype(int) for each in (given[laid, :3], given[laid, 3:], np.array(ground[:3])))
            corners = np.array([(0, 0), (256, 0), (256, 256), (0, 256)], np.int32)
            d, b = found[laid, :3].astype(int), found[laid, 3:].astype(int)
            by_canvas = (b * d + (255 - b) * p + 127) // 255
            self.assertTrue((by_canvas == (256 * a * c + 255 * (256 - a) * p) // (65280 + a)).all(), ground)
            self.assertLessEqual(int(np.abs(b - a).max()), 1)
            canvas = Canvas(2, 1, 1)
            canvas.clear(ground)
            canvas.draw_polygons(corners, [4], [1], [found[laid][1000].tolist()], blend="over")
            self.assertEqual(canvas.rgba()[0, 0, :3].tolist(), by_canvas[1000].tolist())


class NearAgg(unittest.TestCase):
    """Apart from the pixels on a face's edge."""

    def check(self, draw: Draws, most: int) -> None:
        difference = differences(draw)
        self.assertLess(int((difference > 24).sum()), most)
        self.assertLess(int((difference > 1).sum()), 1500)

    def test_alpha_of_the_context(self) -> None:
        """It is the face's, too, and hides no edge."""

        def draw(axes: Any) -> None:
            axes.add_patch(Circle((0.4, 0.4), 0.3, facecolor="r", edgecolor="k", linewidth=6, alpha=0.3))
            axes.add_patch(Circle((0.6, 0.6), 0.3, facecolor=(0, 1, 0, 0.9), edgecolor=(0, 0, 1, 0.2), linewidth=9))
            axes.add_patch(Circle((0.6, 0.3), 0.2, facecolor=(0, 1, 1), alpha=0.6, linewidth=0))

        self.check(draw, 60)

    def test_far_slanted_sides(self) -> None:
        """Sides through the picture of rings whose corners are far out of it."""
        for reach in (1e3, 1e5):
            ring = np.array(((-reach, -0.6 * reach), (reach, 0.6 * reach + 0.7), (-reach, reach)))

            def draw(axes: Any) -> None:
                axes.add_patch(PathPatch(Path(ring), facecolor=(1, 0, 0, 0.4), linewidth=0))
                axes.add_collection(PolyCollection([ring[:, ::-1], 0.3 - ring], facecolors=(0, 0, 1, 0.4)))

            self.check(draw, 200)
            self.assertGreater(unlike(drawn(draw), drawn(lambda axes: None)), 10000)

    def test_edges_that_leave_the_picture(self) -> None:
        """Dashes begin at the first corner, wherever that is."""
        corners = np.array(((-0.7, -0.3), (1.6, 0.5), (-0.4, 1.4), (-0.7, -0.3)))

        def draw(axes: Any) -> None:
            axes.add_patch(
                PathPatch(Path(corners), facecolor=(1, 0, 0, 0.4), linewidth=5, linestyle=":", clip_on=False)
            )
            axes.add_collection(
                PolyCollection(
                    [0.8 * corners + 0.1] * 2, facecolors=(0, 0, 1, 0.4), edgecolors="k", linewidths=twice((5,)),
                    linestyles="--",
                )
            )

        self.check(draw, 60)

    def test_a_line_between_faces(self) -> None:
        """A stroke over a face, and a face over the stroke."""

        def draw(axes: Any) -> None:
            axes.add_patch(Circle((0.5, 0.5), 0.3, color="red", zorder=1))
            axes.plot((0, 1), (0, 1), "k", linewidth=9, zorder=2)
            axes.add_patch(Circle((0.5, 0.5), 0.3, color="blue", zorder=3))

        within = np.hypot((np.arange(320) - 160) / 256, (np.arange(240)[:, None] - 120) / 192) < 0.29
        self.assertTrue((drawn(draw)[within] == (0, 0, 255, 255)).all())
        self.check(draw, 60)

    def test_sketch(self) -> None:
        def draw(axes: Any) -> None:
            for artist in (
                axes.add_patch(Rectangle((0.2, 0.2), 0.5, 0.5, facecolor="b", edgecolor="k", linewidth=3)),
                axes.add_collection(PolyCollection(stars(5), facecolors=colors(5, 1), edgecolors="k")),
            ):
                artist.set_sketch_params(4, 50, 9)

        with warnings.catch_warnings():
            warnings.simplefilter("ignore")
            self.check(draw, 30)

    def test_holes_and_lines_behind_a_closed_ring(self) -> None:
        for path in (HOLE, BEHIND):
            self.check(lambda axes: axes.add_patch(PathPatch(path, linewidth=0)), 30)
            patches = [PathPatch(path), Circle((0.95, 0.95), 0.02)]
            self.check(
                lambda axes: axes.add_collection(PatchCollection(patches, facecolors="r", edgecolors="none")), 80
            )
        picture = drawn(lambda axes: axes.add_patch(PathPatch(HOLE, linewidth=0)))
        self.assertEqual(picture[240 - round(24 + 0.43 * 192), round(32 + 0.5 * 256)].tolist(), WHITE)


class Seams(unittest.TestCase):
    def test_none_between_neighbours(self) -> None:
        for name in (
            "contourf", "pcolormesh", "tripcolor", "PolyCollection, a honeycomb", "fill_between, stacked",
            "choropleth of patches",
        ):
            self.assertEqual(int(neighbours.seams(neighbours.PLOTS[name], FigureCanvasTrirast, 0.5).sum()), 0, name)

    def test_few_where_corners_lie_on_sides(self) -> None:
        """Sides of turned bars end at different places, each of which is moved to a multiple of 1/256 pixel."""
        agg, ours = (int(neighbours.seams(neighbours.turned_bars, each, 0.5).sum()) for each in BOTH)
        self.assertLess(ours, 0.02 * agg)

    def test_a_slanted_mesh_that_is_snapped(self) -> None:
        """Its corners are whole pixels by default, and its sides are not."""
        x, y = neighbours.bent_grid(10, 8)
        shown = drawn(
            lambda axes: axes.pcolormesh(x, y, np.ones((8, 10)), alpha=0.5, vmin=0, vmax=2)
        )[INSIDE].reshape(-1, 4)
        self.assertTrue((shown == shown[0]).all())
        self.assertLess(shown[0].min(), 200)

    def test_other_sizes(self) -> None:
        for dpi in (37, 150):
            self.assertEqual(int(neighbours.seams(neighbours.contourf, FigureCanvasTrirast, 1.0, dpi).sum()), 0)

    def test_far_zoom(self) -> None:
        """Triangles around a corner, up to a billion times larger than the axes."""
        for scale in (1e2, 1e5, 1e9):
            angles = np.sort(np.random.default_rng(7).uniform(0, 2 * np.pi, 40))
            rim = 0.5 + scale * np.stack((np.cos(angles), np.sin(angles)), 1)
            fan = [np.array(((0.5, 0.5), a, b)) for a, b in zip(rim, np.roll(rim, -1, 0))]
            shown = drawn(
                lambda axes: axes.add_collection(PolyCollection(fan, facecolors=(0, 0, 1, 0.5)))
            )[INSIDE].reshape(-1, 4)
            self.assertTrue((shown == shown[0]).all(), scale)
            self.assertLess(shown[0, 0], 200)

    def test_far_patches(self) -> None:
        """Bars and rings that reach far out of the picture in one direction: upright sides stay where they are."""

        def draw(axes: Any, length: float) -> None:
            patch = Path([(0.6, 0.3), (0.9, 0.3), (0.9, length), (0.6, length)])
            item = [(0, -length), (0.1, -length), (0.1, 0.8), (0, 0.8)]
            axes.add_patch(Rectangle((0.2, 0.3), 0.3, length, facecolor=(0, 0, 1, 0.5), edgecolor="k"))
            axes.add_patch(PathPatch(patch, facecolor=(1, 0, 0, 0.5), linewidth=0))
            axes.add_collection(PolyCollection([item, item], facecolors=(0, 1, 0, 0.5)))

        for reach in (1e3, 1e7, 1e9):
            near, far = (drawn(lambda axes: draw(axes, length)) for length in (10, reach))
            self.assertGreater(unlike(near, np.uint8(255)), 10000)
            self.assertEqual(unlike(near, far), 0, reach)

    def test_snapped_together(self) -> None:
        """Squares beside slanted neighbours: Agg moves the squares alone to whole pixels. Here all or
        none are moved."""
        cells = [
            np.array(((0.1, 0.1), (0.50176, 0.1), (0.50176, 0.5), (0.1, 0.5))),
            np.array(((0.50176, 0.1), (0.9, 0.2), (0.9, 0.4), (0.50176, 0.5))),
        ]
        rows, column = slice(240 - round(24 + 0.45 * 192), 240 - round(24 + 0.15 * 192)), round(32 + 0.50176 * 256)
        # An array has the same codes for all of its paths, which takes another way.
        for given in (cells, np.array(cells)):
            picture = drawn(lambda axes: axes.add_collection(PolyCollection(given, facecolors=(0, 0, 1, 0.5))))
            shown = picture[rows, column - 3 : column + 3].reshape(-1, 4)
            self.assertTrue((shown == shown[0]).all())


def over_white(pixels: Any) -> Any:
    share = pixels[..., 3:] / 255
    return share * pixels[..., :3] + (1 - share) * 255


class Transparent(unittest.TestCase):
    """Figures whose ground is not opaque: samples with alpha."""

    def test_no_seams(self) -> None:
        for ground in ("none", (1, 0.5, 0, 0.4)):
            for name in ("contourf", "pcolormesh", "stackplot"):
                self.assertEqual(
                    int(neighbours.seams(neighbours.PLOTS[name], FigureCanvasTrirast, 0.5, facecolor=ground).sum()), 0,
                    name,
                )
        self.assertGreater(
            int(neighbours.seams(neighbours.stackplot, FigureCanvasAgg, 0.5, facecolor="none").sum()), 5000
        )

    def test_over_white_they_are_opaque_figures(self) -> None:
        """Apart from roundings, of which Agg's own strokes over clear pixels have most: by Agg these differ by 2.8, and
        over white faces are rounded down as by Agg."""
        draws: List[Draws] = [
            lambda axes: axes.add_patch(Circle((0.5, 0.5), 0.3, facecolor=(1, 0.5, 0, 0.3), edgecolor="k")),
            lambda axes: axes.add_collection(PolyCollection(stars(9), facecolors=colors(9, 0.5))),
            lambda axes: axes.add_collection(PolyCollection(tiles(), facecolors=colors(30, 0.5), edgecolors="k")),
            lambda axes: axes.pcolormesh(*neighbours.bent_grid(3, 2), np.arange(6).reshape(2, 3), alpha=0.5),
            lambda axes: axes.add_patch(Circle((0.5, 0.5), 0.4, color="g")).set_clip_path(
                Circle((0.3, 0.5), 0.4, transform=axes.transAxes)
            ),
        ]
        for number, draw in enumerate(draws):
            clear, opaque = (
                drawn(lambda axes: (axes.set_axis_off(), draw(axes)), facecolor=ground) for ground in ("none", "white")
            )
            self.assertGreater(unlike(opaque, np.uint8(255)), 4000)
            self.assertEqual(clear[0, 0].tolist(), [255, 255, 255, 0])
            difference = np.abs(over_white(clear) - opaque[..., :3]).max(2)
            self.assertLess(difference.max(), 4, number)
            self.assertLess(int((difference > 2).sum()), 320, number)

    def test_pixels_without_a_face_keep_their_bytes(self) -> None:
        """Also those that samples with alpha do not hold exactly, in the bounds of a face."""
        noise = np.random.default_rng(1).integers(0, 256, (240, 320, 4)).astype(np.uint8)
        triangle = np.array(((0.1, 0.1), (0.9, 0.15), (0.2, 0.9)))

        def draw(axes: Any, faces: bool) -> None:
            axes.set_axis_off()
            axes.figure.figimage(noise, zorder=-1)
            for n in range(2 * faces):
                axes.add_patch(PathPatch(Path(triangle + 0.02 * n), facecolor=(0, 0, 1, 0.5), linewidth=0))

        below, above = (drawn(lambda axes: draw(axes, faces), facecolor="none") for faces in (False, True))
        self.assertGreater(unlike(below, above), 12000)
        x, y = (np.arange(320) + 0.5 - 32) / 256, (216 - np.arange(240)[:, None] - 0.5) / 192
        outside = (x + y > 1.2) | (y < 0.05) | (x < 0.05)
        self.assertGreater(int(outside[INSIDE].sum()), 10000)
        self.assertTrue((below[outside] == above[outside]).all())

    def test_what_pdf_rasterizes(self) -> None:
        """One mesh of a figure: its picture as the file has it."""
        found = []
        for canvas_class in BOTH:
            figure = Figure(figsize=(3.2, 2.4))
            canvas_class(figure)
            axes = figure.add_axes((0.1, 0.1, 0.8, 0.8), xlim=(0, 1), ylim=(0, 1))
            axes.pcolormesh(*neighbours.bent_grid(20, 15), np.ones((15, 20)), alpha=0.5, rasterized=True, snap=False)
            with mock.patch.object(RendererPdf, "draw_image") as drawing:
                figure.savefig(io.BytesIO(), format="pdf", dpi=100)
            inside = np.array(drawing.call_args[0][3])[5:-5, 5:-5].reshape(-1, 4)
            self.assertGreater(len(inside), 40000)
            found.append(int((inside != inside[0]).any(1).sum()))
        self.assertEqual(found[1], 0)
        self.assertGreater(found[0], 1000)

    def test_ground_that_a_face_makes_opaque(self) -> None:
        """Neighbours on it have samples without alpha, and those before it have them with alpha."""

        def draw(axes: Any) -> None:
            axes.set_axis_off()
            for zorder in (1, 3):
                axes.add_collection(PolyCollection(tiles(), facecolors=(0, 0, 1, 0.5), zorder=zorder))
            axes.add_patch(PathPatch(Path(((-1, -1), (2, -1), (2, 2), (-1.01, 2))), color="w", zorder=2))
            # Agg draws it, so that what waits is drawn before.
            axes.plot((0.9, 0.95), (0.9, 0.95), zorder=2.5)

        shown = drawn(draw, facecolor="none")
        self.assertTrue((shown[INSIDE][..., 3] == 255).all())
        self.assertEqual(len(np.unique(shown[100:140, 100:200].reshape(-1, 4), axis=0)), 1)


# What has one closed ring, with a part of its edge or its inside where the axes are zoomed to: at (0, 0).
CLOSED: Dict[str, Draws] = {
    "fill": lambda axes: axes.fill((0, 1, 0.5), (0, 0, 1), alpha=0.5),
    "polygon": lambda axes: axes.add_patch(Polygon(((0, 0), (1, 0), (1, 1)), alpha=0.5, linewidth=0)),
    "polygon with an edge": lambda axes: axes.add_patch(
        Polygon(((0, 0), (1, 0), (1, 1)), facecolor="c", edgecolor="k")
    ),
    "circle": lambda axes: axes.add_patch(Circle((0.5, 0.5), 0.7074, alpha=0.5)),
    "ellipse": lambda axes: axes.add_patch(Ellipse((0.5, 0.5), 1.4143, 0.9, angle=45, alpha=0.5)),
    "wedge": lambda axes: axes.add_patch(Wedge((0, 0), 0.7, 20, 300, alpha=0.5)),
    "turned rectangle": lambda axes: axes.add_patch(Rectangle((0, 0), 1, 1, angle=10, alpha=0.5)),
    "pie": lambda axes: axes.pie((1, 2, 3)),
    "filled steps": lambda axes: axes.hist(
        np.random.default_rng(0).normal(size=900), 200, histtype="stepfilled", alpha=0.5
    ),
    "boxplot": lambda axes: axes.boxplot((-0.5, -0.1, 0.4, 0.9), positions=(0,), patch_artist=True),
    "arrow": lambda axes: axes.arrow(0, 0, 1, 1, width=0.1),
}


class FarZoom(unittest.TestCase):
    def test_closed_patches(self) -> None:
        """With corners at 40,000 and more pixels: beside Agg, pixels on edges alone differ."""
        for name, draw in CLOSED.items():
            for limit in (1 / 200, 1e-3):

                def zoomed(axes: Any) -> None:
                    draw(axes)
                    axes.set(xlim=(-limit / 3, limit), ylim=(-limit / 3, limit), aspect="auto", frame_on=True)

                with self.subTest(name=name, limit=limit):
                    agg, ours = (drawn(zoomed, canvas_class).astype(int) for canvas_class in BOTH)
                    self.assertGreater(int((ours[INSIDE] != 255).any(2).sum()), 5000)
                    self.assertLess(int((np.abs(agg - ours).max(2) > 1).sum()), 1000)


class Rules(unittest.TestCase):
    def test_rings_of_four_corners_wind_around_no_point_twice(self) -> None:
        """So that such polygons may be drawn by the even-odd rule."""
        random = np.random.default_rng(5)
        points = random.uniform(-1, 1, (200, 2))
        for _ in range(200):
            ring = random.integers(-3, 4, (_polygons.MOST_SIMPLE, 2)) / 3.0
            a, b = ring[None], np.roll(ring, -1, 0)[None]
            x, y = points[:, None, 0], points[:, None, 1]
            down, up = (a[..., 1] <= y) & (y < b[..., 1]), (b[..., 1] <= y) & (y < a[..., 1])
            with np.errstate(all="ignore"):
                left = a[..., 0] + (b[..., 0] - a[..., 0]) * (y - a[..., 1]) / (b[..., 1] - a[..., 1]) <= x
            winding = (down & left).sum(1) - (up & left).sum(1)
            self.assertTrue((np.abs(winding) <= 1).all())

    def test_rings_that_turn_once_are_the_same_by_both_rules(self) -> None:
        """Also those that cross themselves, with level and upright steps and with empty rings between
        them; a star is none."""
        pick = np.random.default_rng(6)
        known = 0
        for number in range(40):
            lengths = pick.integers(0, 12, 30)
            rings = [pick.integers(0, 20, (length, 2)) * 900 for length in lengths]
            for n, ring in enumerate(rings):
                if n % 3 < 2:
                    # Once forth and once back in one direction, and anyhow in the other.
                    half, axis = pick.integers(0, len(ring) + 1), n % 3
                    ring[:half, axis].sort()
                    ring[half:, axis] = -np.sort(-ring[half:, axis])
                    rings[n] = np.roll(ring, pick.integers(12), 0)
            polygons = Polygons(np.concatenate(rings).astype(np.int32), np.cumsum(lengths), np.arange(1, 31)).owned()
            turned = _polygons.turn_once(polygons.corners, polygons.ring_ends)
            self.assertTrue(turned[np.arange(30) % 3 < 2].all())
            some = polygons.take(np.flatnonzero(turned))
            self.assertTrue(_polygons.are_simple(some))
            fills = pick.integers(0, 256, (some.count, 4)).astype(np.uint8)
            pictures = []
            rules: Any = ("even-odd", "nonzero")
            for rule in rules:
                canvas = Canvas(80, 70, 16)
                canvas.draw_polygons(some, colors=fills, rule=rule, blend="over")
                pictures.append([canvas.colors(sample) for sample in range(16)])
            self.assertTrue(np.array_equal(pictures[0], pictures[1]))
            known += int(turned.sum())
        self.assertGreater(known, 800)
        star = np.array(((0, 9), (6, 0), (9, 8), (0, 3), (9, 3)), np.int32)[None]
        self.assertFalse(_polygons.are_simple(polygons_of(star)))
        self.assertTrue(_polygons.are_simple(polygons_of(star[:, [0, 3, 1, 4, 2]])))

    def test_nonzero(self) -> None:
        """What a star's ring winds around twice is inside."""
        angles = np.pi / 2 + 4 * np.pi / 5 * np.arange(5)
        star = np.stack((0.5 + 0.4 * np.cos(angles), 0.5 + 0.4 * np.sin(angles)), 1)
        for draw in (
            lambda axes: axes.add_patch(PathPatch(Path(star), color="k", linewidth=0)),
            lambda axes: axes.add_collection(PolyCollection([star, star], facecolors="k")),
        ):
            self.assertEqual(drawn(draw)[120, 160].tolist(), [0, 0, 0, 255])

    def test_rings_of_three_and_four_corners_as_triangles(self) -> None:
        """The same samples as by polygons, also of quads that turn inwards or have no area; a quad that
        crosses itself is none."""
        pick = np.random.default_rng(3)
        drawn_so = 0
        for number in range(60):
            length, span = int(pick.integers(3, 5)), int(pick.choice((300, 3000, 20000)))
            rings = pick.integers(-span // 4, span, (20, length, 2)).astype(np.int32)
            if number % 3 == 0:
                rings = rings // 256 * 256
            if number % 5 == 0:
                rings[:, 2] = rings[:, 1]
            rings = rings[[_corners.triangles_of(polygons_of(ring[None])) is not None for ring in rings]]
            polygons, fills = polygons_of(rings), pick.integers(0, 256, (len(rings), 4)).astype(np.uint8)
            both = [Canvas(80, 70, 16) for _ in range(2)]
            for canvas in both:
                canvas.clear((200, 255, 30))
            both[0].draw_polygons(polygons.colored(fills), rule="nonzero", blend="over", depth=number)
            vertices = _corners.vertices_of_corners(polygons.corners, fills, number)
            both[1].draw(vertices, _corners.triangles_of(polygons), blend="over")
            self.assertTrue(all(np.array_equal(*(canvas.colors(sample) for canvas in both)) for sample in range(16)))
            drawn_so += len(rings)
        self.assertGreater(drawn_so, 600)
        crossed = np.array((((0, 0), (900, 900), (900, 0), (0, 900)),), np.int32)
        self.assertIsNone(_corners.triangles_of(polygons_of(crossed)))
        mixed = polygons_of(crossed[:, :3]).followed_by(polygons_of(crossed[:, [0, 2, 1, 3]]))
        self.assertIsNone(_corners.triangles_of(mixed))

    def test_vertices_behind_each_other(self) -> None:
        """Of any numbers, also with gaps."""
        floats, integers = np.arange(12.0).reshape(6, 2), np.arange(4).reshape(2, 2)
        kinds: List[Any] = [
            [floats, floats], [floats, integers], [floats[::2], floats], [integers], [floats.astype(">f8")],
            [floats[:0]], [[(1, 2)], floats],
        ]
        for arrays in kinds:
            found = _inside.stacked(arrays)
            self.assertEqual(found.tolist(), np.concatenate(arrays).tolist())


def polygons_of(rings: Any) -> Polygons:
    """Polygons of a ring each, all of one length."""
    return _polygons.rings_of_one_length(rings)


if __name__ == "__main__":
    unittest.main()
