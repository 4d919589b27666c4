"""The backend of matplotlib: its pictures beside Agg's, clips, transparent figures, numbers that are
none, and far zooms."""

import importlib.util
import io
import unittest
from typing import Any, Callable, Optional, Tuple
from unittest import mock

for needed in ("numpy", "matplotlib"):
    if importlib.util.find_spec(needed) is None:
        raise unittest.SkipTest(f"the backend needs {needed}")

from .polygon_rule import area, clipped

import matplotlib
import numpy as np
from matplotlib.backends.backend_agg import FigureCanvasAgg
from matplotlib.figure import Figure
from matplotlib.patches import Circle
from matplotlib.tri import Triangulation
from matplotlib.transforms import IdentityTransform

from trirast._box import Box
from trirast.matplotlib import FigureCanvasTrirast, RendererTrirast, _drawing, _mesh, _renderer, _samples, _triangles
from trirast.matplotlib._mesh import Gouraud, Mesh
from trirast.matplotlib._polygons import REACH
from trirast.matplotlib._triangles import Triangles

# Its functions have no types.
ma: Any = np.ma
WHITE = [255, 255, 255, 255]
# Of one_color, by the colour map "gray".
GRAY = [153, 153, 153, 255]
SIZE = (3.2, 2.4)
AXES = (0.125, 0.125, 0.75, 0.75)
# The pixels of the axes: 40 to 280 and 30 to 210. Those on their border are half covered.
INSIDE = (slice(31, 209), slice(41, 279))
COUNT = 178 * 238

Draws = Callable[[Any], Any]


def random_mesh() -> Triangulation:
    x, y = np.random.default_rng(2).random((2, 800))
    x[:4], y[:4] = (0, 1, 0, 1), (0, 0, 1, 1)
    return Triangulation(x, y)


def bent_grid() -> Tuple[Any, Any]:
    x, y = np.meshgrid(np.linspace(0, 1, 40), np.linspace(0, 1, 30))
    return x + 0.03 * np.sin(7 * y), y + 0.03 * np.sin(5 * x)


MESH = random_mesh()


def tripcolor(values: Callable[[Any, Any], Any], **more: Any) -> Draws:
    def draw(axes: Any) -> Any:
        return axes.tripcolor(MESH, values(MESH.x, MESH.y), shading="gouraud", cmap="gray", vmin=0, vmax=1, **more)

    return draw


def pcolormesh(values: Callable[[Any, Any], Any], **more: Any) -> Draws:
    def draw(axes: Any) -> Any:
        x, y = bent_grid()
        return axes.pcolormesh(x, y, values(x, y), shading="gouraud", cmap="gray", vmin=0, vmax=1, **more)

    return draw


def one_color(x: Any, y: Any) -> Any:
    return 0 * x + 0 * y + 0.6


def slope(x: Any, y: Any) -> Any:
    return (x + y) / 2


def drawn(
    draw: Draws, canvas_class: Any = FigureCanvasTrirast, limits: Tuple[float, float] = (0.05, 0.95), dpi: int = 100,
    **more: Any,
) -> Any:
    """The pixels of a figure, red, green, blue and alpha, whose axes show the same limits in both directions."""
    figure = Figure(figsize=SIZE, dpi=dpi, **more)
    canvas = canvas_class(figure)
    axes = figure.add_axes(AXES, xlim=limits, ylim=limits)
    axes.set_axis_off()
    draw(axes)
    canvas.draw()
    return np.asarray(canvas.buffer_rgba()).copy()


def off_color(pixels: Any) -> int:
    """How many pixels of the axes are not of the colour that most of them have."""
    inside = pixels[INSIDE].reshape(-1, 4)
    return int(len(inside) - np.unique(inside, axis=0, return_counts=True)[1].max())


def colors_in(pixels: Any) -> Any:
    """The colours of some pixels, each once."""
    return np.unique(pixels.reshape(-1, 4), axis=0).tolist()


def exact_slope(least: float, greatest: float) -> Any:
    """The gray of the slope at the centres of the pixels of the axes, as a number."""
    y, x = np.mgrid[INSIDE] + 0.5
    return 255 * (least + (greatest - least) * ((x - 40) / 240 + (210 - y) / 180) / 2)


def farthest(a: Any, b: Any) -> float:
    return float(np.abs(np.subtract(a, b, dtype=float)).max())


class Meshes(unittest.TestCase):
    def test_matplotlib_finds_the_backend(self) -> None:
        with mock.patch.dict(matplotlib.rcParams):
            matplotlib.use("module://trirast.matplotlib")
            import matplotlib.pyplot as plt

            figure = plt.figure()
            self.assertIsInstance(figure.canvas, FigureCanvasTrirast)
            figure.canvas.draw()
            self.assertIsInstance(figure.canvas.get_renderer(), RendererTrirast)
            plt.close(figure)

    def test_half_transparent_meshes_have_no_seams(self) -> None:
        for draw in (tripcolor(one_color, alpha=0.5), pcolormesh(one_color, alpha=0.5)):
            self.assertEqual(off_color(drawn(draw)), 0)
            self.assertGreater(off_color(drawn(draw, FigureCanvasAgg)), COUNT // 3)

    def test_meshes_have_their_colors(self) -> None:
        exact = exact_slope(0.05, 0.95)
        for draw in (tripcolor, pcolormesh):
            for alpha in (None, 0.5):
                pixels = drawn(draw(slope, alpha=alpha))[INSIDE]
                self.assertLess(farthest(pixels[..., 0], exact if alpha is None else (exact + 255) / 2), 2)
                self.assertEqual(set(pixels[..., 3].ravel()), {255})

    def test_all_else_is_as_agg_draws_it(self) -> None:
        def text(axes: Any) -> None:
            axes.set_axis_on()
            axes.plot([0.1, 0.9], [0.2, 0.8])
            axes.set_title("title")

        self.assertEqual(drawn(text).tobytes(), drawn(text, FigureCanvasAgg).tobytes())

    def test_a_figure_is_saved_in_another_size(self) -> None:
        figure = Figure(figsize=SIZE, dpi=50)
        FigureCanvasTrirast(figure)
        axes = figure.add_axes(AXES, xlim=(0.05, 0.95), ylim=(0.05, 0.95))
        axes.set_axis_off()
        tripcolor(one_color, alpha=0.5)(axes)
        file = io.BytesIO()
        figure.savefig(file, format="rgba", dpi=100)
        self.assertEqual(off_color(np.frombuffer(file.getvalue(), np.uint8).reshape(240, 320, 4)), 0)

    def test_one_figure_of_another_backend_is_saved_by_this_one(self) -> None:
        saved = []
        for canvas_class in (FigureCanvasTrirast, FigureCanvasAgg):
            figure = Figure(figsize=SIZE)
            canvas_class(figure)
            pcolormesh(one_color, alpha=0.5)(figure.add_subplot())
            file = io.BytesIO()
            figure.savefig(file, format="png", backend="module://trirast.matplotlib")
            saved.append(file.getvalue())
            self.assertIs(type(figure.canvas), canvas_class)
        self.assertEqual(*saved)


class Filters(unittest.TestCase):
    """Filters of pixels where matplotlib first measures what it will draw."""

    def saved(self, canvas_class: Any, layout: Optional[str], bbox: Optional[str], draw: Draws) -> bytes:
        figure = Figure(figsize=SIZE, layout=layout)
        canvas = canvas_class(figure)
        axes = figure.add_subplot(title="a title", xlabel="x", ylabel="y")
        axes.plot([0, 1], [1, 0], agg_filter=lambda image, _dpi: (image, 3, 4))
        draw(axes)
        file = io.BytesIO()
        canvas.print_figure(file, format="raw", bbox_inches=bbox)
        return file.getvalue()

    def test_are_those_of_agg(self) -> None:
        for layout, bbox in ((None, "tight"), ("constrained", None), ("constrained", "tight"), ("tight", None)):
            with self.subTest(layout=layout, bbox=bbox):
                both = [
                    self.saved(each, layout, bbox, lambda axes: None) for each in (FigureCanvasTrirast, FigureCanvasAgg)
                ]
                self.assertEqual(*both)

    def test_leave_meshes_to_a_canvas(self) -> None:
        meshes: Tuple[Draws, ...] = (
            tripcolor(one_color), tripcolor(one_color, alpha=0.5, agg_filter=lambda image, _dpi: (image, 0, 0))
        )
        for draw in meshes:
            for layout, bbox in ((None, None), (None, "tight"), ("constrained", None)):
                # An opaque figure's by samples, and the transparent picture of a filter by itself.
                with mock.patch.object(_renderer, "draw_triangles") as alone, mock.patch.object(
                    _samples.Samples, "draw_triangles"
                ) as sampled:
                    self.saved(FigureCanvasTrirast, layout, bbox, draw)
                # Once by the drawing alone, and not where matplotlib measures.
                self.assertEqual(alone.call_count + sampled.call_count, 1, (layout, bbox))


class Clips(unittest.TestCase):
    def test_nothing_is_drawn_outside_of_the_clip_rectangle(self) -> None:
        pixels = drawn(tripcolor(one_color))
        outside = np.ones(pixels.shape[:2], bool)
        outside[30:210, 40:280] = False
        self.assertEqual(colors_in(pixels[outside]), [WHITE])
        self.assertEqual(colors_in(pixels[30:210, 40:280]), [GRAY])

    def test_a_clip_path(self) -> None:
        def clipped(axes: Any) -> None:
            tripcolor(slope)(axes).set_clip_path(Circle((0.5, 0.5), 0.3, transform=axes.transAxes))

        whole, part = drawn(tripcolor(slope)), drawn(clipped)
        y, x = np.mgrid[0:240, 0:320] + 0.5
        distance = np.hypot((x - 160) / 240, (y - 120) / 180)
        self.assertEqual(part[distance < 0.29].tobytes(), whole[distance < 0.29].tobytes())
        self.assertEqual(colors_in(part[distance > 0.31]), [WHITE])
        between = part[(distance > 0.295) & (distance < 0.305), 0]
        self.assertGreater(len(np.unique(between)), 20)

    def test_a_clip_path_is_filled_as_by_agg(self) -> None:
        whole = Triangulation([-2, 4, -2], [-2, -2, 4])

        def clipped(axes: Any) -> None:
            mesh = axes.tripcolor(whole, np.zeros(3), shading="gouraud", cmap="gray", vmin=0, vmax=1)
            mesh.set_clip_path(Circle((0.5, 0.5), 0.3, transform=axes.transAxes))

        # A sixteenth is the least share of an edge.
        self.assertLess(farthest(drawn(clipped), drawn(clipped, FigureCanvasAgg)), 48)
        ours, agg = (drawn(clipped, each, facecolor=(1, 1, 1, 0.99)) for each in (FigureCanvasTrirast, FigureCanvasAgg))
        self.assertLess(farthest(ours, agg), 3)


class Transparent(unittest.TestCase):
    def test_a_transparent_figure_is_the_opaque_one_over_its_ground(self) -> None:
        for alpha in (None, 0.5):
            draw = tripcolor(slope, alpha=alpha)
            clear, opaque = drawn(draw, facecolor="none"), drawn(draw)
            share = clear[..., 3:] / 255
            self.assertLess(farthest(share * clear[..., :3] + (1 - share) * 255, opaque[..., :3]), 2)
            self.assertEqual(set(clear[INSIDE][..., 3].ravel()), {255 if alpha is None else 128})
            self.assertEqual(set(clear[:30, :, 3].ravel()), {0})

    def test_transparent_figures_have_no_seams(self) -> None:
        for draw in (tripcolor(one_color, alpha=0.5), pcolormesh(one_color, alpha=0.3)):
            self.assertEqual(off_color(drawn(draw, facecolor=(1, 0.5, 0, 0.4))), 0)

    def test_a_filter_of_pixels(self) -> None:
        def filtered(axes: Any) -> None:
            tripcolor(slope, alpha=0.5)(axes).set_agg_filter(lambda image, _dpi: (image, 0, 0))

        self.assertLess(farthest(drawn(filtered), drawn(tripcolor(slope, alpha=0.5))), 3)

    def test_a_clip_path_of_a_transparent_figure(self) -> None:
        def clipped(axes: Any) -> None:
            tripcolor(slope, alpha=0.5)(axes).set_clip_path(Circle((0.5, 0.5), 0.3, transform=axes.transAxes))

        clear, opaque = drawn(clipped, facecolor="none"), drawn(clipped)
        share = clear[..., 3:] / 255
        # An opaque figure's clip path has edges of sixteenths.
        difference = np.abs(share * clear[..., :3] + (1 - share) * 255 - opaque[..., :3]).max(2)
        self.assertLess(difference.max(), 24)
        self.assertLess(int((difference >= 2).sum()), 500)
        corner = slice(31, 50), slice(41, 60)
        self.assertEqual(clear[corner].tobytes(), drawn(lambda axes: None, facecolor="none")[corner].tobytes())


# ---- Triangles by themselves


def renderer_with(points: Any, colors: Any, gc: Optional[Any] = None) -> RendererTrirast:
    """A white figure of 40 by 30 pixels with triangles, whose positions are pixels, y upwards."""
    renderer = RendererTrirast(40, 30, 72)
    np.asarray(renderer.buffer_rgba())[...] = 255
    renderer.draw_gouraud_triangles(
        gc or renderer.new_gc(), np.array(points, float), np.array(colors, float), IdentityTransform()
    )
    return renderer


def pixels_with(points: Any, colors: Any) -> Any:
    return np.asarray(renderer_with(points, colors).buffer_rgba()).copy()


LOWER, UPPER = [(0, 0), (40, 0), (0, 30)], [(40, 0), (40, 30), (0, 30)]
BLACK, RED = [[0, 0, 0, 1]] * 3, [[1, 0, 0, 0.5]] * 3


class Given(unittest.TestCase):
    def test_what_is_no_number_is_left_out(self) -> None:
        wanted = pixels_with([LOWER], [BLACK])
        for bad in (np.nan, np.inf, -np.inf):
            self.assertEqual(
                pixels_with([LOWER, [(40, 0), (40, bad), (0, 30)]], [BLACK, BLACK]).tobytes(), wanted.tobytes()
            )
            self.assertEqual(pixels_with([LOWER, UPPER], [BLACK, [[bad, 0, 0, 1]] * 3]).tobytes(), wanted.tobytes())
        renderer = renderer_with([LOWER], [BLACK])
        masked = ma.masked_less(np.array([UPPER], float), 1)
        renderer.draw_gouraud_triangles(renderer.new_gc(), masked, np.array([BLACK], float), IdentityTransform())
        self.assertEqual(np.asarray(renderer.buffer_rgba()).tobytes(), wanted.tobytes())

    def test_masked_values_of_a_mesh(self) -> None:
        def holed(axes: Any) -> None:
            x, y = np.meshgrid(np.linspace(0, 1, 9), np.linspace(0, 1, 9))
            values = ma.masked_greater(one_color(x, y) + (x > 0.9), 1)
            axes.pcolormesh(x, y, values, shading="gouraud", cmap="gray", vmin=0, vmax=1)

        pixels = drawn(holed)
        self.assertEqual(colors_in(pixels[INSIDE][:, :180]), [GRAY])

    def test_positions_between_pixels(self) -> None:
        # Samples lie 1/8, 3/8, 5/8 and 7/8 of a pixel from its left, so these cover one, two and all of them.
        for right, gray in ((10.25, 191), (10.5, 128), (11.0, 0)):
            pixels = pixels_with([[(0, 0), (right, 0), (0, 30)], [(right, 0), (right, 30), (0, 30)]], [BLACK, BLACK])
            self.assertEqual(colors_in(pixels[:, 10]), [[gray, gray, gray, 255]])
            self.assertEqual(colors_in(pixels[:, :10]), [[0, 0, 0, 255]])

    def test_triangles_are_drawn_in_their_order(self) -> None:
        both = pixels_with([LOWER, LOWER], [RED, BLACK])
        self.assertEqual(both.tobytes(), pixels_with([LOWER], [BLACK]).tobytes())
        self.assertEqual(pixels_with([LOWER, LOWER], [BLACK, RED])[29, 0].tolist(), [128, 0, 0, 255])

    def test_nothing_and_one_triangle(self) -> None:
        renderer = renderer_with(np.zeros((0, 3, 2)), np.zeros((0, 3, 4)))
        self.assertEqual(set(bytes(renderer.buffer_rgba())), {255})
        renderer.draw_gouraud_triangle(renderer.new_gc(), LOWER, BLACK, IdentityTransform())
        self.assertEqual(bytes(renderer.buffer_rgba()), pixels_with([LOWER], [BLACK]).tobytes())

    def test_windows_batches_and_threads_change_no_pixel(self) -> None:
        for facecolor in ("white", "none"):
            wanted = drawn(tripcolor(slope, alpha=0.5), facecolor=facecolor)
            for changed in (
                mock.patch.object(_drawing, "MAX_SIDE", 50), mock.patch.object(_triangles, "BATCH", 7),
                mock.patch.object(RendererTrirast, "threads", 3),
            ):
                with changed:
                    self.assertEqual(
                        drawn(tripcolor(slope, alpha=0.5), facecolor=facecolor).tobytes(), wanted.tobytes()
                    )


    def test_samples_are_shares_of_an_edge(self) -> None:
        # Of a pixel whose left part is black, a sixteenth is the least share that sixteen samples show, and a
        # quarter that of four.
        for samples, shares in ((1, 2), (2, 3), (4, 5), (8, 9), (16, 17)):
            with mock.patch.object(RendererTrirast, "samples", samples):
                rights = [10 + sixteenth / 16 for sixteenth in range(17)]
                two = ([[(0, 0), (right, 0), (0, 30)], [(right, 0), (right, 30), (0, 30)]] for right in rights)
                grays = {int(pixels_with(corners, [BLACK, BLACK])[15, 10, 0]) for corners in two}
            self.assertEqual(len(grays), shares)

    def test_more_samples_have_smaller_windows(self) -> None:
        with mock.patch.object(RendererTrirast, "samples", 16):
            wanted = drawn(tripcolor(slope, alpha=0.5))
            with mock.patch.object(_drawing, "MAX_SIDE", 50):
                self.assertEqual(drawn(tripcolor(slope, alpha=0.5)).tobytes(), wanted.tobytes())


class Grids(unittest.TestCase):
    """Meshes that come as their grid."""

    def mesh(self) -> Tuple[Any, Mesh]:
        """A mesh of matplotlib and of this package."""
        found = pcolormesh(slope, alpha=0.5)(Figure().add_subplot())
        found.update_scalarmappable()
        return found, _mesh.mesh_of(found._coordinates, found.get_facecolor().reshape(30, 40, 4))

    def test_have_the_triangles_of_matplotlib(self) -> None:
        given, mesh = self.mesh()
        triangles, colors = given._convert_mesh_to_triangles(given._coordinates)
        self.assertEqual(mesh.triangles().points.tobytes(), triangles.tobytes())
        self.assertEqual(mesh.triangles().colors.tobytes(), colors.tobytes())

    def test_make_the_vertices_of_their_triangles(self) -> None:
        points, colors = self.mesh()[1]
        holed, far = np.array(300 * points), np.array(300 * points)
        holed[3, 5], far[3, 5] = np.nan, 1e5
        for places, corner in ((300 * points, (0, 0)), (holed, (0, 0)), (far, (0, 0)), (40 * points, (32760, 0))):
            mesh = Mesh(places, colors)
            self.assertEqual(vertices_in(mesh, corner), vertices_in(mesh.triangles(), corner))

    def test_are_asked_for_by_this_renderer_alone(self) -> None:
        def masked(axes: Any) -> None:
            x, y = bent_grid()
            axes.pcolormesh(x, y, ma.masked_greater(x, 0.9), shading="gouraud")

        draws: Tuple[Tuple[Draws, int], ...] = ((pcolormesh(slope), 1), (tripcolor(slope), 0), (masked, 0))
        for draw, count in draws:
            with mock.patch.object(_renderer, "in_pixels", side_effect=_renderer.in_pixels) as placed:
                drawn(draw, FigureCanvasAgg)
                self.assertEqual(placed.call_count, 0)
                drawn(draw)
            self.assertEqual([call.args[0].shape == (30, 79, 2) for call in placed.call_args_list], [bool(count)])


def vertices_in(triangles: Gouraud, corner: Tuple[int, int]) -> bytes:
    """The vertices of all batches, three for each triangle."""
    return b"".join(
        (each.vertices if each.indices is None else each.vertices[np.frombuffer(each.indices, np.uint32)]).tobytes()
        for each in triangles.batches(*corner)
    )


class Far(unittest.TestCase):
    def test_zoomed_far_in(self) -> None:
        for limits in ((0.5, 0.5001), (0.3, 0.3000001)):
            pixels = drawn(tripcolor(slope), limits=limits)[INSIDE]
            self.assertLess(farthest(pixels[..., 0], exact_slope(*limits)), 2)
            self.assertEqual(off_color(drawn(tripcolor(one_color, alpha=0.5), limits=limits)), 0)

    def test_far_corners_have_no_seams(self) -> None:
        # The axes stand at a corner of the mesh from which six triangles go far out.
        angles = np.linspace(0, 2 * np.pi, 7)[:-1] + 0.2
        x, y = (np.append(0.5, 0.5 + 1e4 * each) for each in (np.cos(angles), np.sin(angles)))
        fan = Triangulation(x, y, [[0, k, k % 6 + 1] for k in range(1, 7)])
        draw: Draws = lambda axes: axes.tripcolor(
            fan, np.full(7, 0.6), shading="gouraud", cmap="gray", vmin=0, vmax=1, alpha=0.5
        )
        self.assertEqual(off_color(drawn(draw)), 0)

    def test_cut_triangles_keep_their_area_inside(self) -> None:
        corners = np.random.default_rng(3).uniform(-3 * REACH, 3 * REACH, (300, 3, 2))
        given = Triangles(corners, np.concatenate((corners, corners), 2) / REACH)
        cut = _triangles.within_reach(given)
        self.assertEqual(float(np.abs(cut.points).max()), REACH)
        # Colours that go with the position stay so at each new corner.
        self.assertLess(farthest(cut.colors[..., :2] * REACH, cut.points), 1e-6)
        inside = sum(abs(area(clipped(each, (-REACH, -REACH), (REACH, REACH)))) for each in corners.tolist())
        self.assertAlmostEqual(sum(abs(area(each)) for each in cut.points.tolist()) / inside, 1, places=9)

    def test_parts_stand_where_their_triangle_stood(self) -> None:
        far = np.array([[(-9e4, 0), (9e4, 1), (0, 9e4)], [(0, 0), (1, 0), (0, 1)], [(-9e4, 0), (9e4, 1), (0, 9e4)]])
        number = np.repeat(np.arange(3.0), 12).reshape(3, 3, 4)
        found = _triangles.within_reach(Triangles(far, number)).colors[:, 0, 0]
        self.assertEqual(found.tolist(), sorted(found))
        self.assertEqual(set(found), {0.0, 1.0, 2.0})
        outside = far[:1] + 9e5
        self.assertEqual(len(_triangles.within_reach(Triangles(outside, number[:1])).points), 0)

    def test_windows_beyond_the_guard_band(self) -> None:
        figure = np.full((4, 40000, 4), 255, np.uint8)
        points = np.array([[(0, 0), (40000, 0), (0, 4)], [(40000, 0), (40000, 4), (0, 4)]], float)
        _drawing.draw_triangles(figure, Triangles(points, np.full((2, 3, 4), 0.5)), Box(0, 0, 40000, 4))
        self.assertEqual(colors_in(figure), [[191, 191, 191, 255]])


if __name__ == "__main__":
    unittest.main()
