"""Figures of the backend of matplotlib: drawn again, saved, blitted and filtered; what waits, and what
samples outlive."""

import importlib.util
import io
import os
import unittest
from functools import partial
from typing import Any, Dict, List
from unittest import mock

from .common import run
from .figures import BOTH, INSIDE, colors, drawn, stars, tiles, unlike

import numpy as np
from matplotlib.backends.backend_agg import FigureCanvasAgg
from matplotlib.collections import PolyCollection
from matplotlib.figure import Figure
from matplotlib.patches import Circle, PathPatch, Rectangle
from matplotlib.path import Path
from matplotlib.transforms import IdentityTransform

from trirast.matplotlib import FigureCanvasTrirast, RendererTrirast, _samples, _window


def figure_of(canvas_class: Any = FigureCanvasTrirast) -> Any:
    figure = Figure(figsize=(3.2, 2.4), dpi=100)
    canvas = canvas_class(figure)
    axes = figure.add_axes((0.1, 0.1, 0.8, 0.8))
    axes.set(xlim=(0, 1), ylim=(0, 1))
    axes.add_collection(PolyCollection(stars(20), facecolors=colors(20, 0.5)))
    return figure, canvas, axes


def neighbours_at(x: float) -> Any:
    """Two paths that fill the axes, with a slanted border between them. It does not close a ring, as Agg does not look
    at closing lines when it snaps what is upright."""
    corners = ((x, 0), (x + 0.22, 1), (0, 1), (0, 0)), ((x + 0.22, 1), (x, 0), (1, 0), (1, 1))
    return [Path((*ring, ring[0]), closed=True) for ring in corners]


class Again(unittest.TestCase):
    def test_drawn_twice(self) -> None:
        _figure, canvas, _axes = figure_of()
        canvas.draw()
        first = np.array(canvas.buffer_rgba())
        canvas.draw()
        self.assertEqual(unlike(np.array(canvas.buffer_rgba()), first), 0)

    def test_opaque_and_then_transparent(self) -> None:
        """One renderer draws both, and the second is as another renderer draws it."""
        pictures = []
        for both in (True, False):
            figure, canvas, axes = figure_of()
            if both:
                canvas.draw()
            figure.set_facecolor("none")
            axes.patch.set_visible(False)
            canvas.draw()
            pictures.append(np.array(canvas.buffer_rgba()))
        self.assertEqual(unlike(*pictures), 0)
        self.assertEqual(pictures[0][0, 0, 3], 0)

    def test_blitting(self) -> None:
        """Restored pixels have one colour each, so the bytes of a whole drawing may differ on edges, by a little."""
        _figure, canvas, axes = figure_of()
        axes.axis("off")
        moving = axes.add_patch(Circle((0.3, 0.3), 0.2, color=(1, 0, 0, 0.5), animated=True))
        canvas.draw()
        background = canvas.copy_from_bbox(axes.bbox)
        for x in (0.3, 0.45, 0.61):
            canvas.restore_region(background)
            moving.center = (x, 0.4)
            axes.draw_artist(moving)
        blitted = np.array(canvas.buffer_rgba()).astype(int)
        moving.set_animated(False)
        moving.set_zorder(9)
        canvas.draw()
        difference = np.abs(np.array(canvas.buffer_rgba()) - blitted).max(2)
        self.assertLess(difference.max(), 40)
        self.assertLess(int((difference > 1).sum()), 100)

    def test_restored_elsewhere(self) -> None:
        _figure, canvas, axes = figure_of()
        canvas.draw()
        region = canvas.copy_from_bbox(axes.bbox)
        left, top, right, bottom = region.get_extents()
        canvas.restore_region(region, bbox=(left, top, right - 40, bottom), xy=(left + 40, top))
        axes.draw_artist(axes.add_patch(Rectangle((-1, -1), 3, 3, color="k")))
        self.assertTrue((np.array(canvas.buffer_rgba())[INSIDE] == (0, 0, 0, 255)).all())

    def test_what_waits_is_in_the_buffer_after_each_artist(self) -> None:
        _figure, canvas, axes = figure_of()
        canvas.draw()
        buffer = np.asarray(canvas.buffer_rgba())
        before = buffer.copy()
        # Without edges, which would have Agg draw.
        axes.draw_artist(axes.add_patch(Circle((0.5, 0.5), 0.2, facecolor="k", linewidth=0)))
        self.assertGreater(unlike(buffer, before), 3000)
        renderer, path = canvas.get_renderer(), Path([(0, 0), (200, 0), (0, 150)])
        before, context = buffer.copy(), renderer.new_gc()
        context.set_linewidth(0)
        renderer.draw_path(context, path, IdentityTransform(), (0.0, 1.0, 0.0))
        self.assertGreater(unlike(buffer, before), 3000)


class Samples(unittest.TestCase):
    def test_outlive_a_call_and_what_is_drawn_elsewhere(self) -> None:
        """Neighbours with a line between their calls that does not touch their border."""
        left, right = neighbours_at(0.41)

        def draw(axes: Any) -> None:
            axes.add_patch(PathPatch(left, facecolor=(0, 0, 1, 0.5), linewidth=0, zorder=1))
            axes.plot((0.1, 0.2), (0.1, 0.9), "k", zorder=2)
            axes.add_patch(PathPatch(right, facecolor=(0, 0, 1, 0.5), linewidth=0, zorder=3))

        shown = drawn(draw)[INSIDE][:, 70:].reshape(-1, 4)
        self.assertTrue((shown == shown[0]).all())

    def test_are_dropped_where_something_else_was_drawn(self) -> None:
        """Black over a border, and the second neighbour over that: no white comes through."""
        left, right = neighbours_at(0.41)
        for lines in (1, 40):

            def draw(axes: Any) -> None:
                axes.add_patch(PathPatch(left, facecolor="k", linewidth=0, zorder=1))
                for n in range(lines):
                    axes.add_patch(Rectangle((0.3, n / lines), 0.5, 1 / lines, color="k", zorder=2))
                axes.imshow(np.zeros((200, 200, 3)), extent=(0.3, 0.8, 0, 1), zorder=2.5, aspect="auto")
                axes.add_patch(PathPatch(right, facecolor=(0, 0, 0, 0.5), linewidth=0, zorder=3))
                axes.set(xlim=(0, 1), ylim=(0, 1))

            self.assertTrue((drawn(draw)[30:210, 120:220] == (0, 0, 0, 255)).all())

    def test_many_changed_pixels_keep_the_samples_of_others(self) -> None:
        """A picture of many colours beside the border of neighbours."""
        noise = np.random.default_rng(1).random((100, 100, 3))
        left, right = neighbours_at(0.61)

        def draw(axes: Any) -> None:
            axes.add_patch(PathPatch(left, facecolor=(0, 0, 1, 0.5), linewidth=0, zorder=1))
            axes.imshow(noise, extent=(0, 0.5, 0, 1), zorder=2, aspect="auto")
            axes.add_patch(PathPatch(right, facecolor=(0, 0, 1, 0.5), linewidth=0, zorder=3))
            # It reaches into the noise, which is loaded for it.
            axes.add_patch(PathPatch(Path([(0.1, 0.1), (0.2, 0.9), (0.3, 0.5)]), color="k", linewidth=0, zorder=4))
            axes.set(xlim=(0, 1), ylim=(0, 1))

        shown = drawn(draw)[INSIDE][:, 125:].reshape(-1, 4)
        self.assertTrue((shown == shown[0]).all())

    def test_windows_and_threads_change_no_byte(self) -> None:
        def draw(axes: Any) -> None:
            axes.add_collection(PolyCollection(stars(20), facecolors=colors(20, 0.5)))
            axes.add_collection(PolyCollection(tiles(), facecolors=colors(30, 0.5), edgecolors="k"))
            axes.tripcolor((0, 1, 0, 1), (0, 0, 1, 1), (1, 2, 3, 4), shading="gouraud", alpha=0.5)
            axes.add_patch(Circle((0.5, 0.5), 0.4, color=(1, 0, 0, 0.4))).set_clip_path(
                Circle((0.3, 0.5), 0.4, transform=axes.transAxes)
            )

        for ground in ("white", "none"):
            wanted = drawn(draw, facecolor=ground)
            for changed in (
                mock.patch.object(_samples, "MAX_SIDE", 64), mock.patch.object(RendererTrirast, "threads", 3)
            ):
                with changed:
                    self.assertEqual(unlike(drawn(draw, facecolor=ground), wanted), 0)

    def test_many_clip_paths(self) -> None:
        """Their numbers begin again when they end."""

        def draw(axes: Any) -> None:
            for n in range(8):
                patch = axes.add_patch(Rectangle((0, 0), 1, 1, color=colors(8, 0.5)[n]))
                patch.set_clip_path(Circle((0.1 + 0.1 * n, 0.5), 0.3, transform=axes.transData))

        wanted = drawn(draw)
        with mock.patch.object(_window, "MAX_DEPTH", 2):
            self.assertEqual(unlike(drawn(draw), wanted), 0)

    def test_a_figure_without_fills_has_no_canvas(self) -> None:
        with mock.patch.object(_samples, "Window") as window:
            drawn(lambda axes: axes.plot((0, 1), (0, 1)))
        window.assert_not_called()


class Files(unittest.TestCase):
    def saved(self, canvas_class: Any, format: str = "rgba", **options: Any) -> bytes:
        figure, _canvas, axes = figure_of(canvas_class)
        file = io.BytesIO()
        if format != "rgba":
            axes.set_rasterized(True)
        figure.savefig(file, format=format, **options)
        return file.getvalue()

    def test_saved(self) -> None:
        choices: List[Dict[str, Any]] = [{"dpi": 57}, {"dpi": 180}, {"bbox_inches": "tight"}, {"transparent": True}]
        for options in choices:
            agg, ours = (
                np.frombuffer(self.saved(each, **options), np.uint8).reshape(-1, 4).astype(int) for each in BOTH
            )
            self.assertEqual(agg.shape, ours.shape)
            self.assertGreater(int((ours != ours[0]).any(1).sum()), 2000)
            # Edges alone differ.
            self.assertLess(np.mean(np.abs(agg - ours).max(1) > 24), 0.02)

    def test_what_pdf_and_svg_rasterize(self) -> None:
        for format in ("pdf", "svg"):
            choices: List[Dict[str, Any]] = [{}, {"bbox_inches": "tight"}]
            for options in choices:
                made = []
                init = RendererTrirast.__init__

                def noted(self: Any, *given: Any) -> None:
                    made.append(type(self))
                    init(self, *given)

                with mock.patch.object(RendererTrirast, "__init__", noted):
                    self.assertGreater(len(self.saved(FigureCanvasTrirast, format, **options)), 3000)
                self.assertIn(RendererTrirast, made)
                with mock.patch.object(RendererTrirast, "__init__", side_effect=AssertionError):
                    self.saved(FigureCanvasAgg, format, **options)

    def test_a_filter(self) -> None:
        """One that swaps red and blue, before a face that is drawn over its picture."""
        pictures = []
        for color, filtered in (("b", False), ("r", True)):
            _figure, canvas, axes = figure_of()
            patch = axes.add_patch(Circle((0.3, 0.3), 0.2, color=color, zorder=2))
            if filtered:
                patch.set_agg_filter(lambda picture, _dpi: (picture[..., (2, 1, 0, 3)], 0, 0))
            axes.add_patch(Circle((0.5, 0.5), 0.2, color="k", zorder=3))
            canvas.draw()
            pictures.append(np.array(canvas.buffer_rgba()).astype(int))
        difference = np.abs(pictures[0] - pictures[1]).max(2)
        self.assertLess(difference.max(), 40)
        self.assertLess(int((difference > 3).sum()), 400)


class Settings(unittest.TestCase):
    def test_wrong_values(self) -> None:
        """They are named when a face is drawn, also in a figure that was drawn before, and no default
        takes their place."""
        wrong: Any = (
            ("samples", 5, ValueError, "RendererTrirast.samples: expected 1, 2, 4, 8 or 16, got 5"),
            ("samples", "16", TypeError, "RendererTrirast.samples: expected an integer, got '16'"),
            ("samples", 16.0, TypeError, "RendererTrirast.samples: expected an integer, got 16.0"),
            ("smooth", "no", TypeError, "RendererTrirast.smooth: expected True or False, got 'no'"),
            ("threads", 0, ValueError, "RendererTrirast.threads: expected at least 1, got 0"),
            ("threads", 1.0, TypeError, "RendererTrirast.threads: expected an integer, got 1.0"),
        )
        for name, value, kind, message in wrong:
            figure, canvas, axes = figure_of()
            axes.add_collection(PolyCollection(stars(2), facecolors="r"))
            for draw in (canvas.draw, lambda: figure.savefig(io.BytesIO())):
                draw()
                before = np.array(canvas.buffer_rgba())
                with mock.patch.object(RendererTrirast, name, value), self.assertRaisesRegex(kind, f"^{message}$"):
                    draw()
            canvas.draw()
            self.assertEqual(unlike(before, np.array(canvas.buffer_rgba())), 0)

    def test_hold_from_the_next_draw_on(self) -> None:
        """In a figure that was drawn before, too."""
        _figure, canvas, axes = figure_of()
        axes.collections[0].remove()
        axes.add_patch(Circle((0.5, 0.5), 0.3, color="b", linewidth=0))
        pictures = []
        for samples in (16, 1, 4, 16):
            with mock.patch.object(RendererTrirast, "samples", samples):
                canvas.draw()
                pictures.append(np.array(canvas.buffer_rgba()))
                self.assertEqual(len(np.unique(pictures[-1][INSIDE][..., 0])), samples + 1)
        self.assertEqual(unlike(pictures[0], pictures[3]), 0)
        with mock.patch.object(RendererTrirast, "threads", 3), mock.patch.object(
            _samples, "Window", side_effect=_window.Window
        ) as window:
            canvas.draw()
        self.assertEqual([call.args[2:4] for call in window.call_args_list], [(16, 3)])

    def test_changed_within_a_drawing(self) -> None:
        """What was drawn before stays."""
        radius, places, counts = 0.2, (0.3, 0.7), (16, 4)

        def change(axes: Any) -> None:
            for place, samples in zip(places, counts):
                patch = axes.add_patch(Circle((place, place), radius, color="b", linewidth=0))
                patch.draw = partial(drawn_with, samples, patch)

        def drawn_with(samples: int, patch: Any, renderer: Any) -> None:
            renderer.samples = samples
            Circle.draw(patch, renderer)

        shown = drawn(change)[INSIDE][..., 0]
        parts = shown[90:, :120], shown[:90, 120:]
        self.assertEqual([len(np.unique(part)) for part in parts], [17, 5])

    def test_a_missing_library_is_known_at_once(self) -> None:
        with mock.patch.dict(os.environ, {"TRIRAST_LIBRARY": "/no/libtrirast.so"}):
            ended = run("import trirast.matplotlib")
        self.assertEqual(ended.returncode, 1)
        self.assertIn(b"OSError: library: expected one that can be loaded", ended.stderr)


WINDOW = """
    import matplotlib
    matplotlib.use("module://trirast.matplotlib.{backend}")
    import matplotlib.pyplot as plt
    figure, axes = plt.subplots(figsize=(3, 2))
    axes.contourf([[0, 1], [2, 3]], alpha=0.5)
    figure.canvas.draw()
    figure.canvas.flush_events()
    print(type(figure.canvas).__name__, type(figure.canvas.get_renderer()).__name__)
"""


@unittest.skipUnless(os.access("/usr/bin/xvfb-run", os.X_OK), "needs xvfb-run")
class Windows(unittest.TestCase):
    def shown(self, backend: str) -> str:
        """What the program prints under Xvfb: without a display matplotlib refuses both kinds of windows."""
        # matplotlib opens the display and closes it again, upon which a server with no other client would begin anew.
        ended = run(WINDOW.format(backend=backend), ("xvfb-run", "-a", "-s", "-noreset"))
        self.assertEqual(ended.returncode, 0, ended.stderr.decode())
        return ended.stdout.decode().strip()

    @unittest.skipUnless(importlib.util.find_spec("tkinter"), "needs Tk")
    def test_tk(self) -> None:
        self.assertEqual(self.shown("tkagg"), "FigureCanvasTkTrirast RendererTrirast")

    @unittest.skipUnless(
        any(importlib.util.find_spec(name) for name in ("PyQt6", "PySide6", "PyQt5", "PySide2")), "needs Qt"
    )
    def test_qt(self) -> None:
        self.assertEqual(self.shown("qtagg"), "FigureCanvasQTTrirast RendererTrirast")


if __name__ == "__main__":
    unittest.main()
