"""PNG files of pictures, canvases and posters: pixels as Pillow reads them, dots per inch, and what notebooks show."""

import importlib
import importlib.util
import io
import math
import os
import struct
import unittest
from contextlib import redirect_stderr
from typing import Any, List
from unittest import mock

if importlib.util.find_spec("numpy") is None:
    raise unittest.SkipTest("these tests need numpy")

import numpy as np

import trirast
from trirast import poster
from trirast.poster import _command
from trirast.poster._journal import Journal

from .common import DRAW_LIST, VERTICES, chunks
from .poster_common import Files, random_scene

IMAGE: Any = importlib.import_module("PIL.Image") if importlib.util.find_spec("PIL") else None
DEPTHS = {**DRAW_LIST, "output": "depth", "clear_depth": 258}


def drawn() -> trirast.Canvas:
    canvas = trirast.Canvas(3, 3)
    canvas.clear()
    canvas.draw(VERTICES, [(0, 1, 2)])
    return canvas


def dots_in(file: bytes) -> Any:
    """Dots per metre across and down and the unit of a PNG file, or None. The chunk stands before the pixels."""
    kinds = [kind for kind, _ in chunks(file)]
    if b"pHYs" not in kinds:
        return None
    assert kinds.count(b"pHYs") == 1 and kinds.index(b"pHYs") < kinds.index(b"IDAT")
    return struct.unpack(">IIB", dict(chunks(file))[b"pHYs"])


class Saved(Files):
    def test_are_what_pillow_reads(self) -> None:
        if IMAGE is None:
            self.skipTest("there is no Pillow")
        canvas, depths = drawn(), trirast.draw(DEPTHS)
        canvas.save(self.path("colours.png"))
        depths.save(self.path("depths.png"), dpi=300)
        for name, pixels in (("colours.png", canvas.rgb()), ("depths.png", np.asarray(depths))):
            with IMAGE.open(self.path(name)) as image:
                self.assertTrue(np.array_equal(np.asarray(image), pixels), name)
                dots = image.info.get("dpi", (0, 0))
        self.assertEqual([round(each, 2) for each in dots], [300, 300])

    def test_of_a_canvas_and_of_its_picture_are_one(self) -> None:
        canvas = drawn()
        picture = trirast.draw(DRAW_LIST)
        for name, dpi in (("a.png", None), ("a.png", 300), ("a.ppm", None)):
            canvas.save(self.path(name), threads=2, dpi=dpi)
            of_canvas = self.content(name)
            picture.save(self.path(name), dpi=dpi)
            self.assertEqual(of_canvas, self.content(name))

    def test_notebooks_show_the_same_file(self) -> None:
        shown: Any = (drawn(), trirast.draw(DRAW_LIST), trirast.draw(DEPTHS))
        for each in shown:
            each.save(self.path("a.png"))
            self.assertEqual(each._repr_png_(), self.content("a.png"))

    def test_dots_are_those_that_were_given(self) -> None:
        cases: Any = (
            (300, 11811), (72, 2835), (0.0254, 1), (54546084, 2147483622), (np.float32(600), 23622),
        )
        for dpi, per_metre in cases:
            drawn().save(self.path("a.png"), dpi=dpi)
            self.assertEqual(dots_in(self.content("a.png")), (per_metre, per_metre, 1))
        drawn().save(self.path("a.png"))
        self.assertIsNone(dots_in(self.content("a.png")))

    def test_other_dots_are_refused(self) -> None:
        picture = trirast.draw(DRAW_LIST)
        for dpi, kind, message in (
            (0, ValueError, "dpi: expected 0.0254 to 54546084, got 0"),
            (-1, ValueError, "dpi: expected 0.0254 to 54546084, got -1"),
            (54546085, ValueError, "dpi: expected 0.0254 to 54546084, got 54546085"),
            (math.nan, ValueError, "dpi: expected a finite float, got nan"),
            ("300", TypeError, "dpi: expected a real number, got '300'"),
            ((300, 300), TypeError, "dpi: expected a real number, got (300, 300)"),
        ):
            calls: Any = (picture.save, drawn().save)
            for save in calls:
                with self.assertRaises(kind) as caught:
                    save(self.path("a.png"), dpi=dpi)
                self.assertEqual(str(caught.exception), message)
        for save, name in ((picture.save, "a.ppm"), (drawn().save, "A.PPM"), (trirast.draw(DEPTHS).save, "a.pgm")):
            with self.assertRaisesRegex(
                ValueError, f"^dpi: expected a file whose name ends in .png, got .*{name}'; leave dpi out$"
            ):
                save(self.path(name), dpi=300)
        self.assertEqual(os.listdir(self.folder), [])


class Posters(Files):
    def test_have_dots_and_the_same_pixels(self) -> None:
        scene = random_scene(7)
        poster.draw_poster(scene, self.path("plain.png"))
        poster.draw_poster(scene, self.path("dots.png"), tiles=self.path("tiles"), dpi=150)
        plain, dots = self.content("plain.png"), self.content("dots.png")
        self.assertEqual((dots_in(plain), dots_in(dots)), (None, (5906, 5906, 1)))
        self.assertEqual([each for each in chunks(dots) if each[0] != b"pHYs"], chunks(plain))
        self.assertIsNone(dots_in(self.content("tiles/0/0/0.png")))

    def test_are_resumed_with_other_dots(self) -> None:
        scene = random_scene(7)
        poster.draw_poster(scene, self.path("whole.png"), dpi=300, window=64)
        for before in (None, 72, 300):
            self.stop(scene, before)
            poster.draw_poster(scene, self.path("a.png"), dpi=300, window=64, resume=True)
            self.assertEqual(self.content("a.png"), self.content("whole.png"))

    def stop(self, scene: poster.Scene, dpi: Any) -> None:
        """Leaves what a run leaves that was stopped after its second row of windows."""
        self.remove("a.png")
        with mock.patch("trirast.poster._journal.Journal.kept", autospec=True, side_effect=stop_at(2)):
            with self.assertRaises(Stopped):
                poster.draw_poster(scene, self.path("a.png"), dpi=dpi, window=64)
        self.assertTrue(os.path.exists(self.path("a.png.resume")))

    def test_other_files_have_none(self) -> None:
        scene = random_scene(7)
        for name in ("a.ppm", "a"):
            with self.assertRaisesRegex(
                ValueError, f"^dpi: expected a file whose name ends in .png or .tif or .tiff, got '.*{name}'; leave"
            ):
                poster.draw_poster(scene, self.path(name), dpi=300)
        with self.assertRaisesRegex(
            ValueError, "^dpi: expected a file whose name ends in .png or .tif or .tiff, got tiles; leave dpi out$"
        ):
            poster.draw_poster(scene, tiles=self.path("tiles"), dpi=300)
        self.assertEqual(os.listdir(self.folder), [])

    def test_of_the_command(self) -> None:
        value = {"width": 3, "height": 3, "draws": [{"triangles": 1}]}
        poster.save_arrays(self.path("a.npz"), np.array(VERTICES), np.array([[0, 1, 2]]), value)
        self.assertEqual(_command.main([self.path("a.npz"), "-o", self.path("a.png"), "--dpi", "300"]), 0)
        self.assertEqual(dots_in(self.content("a.png")), (11811, 11811, 1))
        errors = io.StringIO()
        with redirect_stderr(errors):
            self.assertEqual(_command.main([self.path("a.npz"), "-o", self.path("a.ppm"), "--dpi", "300"]), 1)
        ends = ".png or .tif or .tiff"
        message = f"dpi: expected a file whose name ends in {ends}, got {self.path('a.ppm')!r}; leave dpi out"
        self.assertEqual(errors.getvalue(), f"poster: ValueError: {message}\n")


class Stopped(Exception):
    """Stops a run."""


def stop_at(row: int) -> Any:
    """In place of Journal.kept: the run ends at this row."""
    kept = Journal.kept
    rows: List[str] = []

    def call(journal: Journal, checksum: str) -> None:
        if len(rows) == row:
            raise Stopped
        rows.append(checksum)
        kept(journal, checksum)

    return call


if __name__ == "__main__":
    unittest.main()
