"""TIFF files of posters, read by tifffile and by Pillow, if these are there."""

import contextlib
import importlib.util
import io
import os
import unittest
from dataclasses import replace
from typing import Any
from unittest import mock

from .common import without
from .poster_common import Files, random_scene

import numpy as np

from trirast import poster
from trirast.poster import _command

IS_THERE = importlib.util.find_spec("tifffile") is not None


class Tiff(Files):
    def pixels(self, name: str, scene: poster.Scene) -> Any:
        """The pixels of a PPM or PGM file."""
        sheet = scene.sheet
        found = self.content(name)[-sheet.width * sheet.height * sheet.pixel_bytes :]
        return np.frombuffer(found, ">u2" if sheet.is_depth else "u1").reshape(
            (sheet.height, sheet.width, 3)[: 2 if sheet.is_depth else 3]
        )

    @unittest.skipUnless(IS_THERE, "needs tifffile")
    def test_files_have_the_same_pixels(self) -> None:
        import tifffile

        scene = random_scene(3, width=600, height=300)
        depths = replace(scene, sheet=replace(scene.sheet, output="depth"), copy=False)
        for each, window in ((scene, 512), (scene, 100), (depths, 70)):
            poster.draw_poster(each, self.path("a.ppm"))
            poster.draw_poster(each, self.path("a.TIF"), window=window, dpi=300)
            with tifffile.TiffFile(self.path("a.TIF")) as file:
                self.assertTrue((file.asarray() == self.pixels("a.ppm", each)).all())
                tags = file.pages[0].tags
                self.assertEqual(
                    (tags["XResolution"].value, tags["ResolutionUnit"].value, file.pages[0].is_tiled),
                    ((300, 1), 2, True),
                )
            self.assertEqual(sorted(os.listdir(self.folder)), ["a.TIF", "a.ppm"])
        if importlib.util.find_spec("PIL") is not None:
            from PIL import Image

            poster.draw_poster(scene, self.path("a.tiff"))
            poster.draw_poster(scene, self.path("a.ppm"))
            with Image.open(self.path("a.tiff")) as image:
                self.assertTrue((np.asarray(image) == self.pixels("a.ppm", scene)).all())

    @unittest.skipUnless(IS_THERE, "needs tifffile")
    def test_a_stopped_run_leaves_its_part_and_is_drawn_anew(self) -> None:
        scene = random_scene(5, width=300, height=600)
        poster.draw_poster(scene, self.path("whole.tif"), window=64)

        class Stopped(Exception):
            pass

        for resume in (False, True):
            with mock.patch("trirast.poster._journal.Journal.whole", side_effect=Stopped):
                with self.assertRaises(Stopped):
                    poster.draw_poster(scene, self.path("a.tif"), window=64)
            self.assertEqual(self.content("a.tif.part")[:11], b"trirastpart")
            self.assertFalse(os.path.exists(self.path("a.tif")))
            poster.draw_poster(scene, self.path("a.tif"), window=64, resume=resume)
            self.assertEqual(self.content("a.tif"), self.content("whole.tif"))
            self.remove("a.tif")

    def test_a_stopped_run_of_the_command_says_that_it_begins_anew(self) -> None:
        for name, text in (("a.TIF", "a TIFF file begins anew"), ("a.png", "--resume goes on")):
            stopped = mock.patch.object(_command, "scene_of", side_effect=KeyboardInterrupt)
            with stopped, contextlib.redirect_stderr(io.StringIO()) as errors:
                self.assertEqual(_command.main(["a.json", "-o", self.path(name)]), 130)
            self.assertEqual(errors.getvalue(), f"poster: stopped; {text}\n")

    def test_without_tifffile(self) -> None:
        with without("tifffile"):
            with self.assertRaisesRegex(poster.EngineMissingError, "python3-tifffile"):
                poster.draw_poster(random_scene(1), self.path("a.tif"))
        self.assertEqual(os.listdir(self.folder), [])
        with contextlib.redirect_stderr(io.StringIO()) as errors:
            self.assertEqual(_command.main([self.path("none.geojson"), "-o", self.path("a.tif")]), 1)
        self.assertIn("FileNotFoundError", errors.getvalue())


if __name__ == "__main__":
    unittest.main()
