"""Scenes of posters: each checks itself when it is made, and nobody changes it afterwards."""

import importlib.util
import json
import unittest
from typing import Any, Dict, List

if importlib.util.find_spec("numpy") is None:
    raise unittest.SkipTest("posters need numpy")

import numpy as np

import trirast
from trirast import poster
from trirast.poster import _index, _part, _scene, _windows

from .common import DRAW_LIST, FILE, VERTICES, run
from .poster_common import Files

SHEET = poster.Sheet(3, 3)
TRIANGLE = np.array([[0, 1, 2]])
ONE = [poster.PosterDraw(1)]


def sheet_of(**more: Any) -> poster.Sheet:
    given: Dict[str, Any] = {"width": 3, "height": 3, **more}
    return poster.Sheet(**given)


def records_of(rows: Any) -> Any:
    """Vertices as records."""
    return np.array([(*row, 0) for row in rows], trirast.VERTEX)


def scene_of(
    vertices: Any = np.array(VERTICES), triangles: Any = TRIANGLE, draws: Any = ONE, **more: Any
) -> poster.Scene:
    return poster.Scene(SHEET, vertices, triangles, draws, **more)


class Sheets(unittest.TestCase):
    def test_wrong_values_are_refused_by_name(self) -> None:
        values: List[Dict[str, Any]] = [
            {"width": 0}, {"width": 40_000}, {"height": 1.5}, {"height": "3"}, {"width": True}, {"samples": 3},
            {"samples": 0}, {"clear": (0, 0, 300)}, {"clear": (0, 0)}, {"clear": 0}, {"clear": (0, -1, 0)},
            {"clear_depth": 70_000}, {"clear_depth": -1}, {"clear_depth": None}, {"output": "alpha"},
        ]
        for wrong in values:
            with self.assertRaises(poster.ArraysError) as raised:
                sheet_of(**wrong)
            self.assertIn(next(iter(wrong)), str(raised.exception))

    def test_integers_of_numpy_are_integers(self) -> None:
        sheet = poster.Sheet(
            np.int64(3), np.uint8(4), clear=np.array([1, 2, 3]), clear_depth=np.uint16(65535)  # type: ignore[arg-type]
        )
        self.assertEqual(sheet, poster.Sheet(3, 4, clear=(1, 2, 3)))
        self.assertEqual(
            [type(value) for value in (sheet.width, sheet.height, *sheet.clear, sheet.clear_depth)], [int] * 6
        )


class Draws(unittest.TestCase):
    def test_wrong_values_are_refused(self) -> None:
        for triangles in (-1, 1.0, "1", None, True, 1 << 40):
            with self.assertRaises(poster.ArraysError):
                poster.PosterDraw(triangles)  # type: ignore[arg-type]
        for state in (3, {"vertices": []}, {"cull": {1}}, {"scissor": np.zeros(4)}):
            with self.assertRaises(poster.ArraysError):
                poster.PosterDraw(1, state)  # type: ignore[arg-type]

    def test_a_state_is_not_changed_afterwards(self) -> None:
        state = {"cull": "none"}
        draw = poster.PosterDraw(1, state)
        state["cull"] = "sideways"
        self.assertEqual(draw.state, {"cull": "none"})


class Scenes(Files):
    def test_wrong_arrays_are_refused(self) -> None:
        vertices = np.array(VERTICES)
        for wrong in (
            vertices[:, :2], vertices[0], vertices + (1 << 24), vertices + (1 << 40), vertices.astype(float),
            vertices.astype(bool), -vertices,
            VERTICES, np.ma.masked_less(vertices, 1), None,  # type: ignore[no-untyped-call]
        ):
            with self.assertRaises(poster.ArraysError):
                scene_of(vertices=wrong)
        for wrong in (
            TRIANGLE + 1, TRIANGLE - 1, TRIANGLE + (1 << 32), TRIANGLE.astype(np.uint64) - np.uint64(1), TRIANGLE[:0],
            TRIANGLE[:, :2], [[0, 1, 2]], TRIANGLE.astype(float),
        ):
            with self.assertRaises(poster.ArraysError):
                scene_of(triangles=wrong)

    def test_wrong_draws_are_refused(self) -> None:
        for draws in ([], [poster.PosterDraw(2)], [poster.PosterDraw(1)] * 2, [{"triangles": 1}]):
            with self.assertRaises(poster.ArraysError):
                scene_of(draws=draws)
        states: List[Dict[str, Any]] = [
            {"cull": "sideways"}, {"fog": 1}, {"scissor": [0, 0, 1]}, {"scissor": [0, 0, 1, 40_000]},
            {"sample_mask": 99_999},
        ]
        for state in states:
            with self.assertRaises(trirast.DrawListError):
                scene_of(draws=[poster.PosterDraw(1, state)])
        with self.assertRaises(poster.ArraysError):
            poster.Scene((3, 3), np.array(VERTICES), TRIANGLE, ONE)  # type: ignore[arg-type]

    def test_arrays_are_not_changed_afterwards(self) -> None:
        for kind in map(np.dtype, ("i4", "i8", ">i4")):
            vertices, triangles = np.array(VERTICES, kind), TRIANGLE.astype(kind)
            scene = scene_of(vertices, triangles)
            vertices[:], triangles[:] = 1 << 30, 1 << 30
            for array in (scene.vertices, scene.triangles):
                with self.assertRaises(ValueError):
                    array[0] = array[1:2]
            poster.draw_poster(scene, self.path("a.ppm"))
            self.assertEqual(self.content("a.ppm"), FILE)

    def test_without_a_copy_arrays_are_the_callers(self) -> None:
        vertices, triangles = records_of(VERTICES), TRIANGLE.astype(np.int32)
        scene = scene_of(vertices, triangles, copy=False)
        self.assertTrue(np.shares_memory(scene.vertices, vertices) and np.shares_memory(scene.triangles, triangles))
        self.assertFalse(scene.vertices.flags.writeable)
        self.assertTrue(vertices.flags.writeable)
        poster.draw_poster(scene, self.path("a.ppm"))
        self.assertEqual(self.content("a.ppm"), FILE)

    def must_not_crash(self, change: str) -> None:
        """Arrays of the caller's own that another thread changes while they are drawn: a poster, or an
        error by name."""
        done = run(f"""
            import os, threading, time, numpy as np, trirast
            from trirast import poster
            count, side = 9000, 256
            pick = np.random.default_rng(1)
            places = pick.integers(0, 256 * side, (3 * count, 2))
            vertices = np.zeros(3 * count, trirast.VERTEX)
            vertices["x"], vertices["y"] = places.T
            triangles = np.arange(3 * count, dtype=np.int32).reshape(-1, 3)
            scene = poster.scene_of_arrays(
                vertices, triangles, {{"width": side, "height": side, "samples": 4, "draws": [{{"triangles": count}}]}},
                copy=False,
            )
            is_over = False

            def flip():
                while not is_over:
                    for k in range(0, count, 997):
                        {change}
                    time.sleep(0.0002)

            flipping = threading.Thread(target=flip)
            flipping.start()
            end, ended = time.monotonic() + 2, 0
            while time.monotonic() < end or not ended:
                try:
                    poster.draw_poster(scene, os.environ["OUT"], window=64, workers=3)
                except (trirast.BatchError, trirast.CanvasError, poster.PosterError, IndexError):
                    pass
                ended += 1
            is_over = True
            flipping.join()
            print("ended")
        """, OUT=self.path("changed.ppm"))
        self.assertEqual((done.returncode, done.stdout, done.stderr), (0, b"ended\n", b""))

    def test_arrays_that_another_thread_changes(self) -> None:
        self.must_not_crash(
            "vertices['x'][k] = 0x7fffffff; vertices['x'][k] = -0x80000000; vertices['x'][k] = "
            "9; vertices['depth'][k] = 65535;"
            "triangles[k, 1] = 0x7fffffff; triangles[k, 1] = -5; triangles[k, 1] = 2"
        )

    def test_windows_of_arrays_that_others_have_are_copies(self) -> None:
        vertices, triangles = records_of(VERTICES), TRIANGLE.astype(np.int32)
        windows = _windows.Windows(SHEET, 64)
        for copy in (False, True):
            scene = scene_of(vertices, triangles, copy=copy)
            part = _part.part_of(scene, _index.Index.of(scene, windows), windows.span(0, 0, 1))
            for array in (part.vertices, part.triangles):
                self.assertFalse(np.shares_memory(array, vertices) or np.shares_memory(array, triangles))
            self.assertEqual(part.vertices[part.triangles].tolist(), [records_of(VERTICES).tolist()])
            # Arrays that are the scene's own are copied once.
            self.assertEqual(np.shares_memory(part.vertices, scene.vertices), copy)
        index = _index.Index.of(scene_of(vertices, triangles), windows)
        mine = scene_of(vertices, triangles, copy=False)
        for wrong in (3, -1, 0x7fffffff):
            triangles[0, 1] = wrong
            with self.assertRaisesRegex(poster.ArraysError, "triangles: expected 0 to "):
                _part.part_of(mine, index, windows.span(0, 0, 1))

    def test_other_samples_of_the_same_arrays(self) -> None:
        for copy in (False, True):
            scene = scene_of(np.array(VERTICES, np.int32), TRIANGLE.astype(np.int32), copy=copy)
            self.assertEqual((scene.is_own, _scene.with_samples(scene, 16).is_own), (copy, copy))


class Texts(unittest.TestCase):
    """Lists past 4096 pixels have the checks of all others."""

    def test_numbers_and_lengths(self) -> None:
        for width in (3, 5000, 32768):
            text = json.dumps({**DRAW_LIST, "width": width}).encode()
            for wrong in (
                text.replace(b"[128, 128, 0,", b"[128, 128, -0,"), text.replace(b'"width": ', b'"width": 0'),
                text.replace(b'"width": ', b'"width": -'), text.replace(b"[128, 128, 0,", b"[128, 128, 0.0,"),
                text.replace(b"[128, 128, 0,", b"[128, 128, 1e400,"), text + b" {}", b"\xef\xbb\xbf" + text,
            ):
                self.assertNotEqual(wrong, text)
                with self.assertRaises(trirast.DrawListError):
                    poster.scene_of_list(wrong)
            long = text + b" " * (67_108_865 - len(text))
            with self.assertRaises(trirast.LimitError):
                poster.scene_of_list(long)
            self.assertEqual(poster.scene_of_list(long[:-1]).sheet.width, width)

    def test_numbers_that_a_poster_does_not_have(self) -> None:
        for width in ("32769", "99999999999", "5000.0", "5e3", "4097.5"):
            text = json.dumps(DRAW_LIST).replace('"width": 3', f'"width": {width}').encode()
            with self.assertRaises(trirast.DrawListError):
                poster.scene_of_list(text)

    def test_scissors(self) -> None:
        draw = DRAW_LIST["draws"][0]
        for scissor, is_read in (
            ([0, 0, 32768, 9000], True), ([0, 0, 32769, 9000], False), ([0, 0, 9000.0, 3], False), ([0, 9000, 3], False)
        ):
            text = json.dumps({**DRAW_LIST, "draws": [{**draw, "scissor": scissor}]}).encode()
            if is_read:
                self.assertEqual(poster.scene_of_list(text).draws[0].state["scissor"], scissor)
                continue
            with self.assertRaises(trirast.DrawListError):
                poster.scene_of_list(text)


if __name__ == "__main__":
    unittest.main()
