"""Scenes of many draws, runs that last long and are interrupted, what comes from other processes, and values of classes
that few expect."""

import importlib.util
import json
import os
import random
import signal
import subprocess
import sys
import tempfile
import unittest
from typing import Any, Dict, List
from unittest import mock

if importlib.util.find_spec("numpy") is None:
    raise unittest.SkipTest("posters need numpy")

import numpy as np

import trirast
from trirast import poster
from trirast._ffi import library
from trirast.poster import _dask, _local_workers
from trirast.poster._index import Index
from trirast.poster._local_workers import LocalWorkers
from trirast.poster._part import part_of
from trirast.poster._window_pixels import releases, sent_pixels, window_pixels
from trirast.poster._windows import Windows

from .common import PYTHON, SECONDS
from .poster_common import Files, random_scene

# Seconds within which an interrupted run ends.
PATIENCE = 180


class Many(Files):
    """Scenes of many draws."""

    def scene(self, states: List[Dict[str, Any]]) -> poster.Scene:
        pick = np.random.default_rng(1)
        count = len(states)
        middles = pick.integers(0, 76800, (count, 1, 2))
        places = (middles + pick.integers(-900, 900, (count, 3, 2))).reshape(-1, 2)
        vertices = np.concatenate((places, pick.integers(0, 256, (3 * count, 5))), 1)
        return poster.scene_of_arrays(
            vertices, np.arange(3 * count).reshape(-1, 3),
            {"width": 300, "height": 300, "samples": 4, "draws": [{"triangles": 1, **state} for state in states]},
        )

    def test_each_state_is_made_once(self) -> None:
        """Draws of equal states, also with scissors of their own, take the time of their triangles."""
        pick = random.Random(1)
        states: List[Dict[str, Any]] = []
        for _ in range(3000):
            state: Dict[str, Any] = pick.choice([{"blend": "over"}, {"cull": "back"}, {"write": [True, False, True]}])
            left, top = pick.randrange(200), pick.randrange(200)
            states.append({**state, "scissor": [left, top, left + 90, top + 90]} if pick.random() < 0.7 else state)
        scene = self.scene(states)
        made = mock.Mock(side_effect=trirast.Draw)
        with mock.patch("trirast.poster._thread_canvas.Draw", made):
            poster.draw_poster(scene, self.path("a.ppm"), window=128)
        self.assertLessEqual(made.call_count, 3 * 2 * (os.cpu_count() or 1))

    def test_draws_of_one_state_are_one_call(self) -> None:
        scene = self.scene([{"blend": "over"}] * 2000 + [{"cull": "back"}] * 1000)
        self.assertEqual([stretch.end for stretch in scene.stretches], [2000, 3000])
        self.assertEqual(len(scene.draws), 3000)


class Interrupts(Files):
    def test_a_long_call_can_be_interrupted(self) -> None:
        """20,000 triangles cover each sample of a sheet: no call lasts long."""
        count, far = 20_000, 1 << 20
        vertices = np.zeros((3, 7), np.int32)
        vertices[:, :2] = (0, 0), (2 * far, 0), (0, 2 * far)
        triangles = np.zeros((count, 3), np.int32) + np.arange(3)
        draws = [{"triangles": count, "blend": "over"}]
        poster.save_arrays(
            self.path("a.npz"), vertices, triangles, {"width": 4096, "height": 4096, "samples": 16, "draws": draws}
        )
        words = [self.path("a.npz"), "-o", self.path("a.png"), "--window", "4096", "--workers", "2"]
        with subprocess.Popen(
            [sys.executable, "-m", "trirast.poster", *words], stderr=subprocess.PIPE,
            env={**os.environ, "PYTHONPATH": os.path.join(PYTHON, "src")},
        ) as child:
            try:
                for _ in range(100 * SECONDS):
                    if os.path.exists(self.path("a.png.resume")) or child.poll() is not None:
                        break
                    signal.sigtimedwait([], 0.01)
                signal.sigtimedwait([], 1)
                child.send_signal(signal.SIGINT)
                _, errors = child.communicate(timeout=PATIENCE)
            finally:
                child.kill()
        self.assertEqual((child.returncode, errors), (130, b"poster: stopped; --resume goes on\n"))


class Workers(Files):
    """What comes from another process, or goes to one."""

    def part(self) -> Any:
        scene, windows = random_scene(1), Windows(poster.Sheet(300, 200, 4), 128)
        return part_of(scene, Index.of(scene, windows), next(windows.in_row(0)).span)

    def test_what_a_worker_sends_are_the_pixels_of_its_window(self) -> None:
        window, blank = next(Windows(poster.Sheet(300, 200), 128).in_row(0)), poster.Sheet(300, 200).blank(0, 0)
        pixels = np.zeros((128, 128, 3), np.uint8)
        self.assertIs(_dask.checked(window, pixels, blank), pixels)
        for wrong in (None, pixels[:1], pixels[:, :, :1], pixels.astype(np.uint16), pixels.tolist(), np.uint8(3)):
            with self.assertRaises(poster.WorkerLostError):
                _dask.checked(window, wrong, blank)

    def test_a_worker_has_the_same_release(self) -> None:
        part = self.part()
        self.assertTrue(np.array_equal(sent_pixels(part, releases()), window_pixels(part)))
        library_version = library().trirast_version_string().decode()
        for other in ("0.0.0", releases().replace(f"library {library_version}", "library 0.0.0")):
            with self.assertRaisesRegex(poster.EngineMissingError, f"expected {other}, got {releases()}"):
                sent_pixels(part, other)

    def test_what_a_worker_lacks_is_named(self) -> None:
        """An error of the worker's own is not taken for one of this process or of the scheduler."""
        distributed, future = mock.MagicMock(), mock.Mock(status="error")
        distributed.scheduler.KilledWorker = distributed.TimeoutError = ZeroDivisionError
        sheet = poster.Sheet(300, 200)
        window, blank = next(Windows(sheet, 128).in_row(0)), sheet.blank(0, 0)
        for error, wanted in (
            (OSError("libtrirast.so.1"), "worker: .*, got OSError: libtrirast.so.1; install it"),
            (ModuleNotFoundError("trirast"), "worker: .*, got ModuleNotFoundError: trirast; install it"),
            (poster.EngineMissingError("a worker: other"), "^a worker: other$"),
        ):
            sending = _dask.Sending(distributed, mock.Mock(), mock.Mock(), None)
            sending._under_way.append(_dask.Sent(window, future, 1, blank))
            with mock.patch.object(sending, "_wait", side_effect=error):
                with self.assertRaisesRegex(poster.EngineMissingError, wanted):
                    sending._first()

    def test_errors_without_a_text_have_their_class(self) -> None:
        self.assertEqual(_dask.reason(TimeoutError()), "TimeoutError")
        self.assertEqual(str(_dask.lost(OSError("no route"))), "scheduler: expected an answer, got OSError: no route")

    def test_a_silent_worker_loses_its_windows_before_the_run_gives_up(self) -> None:
        """After as long as a scheduler of another machine waits, there is time to draw them elsewhere."""
        self.assertEqual(_dask.settings("local")["distributed.scheduler.worker-ttl"], "60s")
        self.assertNotIn("distributed.scheduler.worker-ttl", _dask.settings("tcp://host:8786"))
        self.assertGreaterEqual(_dask.WITHOUT_WINDOW, 3 * 300)

    def test_folders_of_killed_runs_are_removed(self) -> None:
        """Those of runs that live stay, and so does what bears such a name and is no folder."""
        named = self.path(_local_workers.NAMED)
        os.makedirs(self.path("elsewhere/content"))
        os.makedirs(f"{named}left/dask-worker-space")
        os.symlink(self.path("elsewhere"), f"{named}link")
        with open(f"{named}file", "w", encoding="ascii"):
            pass
        with mock.patch.object(tempfile, "tempdir", self.path("")), _local_workers.own_folder() as other:
            os.mkdir(os.path.join(other, "content"))
            with _local_workers.local_workers(1):
                self.assertFalse(os.path.exists(f"{named}left"))
                kept = sorted(name for name in os.listdir(self.path("")) if name.startswith(_local_workers.NAMED))
                self.assertEqual(len(kept), 4, kept)
            self.assertEqual(os.listdir(other), ["content"])
        left = {name.replace(_local_workers.NAMED, "") for name in os.listdir(self.path(""))}
        self.assertEqual(left, {"elsewhere", "file", "link"})
        self.assertTrue(os.path.exists(self.path("elsewhere/content")))

    def test_a_part_that_does_not_fit_is_not_drawn(self) -> None:
        part = self.part()
        piece = part.pieces[0]
        draw = piece.draws[0]
        areas = [piece.area._replace(bottom=9999), piece.area._replace(left=-1), piece.area._replace(right=0)]
        wrong = [part._replace(pieces=[piece._replace(area=area)]) for area in areas]
        for first, end in ((0, 1 << 40), (-5, 3), (1 << 40, (1 << 40) + 1)):
            draws = [draw._replace(first=first, end=end, is_polygons=False)]
            wrong.append(part._replace(pieces=[piece._replace(draws=draws)]))
        wrong.append(part._replace(triangles=part.triangles.reshape(-1, 1)))
        wrong.append(part._replace(vertices=np.asarray(part.vertices).view(np.uint8)))
        for each in wrong:
            with self.assertRaises(poster.ArraysError):
                window_pixels(each)

    def test_workers_that_cannot_be_started_are_lost(self) -> None:
        workers = LocalWorkers(2, self.folder)
        with mock.patch.object(_local_workers, "started", side_effect=OSError("no processes")):
            for _ in range(2 * _local_workers.ENDED + 1):
                self.assertFalse(workers.are_lost())
                workers.renew("tcp://127.0.0.1:1")
        self.assertTrue(workers.are_lost())
        self.assertRegex(str(workers), "no processes")


class Values(Files):
    """Values of classes that few expect."""

    def test_numbers_of_samples_are_integers(self) -> None:
        for samples in ([4], {}, "4", 4.0):
            with self.assertRaisesRegex(TypeError, "samples: expected an integer, got "):
                poster.draw_poster(random_scene(1), self.path("a.ppm"), samples=samples)  # type: ignore[arg-type]

    def test_memory_of_three_dimensions(self) -> None:
        cube: Any = memoryview(bytes(27)).cast("B", (3, 3, 3))
        with self.assertRaises(poster.ArraysError):
            poster.Sheet(3, 3, clear=cube)
        for name in ("corners", "ring_ends", "polygon_ends", "colors"):
            arrays: Dict[str, Any] = {
                "corners": [(0, 0)] * 3, "ring_ends": [3], "polygon_ends": [1], "colors": (1, 2, 3), name: cube
            }
            with self.assertRaises(poster.ArraysError):
                poster.scene_of_polygons(poster.Polygons(**arrays), {"width": 3, "height": 3})
        text = json.dumps({"width": 3, "height": 3, "draws": []}).encode().ljust(48)
        self.assertEqual(poster.scene_of_list(memoryview(text).cast("B", (4, 3, 4))).sheet.width, 3)


if __name__ == "__main__":
    unittest.main()
