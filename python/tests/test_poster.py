"""Posters: what is read, chosen, written and refused. tests/posters compares their pictures with
the program's."""

import importlib.util
import io
import json
import os
import unittest
import zlib
from contextlib import redirect_stderr
from typing import Any, Dict, List
from unittest import mock

if importlib.util.find_spec("numpy") is None:
    raise unittest.SkipTest("posters need numpy")

import numpy as np

import trirast
from trirast import poster
from trirast.poster import (
    _command, _draw_list, _index, _journal, _part, _png, _scene, _threads, _tiles_writer, _windows
)
from trirast.poster._dask import draw_by_dask

from .common import DRAW_LIST, FILE, VERTICES, run, without
from .poster_common import Commands, Files, as_list, is_mapped, random_scene

SHEET = poster.Sheet(3, 3)


def list_of(**more: Any) -> bytes:
    return json.dumps({**DRAW_LIST, **more}).encode()


class Lists(unittest.TestCase):
    def test_each_kind_of_primitives_is_triangles_in_their_order(self) -> None:
        for draw, wanted in (
            ({"triangles": [[2, 1, 0]]}, [[2, 1, 0]]),
            ({"quads": [[0, 1, 2, 3], [4, 5, 6, 7]]}, [[0, 1, 2], [2, 3, 0], [4, 5, 6], [6, 7, 4]]),
            ({"strip": [5, 6, 7, 8]}, [[5, 6, 7], [6, 8, 7]]),
            ({"strip": [5, 6]}, []),
        ):
            self.assertEqual(_draw_list.triangles_of(draw).tolist(), wanted)

    def test_sides_and_scissors_reach_32768_pixels(self) -> None:
        draw = {**DRAW_LIST["draws"][0], "scissor": [0, 5000, 32768, 4097]}
        scene = poster.scene_of_list(list_of(width=32768, height=4097, draws=[draw]))
        self.assertEqual((scene.sheet.width, scene.sheet.height), (32768, 4097))
        self.assertEqual(scene.draws[0].state["scissor"], [0, 5000, 32768, 4097])

    def test_broken_lists_have_the_errors_of_the_library(self) -> None:
        for text, number in (
            (b"{", 1), (b"[]", 4), (list_of(width=32769), 5), (list_of(fog=1), 2), (b'{"width":5000,"height":1}', 3)
        ):
            with self.assertRaises(trirast.DrawListError) as raised:
                poster.scene_of_list(text)
            self.assertEqual(raised.exception.number, number, text)


class Arrays(Files):
    def test_files_are_mapped_and_aligned(self) -> None:
        scene = random_scene(1)
        value = {
            "width": 300, "height": 200, "samples": 4,
            "draws": [{**draw.state, "triangles": draw.triangles} for draw in scene.draws],
        }
        poster.save_arrays(self.path("scene.npz"), scene.vertices, scene.triangles, value)
        read = poster.scene_of(self.path("scene.npz"))
        self.assertTrue(is_mapped(read.vertices))
        self.assertEqual((read.vertices.ctypes.data % 64, read.triangles.ctypes.data % 64), (0, 0))
        self.assertEqual(read.checksum(), scene.checksum())
        np.savez_compressed(
            self.path("packed.npz"), vertices=scene.vertices, triangles=scene.triangles,
            draws=np.array(json.dumps(value)),
        )
        self.assertEqual(poster.scene_of(self.path("packed.npz")).checksum(), scene.checksum())

    def test_samples_and_masks_may_be_those_of_a_canvas(self) -> None:
        vertices, triangles = np.array(VERTICES), np.array([[0, 1, 2]])
        for samples in (1, 2, 4, 8, 16):
            value = {"width": 3, "height": 3, "samples": samples, "draws": [{"triangles": 1, "sample_mask": 65535}]}
            scene = poster.scene_of_arrays(vertices, triangles, value)
            self.assertEqual((scene.sheet.samples, scene.draws[0].state["sample_mask"]), (samples, 65535))
        refused: List[Dict[str, Any]] = [
            {"samples": 3}, {"samples": 32}, {"draws": [{"triangles": 1, "sample_mask": 65536}]}
        ]
        for more in refused:
            with self.assertRaises(trirast.DrawListError):
                poster.scene_of_arrays(
                    vertices, triangles, {"width": 3, "height": 3, "draws": [{"triangles": 1}], **more}
                )

    def test_wrong_arrays_are_refused(self) -> None:
        vertices, triangles = np.array(VERTICES), np.array([[0, 1, 2]])
        value = {"width": 3, "height": 3, "draws": [{"triangles": 1}]}
        for wrong in (vertices[:, :6], vertices + (1 << 24), vertices.astype(float), -vertices):
            with self.assertRaises(poster.ArraysError):
                poster.scene_of_arrays(wrong, triangles, value)
        for wrong in (triangles + 1, triangles - 1, triangles[:0], triangles[:, :2]):
            with self.assertRaises(poster.ArraysError):
                poster.scene_of_arrays(vertices, wrong, value)
        for draw in ({"triangles": -1}, {}, {"triangles": 1, "strip": []}):
            with self.assertRaises((poster.ArraysError, trirast.DrawListError)):
                poster.scene_of_arrays(vertices, triangles, {**value, "draws": [draw]})
        with self.assertRaises(trirast.DrawListError):
            poster.scene_of_arrays(vertices, triangles, {**value, "width": 40000})
        with self.assertRaises(poster.ArraysError):
            poster.scene_of(self.write("none.npz", b"PK"))


class Windows(unittest.TestCase):
    def test_index_has_the_triangles_whose_bounds_meet_a_tile_row(self) -> None:
        scene = random_scene(2, triangles=1000, reach=300)
        corners = np.stack([scene.vertices[axis] for axis in "xy"], -1)[scene.triangles].astype(np.int64)
        low, high = corners.min(1), corners.max(1)
        has_sample = np.zeros(1000, bool)
        for place in ((96, 32), (224, 96), (32, 160), (160, 224)):
            first = -((np.array(place) - low) // 256) * 256 + place
            has_sample |= (first <= high).all(1)
        for side, threads in ((71, 1), (64, 2), (100, 3), (192, 1)):
            windows = _windows.Windows(scene.sheet, side)
            with mock.patch.object(_index, "CHUNK", 150):
                index = _index.Index.of(scene, windows, threads)
            for window in windows.from_row(0):
                found, ends, areas = index.of_span(window.span)
                self.assertEqual((len(ends), ends[-1]), (windows.tile_rows, len(found)))
                for tile_row, (area, begin, end) in enumerate(zip(areas, [0, *ends], ends)):
                    here = found[begin:end].tolist()
                    top = window.top + 64 * tile_row
                    pixels = np.array((window.left, top, window.area.right, min(top + 64, window.area.bottom)))
                    least, behind = pixels.reshape(2, 2) * 256
                    meets = np.flatnonzero(((high >= least) & (low < behind)).all(1) & has_sample)
                    # The last window's bounds reach past the sheet by less than a window; what is there
                    # meets no sample.
                    self.assertTrue(set(meets) <= set(here) <= set(np.flatnonzero(has_sample)), tile_row)
                    self.assertEqual(sorted(set(here)), here)
                    if here:
                        bounds = (
                            np.maximum(low[here].min(0) // 256, pixels[:2]),
                            np.minimum(high[here].max(0) // 256 + 1, pixels[2:]),
                        )
                        self.assertEqual(list(area), np.concatenate(bounds).tolist())

    def test_pieces_are_where_triangles_are(self) -> None:
        value = {
            "width": 1024, "height": 200,
            "draws": [{"triangles": 1, "blend": "over"}, {"triangles": 0}, {"triangles": 1}],
        }
        # The first triangle meets three tile rows of the first window, and the second one of them, and one of
        # the window beside it.
        places = ((10, 10), (12, 10), (10, 150), (200, 70), (999, 70), (250, 80))
        vertices = np.array([[256 * x, 256 * y, 0, 9, 9, 9, 9] for x, y in places])
        scene = poster.scene_of_arrays(vertices, np.array([[0, 1, 2], [3, 4, 5]]), value)
        first = [((10, 10, 13, 64), [1, 0]), ((10, 64, 512, 128), [1, 1]), ((10, 128, 13, 151), [1, 0])]
        second = [((512, 70, 1000, 81), [0, 1])]
        windows = _windows.Windows(scene.sheet, 512)
        index = _index.Index.of(scene, windows)
        for begin, end, wanted in ((0, 1, first), (1, 2, second), (0, 2, first + second)):
            part = _part.part_of(scene, index, windows.span(0, begin, end))
            self.assertEqual([piece.area for piece in part.pieces], [area for area, _ in wanted])
            for piece, (_, counts) in zip(part.pieces, wanted):
                draws = [(count, draw) for count, draw in zip(counts, ({"blend": "over"}, {})) if count]
                self.assertEqual([(draw.end - draw.first, dict(draw.state)) for draw in piece.draws], draws)
                self.assertEqual(part.triangles[piece.draws[0].first].tolist(), [0, 1, 2] if counts[0] else [3, 4, 5])

    def test_tile_rows_go_on_only_with_the_same_triangles(self) -> None:
        # The first triangle meets two tile rows. The third is in the first of them, and the second in the other,
        # in the same columns.
        places = ((10, 10), (20, 10), (10, 120), (10, 70), (20, 70), (10, 90), (10, 10), (20, 10), (10, 40))
        vertices = np.array([[256 * x, 256 * y, 0, 9, 9, 9, 9] for x, y in places])
        scene = poster.scene_of_arrays(
            vertices, np.arange(9).reshape(-1, 3), {"width": 64, "height": 128, "draws": [{"triangles": 3}]}
        )
        windows = _windows.Windows(scene.sheet, 128)
        part = _part.part_of(scene, _index.Index.of(scene, windows), windows.span(0, 0, 1))
        drawn = [part.triangles[draw.first : draw.end, 0].tolist() for piece in part.pieces for draw in piece.draws]
        self.assertEqual(drawn, [[0, 6], [0, 3]])

    def test_rows_are_cut_into_spans(self) -> None:
        scene = random_scene(2, width=3000, triangles=1000, reach=300)
        windows = _windows.Windows(scene.sheet, 64)
        index = _index.Index.of(scene, windows)
        for row, workers, weight in ((0, 1, 1 << 14), (1, 4, 1 << 14), (3, 1, 200), (2, 1, 0)):
            with mock.patch.object(_threads, "WEIGHT", weight):
                spans = list(_threads.spans_of(index, windows, row, workers))
            self.assertEqual([span.first for span in spans] + [windows.columns], [0] + [span.end for span in spans])
            self.assertTrue(all(span.row == row and span.first < span.end for span in spans))
            self.assertEqual(sum(span.area.pixels for span in spans), 3000 * windows.row_height(row))
            self.assertEqual(len(spans) == windows.columns, weight == 0)
            self.assertGreaterEqual(len(spans), 2 * workers)

    def test_a_part_has_its_vertices_alone(self) -> None:
        triangles = np.array([[7, 9, 7], [500000, 9, 8]], np.int32)
        for chosen in (triangles[:1], triangles, np.zeros((0, 3), np.int32)):
            names, places = _part.named_vertices(chosen)
            self.assertEqual(names.tolist(), np.unique(chosen).tolist())
            self.assertEqual(names[places].tolist(), chosen.tolist())

    def test_a_picture_begins_where_each_vertex_can_be_seen(self) -> None:
        places = [[-8388608, 300], [8388607, 300], [60000, 9999], [50000, 20], [60000, 20], [50000, 99]]
        value = {"width": 512, "height": 64, "draws": [{"triangles": 2}]}
        vertices = np.array([[*place, 0, 9, 9, 9, 9] for place in places])
        scene = poster.scene_of_arrays(vertices, np.array([[0, 1, 2], [3, 4, 5]]), value)
        for triangles, wanted in ((2, [0, 0, 0, 0]), (1, [0, 128, 256, 384]), (0, [0, 128, 256, 384])):
            part_scene = poster.Scene(
                scene.sheet, scene.vertices, scene.triangles[2 - triangles :], [poster.PosterDraw(triangles)]
            )
            windows = _windows.Windows(scene.sheet, 128)
            index = _index.Index.of(part_scene, windows)
            parts = [_part.part_of(part_scene, index, window.span) for window in windows.from_row(0)]
            self.assertEqual([min(part.area.left, _part.begin_of(part)[0]) for part in parts], wanted)
            self.assertEqual(len(list(_threads.spans_of(index, windows, 0, 1))) == 4, triangles == 2)

    def test_a_triangle_that_cannot_be_moved_is_named(self) -> None:
        vertices = np.array([[-8388608, 0], [8388607, 0], [8388607, 70000]])
        vertices = np.concatenate((vertices, np.zeros((3, 5), int)), 1)
        for width, triangles, is_drawn in ((4096, 1, True), (4097, 1, False), (32768, 0, True)):
            value = {"width": width, "height": 9, "draws": [{"triangles": triangles}]}
            scene = poster.scene_of_arrays(vertices, np.array([[0, 1, 2]])[:triangles], value)
            windows = _windows.Windows(scene.sheet, 64)
            if is_drawn:
                _index.Index.of(scene, windows)
                continue
            with self.assertRaises(poster.GuardBandError) as raised:
                _index.Index.of(scene, windows)
            self.assertEqual(raised.exception.triangle, 0)


class Pictures(Files):
    def test_are_the_lists(self) -> None:
        scene = random_scene(3)
        wanted = trirast.draw_file(as_list(scene))
        for workers, side in ((1, 64), (3, 65), (2, 512), (2, 100)):
            for weight in (_threads.WEIGHT, 200):
                with mock.patch.object(_threads, "WEIGHT", weight):
                    poster.draw_poster(scene, self.path("a.ppm"), window=side, workers=workers)
                self.assertEqual(self.content("a.ppm"), wanted, (side, weight))
        self.assertEqual(os.listdir(self.folder), ["a.ppm"])

    def test_small_triangles_at_samples_are_the_lists(self) -> None:
        pick = np.random.default_rng(4)
        for samples, places in ((1, [(128, 128)]), (4, [(96, 32), (224, 96), (32, 160), (160, 224)])):
            pixels = np.stack(np.meshgrid(np.arange(70), np.arange(70)), 2).reshape(-1, 1, 2) * 256
            at = pick.choice(np.array(places), (70 * 70, 1)) + pick.integers(-3, 4, (70 * 70, 1, 2))
            corners = (pixels + at + pick.integers(-2, 3, (70 * 70, 3, 2))).reshape(-1, 2)
            vertices = np.concatenate((corners, pick.integers(0, 256, (len(corners), 5))), 1)
            triangles = np.arange(len(corners)).reshape(-1, 3)
            scene = poster.Scene(poster.Sheet(70, 70, samples), vertices, triangles, [poster.PosterDraw(70 * 70)])
            poster.draw_poster(scene, self.path("a.ppm"), window=70)
            self.assertEqual(self.content("a.ppm"), trirast.draw_file(as_list(scene)))
            self.assertGreater(len(self.content("a.ppm")) - self.content("a.ppm").count(0), 99)

    def test_more_samples_are_those_of_a_canvas(self) -> None:
        pick = np.random.default_rng(4)
        for samples, places in _scene.SAMPLES.items():
            pixels = np.stack(np.meshgrid(np.arange(70), np.arange(70)), 2).reshape(-1, 1, 2) * 256
            at = pick.choice(np.array(places), (70 * 70, 1)) + pick.integers(-3, 4, (70 * 70, 1, 2))
            corners = (pixels + at + pick.integers(-2, 3, (70 * 70, 3, 2))).reshape(-1, 2)
            vertices = np.concatenate((corners, pick.integers(0, 256, (len(corners), 5))), 1).astype(np.int32)
            triangles = np.arange(len(corners), dtype=np.int32).reshape(-1, 3)
            canvas = trirast.Canvas(70, 70, samples=samples)
            canvas.clear()
            canvas.draw(vertices, triangles)
            scene = poster.Scene(poster.Sheet(70, 70), vertices, triangles, [poster.PosterDraw(70 * 70)])
            for window in (70, 64):
                poster.draw_poster(scene, self.path("a.ppm"), samples=samples, window=window)
                self.assertEqual(self.content("a.ppm")[-3 * 70 * 70 :], canvas.rgb().tobytes(), (samples, window))
            self.assertGreater(np.count_nonzero(canvas.rgb()), 99)

    def test_another_number_of_samples_keeps_what_is_masked(self) -> None:
        scene = poster.scene_of_list(
            list_of(samples=4, draws=[{**DRAW_LIST["draws"][0], "sample_mask": mask} for mask in (15, 5)])
        )
        self.assertIs(_scene.with_samples(scene, 4), scene)
        more = _scene.with_samples(scene, 16)
        self.assertEqual([more.sheet.samples, *(draw.state.get("sample_mask") for draw in more.draws)], [16, None, 5])
        for samples in (0, 3, 17):
            with self.assertRaises(ValueError):
                poster.draw_poster(scene, self.path("a.ppm"), samples=samples)
        self.assertEqual(os.listdir(self.folder), [])

    def test_a_pixel_may_have_more_than_a_list_has(self) -> None:
        for draws, each in ((1025, 1), (1, 70_000)):
            value = {"width": 3, "height": 3, "draws": [{"triangles": each}] * draws}
            scene = poster.scene_of_arrays(np.array(VERTICES), np.array([[0, 1, 2]] * (draws * each)), value)
            poster.draw_poster(scene, self.path("a.ppm"))
            wanted = {"width": 3, "height": 3, "draws": [{"vertices": VERTICES, "triangles": [[0, 1, 2]]}]}
            self.assertEqual(self.content("a.ppm"), trirast.draw_file(wanted))

    def test_arrays_that_are_kept_from_writing_are_drawn(self) -> None:
        scene = random_scene(8)
        vertices, triangles = scene.vertices.copy(), scene.triangles.copy()
        for array in (vertices, triangles):
            array.flags.writeable = False
        poster.draw_poster(
            poster.Scene(scene.sheet, vertices, triangles, scene.draws, copy=False), self.path("a.ppm"), window=100
        )
        self.assertEqual(self.content("a.ppm"), trirast.draw_file(as_list(scene)))

    def test_go_to_one_place_at_least(self) -> None:
        with self.assertRaises(ValueError):
            poster.draw_poster(random_scene(5))
        for side in (0, 2, 63, 4097):
            with self.assertRaises(ValueError):
                poster.draw_poster(random_scene(5), self.path("a.ppm"), window=side)

    def test_threads_have_enough_stack(self) -> None:
        scene = random_scene(5)
        wanted = self.path("wanted.png")
        poster.draw_poster(scene, wanted, window=64)
        value = {
            "width": 300, "height": 200, "samples": 4,
            "draws": [{**draw.state, "triangles": draw.triangles} for draw in scene.draws],
        }
        poster.save_arrays(self.path("scene.npz"), scene.vertices, scene.triangles, value)
        done = run("""
            import os, threading
            from trirast import poster
            threading.stack_size(32768)
            scene = poster.scene_of(os.environ["SCENE"])
            poster.draw_poster(scene, os.environ["OUT"], tiles=os.environ["OUT"] + "-tiles", window=64, workers=3)
            print(threading.stack_size())
        """, SCENE=self.path("scene.npz"), OUT=self.path("small.png"))
        self.assertEqual((done.returncode, done.stdout, done.stderr), (0, b"32768\n", b""))
        self.assertEqual(self.content("small.png"), self.content("wanted.png"))

    def test_without_dask_an_error_names_it(self) -> None:
        with without("distributed"), self.assertRaises(poster.EngineMissingError):
            next(draw_by_dask([], lambda window: None, 1, "local"))  # type: ignore[arg-type, return-value]


class Png(unittest.TestCase):
    def test_pixels_come_back(self) -> None:
        pick = np.random.default_rng(1)
        depths = poster.Sheet(5, 4, output="depth")
        for sheet, pixels in (
            (SHEET, pick.integers(0, 256, (4, 5, 3)).astype(np.uint8)),
            (depths, pick.integers(0, 65536, (4, 5)).astype(">u2")),
        ):
            self.assertTrue(np.array_equal(_png.pixels_of(_png.png_of(pixels, sheet), sheet, 4, 5), pixels))

    def test_checksums_of_pieces_are_those_of_the_whole(self) -> None:
        for first, second in ((b"", b""), (b"abc", b""), (b"", b"abc"), (b"\xff" * 70000, b"\xfe" * 99999)):
            found = _png.adler_of_both(zlib.adler32(first), zlib.adler32(second), len(second))
            self.assertEqual(found, zlib.adler32(first + second))


class Tiles(Files):
    def test_rows_stay_the_callers(self) -> None:
        sheet = poster.Sheet(300, 700)
        pixels = np.random.default_rng(2).integers(0, 256, (700, 300, 3)).astype(np.uint8)
        for name, height in (("whole", 700), ("rows", 100), ("other", 300)):
            writer = _tiles_writer.TilesWriter(self.path(name), sheet, "sum", False, 2)
            writer.begin()
            memory = sheet.blank(height, 300)
            for first in range(0, 700, height):
                rows = memory[: min(height, 700 - first)]
                rows[:] = pixels[first : first + height]
                writer.write(rows)
                rows[:] = 0
            writer.finish()
            writer.close()
            for tile in ("0/0/0", "1/0/0", "1/0/1", "2/0/0", "2/0/1", "2/1/2"):
                self.assertEqual(self.content(f"{name}/{tile}.png"), self.content(f"whole/{tile}.png"), (name, tile))
        found = _png.pixels_of(self.content("rows/2/0/1.png"), sheet, 256, 256)
        self.assertTrue(np.array_equal(found, pixels[256:512, :256]))

    def test_a_coarser_pixel_is_the_mean_of_four(self) -> None:
        pixels = np.array([[1, 2, 9], [3, 4, 9], [255, 254, 7]], np.uint8)[:, :, None].repeat(3, 2)
        self.assertEqual(_tiles_writer.halved(pixels)[:, :, 0].tolist(), [[3, 9], [255, 7]])
        depths = np.array([[65535, 65534], [65535, 65535]], ">u2")
        self.assertEqual(_tiles_writer.halved(depths).tolist(), [[65535]])

    def test_levels(self) -> None:
        sizes = ((1, 1, 0), (256, 256, 0), (257, 1, 1), (300, 513, 2), (32768, 32768, 7))
        for width, height, levels in sizes:
            self.assertEqual(_tiles_writer.levels_of(poster.Sheet(width, height)), levels)


class Stopped(Files):
    def stop(self, out: str, rows: int, **how: Any) -> None:
        """Draws some rows of windows, and then fails as where a disk is full."""
        kept = _journal.Journal.kept

        def kept_then_full(journal: _journal.Journal, checksum: str) -> None:
            if len(lines) == rows:
                raise OSError("full")
            lines.append(checksum)
            kept(journal, checksum)

        lines: List[str] = []
        with mock.patch.object(_journal.Journal, "kept", kept_then_full), self.assertRaises(OSError):
            poster.draw_poster(random_scene(6), self.path(out), window=64, **how)

    def test_runs_are_resumed(self) -> None:
        scene = random_scene(6)
        for out in ("a.ppm", "a.png"):
            poster.draw_poster(scene, self.path("whole" + out), window=64)
            self.stop(out, 3)
            self.assertFalse(os.path.exists(self.path(out)))
            poster.draw_poster(scene, self.path(out), window=64, resume=True)
            self.assertEqual(self.content(out), self.content("whole" + out))
        self.assertEqual(len(os.listdir(self.folder)), 4)

    def test_another_run_is_not_resumed(self) -> None:
        self.stop("a.ppm", 3)
        for scene, side in ((random_scene(7), 64), (random_scene(6), 65)):
            with self.assertRaises(poster.ResumeError):
                poster.draw_poster(scene, self.path("a.ppm"), window=side, resume=True)
        poster.draw_poster(random_scene(6), self.path("a.ppm"), window=64, resume=True)
        self.assertEqual(self.content("a.ppm"), trirast.draw_file(as_list(random_scene(6))))

    def test_a_journal_that_was_cut_is_read_as_far_as_it_goes(self) -> None:
        begun = _journal.MARK + b'{"list": "a"}\n{"row": "b"}\n'
        for number, cut in enumerate(
            (b'{"ro', b'{"row": 3}\n{"row": "c"}\n', b'{}\n', b"3\n", b"[" * 9999 + b"\n", b"\xff\n")
        ):
            journal = _journal.Journal(self.write(f"journal{number}", begun + cut))
            self.addCleanup(journal.close)
            journal.begin({"list": "a"}, resume=True)
            self.assertEqual(journal.rows, ["b"], cut)


class Command(Commands):
    def test_draws_a_list(self) -> None:
        name = self.write("a.json", list_of())
        self.run_to_end(name, "-o", self.path("a.ppm"))
        self.assertEqual(self.content("a.ppm"), FILE)

    def test_takes_a_number_of_samples(self) -> None:
        name = self.write("a.json", list_of())
        for samples in (1, 2, 4, 8, 16):
            canvas = trirast.Canvas(3, 3, samples=samples)
            canvas.clear()
            canvas.draw(VERTICES, [[0, 1, 2]])
            self.run_to_end(name, "--samples", str(samples), "-o", self.path("a.ppm"))
            self.assertEqual(self.content("a.ppm")[-27:], memoryview(canvas.rgb()).tobytes())
        with self.assertRaises(SystemExit), redirect_stderr(io.StringIO()):
            _command.main([name, "--samples", "3", "-o", self.path("a.ppm")])

    def test_names_errors(self) -> None:
        name = self.write("a.json", list_of(width=0))
        self.assertEqual(
            self.run_command(name, "-o", self.path("a.ppm")), (1, "poster: DrawListError: list fault 5 OutOfRange\n")
        )
        status, line = self.run_command(self.path("none.json"), "-o", self.path("a.ppm"))
        self.assertTrue(status == 1 and line.startswith("poster: FileNotFoundError: "), line)
        with self.assertRaises(SystemExit), redirect_stderr(io.StringIO()):
            _command.main([name])


if __name__ == "__main__":
    unittest.main()
