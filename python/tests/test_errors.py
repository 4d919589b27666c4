"""Each error of the library is an exception with the program's line."""

import ctypes
import pickle
import unittest
from typing import Any, Callable, Tuple, Type

import trirast
from trirast import _declarations, _errors, _ffi, _numbers

from .common import DRAW_LIST, VERTICES


class Errors(unittest.TestCase):
    def test_a_draw_list_error_has_number_name_and_draw(self) -> None:
        refused: Any = {**DRAW_LIST, "draws": DRAW_LIST["draws"] + [{"vertices": VERTICES, "triangles": [[0, 1, 3]]}]}
        calls: Tuple[Callable[[Any], object], ...] = (trirast.draw, trirast.draw_file, trirast.image_info)
        for call in calls:
            with self.assertRaises(trirast.DrawListError) as raised:
                call(refused)
            error = raised.exception
            self.assertEqual(str(error), "list fault 6 BadIndex in draw 1")
            self.assertEqual(
                (error.status, error.number, error.name, error.draw, error.element), (1, 6, "BadIndex", 1, None)
            )
        with self.assertRaises(trirast.DrawListError) as raised:
            trirast.draw("{}")
        self.assertEqual((raised.exception.name, raised.exception.draw), ("MissingKey", None))

    def test_a_list_past_the_limit_is_a_limit_error(self) -> None:
        with self.assertRaises(trirast.LimitError) as raised:
            trirast.image_info(b" " * 67108865)
        self.assertEqual(
            (str(raised.exception), raised.exception.status),
            ("draw_list: expected at most 67108864 bytes, got 67108865", 2),
        )

    def test_a_bad_tile_size_is_a_tile_size_error(self) -> None:
        calls: Tuple[Callable[[Any, int], object], ...] = (trirast.draw, trirast.draw_file)
        for tile_size in (0, 7, -8, 33, 1 << 32, (1 << 32) + 32):
            for call in calls:
                with self.assertRaises(trirast.TileSizeError):
                    call(DRAW_LIST, tile_size)
        with self.assertRaises(TypeError):
            trirast.draw(DRAW_LIST, tile_size=32.0)  # type: ignore[arg-type]

    def test_each_status_has_its_exception(self) -> None:
        for status, kind in {**_errors.BY_STATUS, **_errors.PLACED}.items():
            given = _declarations.CError(status, 1, _numbers.NONE, _numbers.NONE, _numbers.NONE)
            with self.assertRaises(kind) as raised:
                _ffi.raise_error(status, None, (given,))
            self.assertIsInstance(raised.exception, trirast.Error)
            self.assertTrue(str(raised.exception))
            with self.assertRaises(kind) as raised:
                _ffi.raise_status(status, None, ())
            self.assertEqual(str(raised.exception), _ffi.library().trirast_status_string(status).decode())
        self.assertTrue(issubclass(trirast.OutOfMemoryError, MemoryError))
        self.assertTrue(issubclass(trirast.TileSizeError, ValueError))

    def test_each_status_of_the_header_has_one(self) -> None:
        names = [name for name in dir(trirast) if name.endswith("Error") and name != "Error"]
        kinds = {*_errors.BY_STATUS.values(), *_errors.PLACED.values()}
        self.assertEqual(sorted(kind.__name__ for kind in kinds), sorted(names))
        self.assertEqual(sorted({**_errors.BY_STATUS, **_errors.PLACED}), list(range(1, 19)))

    def test_each_message_has_what_was_passed_and_what_may_be(self) -> None:
        canvas = trirast.Canvas(70, 130, samples=4)
        list_of_four: Any = {**DRAW_LIST, "samples": 4}
        edges = trirast.edges_at
        cases: Tuple[Tuple[Callable[[], Any], Type[trirast.Error], str], ...] = (
            (lambda: canvas.ids(4), trirast.SampleError, "sample: expected 0 to 3, got 4"),
            (lambda: canvas.depth(-1), trirast.SampleError, "sample: expected 0 to 3, got -1"),
            (
                lambda: canvas.store(bytes(3 * 70 * 130), 1 << 32), trirast.SampleError,
                "sample: expected 0 to 3, got 4294967296",
            ),
            (lambda: canvas.colors(9), trirast.SampleError, "sample: expected 0 to 3, got 9"),
            (lambda: trirast.draw(DRAW_LIST, 9), trirast.TileSizeError,
             "tile_size: expected 8, 16, 32 or 64 pixels, got 9"),
            (
                lambda: trirast.why(DRAW_LIST, 3, 0), trirast.PixelError,
                "no such pixel: expected x 0 to 2 and y 0 to 2, got 3 and 0",
            ),
            (lambda: trirast.why(list_of_four, 0, 0, 4), trirast.SampleError,
             "no such sample: expected 0 to 3, got 4"),
            (
                lambda: trirast.triangle_samples(DRAW_LIST, 0, 7), trirast.TriangleError,
                "no such triangle: expected one of the list, got triangle 7 of draw 0",
            ),
            (
                lambda: edges((0, 0), (1, 0), (0, 1 << 23), []), trirast.PositionError,
                "c[1]: expected -8388608 to 8388607 in 1/256 pixel, got 8388608",
            ),
            (lambda: edges((0, 0), (1, 0), (0, 1), [(1, 2), (256, -(1 << 24))]), trirast.PositionError,
             "position out of range: expected points[1] of -8388608 to 8388607, got x 256 and y -16777216 in 1/256 "
             "pixel "
             "(1 and -65536 pixels); y: -8388608 to 8388607 (-32768 to 32767.99609375 pixels)"),
        )
        for call, kind, line in cases:
            with self.assertRaises(kind) as raised:
                call()
            self.assertEqual(str(raised.exception), line)
            again = pickle.loads(pickle.dumps(raised.exception))
            self.assertEqual((type(again), str(again), again.status), (kind, line, raised.exception.status))

    def test_structs_of_other_sizes_are_refused(self) -> None:
        canvas = trirast.Canvas(3, 3)
        batch = _declarations.CBatch(ctypes.sizeof(_declarations.CBatch) + 4)
        with self.assertRaises(trirast.StructSizeError):
            _ffi.library().trirast_canvas_draw(canvas._whole, batch, _declarations.CError())


if __name__ == "__main__":
    unittest.main()
