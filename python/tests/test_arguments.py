"""What callers pass: a message names the parameter, what is wanted and what was passed, and nothing is guessed."""

import ctypes
import os
import struct
import tempfile
import unittest
import zlib
from array import array
from typing import Any, Callable, List, Tuple, Type

import trirast
from trirast._arguments import OF_FLOATS

from .common import DRAW_LIST, FILE, NUMPY, PIXELS, VERTICES, bytes_of, chunks, drawn, run

Case = Tuple[Callable[[], Any], Type[Exception], str]
SNAP = "; use trirast.snap(xy)"


def cleared(width: int = 3, height: int = 3, **more: Any) -> trirast.Canvas:
    canvas = trirast.Canvas(width, height, **more)
    canvas.clear()
    return canvas


class Refusals(unittest.TestCase):
    def must_say(self, *cases: Case) -> None:
        for call, kind, message in cases:
            with self.assertRaises(kind) as caught:
                call()
            self.assertEqual(str(caught.exception), message)

    def need_numpy(self) -> Any:
        if NUMPY is None:
            self.skipTest("there is no numpy")
        return NUMPY


class Numbers(Refusals):
    def test_of_a_canvas(self) -> None:
        make: Any = trirast.Canvas
        canvas: Any = cleared()
        memory = f"memory: expected at least {make.size(3, 3)} bytes, contiguous and writable"
        self.must_say(
            (lambda: make(3, 3, origin=(1.9, "-2")), TypeError, "origin[0]: expected an integer, got 1.9"),
            (lambda: make(3, 3, origin=(1, "-2")), TypeError, "origin[1]: expected an integer, got '-2'"),
            (lambda: make(3, 3, origin=7), TypeError, "origin: expected a sequence of 2 values, got 7"),
            (
                lambda: make(3, 3, origin=(1, 1 << 31)), ValueError,
                "origin[1]: expected -2147483648 to 2147483647, got 2147483648",
            ),
            (lambda: make(3.5, 3), TypeError, "width: expected an integer, got 3.5"),
            (lambda: make(3, None), TypeError, "height: expected an integer, got None"),
            (lambda: make(3, 3, samples="4"), TypeError, "samples: expected an integer, got '4'"),
            (lambda: make(3, 3, memory=b"123"), ValueError, f"{memory}, got uint8 of the shape (3,), read-only"),
            (lambda: make(3, 3, memory=5), TypeError, f"{memory}, got 5"),
            (lambda: canvas.clear((1, 2)), ValueError, "color: expected 3 values, got 2"),
            (
                lambda: canvas.clear((0.1, 0.2, 0.3)), TypeError,
                f"color[0]: expected an integer of 0 to 255, got 0.1{OF_FLOATS}",
            ),
            (lambda: canvas.clear((1, 2, 256)), ValueError, "color[2]: expected 0 to 255, got 256"),
            (lambda: canvas.clear((1, 2, 3), -1), ValueError, "depth: expected 0 to 65535, got -1"),
            (lambda: canvas.clear((1, 2, 3), 0.5), TypeError, "depth: expected an integer, got 0.5"),
            (lambda: canvas.clear(threads=0), ValueError, "threads: expected at least 1, got 0"),
            (lambda: canvas.rgb(threads=2.0), TypeError, "threads: expected an integer, got 2.0"),
            (lambda: canvas.ids("0"), TypeError, "sample: expected an integer, got '0'"),
            (lambda: canvas.draw(VERTICES, [], first_id=1.5), TypeError, "first_id: expected an integer, got 1.5"),
            (lambda: canvas.draw(VERTICES, [], first_id=-1), ValueError, "first_id: expected 0 to 16777216, got -1"),
            (
                lambda: canvas.load(bytes(27), format="bgr"), ValueError,
                "format: expected one of rgb, rgba, bgra, rgba_straight, bgra_straight, got 'bgr'",
            ),
            (lambda: canvas.draw_batch(5), TypeError, "draws: expected a sequence of trirast.Draw, got 5"),
            (lambda: canvas.draw_batch([5]), TypeError, "draws[0]: expected a trirast.Draw, got 5"),
        )
        with self.assertRaisesRegex(trirast.CanvasError, "got 5000 by 3 and 1; trirast.poster draws larger ones$"):
            make(5000, 3)

    def test_of_a_draw(self) -> None:
        def with_state(**state: Any) -> Callable[[], Any]:
            return lambda: trirast.Draw(VERTICES, [], **state)

        self.must_say(
            (with_state(cull=2), ValueError, "cull: expected one of none, front, back, got 2"),
            (with_state(depth_write="no"), TypeError, "depth_write: expected True or False, got 'no'"),
            (with_state(keep="rx"), ValueError, "keep: expected some of the letters r, g, b and a, got 'rx'"),
            (with_state(keep="rr"), ValueError, "keep: expected some of the letters r, g, b and a, got 'rr'"),
            (
                with_state(keep=(True, False)), ValueError,
                "keep: expected some of the letters r, g, b and a, got (True, False)",
            ),
            (with_state(sample_mask=1 << 16), ValueError, "sample_mask: expected 0 to 65535, got 65536"),
            (with_state(sample_mask=1.0), TypeError, "sample_mask: expected an integer, got 1.0"),
            (with_state(scissor=(0, 0, 1.5, 2)), TypeError, "scissor[2]: expected an integer, got 1.5"),
            (with_state(scissor=(0, 0, 1)), ValueError, "scissor: expected 4 values, got 3"),
            (
                with_state(scissor=(0, 0, 1, 1 << 31)), ValueError,
                "scissor[3]: expected -2147483648 to 2147483647, got 2147483648",
            ),
            (
                with_state(blend="ovr"), ValueError,
                "blend: expected one of none, over, premultiplied, add, multiply, keep, got 'ovr'",
            ),
            (with_state(blend=2), TypeError, "blend: expected a name or a trirast.Blend, got 2"),
            (with_state(blend=trirast.Blend(color_operation="mean")), ValueError,  # type: ignore[arg-type]
             "blend.color_operation: expected one of add, subtract, reverse_subtract, min, max, got 'mean'"),
            (with_state(blend=trirast.Blend(constant=(0, 0, 0))), ValueError,  # type: ignore[arg-type]
             "blend.constant: expected 4 values, got 3"),
            (
                with_state(blend=trirast.Blend(constant=(0, 0, 0, 256))), ValueError,
                "blend.constant[3]: expected 0 to 255, got 256",
            ),
            (lambda: trirast.Draw(VERTICES, [], strip=[]), ValueError,
             "draw: expected one of triangles, strip and quads, got triangles and strip"),
        )

    def test_of_lists_and_edges(self) -> None:
        draw: Any = trirast.draw
        edges_at: Any = trirast.edges_at
        why: Any = trirast.why
        self.must_say(
            (lambda: draw(DRAW_LIST, 32.0), TypeError, "tile_size: expected an integer, got 32.0"),
            (lambda: draw(DRAW_LIST, threads="4"), TypeError, "threads: expected an integer, got '4'"),
            (lambda: why(DRAW_LIST, 1.5, 0), TypeError, "x: expected an integer, got 1.5"),
            (
                lambda: why(DRAW_LIST, 1, 0, all_triangles="yes"), TypeError,
                "all_triangles: expected True or False, got 'yes'",
            ),
            (lambda: edges_at((0, 0), (1, 0), (0, 1.5), []), TypeError,
             "c[1]: expected an integer in 1/256 pixel, got 1.5"),
            (
                lambda: edges_at((0, 0), (1, 0), (0, 1), [(0, 1 << 31)]), ValueError,
                "points[0].y: expected -8388608 to 8388607 in 1/256 pixel, got 2147483648",
            ),
            (
                lambda: edges_at((0, 0), (1, 0), (0, 1), (0, 0)), TypeError,
                "points[0]: expected a sequence of 2 values, got 0",
            ),
            (lambda: edges_at((0, 0), (1, 0, 0), (0, 1), []), ValueError, "b: expected 2 values, got 3"),
            (lambda: draw(DRAW_LIST).pixel(0.0, 1), TypeError, "column: expected an integer, got 0.0"),
        )

    def test_of_numpy_are_numbers(self) -> None:
        np = self.need_numpy()
        canvas = trirast.Canvas(np.int64(3), np.uint8(100), samples=np.int32(4), origin=np.array([1, -2]))
        self.assertEqual((canvas.width, canvas.height, canvas.samples, canvas.origin), (3, 100, 4, (1, -2)))
        canvas.clear(np.array([24, 24, 32]), np.uint16(9), threads=np.int64(4))
        self.assertEqual(
            (canvas.rgb(threads=np.int64(2))[1, 1].tolist(), canvas.depth(np.int8(3))[2, 2]), ([24, 24, 32], 9)
        )
        canvas.draw(VERTICES, [[0, 1, 2]], depth_write=np.True_, depth=np.uint8(7), scissor=np.array([0, 0, 3, 3]))
        self.assertEqual(trirast.draw(DRAW_LIST, np.int64(8), np.int64(2)).bytes, PIXELS)
        with self.assertRaisesRegex(TypeError, r"depth_write: expected True or False, got array\(\[ True, +True\]\)"):
            trirast.Draw(VERTICES, [], depth_write=np.array([True, True]))


class Rows(Refusals):
    def test_without_numpy(self) -> None:
        def draw(vertices: Any, triangles: Any = ((0, 0, 0),)) -> Callable[[], Any]:
            return lambda: trirast.Draw(vertices, triangles)

        self.must_say(
            (
                draw([[0] * 7, [0, 0.5] + [0] * 5]), TypeError,
                "vertices[1].y: expected an integer in 1/256 pixel, got 0.5" + SNAP,
            ),
            (draw([[0] * 3 + [0.5] + [0] * 3]), TypeError, "vertices[0].red: expected an integer of 0 to 255, got 0.5"),
            (
                draw([[0] * 7, [1 << 31] + [0] * 6]), ValueError,
                "vertices[1].x: expected -8388608 to 8388607 in 1/256 pixel, got 2147483648",
            ),
            (draw([[0] * 7, [0] * 6]), ValueError, "vertices[1]: expected 7 values, got 6"),
            (draw([[0] * 3]), ValueError, "vertices[0]: expected 2 or 7 values, got 3"),
            (draw([[0] * 7, 5]), TypeError, "vertices[1]: expected a sequence of 7 values, got 5"),
            (draw(5), TypeError, "vertices: expected rows of 2 or 7 integers, got 5"),
            (draw(array("d", [0] * 7)), ValueError, "vertices: expected rows of 2 or 7 integers, got the shape (7,)"),
            (draw(memoryview(array("d", [0, 0])).cast("B").cast("d", shape=[1, 2])), TypeError,
             "vertices: expected integers in 1/256 pixel, got float64" + SNAP),
            (draw([[0] * 6 + [1 << 31]]), ValueError, "vertices[0].alpha: expected 0 to 255, got 2147483648"),
            (draw([[0, 0, -1] + [0] * 4]), ValueError, "vertices[0].depth: expected 0 to 65535, got -1"),
            (draw(b"123"), ValueError, "vertices: expected records of 16 bytes, got 3 bytes"),
            (draw(VERTICES, b"123"), ValueError, "triangles: expected rows of 3 integers of 4 bytes, got 3 bytes"),
            (draw(VERTICES, array("I", [0, 1])), ValueError,
             "triangles: expected rows of 3 integers, got the shape (2,)"),
            (draw(VERTICES, [[0, 1, "2"]]), TypeError, "triangles[0][2]: expected an integer, got '2'"),
            (
                draw(VERTICES, [[0, 1, 2], [0, -1, 2]]), ValueError,
                "triangles[1][1]: expected 0 to 4294967295, got -1",
            ),
            (draw(VERTICES, array("f", [0, 1, 2])), TypeError, "triangles: expected integers, got float32"),
            (
                lambda: trirast.Draw(VERTICES, strip=[0, 1.5, 2]), TypeError,
                "strip[1]: expected an integer, got 1.5",
            ),
        )

    def test_of_colours_and_depths(self) -> None:
        def draw(**more: Any) -> Callable[[], Any]:
            return lambda: trirast.Draw([(0, 0)] * 3, **more)

        self.must_say(
            (draw(colors=(1, 2, 256)), ValueError, "colors[2]: expected 0 to 255, got 256"),
            (
                draw(colors=(0.5, 1.0, 0.0)), TypeError,
                f"colors[0]: expected an integer of 0 to 255, got 0.5{OF_FLOATS}",
            ),
            (draw(colors=[(1, 2, 3)] * 2), ValueError, "colors: expected 3 rows, got 2"),
            (
                draw(colors=[(1, 2, 3), (1, 2, 3), (1, 2, 300)]), ValueError,
                "colors[2].blue: expected 0 to 255, got 300",
            ),
            (draw(colors=[(1, 2)] * 3), ValueError, "colors[0]: expected 3 or 4 values, got 2"),
            (draw(colors="reddish"), ValueError, "colors: expected a name as 'navy', or #rrggbb, got 'reddish'"),
            (draw(colors=5), TypeError, "colors: expected rows of 3 or 4 integers, got 5"),
            (draw(colors=memoryview(array("f", [1] * 9)).cast("B").cast("f", shape=[3, 3])), TypeError,
             "colors: expected integers of 0 to 255, got float32"),
            (
                draw(colors=[(1, 2, 3), (1, 0.5, 3), (1, 2, 3)]), TypeError,
                "colors[1].green: expected an integer of 0 to 255, got 0.5",
            ),
            (draw(quads=[0, 1, 2, 0]), TypeError, "quads[0]: expected a sequence of 4 values, got 0"),
            (draw(depth=65536), ValueError, "depth: expected 0 to 65535, got 65536"),
            (draw(depth=0.5), TypeError, "depth: expected integers, got 0.5"),
            (draw(depth=[1, 2]), ValueError, "depth: expected 3 rows, got 2"),
            (draw(depth=[1, 2, -1]), ValueError, "depth[2]: expected 0 to 65535, got -1"),
            (draw(depth=[1, 2, 0.5]), TypeError, "depth[2]: expected an integer, got 0.5"),
        )

    def test_of_numpy(self) -> None:
        np = self.need_numpy()

        def draw(vertices: Any, triangles: Any = ((0, 0, 0),)) -> Callable[[], Any]:
            return lambda: trirast.Draw(vertices, triangles)

        masked = np.ma.masked_array(VERTICES, mask=np.eye(3, 7))
        self.must_say(
            (draw(np.zeros((3, 7))), TypeError, "vertices: expected integers in 1/256 pixel, got float64" + SNAP),
            (draw(np.zeros((3, 7), bool)), TypeError, "vertices: expected integers in 1/256 pixel, got bool"),
            (draw(np.zeros((3, 7), object)), TypeError,
             "vertices: expected integers in 1/256 pixel, got the format 'O'"),
            (draw(masked), TypeError, "vertices: expected an array without a mask, got a masked one; use filled"),
            (
                draw(VERTICES, np.ma.masked_array([[0, 1, 2]])), TypeError,
                "triangles: expected an array without a mask, got a masked one; use filled",
            ),
            (draw(np.zeros((7, 3), int)), ValueError,
             "vertices: expected rows of 2 or 7 integers, got the shape (7, 3)"),
            (
                draw(np.zeros((1, 1, 7), int)), ValueError,
                "vertices: expected rows of 2 or 7 integers, got the shape (1, 1, 7)",
            ),
            (draw(np.array(5)), ValueError, "vertices: expected rows of 2 or 7 integers, got the shape ()"),
            (draw(np.zeros((3, 2), trirast.VERTEX)), ValueError,
             "vertices: expected one dimension with the fields x and y, got x, y, depth, red, green, blue, alpha, "
             "unused "
             "of the shape (3, 2)"),
            (draw(np.zeros(3, [("x", "i4"), ("z", "i4")])), ValueError,
             "vertices: expected one dimension with the fields x and y, got x, z of the shape (3,)"),
            (
                draw(np.zeros(3, [("x", "i4"), ("y", "f4")])), TypeError,
                "vertices: expected integers in 1/256 pixel, got float32" + SNAP,
            ),
            (
                draw(np.ma.zeros(3, trirast.VERTEX)), TypeError,
                "vertices: expected an array without a mask, got a masked one; use filled",
            ),
            (
                draw(np.array([[0] * 7, [0] * 6 + [-1]], np.int8)), ValueError,
                "vertices[1].alpha: expected 0 to 255, got -1",
            ),
            (draw(np.concatenate([np.zeros((5000, 7), int), np.full((1, 7), 70000)])), ValueError,
             "vertices[5000].depth: expected 0 to 65535, got 70000"),
            (
                draw(VERTICES, np.array([[0, 1, 2], [0, 1, -2]])), ValueError,
                "triangles[1][2]: expected 0 to 4294967295, got -2",
            ),
            (draw(np.array([[0] * 7, [0, 1 << 40] + [0] * 5])), ValueError,
             "vertices[1].y: expected -8388608 to 8388607 in 1/256 pixel, got 1099511627776"),
        )

    def test_come_in_any_layout(self) -> None:
        np = self.need_numpy()
        wide = np.zeros((6, 20), np.int64)
        wide[::2, 3:17:2] = VERTICES
        flipped = np.array(VERTICES, np.int32)[::-1][::-1]
        frozen = np.array(VERTICES, ">i8")
        frozen.flags.writeable = False
        for vertices in (
            wide[::2, 3:17:2], wide[::2, 3:7:2], flipped, frozen, np.array(VERTICES, order="F"), memoryview(frozen)
        ):
            for triangles in (
                np.array([[0, 1, 2]], np.uint64), np.array([[0, 9, 1, 9, 2, 9]], np.int16)[:, ::2],
                np.array([0, 1, 2], ">u2"),
            ):
                self.assertEqual(drawn(vertices, triangles), PIXELS)

    def test_that_the_library_refuses_are_named(self) -> None:
        far = [row[:] for row in VERTICES]
        far[2][0] = 1 << 23
        canvas, window, other = cleared(), cleared(origin=(40000, 0)), cleared(origin=(-5, 0))
        triangle = [[0, 1, 2]]
        below = "which is not less than the number of vertices: 3;"
        beyond = "vertex 2 is out of range"
        place = "got x 8388608 and y 640 in 1/256 pixel (32768 and 2.5 pixels)"
        everywhere = "x: -8388608 to 8388607 (-32768 to 32767.99609375 pixels)"
        cases: List[Tuple[Callable[[], Any], str, int, Any, str]] = [
            (
                lambda: canvas.draw(VERTICES, triangle * 5 + [[0, 3, 2]]), "BadIndex", 0, 16,
                f"index 16 is 3, {below} triangles[5][1]",
            ),
            (lambda: canvas.draw(VERTICES, strip=[0, 1, 9]), "BadIndex", 0, 2,
             f"index 2 is 9, {below} strip[2]"),
            (
                lambda: canvas.draw_batch(
                    [trirast.Draw(VERTICES, triangle), trirast.Draw(VERTICES, quads=[[0, 1, 2, 7]])]
                ),
                "BadIndex", 1, 3, f"index 3 is 7, {below} quads[0][3]",
            ),
            (lambda: canvas.draw(far, triangle, threads=2), "BadPosition", 0, 2, f"{beyond}, {place}; {everywhere}"),
            (
                lambda: canvas.draw_batch([trirast.Draw(VERTICES * 2), trirast.Draw(far)]), "BadPosition", 1, 2,
                f"{beyond}, {place}; {everywhere}",
            ),
            (lambda: other.draw(far, triangle), "BadPosition", 0, 2,
             f"{beyond}, {place}; x with the origin -5: -8388608 to 8387327 (-32768 to 32762.99609375 pixels)"),
            (lambda: window.draw(VERTICES, triangle), "BadPosition", 0, 0,
             "vertex 0 is out of range, got x 128 and y 128 in 1/256 pixel (0.5 and 0.5 "
             "pixels); x with the origin 40000: 1851392 to 8388607 (7232 to 32767.99609375 pixels)"),
            (lambda: trirast.Canvas(3, 3, origin=(0, -70000)).draw(VERTICES, triangle), "BadPosition", 0, 0,
             "vertex 0 is out of range, got x 128 and y 128 in 1/256 pixel (0.5 and 0.5 "
             "pixels); y with the origin -70000: none"),
            (lambda: canvas.draw(VERTICES + [[0, 640] + [0] * 5], quads=[[2, 3, 0, 1], [0, 1, 2, 0]]),
             "NotConvex", 0, 1,
             "quad 1 is not strictly convex, got vertices 0, 1, 2, 0 at (128, 128), (640, 128), (128, 640), "
             "(128, 128) in 1/256 pixel"),
            (lambda: canvas.draw(VERTICES[:2]), "NotWhole", 0, None,
             "the indices make no whole triangles or quads, got 2 vertices; a triangle has three"),
            (
                lambda: canvas.draw(VERTICES, first_id=1 << 24), "TooManyIds", 0, None,
                "an id is greater than 16777215, got 16777216 as the first",
            ),
        ]
        for call, name, draw, element, line in cases:
            with self.assertRaises(trirast.BatchError) as caught:
                call()
            error = caught.exception
            self.assertEqual((error.name, error.draw, error.element), (name, draw, element))
            self.assertEqual(str(error), f"draw {draw}: {line}")
        self.assertEqual(bytes_of(canvas.rgb()), bytes(27))


class Buffers(Refusals):
    def test_of_another_kind_are_refused(self) -> None:
        canvas = cleared()
        wanted = "expected uint8 of the shape (3, 3, 3), contiguous and writable, got"
        depths = "expected uint16 of the shape (3, 3), contiguous and writable, got"
        bits = (ctypes.c_bool * 27)()
        self.must_say(
            (lambda: canvas.rgb(bytearray(26)), ValueError, f"out: {wanted} uint8 of the shape (26,)"),
            (lambda: canvas.rgb(bytes(27)), ValueError, f"out: {wanted} uint8 of the shape (27,), read-only"),
            (
                lambda: canvas.rgb(memoryview(bytearray(54))[::2]), ValueError,
                f"out: {wanted} uint8 of the shape (27,), not contiguous",
            ),
            (lambda: canvas.rgb(bits), ValueError, f"out: {wanted} bool of the shape (27,)"),
            (lambda: canvas.rgb(array("b", bytes(27))), ValueError, f"out: {wanted} int8 of the shape (27,)"),
            (lambda: canvas.rgb([0] * 27), TypeError, f"out: {wanted} [0, 0, 0, 0, 0, 0, ...]"),
            (lambda: canvas.depth(0, bytearray(18)), ValueError, f"out: {depths} uint8 of the shape (18,)"),
            (lambda: canvas.depth(0, array("h", bytes(18))), ValueError, f"out: {depths} int16 of the shape (9,)"),
            (lambda: canvas.ids(0, array("f", bytes(36))), ValueError,
             "out: expected uint32 of the shape (3, 3), contiguous and writable, got float32 of the shape (9,)"),
            (lambda: canvas.load(bytes(26)), ValueError,
             "image: expected uint8 of the shape (3, 3, 3) or uint8 of the shape (3, 3, 4), got uint8 of the shape "
             "(26,)"),
            (
                lambda: canvas.load(bytes(27), format="bgra"), ValueError,
                "image: expected uint8 of the shape (3, 3, 4), got uint8 of the shape (27,)",
            ),
            (lambda: canvas.load(array("b", bytes(27))), ValueError,
             "image: expected uint8 of the shape (3, 3, 3) or uint8 of the shape (3, 3, 4), got int8 of the shape "
             "(27,)"),
            (
                lambda: trirast.draw(DRAW_LIST, out=array("h", bytes(54))), ValueError,
                f"out: {wanted} int16 of the shape (27,)",
            ),
        )

    def test_of_numpy_of_another_kind_are_refused(self) -> None:
        np = self.need_numpy()
        canvas = trirast.Canvas(2, 3)
        canvas.clear((1, 2, 3), 4)
        wrong: List[Callable[[], Any]] = [
            lambda: canvas.depth(out=np.empty((3, 2), ">u2")),
            lambda: canvas.depth(out=np.empty((2, 3), np.uint16)),
            lambda: canvas.depth(out=np.empty((3, 2, 1), np.uint16)),
            lambda: canvas.ids(out=np.empty((3, 2), np.float32)),
            lambda: canvas.ids(out=np.empty((3, 2), ">u4")),
            lambda: canvas.rgb(out=np.empty((3, 2, 3), bool)),
            lambda: canvas.rgb(out=np.empty((2, 3, 3), np.uint8)),
            lambda: canvas.rgb(out=np.empty((3, 2, 3), np.uint8, order="F")),
            lambda: canvas.rgba(out=np.empty((3, 2, 3), np.uint8)),
            lambda: canvas.load(np.zeros((2, 3, 3), np.uint8)),
            lambda: canvas.load(np.zeros((3, 2, 3), bool)),
            lambda: canvas.load(np.zeros((3, 2, 4), np.uint8), format="rgb"),
            lambda: trirast.draw(DRAW_LIST, out=np.empty((3, 9), np.uint8)),
            lambda: trirast.draw({**DRAW_LIST, "output": "depth"}, out=np.empty((3, 3), np.uint16)),
        ]
        masked: List[Callable[[], Any]] = [
            lambda: canvas.depth(out=np.ma.zeros((3, 2), np.uint16)),
            lambda: canvas.load(np.ma.zeros((3, 2, 3), np.uint8)),
            lambda: trirast.Canvas(2, 3, memory=np.ma.zeros(99999, np.uint8)),
        ]
        for call in wrong:
            with self.assertRaisesRegex(ValueError, "^(out|image): expected .*, got "):
                call()
        for call in masked:
            with self.assertRaisesRegex(TypeError, "an array without a mask"):
                call()
        self.assertEqual(canvas.rgb().reshape(-1, 3).tolist(), [[1, 2, 3]] * 6)

    def test_that_fit_are_filled(self) -> None:
        canvas = cleared()
        canvas.draw(VERTICES, [[0, 1, 2]])
        view = memoryview(bytearray(27)).cast("B", shape=[3, 3, 3])
        for out in (bytearray(27), array("B", bytes(27)), (ctypes.c_uint8 * 27)(), view):
            self.assertIs(canvas.rgb(out), out)
            self.assertEqual(bytes_of(out), PIXELS)
            other = bytearray(27)
            self.assertEqual(trirast.draw(DRAW_LIST, out=other).bytes, bytes(other))
        depths = trirast.draw({**DRAW_LIST, "output": "depth"}).bytes
        outs: List[Any] = [bytearray(18), memoryview(bytearray(18)).cast("B", shape=[3, 3, 2])]
        outs += [] if NUMPY is None else [NUMPY.empty((3, 3), ">u2"), NUMPY.empty((3, 3, 2), NUMPY.uint8)]
        for out in outs:
            trirast.draw({**DRAW_LIST, "output": "depth"}, threads=2, out=out)
            self.assertEqual(bytes_of(out), depths)

    def test_of_images_come_in_any_layout(self) -> None:
        np = self.need_numpy()
        image = np.arange(27, dtype=np.uint8).reshape(3, 3, 3)
        wide = np.zeros((3, 6, 4), np.uint8)
        wide[:, ::2, :3] = image
        frozen = image.copy()
        frozen.flags.writeable = False
        for each in (
            image, frozen, np.asfortranarray(image), image[::-1][::-1], wide[:, ::2, :3], image.tobytes(),
            trirast.draw(DRAW_LIST),
        ):
            canvas = cleared()
            canvas.load(each, threads=2)
            wanted = PIXELS if isinstance(each, trirast.Picture) else image.tobytes()
            self.assertEqual(bytes_of(canvas.rgb()), wanted)

    def test_lie_apart_from_the_samples(self) -> None:
        memory = bytearray(trirast.Canvas.size(3, 3))
        canvas = trirast.Canvas(3, 3, memory=memory)
        canvas.clear()
        inside = memoryview(memory)[100:127]
        calls: List[Callable[[], Any]] = [lambda: canvas.rgb(inside), lambda: canvas.load(inside)]
        for call in calls:
            with self.assertRaisesRegex(
                ValueError, "^(out|image): expected memory apart from that of the canvas, got memory of its samples$"
            ):
                call()
        self.assertEqual(bytes_of(canvas.rgb()), bytes(27))

    def test_of_vertices_lie_apart_from_the_samples(self) -> None:
        np = self.need_numpy()
        memory = np.zeros(trirast.Canvas.size(3, 3) + 480, np.uint8)
        canvas = trirast.Canvas(3, 3, memory=memory)
        canvas.clear()
        wide = np.dtype([*trirast.VERTEX, ("more", "u4", 4)])
        for vertices in (
            memory[:48].view(trirast.VERTEX), memory[-496:].view(trirast.VERTEX), memory[-512:].view(wide)[::2],
            memory[:24].view(np.int32).reshape(3, 2),
        ):
            with self.assertRaisesRegex(
                ValueError, "^vertices: expected memory apart from that of the canvas, got memory of its samples$"
            ):
                canvas.draw(vertices)
        behind = memory[-480:].view(wide)[:3]
        for (name, _kind), values in zip(trirast.VERTEX, zip(*VERTICES)):
            behind[name] = values
        canvas.draw(behind)
        self.assertEqual(bytes_of(canvas.rgb()), PIXELS)


class Files(Refusals):
    """Pictures are saved by the end of the name."""

    def test_have_the_format_of_their_name(self) -> None:
        picture, depths = trirast.draw(DRAW_LIST), trirast.draw({**DRAW_LIST, "output": "depth", "clear_depth": 258})
        with tempfile.TemporaryDirectory() as folder:
            for each, name, wanted in (
                (picture, "a.ppm", FILE), (picture, "A.PPM", FILE), (depths, "a.pgm", depths.header + depths.bytes)
            ):
                each.save(os.path.join(folder, name))
                with open(os.path.join(folder, name), "rb") as file:
                    self.assertEqual(file.read(), wanted)
            for each, kind in ((picture, b"\x08\x02"), (depths, b"\x10\x00")):
                path = os.path.join(folder, "a.Png")
                each.save(path)
                with open(path, "rb") as file:
                    self.assertEqual(read_png(file.read()), (3, 3, kind, each.bytes))

    def test_of_another_name_are_refused(self) -> None:
        picture, depths = trirast.draw(DRAW_LIST), trirast.draw({**DRAW_LIST, "output": "depth"})
        with tempfile.TemporaryDirectory() as folder:
            for each, name, message in (
                (picture, "x.tif", "expected a name that ends in .png or .ppm, for colours"),
                (picture, "x", "expected a name that ends in .png or .ppm"), (picture, "x.pgm",
                 "expected a name that ends in .png or .ppm"),
                (depths, "x.ppm", "expected a name that ends in .png or .pgm, for depths"),
            ):
                with self.assertRaisesRegex(ValueError, f"^path: {message}.*{name}'$"):
                    each.save(os.path.join(folder, name))
            self.assertEqual(os.listdir(folder), [])

    def test_of_canvases_are_those_of_their_colours(self) -> None:
        canvas = trirast.Canvas(3, 3)
        canvas.clear((0, 0, 0))
        canvas.draw(VERTICES, [(0, 1, 2)])
        with tempfile.TemporaryDirectory() as folder:
            for name in ("a.ppm", "a.png"):
                canvas.save(os.path.join(folder, name), threads=2)
            with open(os.path.join(folder, "a.ppm"), "rb") as ppm, open(os.path.join(folder, "a.png"), "rb") as png:
                self.assertEqual((ppm.read(), read_png(png.read())), (FILE, (3, 3, b"\x08\x02", FILE[-27:])))
            with self.assertRaisesRegex(
                ValueError, "^path: expected a name that ends in .png or .ppm, for colours, got .*a.tif'$"
            ):
                canvas.save(os.path.join(folder, "a.tif"))


def read_png(file: bytes) -> Tuple[int, int, bytes, bytes]:
    """Width, height, bits and colour type, and the pixels of a PNG file without filters."""
    (*kinds, last), (head, packed, _) = zip(*chunks(file))
    assert (kinds, last) == ([b"IHDR", b"IDAT"], b"IEND")
    width, height = struct.unpack(">II", head[:8])
    rows = zlib.decompress(packed)
    step = len(rows) // height
    return width, height, head[8:10], b"".join(rows[k + 1 : k + step] for k in range(0, len(rows), step))


class WithoutNumpy(unittest.TestCase):
    def test_all_is_drawn(self) -> None:
        done = run(f"""
            import sys
            sys.modules["numpy"] = None
            import trirast
            from array import array
            canvas = trirast.Canvas(3, 3, origin=(-1, 0))
            canvas.clear()
            canvas.draw([[x - 256, *more] for x, *more in {VERTICES}], array("H", [0, 1, 2]))
            print(canvas.rgb().tobytes() == {PIXELS!r}, type(canvas.depth()).__name__, canvas.depth().shape)
            try:
                canvas.draw([[0.5] * 7], [])
            except TypeError as error:
                print(error)
        """)
        refused = f"vertices[0].x: expected an integer in 1/256 pixel, got 0.5{SNAP}"
        self.assertEqual((done.stdout.decode().splitlines(), done.stderr), (["True memoryview (3, 3)", refused], b""))


if __name__ == "__main__":
    unittest.main()
