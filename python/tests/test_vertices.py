"""Vertices, their colours and depths, and indices, in each form in which they come."""

import ctypes
import struct
import unittest
from array import array
from typing import Any, List

import trirast
from trirast import _vertices

from .common import NUMPY, PIXELS, VERTICES, bytes_of, drawn, run

XY = [row[:2] for row in VERTICES]
TRIANGLE = [[0, 1, 2]]
WHITE = (255, 255, 255, 255)
RECORDS = b"".join(struct.pack("=iiHBBBB2x", *row) for row in VERTICES)


def records(*given: Any, **more: Any) -> List[Any]:
    """The records that are made of vertices, each as its seven numbers."""
    return list(struct.iter_unpack("=iiHBBBB2x", bytes(_vertices.vertices_of(*given, **more))))


class Forms(unittest.TestCase):
    def test_of_vertices(self) -> None:
        two = array("i", [number for row in XY for number in row])
        whole = array("q", [number for row in VERTICES for number in row])
        of_ctypes: Any = (ctypes.c_int32 * 2 * 3)()
        for place, (x, y) in zip(of_ctypes, XY):
            place[:] = x, y
        forms: List[Any] = [
            VERTICES, tuple(map(tuple, VERTICES)), XY, RECORDS, bytearray(RECORDS),
            memoryview(two).cast("B").cast("i", shape=[3, 2]),
            memoryview(whole).cast("B").cast("q", shape=[3, 7]).toreadonly(), of_ctypes, iter(XY),
        ]
        for vertices in forms:
            self.assertEqual(drawn(vertices, TRIANGLE), PIXELS, vertices)

    def test_of_indices(self) -> None:
        forms: List[Any] = [
            [(0, 1, 2)], array("I", [0, 1, 2]), array("i", [0, 1, 2]), array("B", [0, 1, 2]),
            bytes(array("I", [0, 1, 2])), bytearray(array("I", [0, 1, 2])), (ctypes.c_uint32 * 3)(0, 1, 2),
            memoryview(array("h", [0, 9, 1, 9, 2, 9]))[::2], None,
        ]
        for triangles in forms:
            self.assertEqual(drawn(VERTICES, triangles), PIXELS, triangles)
        others: List[Any] = [{"strip": [0, 1, 2]}, {"strip": array("H", [0, 1, 2])}, {"quads": [[0, 1, 2, 3]]}]
        for more in others:
            self.assertEqual(drawn([*XY, (100, 300)], **more), PIXELS)

    def test_of_numpy(self) -> None:
        if NUMPY is None:
            self.skipTest("there is no numpy")
        np = NUMPY
        for kind in ("i2", "i4", "i8", "u2", "u4", "u8", ">i4", ">i8"):
            for order in ("C", "F"):
                for rows in (VERTICES, XY):
                    vertices = np.array(rows, kind, order=order)
                    for triangles in (
                        np.array(TRIANGLE, "u4"), np.array(TRIANGLE), np.array([0, 1, 2], "u1"),
                        np.array(TRIANGLE, ">u2"),
                    ):
                        self.assertEqual(drawn(vertices, triangles), PIXELS, vertices)
        many = np.random.default_rng(1).integers(-5000, 5000, (9000, 2))
        self.assertEqual([row[:2] for row in records(many)], [tuple(row) for row in many.tolist()])

    def test_of_fields(self) -> None:
        if NUMPY is None:
            self.skipTest("there is no numpy")
        np = NUMPY
        own = np.frombuffer(RECORDS, trirast.VERTEX)
        wide = np.zeros((3, 2), trirast.VERTEX)
        wide[:, 0] = own
        unaligned = np.frombuffer(b"1" + RECORDS, np.uint8)[1:].view(trirast.VERTEX)
        other = np.zeros(
            3, [("alpha", "i8"), ("y", ">i4"), ("x", "i2"), ("blue", "u1"), ("green", "u1"), ("red", "u1")]
        )
        for name in other.dtype.names:
            other[name] = own[name]
        places = np.array([tuple(row) for row in XY], [("x", "i8"), ("y", "i8")])
        for vertices in (own, own.copy(), wide[:, 0], unaligned, own[::-1][::-1], other, places):
            self.assertEqual(drawn(vertices, TRIANGLE), PIXELS, vertices)
        self.assertEqual(records(other), [tuple(row) for row in VERTICES])
        given = own.copy()
        self.assertEqual(records(given, colors=(1, 2, 3, 4), depth=5), [(*row[:2], 5, 1, 2, 3, 4) for row in VERTICES])
        self.assertEqual(bytes_of(given), RECORDS)

    def test_of_records_among_other_members(self) -> None:
        if NUMPY is None:
            self.skipTest("there is no numpy")
        np = NUMPY
        own = np.frombuffer(RECORDS, trirast.VERTEX)
        before, behind = [("u", "f4"), ("v", "f4")], [("normal", "f4", 3), ("name", "S4")]
        first = np.zeros(3, trirast.VERTEX + behind)
        middle = np.zeros(3, before + trirast.VERTEX + behind)
        nested = np.zeros((3, 5), trirast.VERTEX)[:, 2]
        widest = np.zeros(3, before + trirast.VERTEX + [("more", "u1", 2048 - 24)])
        for vertices in (first, middle, nested, widest, widest.view(np.recarray), np.zeros(6, middle.dtype)[::2]):
            for name, _kind in trirast.VERTEX:
                vertices[name] = own[name]
            self.assertEqual(drawn(vertices, TRIANGLE), PIXELS)
            self.assertEqual(drawn(vertices, None), PIXELS)
            self.assertEqual(records(vertices), [tuple(row) for row in VERTICES])
            self.assertEqual(records(vertices, depth=5)[0][2], 5)
            canvas = trirast.Canvas(3, 3)
            canvas.clear()
            canvas.draw_batch(
                [
                    trirast.Draw(vertices[:0], []), trirast.Draw(vertices), trirast.Draw(own, TRIANGLE),
                    trirast.Draw(vertices, TRIANGLE),
                ]
            )
            self.assertEqual(bytes_of(canvas.rgb()), PIXELS)
            vertices["x"] = 1 << 23
            with self.assertRaises(trirast.BatchError) as caught:
                canvas.draw(vertices, TRIANGLE)
            self.assertEqual((caught.exception.name, caught.exception.element), ("BadPosition", 0))

    def test_of_records_of_another_layout(self) -> None:
        if NUMPY is None:
            self.skipTest("there is no numpy")
        np = NUMPY
        own = np.frombuffer(RECORDS, trirast.VERTEX)
        too_wide = np.zeros(3, trirast.VERTEX + [("more", "u1", 2048 - 12)])
        odd = np.zeros(3, trirast.VERTEX + [("more", "u1", 3)])
        turned = np.zeros(3, [*trirast.VERTEX[1::-1], *trirast.VERTEX[2:], ("more", "u4")])
        cut = np.zeros(3, [("more", "u4"), *trirast.VERTEX[:-1]])
        swapped = np.zeros(3, [*trirast.VERTEX, ("more", "u4")]).astype(
            [
                (name, kind.newbyteorder())
                for name, (kind, _place) in np.dtype([*trirast.VERTEX, ("more", "u4")]).fields.items()
            ]
        )
        padded = np.zeros(3, [*trirast.VERTEX, ("more", "u4")])
        objects = np.zeros(3, [*trirast.VERTEX, ("more", "O")])
        for vertices in (too_wide, odd, turned, cut, swapped, padded[::-1], objects):
            for name, _kind in trirast.VERTEX:
                if name in vertices.dtype.names:
                    vertices[name] = own[name]
            self.assertEqual(drawn(vertices, TRIANGLE), PIXELS)

    def test_of_arrays_that_change_after_a_draw_was_made_are_those_that_were_given(self) -> None:
        if NUMPY is None:
            self.skipTest("there is no numpy")
        done = run("""
            import warnings
            import numpy as np, trirast
            warnings.simplefilter("ignore")

            def other_type(array):
                array.dtype = np.uint8

            def other_shape(array):
                array.shape = (1, len(array))

            def other_numbers(array):
                array["x"] = array["y"] = 99999

            def other_memory(array):
                array.resize(1 << 20, refcheck=False)

            canvas = trirast.Canvas(8, 8)
            for behind in [], [("more", "u1", 48)], [("more", "u4")]:
                for change in other_type, other_shape, other_numbers, other_memory:
                    for index in None, [(0, 1, 2)]:
                        vertices = np.zeros(3, trirast.VERTEX + behind)
                        vertices["x"], vertices["y"] = (0, 4096, 0), (0, 0, 4096)
                        vertices["red"] = vertices["alpha"] = 255
                        draws = [trirast.Draw(vertices, index), trirast.Draw(vertices, index, depth=7)]
                        change(vertices)
                        for some in draws, draws[:1]:
                            canvas.clear()
                            canvas.draw_batch(some, threads=2)
                            assert set(memoryview(canvas.rgb()).tobytes()) == {0, 255}, (behind, change)
            print("ended")
        """)
        self.assertEqual((done.returncode, done.stdout, done.stderr), (0, b"ended\n", b""))

    def test_that_are_none_draw_nothing(self) -> None:
        empty: List[Any] = [
            ([], []), (VERTICES, []), (b"", b""), (RECORDS, array("I")), (VERTICES, array("d")), ([], None)
        ]
        if NUMPY is not None:
            np = NUMPY
            empty += [
                (np.zeros(0, trirast.VERTEX), np.zeros((0, 3), int)), (np.array([]), np.array([])),
                (np.zeros((0, 2)), None), (np.zeros(3, trirast.VERTEX), np.zeros((0, 3), int)),
            ]
        for vertices, triangles in empty:
            self.assertEqual(drawn(vertices, triangles), bytes(27))
        canvas = trirast.Canvas(3, 3)
        canvas.clear()
        canvas.draw_batch([])
        # A draw without indices beside others takes its vertices in their order, and one of none draws nothing.
        canvas.draw_batch(
            [trirast.Draw(VERTICES, []), trirast.Draw(VERTICES), trirast.Draw([], []), trirast.Draw(VERTICES, TRIANGLE)]
        )
        self.assertEqual(bytes_of(canvas.rgb()), PIXELS)


class Values(unittest.TestCase):
    def test_of_colours(self) -> None:
        rows = [(1, 2, 3), (4, 5, 6), (7, 8, 9)]
        self.assertEqual([row[3:] for row in records(XY)], [WHITE] * 3)
        self.assertEqual([row[3:] for row in records(XY, colors=rows[0])], [(1, 2, 3, 255)] * 3)
        self.assertEqual([row[3:] for row in records(XY, colors=rows)], [(*row, 255) for row in rows])
        self.assertEqual(
            [row[3:] for row in records(VERTICES, colors=[(*row, 9) for row in rows])], [(*row, 9) for row in rows]
        )
        self.assertEqual([row[3:] for row in records([(0, 0)] * 4, colors=[(1, 2, 3, 4)] * 4)], [(1, 2, 3, 4)] * 4)
        self.assertEqual(records([], colors=(1, 2, 3)), [])
        if NUMPY is not None:
            for kind in ("u1", "i8", ">u2"):
                self.assertEqual(records(XY, colors=NUMPY.array(rows, kind)), records(XY, colors=rows))
                self.assertEqual(records(XY, colors=NUMPY.array(rows[1], kind)), records(XY, colors=rows[1]))

    def test_of_depths(self) -> None:
        self.assertEqual([row[2] for row in records(XY)], [0] * 3)
        self.assertEqual([row[2] for row in records(VERTICES, depth=65535)], [65535] * 3)
        forms: List[Any] = [[1, 2, 3], (1, 2, 3), array("q", [1, 2, 3])]
        forms += [] if NUMPY is None else [NUMPY.array([1, 2, 3]), NUMPY.array([1, 2, 3], "u1")]
        for depth in forms:
            self.assertEqual([row[2] for row in records(XY, depth=depth)], [1, 2, 3])
        if NUMPY is not None:
            self.assertEqual([row[2] for row in records(XY, depth=NUMPY.uint16(7))], [7] * 3)

    def test_arrays_are_not_changed(self) -> None:
        indices = array("I", [0, 1, 2])
        self.assertEqual(drawn(VERTICES, indices, colors=(255, 255, 255), depth=3), PIXELS)
        indices.append(1)
        self.assertEqual((VERTICES[1], indices.tolist()), ([640, 128, 0, 255, 255, 255, 255], [0, 1, 2, 1]))

    def test_a_draw_has_copies(self) -> None:
        rows, indices = [list(row) for row in VERTICES], array("I", [0, 1, 2])
        draw = trirast.Draw(rows, indices)
        rows[0][0], indices[1] = 99999, 77
        canvas = trirast.Canvas(3, 3)
        canvas.clear()
        canvas.draw_batch([draw])
        self.assertEqual(bytes_of(canvas.rgb()), PIXELS)


if __name__ == "__main__":
    unittest.main()
