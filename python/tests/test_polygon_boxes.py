"""Boxes of polygons: they are those of the corners, a call by them draws the same, and what is refused."""

import random
import unittest
from typing import Any, Callable, Dict, List, Sequence, Tuple, Type
from unittest import mock

from trirast import BatchError, Canvas, _boxes, polygon_boxes

from .common import NUMPY, bytes_of
from .polygon_rule import Corner, flat

Ring = List[Corner]
Arrays = Tuple[List[Corner], List[int], List[int]]
LEAST, MOST = -(1 << 31), (1 << 31) - 1
# Of no corners.
NOTHING = [MOST, MOST, LEAST, LEAST]
SQUARE = [(0, 0), (512, 0), (512, 512), (0, 512)]
# A box beside a canvas at the origin.
BESIDE = [1 << 20, 0, (1 << 20) + 512, 512]
WHITE = (1 << 24) - 1
NO_POLYGONS: Arrays = ([], [], [])


def a_map(pick: random.Random, count: int) -> List[List[Ring]]:
    """Polygons on a screen of 600 by 800 pixels and around it: of no ring up to three, of which some have no corners.
    Corners on quarters of pixels meet samples often."""

    def a_polygon() -> List[Ring]:
        x, y, size = pick.randrange(-400, 2800), pick.randrange(-400, 3600), pick.choice((9, 99, 999))
        return [
            [
                (64 * (x + pick.randrange(-size, size)), 64 * (y + pick.randrange(-size, size)))
                for _ in range(pick.randrange(8))
            ]
            for _ in range(pick.randrange(4))
        ]

    return [a_polygon() for _ in range(count)]


def box_of(rings: Sequence[Ring]) -> List[int]:
    corners = [corner for ring in rings for corner in ring]
    if not corners:
        return NOTHING
    xs, ys = zip(*corners)
    return [min(xs), min(ys), max(xs), max(ys)]


def moved(rings: Sequence[Ring], x: int, y: int) -> List[Ring]:
    return [[(a + x, b + y) for a, b in ring] for ring in rings]


def drawn(arrays: Arrays, samples: int, origin: Tuple[int, int], **more: Any) -> bytes:
    """All that is read back of a window of 130 by 200 pixels, which has four tile rows, on which polygons were
    drawn."""
    canvas = Canvas(130, 200, samples, origin=origin)
    canvas.clear((255, 255, 255))
    canvas.draw_polygons(*arrays, **more)
    return b"".join(bytes_of(read(sample)) for sample in range(samples) for read in (canvas.ids, canvas.depth))


class Boxes(unittest.TestCase):
    def test_are_those_of_the_corners(self) -> None:
        polygons = a_map(random.Random(3), 300)
        boxes = polygon_boxes(*flat(polygons))
        self.assertEqual((boxes.format, boxes.shape, boxes.readonly), ("i", (300, 4), True))
        self.assertEqual(boxes.tolist(), [box_of(rings) for rings in polygons])
        self.assertIn(NOTHING, boxes.tolist())

    def test_of_no_polygons_are_no_rows(self) -> None:
        boxes = polygon_boxes([], [], [])
        self.assertEqual((boxes.format, boxes.shape, boxes.readonly, boxes.tolist()), ("i", (0, 4), True, []))
        canvas = Canvas(4, 4)
        canvas.draw_polygons([], [], [], boxes=boxes, threads=2)
        self.assertEqual(set(bytes_of(canvas.rgb())), {0})

    def test_become_arrays_of_numpy(self) -> None:
        if NUMPY is None:
            self.skipTest("there is no numpy")
        corners = NUMPY.array(SQUARE + SQUARE[::-1], NUMPY.int64)
        boxes = polygon_boxes(corners, NUMPY.array([4, 8]), NUMPY.array([0, 1, 2]))
        for each, shape in ((boxes, (3, 4)), (polygon_boxes([], [], []), (0, 4))):
            array = NUMPY.asarray(each)
            self.assertEqual((array.dtype, array.shape, array.flags.writeable), (NUMPY.int32, shape, False))
            self.assertEqual(array.tolist(), each.tolist())
        self.assertTrue(NUMPY.shares_memory(NUMPY.asarray(boxes), NUMPY.asarray(boxes)))
        self.assertEqual(NUMPY.asarray(boxes).tolist(), [NOTHING, [0, 0, 512, 512], [0, 0, 512, 512]])

    def test_of_far_corners_are_refused(self) -> None:
        wanted = "y: -8388608 to 8388607 (-32768 to 32767.99609375 pixels)"
        for far in (1 << 23, -(1 << 23) - 1):
            corners = [*SQUARE, *SQUARE[:2], (0, far), SQUARE[3]]
            with self.assertRaises(BatchError) as caught:
                polygon_boxes(corners, [4, 8], [1, 2])
            error = caught.exception
            self.assertEqual((error.name, error.element, error.draw), ("BadPosition", 6, None))
            self.assertTrue(str(error).endswith(f"({far / 256:.15g} pixels); {wanted}".replace("(", "(0 and ", 1)))
        # The least and the greatest ones are near enough.
        band = [(-(1 << 23), (1 << 23) - 1), ((1 << 23) - 1, -(1 << 23))]
        self.assertEqual(polygon_boxes(band, [2], [1]).tolist(), [[-(1 << 23)] * 2 + [(1 << 23) - 1] * 2])

    def test_are_refused_as_drawing_is(self) -> None:
        calls: List[Callable[..., Any]] = [polygon_boxes, Canvas(4, 4).draw_polygons]
        corners, rings, polygons = flat([[SQUARE], [SQUARE]])
        for arrays, name in (
            ((corners, [5, 4], polygons), "BadRing"), ((corners, [4, 9], polygons), "BadRing"),
            ((corners, [4, 7], polygons), "LeftOver"), ((corners, [], []), "LeftOver"),
            ((corners, rings, [2, 1]), "BadPolygon"), ((corners, rings, [1, 3]), "BadPolygon"),
            ((corners, rings, [1, 1]), "LeftOver"), ((corners, rings, []), "LeftOver"),
        ):
            errors = []
            for call in calls:
                with self.assertRaises(BatchError) as caught:
                    call(*arrays)
                errors.append((str(caught.exception), caught.exception.name, caught.exception.element))
            self.assertEqual((errors[0], errors[0][1]), (errors[1], name))
        with self.assertRaisesRegex(TypeError, r"^corners\[1\].y: expected an integer in 1/256 pixel, got 0.5"):
            calls[0]([(0, 0), (1, 0.5)], [2], [1])
        with self.assertRaisesRegex(ValueError, r"^ring_ends\[0\]: expected 0 to 4294967295, got -1$"):
            calls[0]([], [-1], [])


class Drawing(unittest.TestCase):
    def test_by_boxes_shows_the_same_of_a_map(self) -> None:
        pick = random.Random(7)
        for samples in Canvas.SAMPLE_COUNTS:
            arrays = flat(a_map(pick, 120))
            boxes = polygon_boxes(*arrays)
            state: Dict[str, Any] = {
                "colors": [[pick.randrange(256) for _ in range(4)] for _ in boxes.tolist()], "blend": "over",
                "depth": [pick.randrange(65536) for _ in boxes.tolist()], "depth_test": "less", "depth_write": True,
            }
            for rule in ("even-odd", "nonzero"):
                for first_id in (None, 70000):
                    window = arrays, samples, (pick.randrange(470), pick.randrange(600))
                    state = {**state, "rule": rule, "first_id": first_id}
                    wanted = drawn(*window, **state)
                    self.assertNotEqual(wanted, drawn(NO_POLYGONS, *window[1:]))
                    for threads in (1, 3):
                        for given in (boxes, boxes.tolist(), None):
                            self.assertEqual(drawn(*window, boxes=given, threads=threads, **state), wanted)

    def test_takes_boxes_of_any_integers(self) -> None:
        if NUMPY is None:
            self.skipTest("there is no numpy")
        arrays = flat([[SQUARE], moved([SQUARE], 600, 900)])
        boxes, wanted = polygon_boxes(*arrays), drawn(arrays, 4, (0, 0), first_id=0)
        wide = NUMPY.asarray(boxes).astype(NUMPY.int64)
        for given in (NUMPY.asarray(boxes), wide, wide.astype(">i4"), NUMPY.asfortranarray(wide), wide.reshape(-1)):
            self.assertEqual(drawn(arrays, 4, (0, 0), boxes=given, first_id=0), wanted)

    def test_beside_and_at_the_edges_of_a_canvas(self) -> None:
        left, top, right, bottom = -3, 5, 2, 7
        steps = -513, -512, -511, -256, -1, 0, 1, 255, 256
        polygons = [
            moved([SQUARE], 256 * x + dx, 256 * y + dy)
            for x in (left, right) for y in (top, bottom) for dx in steps for dy in steps
        ]
        polygons.append([[(-99999, -99999), (99999, -99999), (99999, 99999), (-99999, 99999)]])
        shown = 0
        for each in polygons:
            arrays, pictures = flat([each]), []
            for boxes in (None, polygon_boxes(*arrays)):
                canvas = Canvas(right - left, bottom - top, 16, origin=(left, top))
                canvas.draw_polygons(*arrays, boxes=boxes)
                pictures.append(bytes_of(canvas.rgb()))
            self.assertEqual(*pictures)
            shown += any(pictures[0])
        self.assertTrue(0 < shown < len(polygons))

    def test_of_all_beside_a_canvas_changes_nothing(self) -> None:
        arrays = flat(a_map(random.Random(11), 50))
        for origin in ((-4000, 0), (4000, 0), (0, -4000), (0, 4000)):
            for threads in (1, 3):
                found = drawn(arrays, 4, origin, boxes=polygon_boxes(*arrays), first_id=0, threads=threads)
                self.assertEqual(found, drawn(NO_POLYGONS, 4, origin))

    def test_by_boxes_of_fewer_polygons_is_refused(self) -> None:
        arrays = flat([[SQUARE], [SQUARE]])
        boxes = polygon_boxes(*flat([[SQUARE]]))
        canvas = Canvas(4, 200)
        canvas.clear((9, 9, 9))
        for threads in (1, 3):
            for first_id in (None, 0):
                with self.assertRaises(BatchError) as caught:
                    canvas.draw_polygons(*arrays, boxes=boxes, first_id=first_id, threads=threads)
                error = caught.exception
                self.assertEqual(str(error), "there are fewer boxes than polygons, got 1 for 2 polygons")
                self.assertEqual((error.name, error.number, error.element), ("TooFewBoxes", 24, None))
        self.assertEqual(set(bytes_of(canvas.rgb())), {9})
        # More of them are none too few.
        canvas.draw_polygons(*flat([[SQUARE]]), boxes=polygon_boxes(*arrays))
        self.assertEqual(set(bytes_of(canvas.rgb())), {9, 255})

    def test_by_boxes_of_other_polygons_leaves_some_out(self) -> None:
        """Each as a whole, and all others are drawn."""
        polygons = [moved([SQUARE], 4096 * k, 0) for k in range(5)]
        arrays, boxes = flat(polygons), [box_of(rings) for rings in polygons]
        boxes[1], boxes[3] = NOTHING, BESIDE
        # One that holds more than its polygon, or less, and meets the canvas changes nothing.
        boxes[0], boxes[4] = [-9999, -9999, 99999, 99999], [0, 0, 256, 256]
        for threads in (1, 3):
            for rule in ("even-odd", "nonzero"):
                more: Dict[str, Any] = {"rule": rule, "first_id": 0}
                wanted = drawn(flat([each if k % 2 == 0 else [] for k, each in enumerate(polygons)]), 4, (0, 0), **more)
                self.assertEqual(drawn(arrays, 4, (0, 0), boxes=boxes, threads=threads, **more), wanted)

    def test_by_boxes_leaves_polygons_of_far_corners_out(self) -> None:
        far = [(0, 0), (512, 0), (512, 1 << 23)]
        polygons = [[SQUARE], [far], moved([SQUARE], 512, 0)]
        boxes = [box_of(rings) for rings in polygons]
        wanted = drawn(flat([polygons[0], [], polygons[2]]), 4, (0, 0), first_id=0)
        for second in (boxes[1], boxes[0], BESIDE):
            for threads in (1, 3):
                for rule in ("even-odd", "nonzero"):
                    more: Dict[str, Any] = {"boxes": [boxes[0], second, boxes[2]], "rule": rule, "first_id": 0}
                    self.assertEqual(drawn(flat(polygons), 4, (0, 0), threads=threads, **more), wanted)

    def test_by_threads_without_boxes_is_refused_as_by_one(self) -> None:
        canvas = Canvas(4, 200)
        canvas.clear((9, 9, 9))
        corners, rings, polygons = flat([[SQUARE], [SQUARE]])
        far = [*corners[:6], (0, 1 << 23), corners[7]]
        for arrays, first_id in (
            ((far, rings, polygons), None), ((far, rings, polygons), 1 << 24), ((far, [4, 7], polygons), None),
            ((corners, [5, 4], polygons), None), ((corners, rings, polygons), WHITE),
        ):
            lines = []
            for threads in (1, 3):
                with self.assertRaises(BatchError) as caught:
                    canvas.draw_polygons(*arrays, first_id=first_id, threads=threads)
                lines.append(str(caught.exception))
            self.assertEqual(*lines)
        self.assertEqual(set(bytes_of(canvas.rgb())), {9})

    def test_finds_boxes_once_for_several_threads(self) -> None:
        arrays = flat([[SQUARE]])
        boxes = polygon_boxes(*arrays)
        tall, low = Canvas(4, 200), Canvas(4, 4)
        measured = _boxes.measured
        for canvas, given, threads, count in (
            (tall, None, 3, 1), (tall, None, 1, 0), (tall, boxes, 3, 0), (low, None, 3, 0)
        ):
            with mock.patch.object(_boxes, "measured", wraps=measured) as called:
                canvas.draw_polygons(*arrays, boxes=given, threads=threads)
            self.assertEqual(called.call_count, count)

    def test_takes_rows_of_four_integers_alone(self) -> None:
        canvas: Any = Canvas(4, 4)
        arrays = flat([[SQUARE]])
        cases: List[Tuple[Any, Type[Exception], str]] = [
            (5, TypeError, "boxes: expected rows of 4 integers, got 5"),
            ([(0, 0, 512)], ValueError, "boxes[0]: expected 4 values, got 3"),
            ([(0, 0, 512.5, 512)], TypeError, "boxes[0].right: expected an integer in 1/256 pixel, got 512.5"),
            (
                [(0, 0, 512, 1 << 31)], ValueError,
                "boxes[0].bottom: expected -2147483648 to 2147483647, got 2147483648",
            ),
        ]
        if NUMPY is not None:
            cases += [
                (NUMPY.zeros((1, 4)), TypeError, "boxes: expected integers in 1/256 pixel, got float64"),
                (NUMPY.zeros((1, 3), int), ValueError, "boxes: expected rows of 4 integers, got the shape (1, 3)"),
                (
                    NUMPY.ma.zeros((1, 4), int), TypeError,
                    "boxes: expected an array without a mask, got a masked one; use filled",
                ),
            ]
        for given, kind, message in cases:
            with self.assertRaises(kind) as caught:
                canvas.draw_polygons(*arrays, boxes=given)
            self.assertEqual(str(caught.exception), message)


if __name__ == "__main__":
    unittest.main()
