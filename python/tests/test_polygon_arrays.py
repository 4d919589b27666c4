"""`trirast.Polygons`: what is drawn of them, that nothing is copied once they are owned, and clipping."""

import copy
import pickle
import random
import unittest
from typing import Any, List, Tuple

from .polygon_rule import area, clipped, flat
from .test_polygons import SQUARE
from .test_poster_polygons import colors_of, random_polygons

import numpy as np

import trirast
from trirast import Canvas, Polygons
from trirast._polygons import with_zero
from trirast._ring_cuts import within
from trirast._rings import rings_of

TRIANGLE = [(0, 0), (2560, 0), (0, 2560)]


class Drawn(unittest.TestCase):
    def test_the_same_as_by_arrays(self) -> None:
        pick = random.Random(8)
        for number in range(20):
            given, colors = random_polygons(pick, 9, (-200, 1200)), colors_of(pick, 9)
            arrays = flat(given)
            polygons = Polygons(*arrays, colors)
            more: Any = {"blend": "over", "rule": ("even-odd", "nonzero")[number % 2], "threads": 1 + number % 3}
            wanted = self.drawn(*arrays, colors, **more)
            for each in (polygons, polygons.owned()):
                boxes = trirast.polygon_boxes(each)
                self.assertEqual(boxes.tolist(), trirast.polygon_boxes(*arrays).tolist())
                self.assertTrue(np.array_equal(self.drawn(each, **more), wanted))
                self.assertTrue(np.array_equal(self.drawn(each, boxes=boxes, **more), wanted))
                other = self.drawn(*arrays, (1, 2, 3, 99), depth=range(9), **more)
                self.assertTrue(np.array_equal(self.drawn(each, colors=(1, 2, 3, 99), depth=range(9), **more), other))
                ids = self.drawn(*arrays, first_id=7)
                self.assertTrue(np.array_equal(self.drawn(each, first_id=7), ids))

    def drawn(self, *given: Any, **more: Any) -> Any:
        canvas = Canvas(70, 130, 4)
        canvas.clear((255, 255, 255))
        canvas.draw_polygons(*given, **more)
        return [canvas.colors(sample) for sample in range(4)]

    def test_without_colours_they_are_white(self) -> None:
        for polygons in (Polygons(TRIANGLE, [3], [1]), Polygons(TRIANGLE, [3], [1]).owned()):
            canvas = Canvas(4, 4)
            canvas.draw_polygons(polygons)
            self.assertEqual(canvas.rgb()[1, 1].tolist(), [255, 255, 255])

    def test_nothing_is_copied_of_owned_ones(self) -> None:
        polygons = Polygons(TRIANGLE, [3], [1], [(1, 2, 3)]).owned()
        for each in (polygons, polygons.part(0, 1), Polygons(*polygons.arrays).owned(copy=False)):
            found = rings_of(each, None, None)
            addresses = [found.corners, found.ring_ends, found.polygon_ends, found.colors]
            self.assertEqual(addresses, [array.ctypes.data for array in each.arrays])
        self.assertEqual(polygons.part(0, 1).corners.ctypes.data, polygons.corners.ctypes.data)


class Owned(unittest.TestCase):
    def test_nobody_changes_them(self) -> None:
        corners, colors = np.array(TRIANGLE), np.array([(1, 2, 3)])
        polygons = Polygons(corners, [3], [1], colors).owned()
        corners[:], colors[:] = 7, 8
        self.assertEqual(polygons.corners.tolist(), np.array(TRIANGLE).tolist())
        self.assertEqual(polygons.colors.tolist(), [[1, 2, 3, 255]])
        self.assertIs(polygons.owned(), polygons)
        derived = [polygons, polygons.take(np.array([0, 0])), polygons.moved(256, 0), polygons.within(0, 0, 512)]
        for each in (*derived, polygons.followed_by(polygons), polygons.colored(np.zeros((1, 4), np.uint8))):
            self.assertIs(each.owned(), each)
            for array in each.arrays:
                with self.assertRaises(ValueError):
                    array[:] = 0

    def test_copies_are_checked_anew(self) -> None:
        polygons = Polygons(TRIANGLE, [3], [1]).owned()
        for each in (copy.copy(polygons), copy.deepcopy(polygons), pickle.loads(pickle.dumps(polygons))):
            self.assertFalse(each.is_own)
            self.assertEqual(each.owned().corners.tolist(), polygons.corners.tolist())

    def test_another_type_in_place_is_refused(self) -> None:
        """Of an array that somebody made one of other numbers no more is read than it has."""
        polygons = Polygons(np.array(TRIANGLE * 9, np.int32), [27], [1]).owned()
        polygons.corners.dtype = np.uint8
        with self.assertRaisesRegex(
            ValueError, "polygons: expected an array of int32 in rows .*, got uint8 of the shape"
        ):
            Canvas(4, 4).draw_polygons(polygons)

    def test_what_is_refused(self) -> None:
        corners = np.array(SQUARE)
        wrong: List[Tuple[Any, Any, str]] = [
            ((corners / 2, [4], [1]), TypeError, r"corners: expected .*, got ndarray float64; use trirast.snap\(xy\)$"),
            ((corners + (1 << 23), [4], [1]), ValueError, "corners: expected -8388608 to 8388607, got "),
            ((corners, [3], [1]), ValueError, r"ring_ends\[-1\]: expected 4, the number of corners, got 3$"),
            ((corners, [4], [2]), ValueError, "polygon_ends.*: expected 1, .*, got 2$"),
            ((corners, [4], [1], [(1, 2, 3)] * 2), ValueError, "colors: expected 1 rows, one for each polygon, got 2$"),
            ((corners, [4], [1], (1, 2, 256)), ValueError, "colors: expected 0 to 255, got 1 to 256$"),
        ]
        for arrays, error, text in wrong:
            with self.assertRaisesRegex(error, text):
                Polygons(*arrays).owned()
            with self.assertRaisesRegex(error, text):
                Canvas(4, 4).draw_polygons(Polygons(*arrays))
        for ends in (([4], None), (None, [1])):
            with self.assertRaisesRegex(
                TypeError, "ring_ends, polygon_ends: expected None, got ends beside those of the trirast.Polygons"
            ):
                Canvas(4, 4).draw_polygons(Polygons(corners, [4], [1]), *ends)
        with self.assertRaisesRegex(TypeError, "ring_ends: expected integers, got None"):
            Canvas(4, 4).draw_polygons(corners)
        with self.assertRaises(AttributeError):
            trirast.Polygon  # type: ignore[attr-defined]


class Clipping(unittest.TestCase):
    def test_parts_of_rings_within_a_rectangle(self) -> None:
        """The areas of convex rings are those that Sutherland and Hodgman's way leaves, side by side."""
        pick = np.random.default_rng(5)
        low, high = (-3.0, -2.0), (4.0, 5.0)
        for _ in range(50):
            lengths = pick.integers(0, 3, 8) * pick.integers(1, 4, 8)
            angles = [np.sort(pick.uniform(0, 6.28, length)) for length in lengths]
            rings = [np.stack((np.cos(each), np.sin(each)), 1) * 6 + pick.uniform(-6, 6, 2) for each in angles]
            found, ends = within(np.concatenate(rings), np.cumsum(lengths), low, high)
            parts = np.split(found, ends[:-1].astype(int))
            self.assertTrue(((found >= low) & (found <= high)).all())
            for ring, part in zip(rings, parts):
                self.assertAlmostEqual(area(part.tolist()), area(clipped(ring.tolist(), low, high)))

    def test_neighbours_are_cut_at_the_same_points(self) -> None:
        a, b = (0.1, 0.3), (9.7, 7.1)
        one, other = np.array([a, b, (9.0, 0.0)]), np.array([b, a, (0.0, 9.0)])
        found, ends = within(np.concatenate((one, other)), np.array([3, 6]), (1, 1), (5, 6))
        first, second = (set(map(tuple, part.tolist())) for part in np.split(found, ends[:-1].astype(int)))
        self.assertEqual(len({place for place in first & second if place[0] in (1, 5) or place[1] in (1, 6)}), 2)

    def test_further_numbers_go_with_the_position(self) -> None:
        places = np.random.default_rng(2).uniform(-9, 9, (30, 2))
        found, ends = within(np.concatenate((places, 2 * places), 1), np.arange(3, 31, 3), (-4, -4), (4, 4))
        self.assertLess(float(np.abs(found[:, 2:] - 2 * found[:, :2]).max()), 1e-9)
        self.assertTrue((np.diff(with_zero(ends).astype(int)) != 1).all())


if __name__ == "__main__":
    unittest.main()
