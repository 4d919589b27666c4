"""Polygons: each sample is that of the definition, counted edge by edge, and what the calls refuse."""

import random
import unittest

from trirast import BatchError, Canvas, PositionError

from .polygon_rule import flat, is_inside

# Of each number of samples their places in 1/16 pixel from the pixel's middle: the standard patterns of Direct3D 11.
PLACES = {
    1: ((0, 0),),
    2: ((4, 4), (-4, -4)),
    4: ((-2, -6), (6, -2), (-6, 2), (2, 6)),
    8: ((1, -3), (-1, 3), (5, 1), (-3, -5), (-5, 5), (-7, -1), (3, 7), (7, -7)),
    16: (
        (1, 1), (-1, -3), (-3, 2), (4, -1), (-5, -2), (2, 5), (5, 3), (3, -5), (-2, 6), (0, -7), (-4, -6), (-6, 4),
        (-8, 0), (7, -4), (6, 7), (-7, -8),
    ),
}
SQUARE = [(0, 0), (512, 0), (512, 512), (0, 512)]
WHITE = (1 << 24) - 1


class Polygons(unittest.TestCase):
    def test_each_sample_is_the_definition_s(self) -> None:
        numbers = random.Random(5)
        for count, places in PLACES.items():
            for rule in ("even-odd", "nonzero"):
                width, height, origin = (
                    numbers.randrange(1, 90), numbers.randrange(1, 90),
                    (numbers.randrange(-9, 9), numbers.randrange(-9, 9)),
                )
                canvas = Canvas(width, height, count, origin=origin)
                canvas.clear((255, 255, 255))
                # Corners on quarters of pixels meet samples often.
                polygons = [
                    [
                        [
                            (64 * numbers.randrange(-40, 400), 64 * numbers.randrange(-40, 400))
                            for _ in range(numbers.randrange(8))
                        ]
                        for _ in range(3)
                    ]
                    for _ in range(2)
                ]
                canvas.draw_polygons(*flat(polygons), rule=rule, first_id=0, threads=2)  # type: ignore[arg-type]
                for sample, (dx, dy) in enumerate(places):
                    seen = canvas.ids(sample).tolist()
                    for row in range(height):
                        for column in range(width):
                            x, y = 256 * (column + origin[0]) + 128 + 16 * dx, 256 * (row + origin[1]) + 128 + 16 * dy
                            inside = [number for number, rings in enumerate(polygons) if is_inside(rings, rule, x, y)]
                            self.assertEqual(
                                seen[row][column], inside[-1] if inside else WHITE, (count, rule, column, row, sample)
                            )

    def test_windings_are_counted_up_to_any_number(self) -> None:
        # One ring goes round these many times and one back, so the samples on their left side have all of these edges.
        for forwards, backwards in (
            (1, 1), (2, 1), (2, 2), (3, 2), (256, 0), (256, 255), (256, 256), (0, 256), (65536, 0), (65536, 65535),
            (65536, 65536),
        ):
            canvas = Canvas(4, 4, 16)
            canvas.clear((255, 255, 255))
            rings = [ring for ring in (SQUARE * forwards, SQUARE[::-1] * backwards) if ring]
            canvas.draw_polygons(*flat([rings]), rule="nonzero", first_id=0)
            wanted = WHITE if forwards == backwards else 0
            for sample in range(16):
                seen = canvas.ids(sample).tolist()[1]
                self.assertEqual(seen, [wanted, wanted, WHITE, WHITE], (forwards, backwards, sample))

    def test_neighbours_leave_no_seam(self) -> None:
        middle = (301, 287)
        outline = [(0, 0), (4096, 0), (4096, 4096), (0, 4096)]
        canvas = Canvas(16, 16, 16)
        canvas.clear()
        cells = [[[outline[k], outline[(k + 1) % 4], middle]] for k in range(4)]
        canvas.draw_polygons(*flat(cells), (255, 255, 255, 128), blend="over")
        self.assertEqual({tuple(pixel) for row in canvas.rgb().tolist() for pixel in row}, {(128, 128, 128)})

    def test_colours_and_depths(self) -> None:
        canvas = Canvas(4, 2)
        canvas.clear()
        moved = [(x + 512, y) for x, y in SQUARE]
        canvas.draw_polygons(*flat([[SQUARE], [moved]]), [(10, 20, 30), (40, 50, 60)], depth=[7, 8], depth_write=True)
        self.assertEqual(canvas.rgb().tolist()[0], [[10, 20, 30], [10, 20, 30], [40, 50, 60], [40, 50, 60]])
        self.assertEqual(canvas.depth().tolist()[1], [7, 7, 8, 8])
        canvas.draw_polygons(*flat([[SQUARE]]), (1, 2, 3), depth=9, depth_test="less")
        self.assertEqual(canvas.rgb().tolist()[0][0], [10, 20, 30])
        canvas.draw_polygons([], [], [])
        canvas.draw_polygons([], [0], [1])

    def test_offsets_with_a_colour_for_each_polygon(self) -> None:
        """There is one polygon more than colours then."""
        canvas = Canvas(4, 4)
        corners, rings, polygons = flat([[SQUARE], [SQUARE]])
        for offsets, names in (
            (([0, *rings], [0, *polygons]), "ring_ends and polygon_ends begin"),
            ((rings, [0, *polygons]), "polygon_ends begins"),
        ):
            with self.assertRaisesRegex(
                ValueError, f"^colors: expected 3 rows, got 2; {names} with 0: leave the leading 0 of offsets out$"
            ):
                canvas.draw_polygons(corners, *offsets, [(1, 2, 3), (4, 5, 6)])
        with self.assertRaisesRegex(ValueError, "^colors: expected 2 rows, got 3$"):
            canvas.draw_polygons(corners, rings, polygons, [(1, 2, 3)] * 3)

    def test_what_is_refused(self) -> None:
        canvas = Canvas(4, 4)
        canvas.clear()
        corners, rings, polygons = flat([[SQUARE], [SQUARE]])
        for ends, of_polygons, name, element, values in (
            ([5, 4], polygons, "BadRing", 1, "got 4 after 5, of 8 corners"),
            ([4, 9], polygons, "BadRing", 1, "got 9 after 4, of 8 corners"),
            ([9, 9], polygons, "BadRing", 0, "got 9 after 0, of 8 corners"),
            ([4, 7], polygons, "LeftOver", None, "got 8 corners, and the last ring ends at 7"),
            ([], [], "LeftOver", None, "got 8 corners, and the last ring ends at 0"),
            (rings, [2, 1], "BadPolygon", 1, "got 1 after 2, of 2 rings"),
            (rings, [1, 1], "LeftOver", None, "got 2 rings, and the last polygon ends at 1"),
        ):
            with self.assertRaisesRegex(BatchError, f", {values}$") as caught:
                canvas.draw_polygons(corners, ends, of_polygons)
            self.assertEqual((caught.exception.name, caught.exception.element), (name, element), (ends, of_polygons))
            self.assertNotIn("vertex", str(caught.exception))
        with self.assertRaises(BatchError) as caught:
            canvas.draw_polygons([(0, 0), (256, 0), (0, 1 << 23)], [3], [1])
        place, wanted = (
            "got x 0 and y 8388608 in 1/256 pixel (0 and 32768 pixels)",
            "y: -8388608 to 8388607 (-32768 to 32767.99609375 pixels)",
        )
        self.assertEqual(str(caught.exception), f"vertex 2 is out of range, {place}; {wanted}")
        with self.assertRaises(ValueError):
            canvas.draw_polygons(corners, rings, polygons, [(1, 2, 3)])
        with self.assertRaises(ValueError):
            canvas.draw_polygons(corners, rings, polygons, rule="winding")  # type: ignore[arg-type]
        with self.assertRaisesRegex(
            BatchError, "^an id is greater than 16777215, got 16777216 as the first of 2$"
        ):
            canvas.draw_polygons(corners, rings, polygons, first_id=1 << 24)
        with self.assertRaisesRegex(PositionError, "^origin: expected -32768 to 28672 pixels, got 40000$"):
            Canvas(4, 4, origin=(40000, 0)).draw_polygons(corners, rings, polygons)
        self.assertEqual(set(canvas.rgb().tobytes()), {0})


if __name__ == "__main__":
    unittest.main()
