"""Fragments: weights beside exact fractions, each triangle of a pixel once, and colours in the samples."""

import importlib.util
import unittest
from fractions import Fraction
from typing import Any, List, Optional, Set, Tuple

if importlib.util.find_spec("numpy") is None:
    raise unittest.SkipTest("the tests of Canvas.fragments need numpy")

import numpy

import trirast
from trirast._fragments import RATES, near_one, places_of, weigh

# Not all of its functions have types.
np: Any = numpy
WIDTH, HEIGHT = 90, 70
ORIGIN = (-13, 9)


def scene(seed: int, count: int = 60) -> Tuple[Any, Any, Any]:
    """Vertices, triangles and w: triangles of all sizes in steep perspective."""
    numbers = np.random.default_rng(seed)
    middles = numbers.uniform(-20, 120, (count, 1, 2))
    sizes = np.exp(numbers.uniform(0, 4.5, (count, 1, 1)))
    vertices = np.zeros(3 * count, trirast.VERTEX)
    corners = middles + sizes * numbers.uniform(-1, 1, (count, 3, 2))
    vertices["x"], vertices["y"] = trirast.snap(corners.reshape(-1, 2)).T
    vertices["depth"] = numbers.integers(0, 65535, 3 * count)
    return vertices, np.arange(3 * count).reshape(-1, 3), np.exp(numbers.uniform(-2, 2, 3 * count)).astype(np.float32)


def drawn(seed: int, samples: int, origin: Tuple[int, int] = (0, 0)) -> Tuple[trirast.Canvas, Any, Any, Any]:
    vertices, triangles, w = scene(seed)
    canvas = trirast.Canvas(WIDTH, HEIGHT, samples=samples, origin=origin)
    canvas.clear((255, 255, 255))
    canvas.draw(vertices, triangles, depth_test="less", depth_write=True, first_id=0)
    return canvas, vertices, triangles, w


def exact(corners: List[Tuple[int, int]], w: List[float], x: int, y: int) -> Tuple[List[Fraction], Fraction]:
    """The weights at a point, and 1 / w but for a factor."""
    parts = []
    for k in range(3):
        (ax, ay), (bx, by) = corners[(k + 1) % 3], corners[(k + 2) % 3]
        parts.append(((bx - ax) * (y - ay) - (by - ay) * (x - ax)) / Fraction(w[k]))
    whole = sum(parts, Fraction(0))
    return [part / whole for part in parts], whole


class Weights(unittest.TestCase):
    def check(self, at: Any, vertices: Any, w: Any, row: int) -> None:
        corners = vertices[["x", "y"]][at.corners[row]].tolist()
        distances, x, y = w[at.corners[row]].tolist(), int(at.x[row]), int(at.y[row])
        wanted, whole = exact(corners, distances, x, y)
        for found, weight in zip(at.weights[row].tolist(), wanted):
            self.assertGreaterEqual(found, 0)
            self.assertLessEqual(abs(Fraction(found) - weight), weight / 2**45)
        for found, (dx, dy) in ((at.right[row], (256, 0)), (at.down[row], (0, 256))):
            sign, (next_one, there) = 1, exact(corners, distances, x + dx, y + dy)
            if there / whole < Fraction(1, 2):
                sign, (next_one, there) = -1, exact(corners, distances, x - dx, y - dy)
            for k in range(3):
                off = abs(found[k] - float(sign * (next_one[k] - wanted[k])))
                self.assertLess(off, 1e-9 * (1 + abs(float(next_one[k]))) ** 2)

    def test_weights_and_steps_are_exact_but_for_rounding(self) -> None:
        for seed, samples in ((1, 4), (2, 1), (3, 16), (4, 8), (5, 2)):
            canvas, vertices, triangles, w = drawn(seed, samples, ORIGIN)
            at = canvas.fragments(vertices, triangles, w, rate="sample" if samples == 8 else "pixel")
            self.assertGreater(len(at.id), 1000)
            for row in range(0, len(at.id), len(at.id) // 400):
                self.check(at, vertices, w, row)

    def test_w_may_be_any_positive_numbers(self) -> None:
        corners = np.array([[[0, 0], [256, 0], [0, 256]]])
        for w in ([5e-324, 1e300, 1], [1.7e308] * 3, [1, 5e-324, 5e-324], [1e-300, 1e-150, 1e150]):
            for point in ([0, 0], [0, 100], [100, 100], [256, 0], [156, 100]):
                weights, right, down = weigh(corners, near_one(np.array([w], float)), np.array([point]))
                wanted, _whole = exact(corners[0].tolist(), w, *point)
                # On the edge across from the corner with the least w, weights are those of w up to 2^900 times that.
                is_exact = wanted[int(np.argmin(w))] > 0 or max(w) < 2.0**900 * min(w)
                for found, weight in zip(weights[0].tolist(), wanted):
                    self.assertLess(abs(Fraction(found) - weight), 1e-15 if is_exact else 1)
                self.assertTrue(np.isfinite(right).all() and np.isfinite(down).all())

    def test_values_are_weighted(self) -> None:
        canvas, vertices, triangles, w = drawn(6, 4)
        at = canvas.fragments(vertices, triangles, w)
        self.assertLess(abs(at.value(np.ones(len(w))) - 1).max(), 1e-12)
        self.assertLess(abs(at.to_right(np.ones(len(w)))).max(), 1e-6)
        # 1 / w is a plane on the screen, and w itself is a mean in space.
        pairs = at.value(np.stack([w, 2 * w], 1))
        self.assertEqual(pairs.shape, (len(at.id), 2))
        self.assertTrue(np.allclose(pairs[:, 1], 2 * at.value(w)))


class Places(unittest.TestCase):
    def test_each_triangle_of_a_pixel_once(self) -> None:
        for samples in (1, 2, 4, 8, 16):
            canvas, vertices, triangles, w = drawn(7, samples)
            ids = np.stack([canvas.ids(sample) for sample in range(samples)])
            wanted: Set[Tuple[int, int, int]] = {
                (int(number), x, y)
                for y in range(HEIGHT) for x in range(WIDTH) for number in ids[:, y, x] if number < len(triangles)
            }
            for rate in RATES:
                at = canvas.fragments(vertices, triangles, w, rate=rate)
                found = list(zip(at.id.tolist(), (at.x // 256).tolist(), (at.y // 256).tolist()))
                self.assertEqual(set(found), wanted)
                is_shown = ids < len(triangles)
                self.assertEqual(len(found), is_shown.sum() if rate == "sample" else len(wanted))
                self.assertTrue(np.array_equal(at.index >= 0, is_shown))
                self.assertTrue(np.array_equal(at.id[at.index[is_shown]], ids[is_shown]))

    def test_points_lie_in_the_middle_of_the_samples(self) -> None:
        for samples in (4, 16):
            canvas, vertices, triangles, w = drawn(8, samples)
            at, places = canvas.fragments(vertices, triangles, w), places_of(samples)
            for row in range(0, len(at.id), 37):
                shown = places[at.index[:, at.y[row] // 256, at.x[row] // 256] == row]
                wanted = np.floor(shown.mean(0) + 0.5) if len(shown) < samples else np.array([128, 128])
                if samples == 16 and len(shown) == 3:
                    wanted = (shown[0] + shown[2]) // 2
                self.assertEqual([at.x[row] % 256, at.y[row] % 256], wanted.tolist())

    def test_other_rates_are_refused(self) -> None:
        canvas, vertices, triangles, w = drawn(9, 1)
        with self.assertRaisesRegex(ValueError, "^rate: "):
            canvas.fragments(vertices, triangles, w, rate="pixels")  # type: ignore[arg-type]


class Refused(unittest.TestCase):
    def setUp(self) -> None:
        self.canvas, self.vertices, self.triangles, self.w = drawn(13, 2)
        self.at = self.canvas.fragments(self.vertices, self.triangles, self.w)

    def test_values_of_too_few_vertices(self) -> None:
        last = self.at.corners.max()
        self.at.value(np.ones(last + 1))
        for given in (np.ones(last), np.ones((last, 2)), 1.0):
            for look_up in (self.at.value, self.at.to_right, self.at.to_below):
                with self.assertRaisesRegex(
                    ValueError, f"^values: expected {last + 1} rows at least, .*Clipped.attributes"
                ):
                    look_up(given)

    def test_fragments_of_other_arrays(self) -> None:
        with self.assertRaisesRegex(TypeError, "^vertices: expected an array with the fields x and y"):
            self.canvas.fragments([(0, 0), (1, 0), (0, 1)], [(0, 1, 2)], [1, 1, 1])
        with self.assertRaisesRegex(ValueError, r"^w: expected 180 numbers, one for each vertex, got the shape \(5,\)"):
            self.canvas.fragments(self.vertices, self.triangles, self.w[:5])
        with self.assertRaisesRegex(ValueError, r"^triangles\[0\]\[2\]: expected an index of 180 vertices, got 180"):
            self.canvas.fragments(self.vertices, [(0, 1, 180)], self.w)

    def test_colours_and_canvases_that_do_not_fit(self) -> None:
        before, count = self.canvas.colors().copy(), len(self.at.id)
        for shape in ((count,), (count, 4), (count - 1, 3), (3,)):
            with self.assertRaisesRegex(ValueError, f"^colors: expected {count} rows of red, green and blue, "):
                self.canvas.shade(self.at, np.zeros(shape))
        self.assertTrue(np.array_equal(self.canvas.colors(), before))
        for width, samples in ((WIDTH - 1, 2), (WIDTH, 1), (WIDTH, 4)):
            other = trirast.Canvas(width, HEIGHT, samples=samples)
            with self.assertRaisesRegex(
                ValueError, rf"^fragments: expected .*\({samples}, {HEIGHT}, {width}\), got \(2, "
            ):
                other.shade(self.at, np.zeros((count, 3)))


class Shaded(unittest.TestCase):
    def test_colours_take_the_place_of_ids(self) -> None:
        canvas, vertices, triangles, w = drawn(10, 4)
        depths, at = [canvas.depth(sample) for sample in range(4)], canvas.fragments(vertices, triangles, w)
        colors = np.stack([at.id, at.id * 3 % 256, at.x % 256], 1) - 0.4
        canvas.shade(at, colors, (9, 8, 7))
        for sample in range(4):
            rows = at.index[sample]
            wanted = np.where((rows >= 0)[..., None], np.maximum(np.rint(colors), 0)[rows], (9, 8, 7))
            self.assertTrue(np.array_equal(canvas.colors(sample), wanted))
            self.assertTrue(np.array_equal(canvas.depth(sample), depths[sample]))
        sums = sum(canvas.colors(sample).astype(int) for sample in range(4))
        self.assertTrue(np.array_equal(canvas.rgb(), (sums + 2) // 4))

    def test_bytes_are_the_nearest(self) -> None:
        canvas, vertices, triangles, w = drawn(11, 1)
        at = canvas.fragments(vertices, triangles, w)
        for given, wanted in ((-1e30, 0), (0.49, 0), (0.5, 1), (254.4, 254), (1e30, 255), (np.nan, 0)):
            canvas.shade(at, np.full((len(at.id), 3), given), np.full((HEIGHT, WIDTH, 3), 77))
            found = canvas.colors()
            self.assertEqual(set(found[at.index[0] >= 0].ravel().tolist()), {wanted})
            self.assertEqual(set(found[at.index[0] < 0].ravel().tolist()), {77})

    def test_nothing_is_seen(self) -> None:
        canvas, vertices, triangles, w = drawn(12, 4)
        canvas.clear((255, 255, 255))
        at = canvas.fragments(vertices, triangles, w)
        self.assertEqual((len(at.id), at.weights.shape), (0, (0, 3)))
        canvas.shade(at, np.zeros((0, 3)), (1, 2, 3))
        self.assertEqual(canvas.rgb()[5, 6].tolist(), [1, 2, 3])

    def test_tiles_are_those_of_the_whole(self) -> None:
        for samples in (1, 4, 8):
            for rate in RATES:
                canvas, vertices, triangles, w = drawn(13, samples, ORIGIN)
                whole = canvas.fragments(vertices, triangles, w, rate=rate)
                other, *_scene = drawn(13, samples, ORIGIN)
                for tile in ((0, 0), (1, 0), (0, 1), (1, 1)):
                    at = other.fragments(vertices, triangles, w, rate=rate, tile=tile)
                    (left, top), (height, width) = (64 * tile[0], 64 * tile[1]), at.index.shape[1:]
                    rows = whole.index[:, top : top + height, left : left + width]
                    self.assertTrue(np.array_equal(rows >= 0, at.index >= 0))
                    shown = rows[rows >= 0], at.index[at.index >= 0]
                    for one, part in zip(whole[:7], at[:7]):
                        self.assertTrue(np.array_equal(one[shown[0]], part[shown[1]]))
                    other.shade(at, np.stack([at.id, at.y % 256, at.x % 256], 1), (9, 8, 7))
                canvas.shade(whole, np.stack([whole.id, whole.y % 256, whole.x % 256], 1), (9, 8, 7))
                for sample in range(samples):
                    self.assertTrue(np.array_equal(canvas.colors(sample), other.colors(sample)))
                    self.assertTrue(np.array_equal(canvas.depth(sample), other.depth(sample)))

    def test_a_tile_alone_is_shaded(self) -> None:
        canvas, vertices, triangles, w = drawn(14, 4)
        before = [canvas.ids(sample) for sample in range(4)]
        at = canvas.fragments(vertices, triangles, w, tile=(1, 0))
        self.assertEqual((at.tile, at.index.shape), ((1, 0), (4, 64, WIDTH - 64)))
        canvas.shade(at, np.full((len(at.id), 3), 50))
        for sample in range(4):
            kept = canvas.ids(sample)
            self.assertTrue(np.array_equal(kept[:, :64], before[sample][:, :64]))
            self.assertTrue(np.array_equal(kept[64:], before[sample][64:]))
            self.assertEqual(set(kept[:64, 64:].ravel().tolist()) - {0, 50 * 0x010101}, set())

    def test_alpha_stays(self) -> None:
        vertices, triangles, w = scene(16)

        def shaded(samples: int, *tiles: Optional[Tuple[int, int]]) -> Any:
            canvas = trirast.Canvas(WIDTH, HEIGHT, samples=samples, alpha=True)
            canvas.clear((255, 255, 255, 40))
            canvas.draw(vertices, triangles, depth_test="less", depth_write=True, first_id=0)
            for tile in tiles:
                at = canvas.fragments(vertices, triangles, w, tile=tile)
                canvas.shade(at, np.stack([at.id, at.y % 256, at.x % 256], 1), (9, 8, 7))
            return np.stack([canvas.colors(sample, format="rgba") for sample in range(samples)])

        for samples in (1, 4):
            before, whole = shaded(samples), shaded(samples, None)
            self.assertEqual(set(np.unique(before[..., 3]).tolist()), {40, 255})
            self.assertTrue(np.array_equal(whole[..., 3], before[..., 3]))
            self.assertTrue(np.array_equal(whole, shaded(samples, (0, 0), (1, 0), (0, 1), (1, 1))))

    def test_a_cleared_tile(self) -> None:
        canvas, vertices, triangles, w = drawn(15, 4)
        canvas.clear((255, 255, 255))
        at = canvas.fragments(vertices, triangles, w, tile=(0, 1))
        self.assertEqual(len(at.id), 0)
        canvas.shade(at, np.zeros((0, 3)), (1, 2, 3))
        self.assertEqual((canvas.rgb()[66, 6].tolist(), canvas.rgb()[63, 6].tolist()), ([1, 2, 3], [255, 255, 255]))

    def test_tiles_that_are_not_there(self) -> None:
        canvas, vertices, triangles, w = drawn(16, 2)
        for tile, line in (
            ((2, 0), "column: expected 0 to 1, got 2"), ((0, 2), "row: expected 0 to 1, got 2"),
            ((1 << 31, 0), "column: expected 0 to 1, got 2147483648"), ((-1, 0), "column: expected 0 to 1, got -1"),
        ):
            with self.assertRaisesRegex(trirast.TileError, f"^tile.{line}$"):
                canvas.fragments(vertices, triangles, w, tile=tile)
        wrong: Any
        for wrong in ((0,), (0, 0, 0), 5, (0, "0")):
            with self.assertRaisesRegex((TypeError, ValueError), "^tile"):
                canvas.fragments(vertices, triangles, w, tile=wrong)


if __name__ == "__main__":
    unittest.main()
