"""Clipping: worked values, what is refused, attributes, and no crack. tests/clip compares the same calls with
the headers in C and C++."""

import importlib.util
import unittest
from typing import Any, Callable, Tuple, Type

for needed in ("numpy", "hypothesis"):
    if importlib.util.find_spec(needed) is None:
        raise unittest.SkipTest(f"the tests of trirast.clip need {needed}")

import numpy
from hypothesis import given, settings
from hypothesis import strategies as st

import trirast

# Not all of its functions have types.
np: Any = numpy
WHITE_ID = 16777215
SIZE = 64
VIEWPORT = (0, 0, SIZE, SIZE)
# Four corners of a screen at the far plane, and a point between them: four triangles that cover the screen once.
CORNERS = [(-1, -1), (1, -1), (1, 1), (-1, 1)]
FAN = [[0, 1, 4], [1, 2, 4], [2, 3, 4], [3, 0, 4]]


class Worked(unittest.TestCase):
    def test_the_near_plane_cuts_at_three_quarters(self) -> None:
        seen = trirast.clip([[0, 0, 3, 4], [8, 0, -1, 0], [0, 8, -1, 0]], [[0, 1, 2]], (0, 0, 256, 256))
        self.assertEqual(seen.triangles.tolist(), [[0, 3, 4]])
        places = seen.vertices[["x", "y", "depth"]][[0, 3, 4]].tolist()
        self.assertEqual(places, [(32768, 32768, 49151), (229376, 32768, 0), (32768, -163840, 0)])
        self.assertEqual((seen.w[3:].tolist(), seen.cuts.tolist(), seen.folded), ([1, 1], [0, 0], 0))
        self.assertEqual(seen.weights.tolist(), [[0.25, 0.75, 0], [0.25, 0, 0.75]])

    def test_what_nothing_cuts_keeps_its_indices(self) -> None:
        positions = np.array([[0, 0, 0.5, 1], [0.5, 0, 0.5, 1], [0, 0.5, 0.5, 1]], np.float32)
        seen = trirast.clip(positions, [[2, 0, 1]], VIEWPORT, depths=(100, 200))
        self.assertEqual((seen.triangles.tolist(), seen.sources.tolist(), len(seen.cuts)), ([[2, 0, 1]], [0], 0))
        self.assertEqual(seen.vertices[0].tolist(), (128 * SIZE, 128 * SIZE, 150, 0, 0, 0, 0, 0))

    def test_attributes_of_cuts_are_weighted_sums(self) -> None:
        seen = trirast.clip([[0, 0, 3, 4], [8, 0, -1, 0], [0, 8, -1, 0]], [[0, 1, 2]], (0, 0, 256, 256))
        self.assertEqual(seen.attributes([0, 4, 8]).tolist(), [0, 4, 8, 3, 6])
        self.assertEqual(seen.attributes([[1, 0], [0, 4], [8, 8]])[3:].tolist(), [[0.25, 3], [6.25, 6]])
        with self.assertRaisesRegex(
            ValueError, r"^values: expected 3 rows, one for each position, got the shape \(2,\)$"
        ):
            seen.attributes([1, 2])

    def test_nothing_of_nothing(self) -> None:
        for positions in ([], np.zeros((0, 4)), np.ones((3, 4))):
            seen = trirast.clip(positions, [], VIEWPORT)
            self.assertEqual((len(seen.vertices), seen.triangles.shape), (len(positions), (0, 3)))

    def test_triangles_with_odd_numbers_are_left_out(self) -> None:
        for odd in (np.nan, np.inf, -np.inf, 1e300):
            for axis in range(4):
                positions = np.array([[0, 0, 0, 1], [1, 0, 0, 1], [0, 1, 0, 1]], np.float64)
                positions[1, axis] = odd
                self.assertEqual(len(trirast.clip(positions, [[0, 1, 2]], VIEWPORT).triangles), 0)


class Origins(unittest.TestCase):
    def test_a_canvas_anywhere_in_the_viewport_takes_what_is_left(self) -> None:
        """Also one with a negative origin, from which all lies farther to the right and downwards."""
        corners = [[x * 1e6, y * 1e6, 0.5, 1] for x, y in CORNERS]
        for size in (64, 1020, 2000, 4000, 4096, 16384):
            for left, top in ((-size // 2, -size // 2), (-size, 0), (-16384, -16384), (16384 - size, 0), (0, -size)):
                seen = trirast.clip(corners, [[0, 1, 2], [0, 2, 3]], (left, top, size, size))
                self.assertGreater(len(seen.triangles), 0)
                for column, row in ((0, 0), (size - 8, 0), (0, size - 8), (size // 2, size // 2)):
                    canvas = trirast.Canvas(8, 8, origin=(left + column, top + row))
                    canvas.clear((255, 255, 255))
                    canvas.draw(seen.vertices, seen.triangles, first_id=0)
                    self.assertLess(int(canvas.ids().max()), len(seen.triangles))


class Refusals(unittest.TestCase):
    def must_say(self, *refused: Tuple[Callable[[], Any], Type[Exception], str]) -> None:
        for call, kind, message in refused:
            with self.assertRaises(kind) as caught:
                call()
            self.assertEqual(str(caught.exception), message)

    def test_of_arrays(self) -> None:
        clip: Any = trirast.clip
        four = "positions: expected rows of x, y, z and w"
        three = np.ones((3, 4))
        self.must_say(
            (lambda: clip(np.ones((3, 3)), [], VIEWPORT), ValueError, f"{four}, got the shape (3, 3)"),
            (
                lambda: clip([[1, 2, 3, 4], [1, 2]], [], VIEWPORT), ValueError,
                f"{four}, got rows of several lengths",
            ),
            (lambda: clip(np.ones((3, 4), bool), [], VIEWPORT), TypeError, f"{four}, floats or integers, got bool"),
            (lambda: clip(None, [], VIEWPORT), TypeError, f"{four}, floats or integers, got None"),
            (lambda: clip(three, [[0, 1]], VIEWPORT), ValueError, "triangles[0]: expected 3 values, got 2"),
            (
                lambda: clip(three, [[0, 1, 3]], VIEWPORT), ValueError,
                "triangles[0][2]: expected an index of 3 positions, got 3",
            ),
        )

    def test_of_options(self) -> None:
        clip: Any = trirast.clip
        three, none = np.ones((3, 4)), np.zeros((0, 3), int)
        self.must_say(
            (lambda: clip(three, none, (0, 0, 5)), ValueError, "viewport: expected 4 values, got 3"),
            (lambda: clip(three, none, (0, 0, 0, 5)), ValueError, "viewport[2]: expected 1 to 16384, got 0"),
            (lambda: clip(three, none, (0, 16385, 5, 5)), ValueError,
             "viewport[1]: expected -16384 to 16384, got 16385"),
            (lambda: clip(three, none, (0, 0, 5.5, 5)), TypeError, "viewport[2]: expected an integer, got 5.5"),
            (
                lambda: clip(three, none, VIEWPORT, near_plane="one"), ValueError,
                "near_plane: expected one of zero, minus_one, got 'one'",
            ),
            (lambda: clip(three, none, VIEWPORT, sides=1), ValueError,
             "sides: expected one of guard_band, viewport, got 1"),
            (lambda: clip(three, none, VIEWPORT, depths=(0, 65536)), ValueError,
             "depths[1]: expected 0 to 65535, got 65536"),
        )


def layers(seen: trirast.Clipped) -> Any:
    """Of each sample whether it is covered, and whether once: it is if the last triangle over it is the
    first one too."""
    found = []
    for triangles in (seen.triangles, seen.triangles[::-1]):
        canvas = trirast.Canvas(SIZE, SIZE, samples=4)
        canvas.clear((255, 255, 255))
        canvas.draw(seen.vertices, triangles, first_id=0)
        found.append(np.array([canvas.ids(sample) for sample in range(4)]))
    last, first = found
    return last != WHITE_ID, first == len(seen.triangles) - 1 - last.astype(int)


coordinate = st.floats(-1, 1, width=32)
weight = st.floats(0.125, 1024, width=32)
anything = st.floats(-1000, 1000, width=32)
positions_of_four = st.lists(st.tuples(anything, anything, anything, anything), min_size=4, max_size=4)
sides_of_any = st.sampled_from(("guard_band", "viewport"))
near_of_any = st.sampled_from(("zero", "minus_one"))


def on_the_edge(seen: trirast.Clipped, triangle: int, ends: Tuple[int, int]) -> Any:
    """The cuts of a triangle on the edge between two of its corners: the vertices, w, and the weights of the ends."""
    found = []
    for k in np.flatnonzero(seen.cuts == triangle):
        weights = dict(zip(seen.corners[k].tolist(), seen.weights[k].tolist()))
        if all((weight > 0) == (corner in ends) for corner, weight in weights.items()):
            vertex = len(seen.vertices) - len(seen.cuts) + k
            found.append((*seen.vertices[vertex].tolist(), seen.w[vertex], *(weights[end] for end in ends)))
    return set(found)


class NoCracks(unittest.TestCase):
    @settings(deadline=None, derandomize=True, max_examples=100)
    @given(
        point=st.tuples(coordinate, coordinate), weights=st.lists(weight, min_size=5, max_size=5),
        beyond=st.floats(1.0625, 4000, width=32), sides=sides_of_any, near_plane=near_of_any, turn=st.integers(0, 3),
    )
    def test_a_fan_over_the_screen_covers_each_sample_once(
        self, point: Any, weights: Any, beyond: float, sides: Any, near_plane: Any, turn: int
    ) -> None:
        places = [(beyond * x, beyond * y) for x, y in CORNERS] + [point]
        positions = [[x * w, y * w, w / 2, w] for (x, y), w in zip(places, weights)]
        triangles = [corners[turn % 3 :] + corners[: turn % 3] for corners in FAN[turn:] + FAN[:turn]]
        seen = trirast.clip(positions, triangles, VIEWPORT, sides=sides, near_plane=near_plane)
        covered, once = layers(seen)
        self.assertEqual((covered.all(), once.all()), (True, True))

    @settings(deadline=None, derandomize=True, max_examples=300)
    @given(positions=positions_of_four, sides=sides_of_any, near_plane=near_of_any, turn=st.integers(0, 2))
    def test_two_triangles_cut_their_shared_edge_alike(
        self, positions: Any, sides: Any, near_plane: Any, turn: int
    ) -> None:
        one, other = [0, 1, 2], [1, 0, 3]
        seen = trirast.clip(positions, [one, other[turn:] + other[:turn]], VIEWPORT, sides=sides, near_plane=near_plane)
        if set(seen.sources.tolist()) == {0, 1}:
            self.assertEqual(on_the_edge(seen, 0, (0, 1)), on_the_edge(seen, 1, (0, 1)))

    @settings(deadline=None, derandomize=True, max_examples=300)
    @given(positions=positions_of_four, sides=sides_of_any, near_plane=near_of_any)
    def test_cuts_lie_at_the_weighted_sums_of_their_corners(self, positions: Any, sides: Any, near_plane: Any) -> None:
        seen = trirast.clip(positions, [[0, 1, 2], [3, 2, 1]], VIEWPORT, sides=sides, near_plane=near_plane)
        x, y, _z, w = seen.attributes(np.array(positions, float))[4:].T
        # Where w falls by a factor of more than 100,000 rounding errors of doubles may show.
        plain = w > 0.01
        wanted = 128 * SIZE * np.array([1 + x[plain] / w[plain], 1 - y[plain] / w[plain]])
        found = np.array([seen.vertices["x"], seen.vertices["y"]])[:, 4:]
        self.assertTrue((abs(found[:, plain] - wanted) < 0.501).all())
        self.assertTrue((abs(seen.w[4:][plain] - w[plain]) <= 1e-6 * w[plain]).all())


if __name__ == "__main__":
    unittest.main()
