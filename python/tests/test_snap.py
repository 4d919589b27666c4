"""Floats become positions in 1/256 pixel: the nearest integer of the product, also where numpy is missing."""

import importlib.util
import math
import unittest
from decimal import Decimal
from fractions import Fraction
from typing import Any, List, Tuple

for needed in ("numpy", "hypothesis"):
    if importlib.util.find_spec(needed) is None:
        raise unittest.SkipTest(f"these tests need {needed}")

import numpy as np
from hypothesis import given
from hypothesis import strategies as st

import trirast

from .common import without

LOW, HIGH = -8388608, 8388607
BAND = "-32768 to 32767.99609375 pixels"
NEAR = st.floats(-32767, 32767)
PAIRS = st.lists(st.tuples(NEAR, NEAR), max_size=9)
SCALES = st.floats(-1, 1)


def exact(value: Any, scale: Any = 1) -> int:
    """The nearest integer to 256 times the product in doubles, which Python's fractions round to even."""
    return round(256 * Fraction(float(value) * float(scale)))


class Snapped(unittest.TestCase):
    @given(PAIRS, SCALES)
    def test_is_the_nearest_integer(self, pairs: List[Tuple[float, float]], scale: float) -> None:
        wanted = [(exact(x, scale), exact(y, scale)) for x, y in pairs]
        for given_as in (np.array(pairs).reshape(-1, 2), np.asfortranarray(np.array(pairs).reshape(-1, 2)), pairs):
            found = trirast.snap(given_as, scale)
            self.assertEqual((found.dtype, found.shape), (np.int32, (len(pairs), 2)))
            self.assertEqual(found.tolist(), [list(pair) for pair in wanted])
        with without("numpy"):
            self.assertEqual(trirast.snap(pairs, scale), wanted)

    @given(st.integers(LOW, HIGH - 1), st.booleans())
    def test_is_even_at_a_half(self, below: int, is_list: bool) -> None:
        half = [[(below + 0.5) / 256, 0]]
        (x, _), = trirast.snap(half if is_list else np.array(half)).tolist()
        self.assertEqual(x, below + below % 2)

    @given(st.lists(st.tuples(st.integers(LOW, HIGH), st.integers(LOW, HIGH)), max_size=9))
    def test_positions_stay(self, pairs: List[Tuple[int, int]]) -> None:
        self.assertEqual(trirast.snap(np.array(pairs) / 256).tolist(), [list(pair) for pair in pairs])
        self.assertEqual(trirast.snap(pairs, 1 / 256).tolist(), [list(pair) for pair in pairs])

    @given(st.floats(), st.floats(), st.floats())
    def test_is_refused_alike_with_and_without_numpy(self, x: float, y: float, scale: float) -> None:
        answers = [answer([[0, 0], [x, y]], scale), answer(np.array([[0, 0], [x, y]]), scale)]
        with without("numpy"):
            answers.append(answer([[0.0, 0.0], [x, y]], scale))
        fits = all(map(math.isfinite, (x, y, scale))) and all(
            math.isfinite(each * scale) and LOW <= exact(each, scale) <= HIGH for each in (x, y)
        )
        self.assertEqual([answers[0]] * 3, answers)
        self.assertEqual(isinstance(answers[0], list), fits)

    def test_takes_each_type_of_numbers(self) -> None:
        wanted = [[384, -128], [0, 256]]
        for kind in ("e", "f", "d", "g", ">f4", ">f8", "O"):
            self.assertEqual(trirast.snap(np.array([[1.5, -0.5], [0, 1]], kind)).tolist(), wanted, kind)
        for kind in ("b", "B", "h", "H", "i", "I", "q", "Q", ">i4"):
            self.assertEqual(trirast.snap(np.array([[3, 2]], kind), 0.5).tolist(), [[384, 256]], kind)
        self.assertEqual(trirast.snap([[Fraction(3, 2), Decimal("-0.5")], (np.float32(0), 1)]).tolist(), wanted)
        self.assertEqual(trirast.snap([]).shape, (0, 2))

    def test_is_in_double_precision(self) -> None:
        self.assertEqual(trirast.snap(np.array([[16777216, 1]], np.float32), 0.001).tolist(), [[4294967, 0]])

    def test_is_drawn(self) -> None:
        canvas = trirast.Canvas(3, 3)
        canvas.clear()
        vertices = np.full((3, 7), 255)
        vertices[:, :2] = trirast.snap([(0.5, 0.5), (2.5, 0.5), (0.5, 2.5)])
        canvas.draw(vertices, [(0, 1, 2)])
        self.assertEqual((np.asarray(canvas.rgb())[..., 0] // 255).tolist(), [[1, 1, 0], [1, 0, 0], [0, 0, 0]])


def answer(xy: Any, scale: float) -> Any:
    """Rows, or the text of an error."""
    try:
        return [list(row) for row in trirast.snap(xy, scale)]
    except ValueError as error:
        return str(error)


class Refused(unittest.TestCase):
    def must_say(self, kind: Any, message: str, xy: Any, scale: Any = 1) -> None:
        with self.assertRaises(kind) as caught:
            trirast.snap(xy, scale)
        self.assertEqual(str(caught.exception), message)

    def test_positions_outside_of_the_guard_band(self) -> None:
        pairs = [[0.0, 0.0], [0.0, 32768.0]]
        for xy in (pairs, np.array(pairs), np.array(pairs, np.float32), np.array(pairs, int), np.array(pairs, object)):
            self.must_say(ValueError, f"xy[1].y: expected {BAND}, got 32768.0", xy)
        self.must_say(ValueError, f"xy[0].x: expected {BAND}, got -32768.01", [[-32768.01, 0.0]])
        self.must_say(
            ValueError, f"xy[1].x: expected {BAND}, got 20000.0 by the scale 2.0", [[0.0, 1.0], [20000.0, 1.0]], 2
        )
        self.assertEqual(trirast.snap([[-32768.001, 32767.998]]).tolist(), [[LOW, HIGH]])
        for xy in ([[1e308, 0.0]], np.array([[1e308, 0.0]])):
            self.must_say(ValueError, f"xy[0].x: expected {BAND}, got 1e+308 by the scale 1e+30", xy, 1e30)

    def test_what_is_not_finite(self) -> None:
        for value, name in ((math.nan, "nan"), (math.inf, "inf"), (-math.inf, "-inf")):
            for xy in ([[0.0, value]], np.array([[0.0, value]]), np.array([[0.0, value]], np.float32)):
                self.must_say(ValueError, f"xy[0].y: expected a finite float, got {name}", xy)
            self.must_say(ValueError, f"scale: expected a finite float, got {name}", [], value)
        with self.assertRaisesRegex(ValueError, r"^xy\[0\].x: expected a finite float, got 1000"):
            trirast.snap([[10 ** 400, 0]])

    def test_what_is_no_number(self) -> None:
        self.must_say(TypeError, "xy[0].x: expected a real number, got '1'", [["1", 2]])
        self.must_say(TypeError, "xy[0].x: expected a real number, got '1'", np.array([["1", "2"]]).tolist())
        self.must_say(TypeError, "xy[0].y: expected a real number, got None", [[1, None]])
        for of_complex in ([[1j, 2]], np.array([[1j, 2]]), np.array([[1j, 2]]).tolist()):
            self.must_say(TypeError, "xy[0].x: expected a real number, got 1j", of_complex)
        self.must_say(TypeError, "scale: expected a real number, got '2'", [], "2")
        masked: Any = np.ma
        message = "xy: expected an array without a mask, got a masked one; use filled"
        self.must_say(TypeError, message, masked.array([[1.0, 2.0]]))

    def test_other_shapes(self) -> None:
        self.must_say(TypeError, "xy: expected rows of x and y, got 5", 5)
        self.must_say(ValueError, "xy[1]: expected 2 values, got 3", [(1, 2), (1, 2, 3)])
        for shape in ((2,), (2, 3), (1, 2, 2), ()):
            self.must_say(ValueError, f"xy: expected rows of x and y, got the shape {shape}", np.zeros(shape))

    def test_without_numpy_buffers_too(self) -> None:
        pairs = memoryview(bytearray(np.array([[1.5, 2], [3, 4]]).tobytes())).cast("d", shape=[2, 2])
        with without("numpy"):
            self.assertEqual(trirast.snap(pairs), [(384, 512), (768, 1024)])
            self.must_say(TypeError, "xy: expected rows of x and y, got None", None)


if __name__ == "__main__":
    unittest.main()
