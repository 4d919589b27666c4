#!/usr/bin/env python3
"""Tests of the rule of blending by itself: worked values, rounding by rational numbers, and the
equations with names."""

from __future__ import annotations

import random
import unittest
from fractions import Fraction

import trirast
from tests.reference import blending, renderer
from tests.reference.blending import ALPHA, ENDS, FACTORS, OPERATIONS, PRESETS, Equation, blended, multiplied, straight


class Blending(unittest.TestCase):
    def test_worked_values(self) -> None:
        # The new channel 200 with alpha 100 on the stored channel 50.
        worked = {
            "none": 200, "over": 109, "premultiplied": 230, "add": 128, "multiply": 39, "keep": 50,
        }
        for name, wanted in worked.items():
            self.assertEqual(blended(name, 0, 200, 100, 50), wanted, name)
        self.assertEqual(blended(Equation("one", "one", "subtract"), 0, 200, 100, 50), 150)
        self.assertEqual(blended(Equation("one", "one", "reverse_subtract"), 0, 200, 100, 50), 0)
        self.assertEqual(blended(Equation("zero", "zero", "min"), 0, 200, 100, 50), 50)
        self.assertEqual(blended(Equation("constant", "zero", constant=(0, 0, 51, 9)), 2, 200, 100, 50), 40)
        self.assertEqual(blended(Equation("source_alpha_saturated", "stored_alpha"), 0, 200, 100, 50), 50)

    def test_worked_values_of_alpha(self) -> None:
        # The new alpha 100 on the stored alpha 50.
        worked = {"none": 100, "over": 130, "premultiplied": 130, "add": 150, "multiply": 20, "keep": 50}
        for name, wanted in worked.items():
            self.assertEqual(blended(name, ALPHA, 100, 100, 50, 50), wanted, name)
        saturated = Equation(alpha_source="source_alpha_saturated", alpha_stored="constant", constant=(0, 0, 0, 51))
        self.assertEqual(blended(saturated, ALPHA, 100, 100, 50, 50), 110)
        self.assertEqual(blended(Equation(alpha_operation="min"), ALPHA, 100, 100, 50, 50), 50)
        # What alpha was stored, colours read: 200 by 50, 200 by the least of 100 and 205, 200 by the
        # least of 100 and 5.
        self.assertEqual(blended(Equation("stored_alpha"), 0, 200, 100, 50, 50), 39)
        self.assertEqual(blended(Equation("source_alpha_saturated"), 0, 200, 100, 50, 50), 78)
        self.assertEqual(blended(Equation("source_alpha_saturated"), 0, 200, 100, 50, 250), 4)

    def test_straight_is_the_nearest_integer(self) -> None:
        for a in range(1, 256):
            for c in range(a + 1):
                exact = Fraction(255 * c, a)
                self.assertLessEqual(abs(straight(c, a) - exact), Fraction(1, 2))
                # Halves are rounded up.
                self.assertNotEqual(straight(c, a) - exact, Fraction(-1, 2))
            self.assertEqual(straight(255, a), 255)
        self.assertEqual({straight(c, 0) for c in range(256)}, {0})

    def test_multiplied_is_over_black(self) -> None:
        for a in range(256):
            for c in range(256):
                self.assertEqual(multiplied(c, a), blended("over", 0, c, a, 0))
            # Colours with at most as many steps as alpha come back.
            for c in range(a + 1):
                self.assertEqual(multiplied(straight(c, a), a), c)

    def test_over_is_that_of_lists(self) -> None:
        for s in range(0, 256, 5):
            for a in range(0, 256, 3):
                for d in range(0, 256, 7):
                    self.assertEqual(blended(PRESETS["over"], 0, s, a, d), renderer.over(s, a, d))

    def test_is_the_nearest_integer(self) -> None:
        pick = random.Random(1)
        for _ in range(20000):
            source, stored, operation = (
                pick.choice(list(FACTORS)), pick.choice(list(FACTORS)), pick.choice(list(OPERATIONS))
            )
            s, a, d, e, k = (pick.randrange(256) for _ in range(5))
            f, g = (x * Fraction(FACTORS[factor](s, a, d, e, k), 255) for x, factor in ((s, source), (d, stored)))
            exact = min(
                max({"add": f + g, "subtract": f - g, "reverse_subtract": g - f}[operation], Fraction(0)), Fraction(255)
            )
            found = blended(Equation(source, stored, operation, constant=(k,) * 4), 1, s, a, d, e)
            # 255 is odd, so nothing lies in the middle.
            self.assertLess(abs(found - exact), Fraction(1, 2))

    def test_names_are_those_of_the_package(self) -> None:
        from trirast import _numbers

        self.assertEqual(
            {name: tuple(each) for name, each in PRESETS.items()},
            {name: tuple(each) for name, each in trirast.BLENDS.items()},
        )
        self.assertEqual((set(FACTORS), {*OPERATIONS, *ENDS}), (set(_numbers.FACTORS), set(_numbers.OPERATIONS)))
        self.assertEqual(Equation._fields, trirast.Blend._fields)
        self.assertEqual(tuple(blending.Equation()), tuple(trirast.Blend()))


if __name__ == "__main__":
    unittest.main()
