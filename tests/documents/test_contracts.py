#!/usr/bin/env python3
"""Tests of `tools.contracts`: a contract that was only laid out anew is the same, and one of which a
word changed is not.

    python3 -m pytest tests/documents/test_contracts.py
"""

from __future__ import annotations

import contextlib
import io
import unittest

from tools.contracts import compare, flat

# A call as it stands on few lines, and as `rt fmt` breaks it.
SHORT = "pub fn scale(point: Point, by: u32) -> Point\nensures value { (n : ℕ) → IsScaled point by n result }"
BROKEN = "pub fn scale(\npoint: Point,\nby: u32,\n) -> Point\nensures value { (n : ℕ) →\nIsScaled point by n result }"


def is_same(before: str, after: str, renamed: dict[str, str] | None = None) -> bool:
    with contextlib.redirect_stdout(io.StringIO()):
        return compare({"call ::scale": [before]}, {"call ::scale": [after]}, renamed or {}, {})


class Contracts(unittest.TestCase):
    def test_layout_does_not_count(self) -> None:
        self.assertTrue(is_same(SHORT, BROKEN))
        self.assertEqual(flat("record {\n  wide = 1;\n  high = 2;\n}"), flat("record { wide = 1; high = 2 }"))

    def test_words_count(self) -> None:
        for old, new in (
            ("→", "×"), ("point by", "by point"), ("value", "size"), ("u32", "u16"), ("n result", "result")
        ):
            self.assertFalse(is_same(SHORT, BROKEN.replace(old, new)), f"{new} for {old}")

    def test_brackets_count(self) -> None:
        self.assertNotEqual(flat("f (a b) c"), flat("f a (b c)"))

    def test_renamed_words_are_the_same(self) -> None:
        self.assertTrue(is_same(SHORT, BROKEN.replace("IsScaled", "IsScaledPoint"), {"IsScaledPoint": "IsScaled"}))


if __name__ == "__main__":
    unittest.main()
