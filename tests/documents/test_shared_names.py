#!/usr/bin/env python3
"""Tests that few names of definitions stand in more than one crate.

    python3 -m pytest tests/documents/test_shared_names.py
"""

from __future__ import annotations

import unittest

from tools.sources.shared_names import names, shared

# How many names stand in more than one crate. Lower it with each that goes.
MOST = 5


class SharedNames(unittest.TestCase):
    def test_a_name_in_two_crates_is_found(self) -> None:
        wide = "-- It is wide.\npub record IsWide (n : ℕ) : Type 0 where\n  pub wide : 1 ≤ n\n"
        high = "-- It is high.\nabbrev pub IsHigh : ℕ → Type 0\nIsHigh n = 2 ≤ n\n"
        texts = [("low", wide), ("low", high), ("middle", high), ("high", f"{wide}\n{high}")]
        self.assertEqual(shared(texts), {"IsHigh": ["high", "low", "middle"], "IsWide": ["high", "low"]})

    def test_a_name_in_two_files_of_a_crate_is_not(self) -> None:
        text = "-- It is high.\nabbrev pub IsHigh : ℕ → Type 0\nIsHigh n = 2 ≤ n\n"
        self.assertEqual(shared([("low", text), ("low", text)]), {})

    def test_no_more_names_are_shared(self) -> None:
        self.assertLessEqual(len(names()), MOST, "python3 -m tools.sources.shared_names names them")


if __name__ == "__main__":
    unittest.main()
