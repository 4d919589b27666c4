#!/usr/bin/env python3
"""Tests that no line of a source is longer than 120 columns. The sources of crates are not read.

    python3 -m pytest tests/documents/test_columns.py
"""

from __future__ import annotations

import os
import re
import unittest

from tools.places import files, text_of

MOST = 120
FOLDERS = ("bench", "bindings", "conformance", "examples", "include", "packaging", "python", "tests", "tools", "web")
SUFFIXES = (".c", ".cmake", ".comp", ".cpp", ".css", ".h", ".hpp", ".js", ".mk", ".py", ".rs")
# What others made, or tools: below a folder of one of these names.
MADE = re.compile(r"(^|/)(build|dist|out|target|\w+\.egg-info)/")
# A line may be longer if it is one word, as a URL, behind the mark of a comment or without one.
ONE_WORD = re.compile(r"\s*(?://[/!]?|/?\*+|#)?\s*\S+")


def long_lines(text: str) -> list[int]:
    """The numbers of a text's lines that are too long."""
    return [
        number for number, line in enumerate(text.split("\n"), 1)
        if len(line) > MOST and not ONE_WORD.fullmatch(line)
    ]


class Columns(unittest.TestCase):
    def test_a_long_line_is_found(self) -> None:
        words = "12345678 " * 14
        self.assertEqual(long_lines(f"{words[:119]}×\n{words[:120]}×\n// {words}\n"), [2, 3])

    def test_one_word_may_be_longer(self) -> None:
        url = f"https://example.org/{'a' * MOST}"
        self.assertEqual(long_lines(f"{url}\n    # {url}\n/// {url}\n * {url}\n"), [])
        self.assertEqual(long_lines(f"    x = '{url}'\n// See {url}\n"), [1, 2])

    def test_no_line_is_longer(self) -> None:
        sources = [
            path for folder in FOLDERS for path in files(folder, "**", "*")
            if path.endswith(SUFFIXES) and not MADE.search(path)
        ]
        self.assertGreater(len(sources), 500)
        found = [f"{path}:{number}" for path in sources for number in long_lines(text_of(*path.split(os.sep)))]
        self.assertEqual(found, [])


if __name__ == "__main__":
    unittest.main()
