"""The bar of a poster: which pixels it counts, and when there is none."""

import importlib.util
import io
import unittest
from contextlib import redirect_stderr

for needed in ("numpy", "tqdm"):
    if importlib.util.find_spec(needed) is None:
        raise unittest.SkipTest(f"these tests need {needed}")

from trirast import poster
from trirast.poster._progress import progress
from trirast.poster._scene import Sheet
from trirast.poster._windows import Windows

from .common import without
from .poster_common import Files, random_scene


class Terminal(io.StringIO):
    def isatty(self) -> bool:
        return True


class Progress(Files):
    def drawn(self, errors: io.StringIO, is_wanted: bool = True) -> str:
        """What a poster of 300 by 200 pixels writes to standard error."""
        with redirect_stderr(errors):
            poster.draw_poster(random_scene(3), self.path("a.png"), window=64, show_progress=is_wanted)
        return errors.getvalue()

    def test_ends_with_all_pixels(self) -> None:
        last = self.drawn(Terminal()).rstrip().split("\r")[-1]
        self.assertRegex(last, r"^100%.* 60\.0k/60\.0k \[.*pixel/s\]$")

    def test_begins_with_what_a_stopped_run_left(self) -> None:
        errors, windows = Terminal(), Windows(Sheet(300, 200), 64)
        with redirect_stderr(errors), progress(windows.pixels_above(4), windows.pixels_above(3), True) as step:
            step(windows.span(3, 0, 5))
        lines = errors.getvalue().rstrip().split("\r")
        self.assertRegex(lines[1], r"^ 96%.* 57\.6k/60\.0k ")
        self.assertRegex(lines[-1], r"^100%.* 60\.0k/60\.0k ")

    def test_is_left_out(self) -> None:
        self.assertEqual(self.drawn(io.StringIO()), "")
        self.assertEqual(self.drawn(Terminal(), False), "")
        with without("tqdm"):
            self.assertEqual(self.drawn(Terminal()), "")


if __name__ == "__main__":
    unittest.main()
