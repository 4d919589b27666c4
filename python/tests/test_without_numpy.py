"""The tests of what needs no numpy, once more in a Python that has none."""

import importlib.util
import subprocess
import sys
import unittest
from pathlib import Path

FILES = (
    "arguments", "canvas", "copies", "draw_list", "errors", "history", "layout", "library", "polygon_boxes", "polygons",
    "vertices",
)
# An import of numpy raises ImportError.
HIDDEN = "import sys; sys.modules['numpy'] = None; import pytest; sys.exit(pytest.main(sys.argv[1:]))"


@unittest.skipUnless(importlib.util.find_spec("numpy"), "the tests run without numpy anyway")
class WithoutNumpy(unittest.TestCase):
    def test_passes(self) -> None:
        files = [str(Path(__file__).with_name(f"test_{name}.py")) for name in FILES]
        done = subprocess.run(
            [sys.executable, "-c", HIDDEN, "-q", "-p", "no:cacheprovider", *files], capture_output=True, text=True,
        )
        self.assertEqual(done.returncode, 0, done.stdout[-4000:])
        self.assertRegex(done.stdout, r"\d+ passed, \d+ skipped in ")
