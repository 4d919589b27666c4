"""The library is loaded at the first call, and the package has the repository's version and the header's interface."""

import ctypes.util
import os
import re
import unittest

import trirast
from trirast import _version

from .common import PYTHON, run

TOP = os.path.dirname(PYTHON)


def text_of(*path: str) -> str:
    """The text of a file of the repository. Skips the test if the package lies in none."""
    whole = os.path.join(TOP, *path)
    if not os.path.exists(whole):
        raise unittest.SkipTest(f"there is no {os.path.join(*path)} beside the package")
    with open(whole, encoding="ascii") as file:
        return file.read()


class Library(unittest.TestCase):
    def test_is_loaded_at_the_first_call(self) -> None:
        text = "import trirast\nprint('imported', flush=True)\ntrirast.image_info('{}')"
        done = run(text, TRIRAST_LIBRARY=os.path.join(PYTHON, "no-such-library.so"))
        self.assertEqual(done.stdout, b"imported\n")
        self.assertIn(b"OSError: library: expected one that can be loaded, got ", done.stderr)
        self.assertIn(b"no-such-library.so", done.stderr)
        self.assertIn(
            b"; run make library in the repository of trirast, then set TRIRAST_LIBRARY to its lib/libtrirast.so",
            done.stderr,
        )

    def test_another_library_is_named(self) -> None:
        other = ctypes.util.find_library("c")
        if other is None:
            self.skipTest("there is no library of C to take for it")
        done = run("import trirast\ntrirast.image_info('{}')", TRIRAST_LIBRARY=other)
        self.assertRegex(
            done.stderr.decode(), f"ImportError: {other}: expected calls of interface .*; run make library"
        )

    def test_no_other_package_is_imported(self) -> None:
        done = run("import sys, trirast\nprint('numpy' in sys.modules)")
        self.assertEqual((done.stdout, done.returncode), (b"False\n", 0))

    def test_has_the_version_of_the_repository(self) -> None:
        self.assertEqual(trirast.__version__, text_of("VERSION").strip())

    def test_has_the_interface_of_the_header(self) -> None:
        header = text_of("include", "trirast.h")
        self.assertEqual(
            re.findall(r"^#define TRIRAST_INTERFACE (\S+)$", header, re.MULTILINE), [str(_version.INTERFACE)]
        )


if __name__ == "__main__":
    unittest.main()
