"""python3 -m trirast: what it prints, the picture that it draws, and its errors."""

import os
import platform
import re
import subprocess
import sys
import tempfile
import unittest
from typing import Dict

import trirast
from trirast import __main__, _ffi, _version

from .common import PYTHON, SECONDS, run

LIBRARIES = os.path.join(os.path.dirname(PYTHON), "lib")
ON_X86 = platform.machine() == "x86_64"


def run_command(*words: str, **more: str) -> "subprocess.CompletedProcess[str]":
    environment = {**os.environ, "PYTHONPATH": os.path.join(PYTHON, "src"), **more}
    command = [sys.executable, "-m", "trirast", *words]
    return subprocess.run(command, env=environment, capture_output=True, timeout=SECONDS, text=True)


def facts_in(output: str) -> Dict[str, str]:
    return dict(line.split(None, 1) for line in output.splitlines())


class Facts(unittest.TestCase):
    def test_are_printed(self) -> None:
        done = run_command()
        facts = facts_in(done.stdout)
        self.assertEqual((done.returncode, done.stderr), (0, ""))
        self.assertEqual(list(facts), ["version", "library", "interface", "processor"])
        self.assertEqual((facts["version"], facts["library"]), (trirast.__version__, _ffi.loaded_path()))
        self.assertGreaterEqual(int(facts["interface"]), _version.INTERFACE)

    def test_name_the_file_that_is_loaded(self) -> None:
        with open("/proc/self/maps", encoding="utf-8") as maps:
            mapped = {line.split(None, 5)[5].rstrip("\n") for line in maps if re.search(r"/libtrirast\.so", line)}
            self.assertIn(os.path.realpath(_ffi.loaded_path()), mapped)

    def test_name_the_processors(self) -> None:
        if not ON_X86:
            self.skipTest("the levels are those of x86-64")
        found = 0
        for folder, level in (("", "x86-64-v2"), ("x86-64-v3", "x86-64-v3")):
            path = os.path.join(LIBRARIES, folder, "libtrirast.so.2")
            if os.path.exists(path):
                facts = facts_in(run_command(TRIRAST_LIBRARY=path).stdout)
                self.assertEqual((facts["library"], facts["processor"]), (path, level))
                found += 1
        if not found:
            self.skipTest("there is no library in the repository")

    def test_name_another_machine(self) -> None:
        self.assertEqual(__main__.level_of("/usr/lib/libtrirast.so.2", "aarch64"), "aarch64")
        self.assertEqual(__main__.level_of("/usr/lib/glibc-hwcaps/x86-64-v3/libtrirast.so.2", "x86_64"), "x86-64-v3")


class FirstPicture(unittest.TestCase):
    def setUp(self) -> None:
        folder = tempfile.TemporaryDirectory()
        self.addCleanup(folder.cleanup)
        self.path = os.path.join(folder.name, "first.png")

    def test_is_drawn(self) -> None:
        done = run_command("--draw", self.path)
        self.assertEqual((done.returncode, done.stderr), (0, ""))
        with open(self.path, "rb") as file:
            self.assertEqual(file.read(), __main__.first_picture()._repr_png_())

    def test_shows_each_corner_in_its_colour(self) -> None:
        canvas = __main__.first_picture()
        pixels = memoryview(canvas.rgb()).cast("B")

        def near(x: float, y: float) -> "list[int]":
            first = 3 * (round(128 + 108 * x) + 256 * round(128 + 108 * y))
            return list(pixels[first : first + 3])

        for (x, y), color in zip(__main__.HEXAGON, __main__.COLORS):
            self.assertTrue(all(abs(a - b) < 16 for a, b in zip(near(x, y), color)), (x, y, near(x, y)))
        self.assertEqual(list(pixels[:3]), [24, 24, 32])

    def test_needs_no_numpy(self) -> None:
        done = run(f"""
            import sys
            sys.modules["numpy"] = None
            from trirast import __main__
            sys.exit(__main__.main(["--draw", {self.path!r}]))
        """)
        self.assertEqual((done.returncode, done.stderr), (0, b""))
        with open(self.path, "rb") as file:
            self.assertEqual(file.read(), __main__.first_picture()._repr_png_())


class Errors(unittest.TestCase):
    def must_end(self, message: str, *words: str, **more: str) -> None:
        done = run_command(*words, **more)
        self.assertEqual((done.returncode, done.stderr.count("\n")), (1, 1), done.stderr)
        self.assertRegex(done.stderr, f"^trirast: {message}")

    def test_are_one_line(self) -> None:
        self.must_end("library: expected one that can be loaded, got .*no-such.so", TRIRAST_LIBRARY="/no-such.so")
        self.must_end("path: expected a name that ends in .png or .ppm, .*, got 'first.tif'$", "--draw", "first.tif")
        self.must_end("path: expected a name that ends in .png or .ppm, .*, got ''$", "--draw", "")
        self.must_end("\\[Errno 2\\] No such file or directory: '/no-such/first.png'$", "--draw", "/no-such/first.png")

    def test_wrong_arguments_have_status_2(self) -> None:
        done = run_command("--drawn")
        self.assertEqual(done.returncode, 2)
        self.assertIn("usage: python3 -m trirast", done.stderr)

    def test_help_names_the_arguments(self) -> None:
        done = run_command("--help")
        self.assertEqual((done.returncode, done.stderr), (0, ""))
        self.assertIn("--draw FILE.png", done.stdout)


if __name__ == "__main__":
    unittest.main()
