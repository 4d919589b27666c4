"""The package on another system, as far as this one can stand for it: its files, and what Windows lacks."""

import os
import sys
import unittest

from trirast import _ffi

from .common import PIXELS, run

# Other modules are imported before, since they ask for the system too. The calls of Windows are those of kernel32.dll
# that the package makes, with answers of this process.
WINDOWS = """
import atexit, contextlib, ctypes, os, queue, sys, threading, weakref
from unittest import mock

with contextlib.suppress(ImportError):
    import numpy

def limits(low, high):
    low._obj.value, high._obj.value = 4096, 4096 + {stack}

def file_of(_handle, path, _most):
    path.value = "C:/trirast.dll"
    return 14

kernel = mock.Mock(GetCurrentThreadStackLimits=limits, GetModuleFileNameW=file_of)
ctypes.WinDLL = lambda name, use_last_error: {{"kernel32": kernel}}[name]
sys.platform = "win32"
sys.modules.update(resource=None, fcntl=None)
del os.register_at_fork
from trirast import _ffi, _stack
import trirast
"""
DRAWS = """
canvas = trirast.Canvas(3, 3)
canvas.clear()
canvas.draw([(128, 128), (640, 128), (128, 640)], threads=4)
sys.stdout.buffer.write(memoryview(canvas.rgb()).tobytes())
"""


def on_windows(text: str, stack: int = 2_000_000) -> bytes:
    """What a program prints that takes itself to be on Windows, where threads have so much stack."""
    done = run(WINDOWS.format(stack=stack) + text, TRIRAST_LIBRARY=_ffi.loaded_path())
    assert (done.returncode, done.stderr) == (0, b""), done.stderr.decode()
    return done.stdout


def files_on(system: str) -> str:
    text = f"import ctypes, os, sys, threading; sys.platform = {system!r}; from trirast import _ffi; print(_ffi.FILES)"
    return run(text).stdout.decode().strip()


class Systems(unittest.TestCase):
    def test_have_their_own_files(self) -> None:
        self.assertEqual(files_on("darwin"), "('libtrirast.dylib',)")
        self.assertEqual(on_windows("print(_ffi.FILES)").decode().split(), ["('trirast.dll',)"])
        self.assertEqual(files_on(sys.platform), str(_ffi.FILES))

    def test_without_what_windows_lacks_a_canvas_is_drawn(self) -> None:
        self.assertEqual(on_windows(DRAWS), PIXELS)

    def test_threads_with_little_stack_leave_the_work_to_others(self) -> None:
        self.assertEqual(on_windows("print(_stack.size(), _stack.is_enough())", 65536).split(), [b"65536", b"False"])
        self.assertEqual(on_windows("print(_stack.size(), _stack.is_enough())").split(), [b"2000000", b"True"])

    def test_windows_says_which_file_was_loaded(self) -> None:
        self.assertEqual(on_windows("print(_ffi.loaded_path())").split(), [b"C:/trirast.dll"])

    def test_the_library_is_taken_from_the_package_or_the_repository(self) -> None:
        path = _ffi.library_path()
        self.assertTrue(path == os.environ.get("TRIRAST_LIBRARY") or os.path.basename(path) in _ffi.FILES)


if __name__ == "__main__":
    unittest.main()
