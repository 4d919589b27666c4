"""Calls on lists that take long: an interrupt need not wait for them."""

import contextlib
import hashlib
import signal
import time
import unittest
from typing import Any, Callable
from unittest import mock

import trirast

from .common import DRAW_LIST

LONG_LIST = b" " * (1 << 20) + b"{}"


class Interrupts(unittest.TestCase):
    """In place of the library stands what takes long, and cannot be interrupted either."""

    def setUp(self) -> None:
        def interrupt(*_: Any) -> None:
            raise KeyboardInterrupt

        self.addCleanup(signal.signal, signal.SIGALRM, signal.signal(signal.SIGALRM, interrupt))
        self.addCleanup(signal.setitimer, signal.ITIMER_REAL, 0)

    def must_end_early(self, name: str, call: Callable[[], Any]) -> None:
        def seconds() -> float:
            begun = time.monotonic()
            with contextlib.suppress(KeyboardInterrupt):
                call()
            return time.monotonic() - begun

        library = mock.Mock()
        setattr(library, name, lambda *_: hashlib.pbkdf2_hmac("sha512", b"", b"", 300_000))
        replaced = [mock.patch(f"trirast.{each}.library", return_value=library) for each in ("_draw_list", "_history")]
        with replaced[0], replaced[1]:
            whole = seconds()
            signal.setitimer(signal.ITIMER_REAL, whole / 20)
            self.assertLess(seconds(), whole / 2)

    def test_of_counts(self) -> None:
        self.must_end_early("trirast_list_triangle_samples", lambda: trirast.triangle_samples(DRAW_LIST, 0, 0))

    def test_of_files(self) -> None:
        self.must_end_early("trirast_list_draw", lambda: trirast.draw_file(DRAW_LIST))

    def test_of_long_lists(self) -> None:
        self.must_end_early("trirast_list_info", lambda: trirast.image_info(LONG_LIST))
        self.must_end_early("trirast_list_history", lambda: trirast.why(LONG_LIST, 0, 0, 0))


if __name__ == "__main__":
    unittest.main()
