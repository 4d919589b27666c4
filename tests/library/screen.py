"""A screen without a monitor, by Xvfb, on which programs show their windows, and its pixels."""

from __future__ import annotations

import os
import struct
import subprocess
import time
from types import TracebackType
from typing import Callable

from tests.cases import CheckError
from tests.library.commands import need

# The beginning of a dump of the screen, as /usr/include/X11/XWDFile.h has it: the names of the integers
# that are used here.
HEADER_SIZE, WIDTH, HEIGHT, BITS, ROW_BYTES, COLOURS = 0, 4, 5, 11, 12, 19
HEADER_INTEGERS = 25
COLOUR_BYTES = 12
MAX_SECONDS = 60


class Screen:
    """A screen of this size, which is there in a `with` statement. Its folder has the screen's memory as a file."""

    def __init__(self, folder: str, width: int, height: int) -> None:
        need("Xvfb")
        os.makedirs(folder)
        self.folder = folder
        reading, writing = os.pipe()
        command = [
            "Xvfb", "-displayfd", str(writing), "-screen", "0", f"{width}x{height}x24", "-fbdir", folder, "-nocursor"
        ]
        with open(os.path.join(folder, "messages"), "wb") as messages:
            self.server = subprocess.Popen(
                [*command, "-nolisten", "tcp"], pass_fds=(writing,), stdout=messages, stderr=messages
            )
        os.close(writing)
        with open(reading, "rb") as answer:
            self.display = f":{answer.readline().decode().strip()}"
        if self.display == ":":
            self.server.wait()
            raise CheckError("Xvfb did not start")
        # SDL takes a click that it reads within 10 ms of the window's focus for the one that gave the focus, and leaves
        # it out. A busy program reads both at once, unless the hint says that clicks go through.
        hints = {"SDL_VIDEODRIVER": "x11", "SDL_MOUSE_FOCUS_CLICKTHROUGH": "1"}
        self.environment = {**os.environ, "DISPLAY": self.display, **hints}

    def __enter__(self) -> Screen:
        return self

    def __exit__(
        self, kind: type[BaseException] | None, error: BaseException | None, trace: TracebackType | None
    ) -> None:
        self.server.terminate()
        self.server.wait()

    def pixels(self) -> bytes:
        """Red, green and blue of the pixels, row by row."""
        with open(os.path.join(self.folder, "Xvfb_screen0"), "rb") as file:
            dump = file.read()
        head = struct.unpack_from(f">{HEADER_INTEGERS}I", dump)
        if head[BITS] != 32:
            raise CheckError(f"a pixel of the screen has {head[BITS]} bits")
        begin = head[HEADER_SIZE] + head[COLOURS] * COLOUR_BYTES
        rows = [dump[begin + row * head[ROW_BYTES] :][: 4 * head[WIDTH]] for row in range(head[HEIGHT])]
        found = bytearray(3 * head[WIDTH] * head[HEIGHT])
        data = b"".join(rows)
        for channel in range(3):
            found[channel::3] = data[2 - channel :: 4]
        return bytes(found)

    def wait_for(self, holds: Callable[[], bool], what: str) -> None:
        """Waits until something holds. Raises `CheckError` if it still does not after some time."""
        end = time.monotonic() + MAX_SECONDS
        while not holds():
            if time.monotonic() > end:
                raise CheckError(f"after {MAX_SECONDS} seconds there is not {what}")
            time.sleep(0.05)
