"""A picture's file before it is whole."""

from __future__ import annotations

from typing import Optional

from .._png import SIGNATURE
from ._own_file import OwnFile
from ._places import PART, check_file

# No longer than the shortest header of a PPM file. It stands in place of a picture's first bytes until
# the picture is whole.
MARK = b"trirastpart"
# How pictures begin that are whole.
WHOLE = (b"P5\n", b"P6\n", SIGNATURE, b"II+\0")


class PartFile:
    """A file beside the picture's name, which it gets at its end."""

    def __init__(self, path: str, header: bytes, is_whole: bool) -> None:
        """Opens or makes it. `is_whole` says that the run that left it was giving it its header and its name.

        Raises OutputError if there is a file that no run left, and BusyError if another run has it.
        """
        self._path = path
        self._header = header
        self._own = OwnFile(path + PART, (MARK, *WHOLE) if is_whole else (MARK,))
        self.file = self._own.file
        if self._own.head.startswith(WHOLE):
            self._write_start(MARK)

    def begin(self) -> None:
        """Makes it begin as the part of this picture does."""
        self._own.keep()
        self._write_start(MARK + self._header[len(MARK) :])

    def finish(self, size: int, header: Optional[bytes] = None) -> None:
        """Gives the picture, which has this number of bytes, its header and its name. A header may be
        known only now."""
        self.file.truncate(size)
        self._write_start(self._header if header is None else header)
        check_file(self._path)
        self._own.rename(self._path)
        self.file.close()

    def close(self) -> None:
        self._own.close()

    def _write_start(self, start: bytes) -> None:
        self.file.seek(0)
        self.file.write(start)
        self.file.flush()
