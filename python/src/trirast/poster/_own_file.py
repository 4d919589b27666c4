"""Files that a run has for itself: its journal and its part of a picture.

Each begins with a mark, by which a later run knows it for one of a poster, and is locked as long as a run has it.
"""

from __future__ import annotations

import fcntl
import io
import os
from typing import IO, Sequence, cast

from ._errors import NOT_OURS, BusyError, OutputError
from ._files import NamedFile, open_regular


class OwnFile:
    """A file that was made, or that a stopped run left. Raises OutputError if it is no run's, and BusyError if
    another run has it."""

    def __init__(self, path: str, marks: Sequence[bytes]) -> None:
        """A file that is not empty has to begin with one of the marks."""
        self.path = path
        raw = NamedFile(path, lambda path, _: open_alone(path, os.O_RDWR | os.O_CREAT))
        self.file = cast(IO[bytes], io.BufferedRandom(raw))
        self._is_kept = False
        self.head = self.file.read(max(map(len, marks)))
        if not (self.head == b"" or any(self.head.startswith(mark) for mark in marks)):
            self.file.close()
            raise OutputError(f"{path}: {NOT_OURS}")
        self._is_kept = self.head != b""

    def keep(self) -> None:
        """Says that something is written to it, so that `close` leaves it."""
        self._is_kept = True

    def rename(self, path: str) -> None:
        """Gives it another name. Raises OutputError if something else was put under its own."""
        self._check_place()
        os.replace(self.path, path)

    def close(self) -> None:
        """Closes it. A file that was made and not written to is removed."""
        try:
            if not self._is_kept:
                self.remove()
        finally:
            self.file.close()

    def remove(self) -> None:
        """Removes it, and then closes it. Raises OutputError if something else was put under its name, which stays."""
        self._is_kept = True
        try:
            self._check_place()
            os.remove(self.path)
        finally:
            self.file.close()

    def _check_place(self) -> None:
        check_place(self.file.fileno(), self.path)


def open_alone(path: str, flags: int) -> int:
    """Opens a regular file, or with O_DIRECTORY a folder, and locks it. Raises BusyError if another run has
    locked it."""
    while True:
        opened = open_regular(path, flags)
        try:
            lock(opened, path)
            # The run that had it may have ended since, and have removed or renamed it.
            if is_at(opened, path):
                return opened
        except BaseException:
            os.close(opened)
            raise
        os.close(opened)


def lock(opened: int, path: str) -> None:
    try:
        fcntl.flock(opened, fcntl.LOCK_EX | fcntl.LOCK_NB)
    except BlockingIOError:
        raise BusyError(f"{path}: expected no other run, got one that draws this poster; wait for its end") from None


def is_at(opened: int, path: str) -> bool:
    """Whether an open file is the one under a name."""
    try:
        return os.path.samestat(os.fstat(opened), os.lstat(path))
    except FileNotFoundError:
        return False


def check_place(opened: int, path: str) -> None:
    """Raises OutputError unless an open file of a run is still the one under its name."""
    if not is_at(opened, path):
        raise OutputError(f"{path}: expected the file of this run, got it replaced or removed; run again")
