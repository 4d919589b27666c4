"""How a run opens files that it, or a run before it, has made: regular files alone, which have this one name, through
no link, and without waiting for who writes to a FIFO. So what somebody put under such a name is not written to."""

from __future__ import annotations

import errno
import io
import os
import stat
from contextlib import contextmanager, suppress
from typing import Any, Callable, Iterator, Optional

from ._errors import NOT_REGULAR, OTHER_NAME, OutputError

FLAGS = os.O_NOFOLLOW | os.O_NONBLOCK | os.O_NOCTTY | os.O_CLOEXEC
# What the system says of a link, and of a FIFO or a socket.
ODD_KINDS = (errno.ELOOP, errno.ENXIO)


def open_regular(path: str, flags: int, folder: Optional[int] = None) -> int:
    """Opens a regular file, or with O_DIRECTORY a folder, of an open folder if one is given. Raises OutputError if it
    is anything else, or is to be written to and has a second name."""
    try:
        opened = os.open(path, flags | FLAGS, 0o666, dir_fd=folder)
    except OSError as error:
        if error.errno in ODD_KINDS:
            raise not_regular(path) from error
        raise
    try:
        found = os.fstat(opened)
        is_wanted = stat.S_ISDIR if flags & os.O_DIRECTORY else stat.S_ISREG
        if not is_wanted(found.st_mode):
            raise not_regular(path)
        if flags & os.O_ACCMODE != os.O_RDONLY and found.st_nlink > 1:
            raise OutputError(f"{path}: expected a file with one name, got one with a second; {OTHER_NAME}")
    except BaseException:
        os.close(opened)
        raise
    return opened


def not_regular(path: str) -> OutputError:
    return OutputError(f"{path}: {NOT_REGULAR}")


def read_regular(path: str, most: int, folder: Optional[int] = None) -> bytes:
    """The first bytes of a file, at most as many."""
    with os.fdopen(open_regular(path, os.O_RDONLY, folder), "rb") as file:
        return file.read(most)


def write_new(path: str, data: bytes, folder: int) -> None:
    """Writes a file of an open folder, in place of what has its name."""
    with suppress(FileNotFoundError):
        os.remove(path, dir_fd=folder)
    with os.fdopen(open_regular(path, os.O_WRONLY | os.O_CREAT | os.O_EXCL, folder), "wb") as file:
        file.write(data)


@contextmanager
def naming(path: str, always: bool = False) -> Iterator[None]:
    """Names a file in each error of the system that names none, as one of a full disk; or always, where it names the
    file as it is called in an open folder."""
    try:
        yield
    except OSError as error:
        if error.errno is None or error.filename is not None and not always:
            raise
        raise OSError(error.errno, error.strerror, path) from error


class NamedFile(io.FileIO):
    """A file to read and to write, whose errors name it."""

    def __init__(self, path: str, opener: Callable[[str, int], int]) -> None:
        super().__init__(path, "r+", opener=opener)
        self._path = path

    def readinto(self, buffer: Any) -> Any:
        with naming(self._path):
            return super().readinto(buffer)

    def write(self, data: Any) -> Any:
        with naming(self._path):
            return super().write(data)

    def truncate(self, size: Optional[int] = None) -> int:
        with naming(self._path):
            return super().truncate(size)
