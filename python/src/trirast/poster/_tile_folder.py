"""The folder that tiles are in before they are whole. Its page is its mark, and is there from the beginning."""

from __future__ import annotations

import os
import re
import stat
from contextlib import contextmanager, suppress
from typing import Iterator, Optional

from ._errors import NOT_OURS, OTHER_NAME, OutputError
from ._files import naming, not_regular, open_regular, read_regular, write_new
from ._own_file import check_place, open_alone
from ._places import PART

PAGE = "index.html"
# Each page of tiles begins with this line. The rest of it has the checksum of the list.
MARK = b'<!doctype html><!-- trirast.poster '
TILE_NAME = re.compile(r"\d+/\d+/\d+\.png")
# What a file is called in the folder itself until it is whole.
NEW = re.compile(r"\.(?:index\.html|\d+-\d+-\d+\.png)")
# More bytes than a page has.
MAX_PAGE = 1 << 16


class TileFolder:
    """The folder FOLDER.part, which one run at a time has, and which becomes FOLDER."""

    def __init__(self, path: str) -> None:
        """Opens or makes it. Raises OutputError if FOLDER is there, or a folder that no run left, and BusyError if
        another run has it."""
        check_new(path)
        self._path, self._part = path, path + PART
        self._is_kept = self._make()
        self._opened = open_alone(self._part, os.O_RDONLY | os.O_DIRECTORY)
        try:
            self._check_files()
        except BaseException:
            os.close(self._opened)
            raise

    def _make(self) -> bool:
        """Makes the folder. Returns whether it was there."""
        try:
            os.mkdir(self._part)
        except FileExistsError:
            if not stat.S_ISDIR(os.lstat(self._part).st_mode):
                raise OutputError(f"{self._part}: expected a folder, got a file; {OTHER_NAME}") from None
            return True
        return False

    def _check_files(self) -> None:
        """Raises OutputError at what no run made there: tiles are a run's if the page beside them is."""
        is_own = page_in(".", self._opened).startswith(MARK)
        for name, mode in files_of(self._opened):
            path = os.path.join(self._part, name)
            if not (NEW.fullmatch(name) or is_own and (name == PAGE or TILE_NAME.fullmatch(name))):
                raise OutputError(f"{path}: {NOT_OURS}")
            if not stat.S_ISREG(mode):
                raise not_regular(path)

    def begin(self, page: bytes, resume: bool) -> None:
        """Gives it its page. Tiles of another list, or of a run that is not resumed, are removed."""
        self._is_kept = True
        is_other = not resume or page_in(".", self._opened) != page
        with naming(self._part, always=True):
            remove_files(self._opened, is_other)
        if is_other:
            self.write(PAGE, page)

    def read(self, name: str, most: int) -> bytes:
        """The first bytes of a file, at most as many. Raises OSError if it is not there."""
        with self._folder_of(name) as folder:
            return read_regular(os.path.basename(name), most, folder)

    def write(self, name: str, data: bytes) -> None:
        """Writes a file under a new name, and gives it its own. What had that name is not written to."""
        new = f".{name.replace('/', '-')}"
        with naming(os.path.join(self._part, name), always=True):
            write_new(new, data, self._opened)
            with self._folder_of(name, make=True) as folder:
                os.replace(new, os.path.basename(name), src_dir_fd=self._opened, dst_dir_fd=folder)

    @contextmanager
    def _folder_of(self, name: str, make: bool = False) -> Iterator[int]:
        """The open folder of a file, which is reached through no link."""
        opened = os.dup(self._opened)
        try:
            for part in name.split("/")[:-1]:
                if make:
                    with suppress(FileExistsError):
                        os.mkdir(part, dir_fd=opened)
                above, opened = opened, open_regular(part, os.O_RDONLY | os.O_DIRECTORY, opened)
                os.close(above)
            yield opened
        finally:
            os.close(opened)

    def finish(self) -> None:
        """Gives it its name."""
        check_new(self._path)
        check_place(self._opened, self._part)
        os.rename(self._part, self._path)

    def close(self) -> None:
        """Closes it. A folder that was made and not begun is removed."""
        if not self._is_kept:
            os.rmdir(self._part)
        os.close(self._opened)


def check_new(path: str) -> None:
    """Raises OutputError if there is something under a name. A link is something, also one that leads nowhere."""
    if os.path.lexists(path):
        raise OutputError(f"{path}: expected a new folder for tiles, got one that exists; {OTHER_NAME}")


def page_in(path: str, folder: Optional[int] = None) -> bytes:
    """The page of a folder of tiles. Returns no bytes if it has none."""
    try:
        return read_regular(os.path.join(path, PAGE), MAX_PAGE, folder)
    except OSError:
        return b""


def remove_files(folder: int, are_all: bool) -> None:
    """Removes what is not whole of an open folder of tiles, or all files. The page, which is their mark, is the last
    to go."""
    for place, folders, names, opened in os.fwalk(".", topdown=False, dir_fd=folder, follow_symlinks=False):
        for name in names:
            if NEW.fullmatch(name) or are_all and (place, name) != (".", PAGE):
                os.remove(name, dir_fd=opened)
        for name in folders if are_all else ():
            os.rmdir(name, dir_fd=opened)
    if are_all:
        with suppress(FileNotFoundError):
            os.remove(PAGE, dir_fd=folder)


def files_of(folder: int) -> Iterator[tuple[str, int]]:
    """The files below an open folder, by their names from there, and their modes."""
    for place, folders, names, opened in os.fwalk(".", dir_fd=folder, follow_symlinks=False):
        for name in (*names, *folders):
            mode = os.stat(name, dir_fd=opened, follow_symlinks=False).st_mode
            if not stat.S_ISDIR(mode):
                yield os.path.normpath(os.path.join(place, name)), mode
