"""A folder of PNG tiles by zoom level, z/x/y.png of 256 pixels, with a page that shows them and needs no net.

The finest level is the poster; each coarser one is half as wide and high, and at level 0 one tile has all. A pixel of a
coarser level is the mean of four, rounded to the nearest integer, and up at a half; a last odd row or column stands for
the one that is missing.
"""

from __future__ import annotations

import os
import zlib
from typing import List, Optional

import numpy as np

from ._png import pixels_of, png_of
from ._pool import Pool
from ._scene import Pixels, Sheet
from ._tile_folder import PAGE, TileFolder, page_in

TILE = 256
# More bytes than the file of a tile has.
MOST = 1 << 20


def halved(pixels: Pixels) -> Pixels:
    """Pixels of half the width and height, each the mean of four."""
    if pixels.shape[0] % 2:
        pixels = np.concatenate((pixels, pixels[-1:]), 0)
    if pixels.shape[1] % 2:
        pixels = np.concatenate((pixels, pixels[:, -1:]), 1)
    sums = pixels[0::2, 0::2].astype(np.uint16 if pixels.dtype.itemsize == 1 else np.uint32)
    sums += pixels[0::2, 1::2]
    sums += pixels[1::2, 0::2]
    sums += pixels[1::2, 1::2]
    sums += 2
    sums >>= 2
    return sums.astype(pixels.dtype)


def levels_of(sheet: Sheet) -> int:
    """The number of the finest level: at level 0 the whole poster is in one tile."""
    level = 0
    while TILE << level < max(sheet.width, sheet.height):
        level += 1
    return level


def tile_name(level: int, column: int, row: int) -> str:
    """The name of a tile in its folder."""
    return f"{level}/{column}/{row}.png"


def are_whole(path: str, sheet: Sheet, checksum: str) -> bool:
    """Whether a folder has all tiles of a list: its page has the list's checksum, and the folder its name."""
    return page_in(path) == page_of(sheet, checksum)


def page_of(sheet: Sheet, checksum: str) -> bytes:
    """The page of a poster's tiles, which begins with the mark of such pages and has the checksum of the list."""
    with open(os.path.join(os.path.dirname(__file__), PAGE), encoding="utf-8") as file:
        page = file.read()
    for word, value in (
        ("CHECKSUM", checksum), ("WIDTH", sheet.width), ("HEIGHT", sheet.height), ("ZOOM", levels_of(sheet))
    ):
        page = page.replace(word, str(value))
    return page.encode()


class Level:
    """A level: takes rows from the top, puts tiles out as soon as their rows are there, and passes halved rows on."""

    def __init__(self, writer: TilesWriter, number: int) -> None:
        self._writer = writer
        self._number = number
        self._tile_rows = 0
        self._waiting: List[Pixels] = []
        self._coarser = Level(writer, number - 1) if number else None

    def take(self, rows: Pixels) -> None:
        """Takes rows, which stay the caller's."""
        self._waiting.append(rows)
        while sum(map(len, self._waiting)) >= TILE:
            together = self._waiting[0] if len(self._waiting) == 1 else np.concatenate(self._waiting)
            self._waiting = [together[TILE:]]
            self._put(together[:TILE])
        # The rest is a copy, which also keeps no memory of other rows.
        self._waiting[-1:] = [rest.copy() for rest in self._waiting[-1:] if len(rest)]

    def finish(self) -> None:
        if sum(map(len, self._waiting)):
            self._put(np.concatenate(self._waiting))
        if self._coarser:
            self._coarser.finish()

    def _put(self, rows: Pixels) -> None:
        columns = range(-(-rows.shape[1] // TILE))
        names = [tile_name(self._number, column, self._tile_rows) for column in columns]
        self._writer.put(names, [rows[:, column * TILE : (column + 1) * TILE] for column in columns])
        self._tile_rows += 1
        if self._coarser:
            self._coarser.take(halved(rows))


class TilesWriter:
    """A folder of tiles."""

    def __init__(self, path: str, sheet: Sheet, checksum: str, resume: bool, threads: int) -> None:
        """Opens what is there. `checksum` is that of the list. Raises OutputError if there is something that the run
        may not replace, and BusyError if another run draws it."""
        self._sheet = sheet
        self._is_resumed = resume
        self._finest = levels_of(sheet)
        self._level = Level(self, self._finest)
        self._page = page_of(sheet, checksum)
        self._folder = TileFolder(path)
        self._pool = Pool(threads)
        self._read_tile_rows = 0
        self._read_rows: List[Pixels] = []

    def begin(self) -> None:
        self._folder.begin(self._page, self._is_resumed)

    def read(self, height: int) -> Optional[Pixels]:
        while sum(map(len, self._read_rows)) < height:
            top = self._read_tile_rows * TILE
            rows = self._sheet.blank(min(TILE, self._sheet.height - top), self._sheet.width)
            for column in range(-(-self._sheet.width // TILE)):
                part = rows[:, column * TILE : (column + 1) * TILE]
                there = self._read(tile_name(self._finest, column, self._read_tile_rows), part.shape[:2])
                if there is None:
                    return None
                part[:] = there
            self._read_rows.append(rows)
            self._read_tile_rows += 1
        together = np.concatenate(self._read_rows)
        self._read_rows = [together[height:]]
        return np.asarray(together[:height])

    def _read(self, name: str, size: tuple[int, ...]) -> Optional[Pixels]:
        """The pixels of a tile of this height and width, or `None` if it is not there or damaged."""
        height, width = size
        try:
            return pixels_of(self._folder.read(name, MOST), self._sheet, height, width)
        except (OSError, ValueError, zlib.error):
            return None

    def keep(self, rows: Pixels) -> None:
        self._level.take(rows)

    def write(self, rows: Pixels) -> None:
        self._level.take(rows)

    def put(self, names: List[str], tiles: List[Pixels]) -> None:
        """Writes some tiles by several threads. One that a stopped run left with the same pixels is kept."""
        for _ in self._pool.map(self._put_tile, names, tiles):
            pass

    def _put_tile(self, name: str, pixels: Pixels) -> None:
        if self._is_resumed:
            there = self._read(name, pixels.shape[:2])
            if there is not None and np.array_equal(there, pixels):
                return
        self._folder.write(name, png_of(pixels, self._sheet))

    def finish(self) -> None:
        self._level.finish()
        self._folder.finish()

    def close(self) -> None:
        self._pool.shutdown()
        self._folder.close()
