"""One PNG file, whose rows are deflated in pieces by several threads."""

from __future__ import annotations

import struct
import zlib
from typing import Optional

import numpy as np

from .._png import chunk, head_of
from ._part_file import PartFile
from ._png import ZLIB_HEADER, adler_of_both, deflated, inflated, most_deflated, stream_end, unfiltered
from ._pool import Pool
from ._scene import Pixels, Sheet

# Rows of a piece. Each piece is a chunk of the file.
PIECE = 64
# Length, type and CRC of a chunk.
AROUND = 12


class PngWriter:
    """A PNG file of colours or depths, with dots per inch if they are not `None`."""

    def __init__(self, path: str, sheet: Sheet, dpi: Optional[float], is_whole: bool, threads: int) -> None:
        self._sheet = sheet
        start = head_of(sheet.width, sheet.height, sheet.pixel_bytes, dpi) + chunk(b"IDAT", ZLIB_HEADER)
        self._part = PartFile(path, start, is_whole)
        self._file = self._part.file
        self._pool = Pool(threads)
        self._adler = zlib.adler32(b"")
        self._read_adler, self._read_end = self._adler, 0
        self._end = len(start)

    def begin(self) -> None:
        self._part.begin()

    def read(self, height: int) -> Optional[Pixels]:
        self._read_adler, self._read_end = self._adler, self._end
        pieces = []
        for first in range(0, height, PIECE):
            piece = self._read_piece(min(PIECE, height - first))
            if piece is None:
                return None
            pieces.append(piece)
        return np.concatenate(pieces)

    def _read_piece(self, height: int) -> Optional[Pixels]:
        """The rows of the next chunk, or `None` if it is not there or damaged."""
        size = height * (1 + self._sheet.pixel_bytes * self._sheet.width)
        self._file.seek(self._read_end)
        head = self._file.read(8)
        if len(head) < 8 or head[4:] != b"IDAT":
            return None
        length = struct.unpack(">I", head[:4])[0]
        data = self._file.read(min(length, most_deflated(size)))
        if chunk(b"IDAT", data) != head + data + self._file.read(4):
            return None
        try:
            rows = inflated(data, size)
            pixels = unfiltered(rows.reshape(height, -1), self._sheet)
        except (zlib.error, ValueError):
            return None
        self._read_adler = adler_of_both(self._read_adler, zlib.adler32(rows.data), size)
        self._read_end += AROUND + length
        return pixels

    def keep(self, rows: Pixels) -> None:
        self._adler, self._end = self._read_adler, self._read_end

    def write(self, rows: Pixels) -> None:
        self._file.seek(self._end)
        for data, adler, length in self._pool.map(
            deflated, (rows[first : first + PIECE] for first in range(0, len(rows), PIECE))
        ):
            self._file.write(chunk(b"IDAT", data))
            self._end += AROUND + len(data)
            self._adler = adler_of_both(self._adler, adler, length)
        self._file.flush()

    def finish(self) -> None:
        self._file.seek(self._end)
        self._file.write(chunk(b"IDAT", stream_end(self._adler)) + chunk(b"IEND", b""))
        self._part.finish(self._file.tell())

    def close(self) -> None:
        self._pool.shutdown()
        self._part.close()
