"""One TIFF file (BigTIFF) of deflated tiles, by tifffile. A stopped run of it is drawn anew from its first row."""

from __future__ import annotations

from concurrent.futures import Future
from contextlib import suppress
from queue import Empty, Full, Queue
from typing import IO, Any, Iterator, Optional, Sequence

import numpy as np

from ._errors import EngineMissingError
from ._part_file import PartFile
from ._pool import Pool
from ._scene import Pixels, Sheet

# How names end that are of TIFF files, in small or capital letters.
TIFF = (".tif", ".tiff")
SIDE = 256
# Bytes of the header, which stand in the file when it is whole.
HEADER = 16
# Seconds between two looks whether the thread that writes has ended.
LOOK = 0.1


class Beginning:
    """A file whose first bytes are kept back, as tifffile writes to it."""

    def __init__(self, file: IO[bytes], name: str) -> None:
        self._file, self.name, self.header = file, name, bytearray(HEADER)

    def write(self, data: Any) -> int:
        view, at = memoryview(data).cast("B"), self._file.tell()
        kept = max(0, min(HEADER - at, len(view)))
        self.header[at : at + kept] = view[:kept]
        self._file.seek(at + kept)
        self._file.write(view[kept:])
        return len(view)

    def __getattr__(self, name: str) -> Any:
        return getattr(self._file, name)


class TiffWriter:
    """A TIFF file of colours, or of depths with 16 bits, with dots per inch if they are not `None`, and with tags that
    say where it lies."""

    def __init__(
        self, path: str, sheet: Sheet, dpi: Optional[float], is_whole: bool, threads: int, tags: Sequence[Any] = ()
    ) -> None:
        try:
            import tifffile
        except ImportError as error:
            raise EngineMissingError(f"TIFF: expected tifffile, got {error}; install python3-tifffile") from error
        self._module, self._sheet, self._dpi, self._threads, self._tags = tifffile, sheet, dpi, threads, tags
        self._part = PartFile(path, b"", is_whole)
        self._file = Beginning(self._part.file, path)
        # The next rows of a run, and `None` behind the last ones or where the run is stopped.
        self._rows: Queue[Optional[Pixels]] = Queue(1)
        self._pool = Pool(1)
        self._writing: Optional[Future[None]] = None

    def begin(self) -> None:
        self._part.begin()
        self._file.seek(0)
        self._writing = self._pool.submit(self._write_all)

    def read(self, height: int) -> Optional[Pixels]:
        return None

    def keep(self, rows: Pixels) -> None:
        raise AssertionError("no rows are read, so none are kept")

    def write(self, rows: Pixels) -> None:
        self._put(rows.copy())

    def _put(self, rows: Optional[Pixels]) -> None:
        """Gives the writing thread the next rows, once it has taken the ones before. Raises its error if it has
        ended."""
        assert self._writing is not None
        while True:
            if self._writing.done():
                self._writing.result()
            with suppress(Full):
                return self._rows.put(rows, timeout=LOOK)

    def finish(self) -> None:
        assert self._writing is not None
        self._put(None)
        self._writing.result()
        self._file.seek(0, 2)
        self._part.finish(self._file.tell(), bytes(self._file.header))

    def close(self) -> None:
        with suppress(Empty):
            self._rows.get_nowait()
        self._rows.put(None)
        self._pool.shutdown()
        self._part.close()

    def _write_all(self) -> None:
        sheet = self._sheet
        shape, kind = (
            ((sheet.height, sheet.width), "minisblack") if sheet.is_depth else ((sheet.height, sheet.width, 3), "rgb")
        )
        dots = {} if self._dpi is None else {"resolution": (self._dpi, self._dpi), "resolutionunit": "INCH"}
        with self._module.TiffWriter(self._file, bigtiff=True, byteorder="<") as tiff:
            # Without imagecodecs tifffile takes differences of 8 bits alone.
            tiff.write(
                self._tiles(), shape=shape, dtype="uint16" if sheet.is_depth else "uint8", tile=(SIDE, SIDE),
                photometric=kind, compression="zlib", predictor=not sheet.is_depth, maxworkers=self._threads,
                metadata=None, software="trirast", extratags=self._tags, **dots,
            )

    def _tiles(self) -> Iterator[Any]:
        """The tiles, row after row. There are too few if the run is stopped."""
        for rows in self._strips():
            rows = np.pad(rows, [(0, -rows.shape[0] % SIDE), (0, -rows.shape[1] % SIDE), (0, 0)][: rows.ndim])
            for left in range(0, rows.shape[1], SIDE):
                yield np.ascontiguousarray(rows[:, left : left + SIDE])

    def _strips(self) -> Iterator[Pixels]:
        """As many rows as a tile has, and the last ones."""
        left = self._sheet.blank(0, self._sheet.width)
        while (rows := self._rows.get()) is not None:
            left = np.concatenate((left, rows))
            while len(left) >= SIDE:
                yield left[:SIDE].astype(left.dtype.newbyteorder("="))
                left = left[SIDE:]
        if len(left):
            yield left.astype(left.dtype.newbyteorder("="))
