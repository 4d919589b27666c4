"""PPM and PGM files, as the program writes them."""

from __future__ import annotations

from typing import Optional

import numpy as np

from .._picture import header_of
from ._part_file import PartFile
from ._png import row_bytes
from ._scene import Pixels, Sheet


class PpmWriter:
    """A PPM file of colours, or a PGM file of depths."""

    def __init__(self, path: str, sheet: Sheet, is_whole: bool) -> None:
        self._sheet = sheet
        header = header_of(sheet.width, sheet.height, sheet.is_depth)
        self._part = PartFile(path, header, is_whole)
        self._end = len(header)

    def begin(self) -> None:
        self._part.begin()

    def read(self, height: int) -> Optional[Pixels]:
        rows = self._sheet.blank(height, self._sheet.width)
        self._part.file.seek(self._end)
        if self._part.file.readinto(row_bytes(rows).data) != rows.nbytes:  # type: ignore[attr-defined]
            return None
        return rows

    def keep(self, rows: Pixels) -> None:
        self._end += rows.nbytes

    def write(self, rows: Pixels) -> None:
        self._part.file.seek(self._end)
        self._part.file.write(row_bytes(np.ascontiguousarray(rows)).data)
        self._part.file.flush()
        self._end += rows.nbytes

    def finish(self) -> None:
        self._part.finish(self._end)

    def close(self) -> None:
        self._part.close()
