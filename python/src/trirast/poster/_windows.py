"""The windows of a poster: squares of pixels, row by row from the top, cut at the right and lower border,
and their tile rows."""

from __future__ import annotations

from typing import Iterator, NamedTuple

import numpy as np

from .._box import Box
from .._numbers import HIGHEST_ORIGIN, TILE_SIZE
from .._numbers import MAX_SIDE as LIST_SIDE
from .._records import UNIT
from ._scene import Indices, Sheet

# A window's tile rows are drawn one after another, since the samples of one fit into a processor's second cache, where
# they are cleared, drawn and resolved.
TILE = TILE_SIZE
# The last pixel at which a canvas may begin on which polygons are drawn, and by how many pixels these are moved
# left or up, and the canvas with them, where it begins behind that: what is inside moves with the corners by whole
# pixels (docs/polygons.md).
FARTHEST, SHIFT = HIGHEST_ORIGIN, LIST_SIDE


class Window(NamedTuple):
    """A window's column and row among windows, and its upper left pixel and size in pixels."""

    column: int
    row: int
    left: int
    top: int
    width: int
    height: int

    @property
    def area(self) -> Box:
        """Its pixels."""
        return Box(self.left, self.top, self.left + self.width, self.top + self.height)

    @property
    def span(self) -> Span:
        """This window alone."""
        return Span(self.row, self.column, self.column + 1, self.area)


class Span(NamedTuple):
    """Windows side by side: those of a row from the column `first` to before `end` among windows, and their pixels."""

    row: int
    first: int
    end: int
    area: Box


class Windows:
    """The windows of a sheet, `side` pixels wide and high. Raises ValueError if the side is not 64 to 4096.

    The index of triangles has numbers for each tile row of each window. Windows that are smaller than a tile would
    take gigabytes there.
    """

    def __init__(self, sheet: Sheet, side: int) -> None:
        if not TILE <= side <= LIST_SIDE:
            raise ValueError(f"window: expected {TILE} to {LIST_SIDE} pixels, got {side}")
        self.width, self.height, self.side = sheet.width, sheet.height, side
        self.columns, self.rows = -(-sheet.width // side), -(-sheet.height // side)
        # The tile rows of a window, and the last one of the sheet.
        self.tile_rows = -(-side // TILE)
        self.last_tile_row = (self.rows - 1) * self.tile_rows + (self.row_height(self.rows - 1) - 1) // TILE

        # The tile rows of windows, window after window, by their numbers along the tile rows of the sheet.
        places = np.arange(len(self) * self.tile_rows, dtype=np.int32).reshape(self.rows, self.columns, self.tile_rows)
        self.places: Indices = np.ascontiguousarray(places.transpose(0, 2, 1)).ravel()

    def __len__(self) -> int:
        return self.columns * self.rows

    def row_height(self, row: int) -> int:
        """The height in pixels of a row of windows."""
        return min(self.side, self.height - row * self.side)

    def pixels_above(self, row: int) -> int:
        """How many pixels the rows of windows above a row have."""
        return self.width * min(self.side * row, self.height)

    def in_row(self, row: int) -> Iterator[Window]:
        """The windows of a row, from the left."""
        for column in range(self.columns):
            left = column * self.side
            yield Window(column, row, left, row * self.side, min(self.side, self.width - left), self.row_height(row))

    def span(self, row: int, first: int, end: int) -> Span:
        """Some windows of a row."""
        left, top = first * self.side, row * self.side
        return Span(row, first, end, Box(left, top, min(end * self.side, self.width), top + self.row_height(row)))

    def from_row(self, first: int) -> Iterator[Window]:
        """All windows from a row on."""
        for row in range(first, self.rows):
            yield from self.in_row(row)

    def column_edges(self) -> list[int]:
        """The x at which the columns of windows begin, in 1/256 pixel, and at which the last one ends."""
        return [UNIT * min(column * self.side, self.width) for column in range(self.columns + 1)]

    def tile_row_edges(self) -> list[int]:
        """The y at which the tile rows begin, and at which the last one ends."""
        tops = [row * self.side + top for row in range(self.rows) for top in range(0, self.row_height(row), TILE)]
        return [UNIT * top for top in (*tops, self.height)]

    def columns_at(self, x: Indices) -> Indices:
        """The column of windows in which each x lies, in 1/256 pixel. It is negative to the left of the sheet."""
        return x // (UNIT * self.side)

    def tile_rows_at(self, y: Indices) -> Indices:
        """The tile row of the sheet in which each y lies, in 1/256 pixel: that of a window, and all those of the
        windows above it."""
        if self.side % TILE == 0:
            return y // (UNIT * TILE)
        row = y // (UNIT * self.side)
        return row * self.tile_rows + (y - row * (UNIT * self.side)) // (UNIT * TILE)
