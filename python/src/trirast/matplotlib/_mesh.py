"""Gouraud meshes by their grid: a sixth of the corners of their triangles."""

from __future__ import annotations

from typing import Any, Iterator, NamedTuple, Union

import numpy as np

from ._polygons import is_near
from ._triangles import Batch, Colors, Points, Triangles, vertices_of


class Mesh(NamedTuple):
    """A grid of points, and of each four neighbours their middle, around which lie four triangles. `points` are of the
    shape (rows + 1, 2 * columns + 1, 2): a row of the grid, and then the middles below it, of which the last row's are
    not used. `colors` are of the shape (rows + 1, 2 * columns + 1, 4). Else they are as those of triangles."""

    points: Points
    colors: Colors

    def triangles(self) -> Triangles:
        """The same triangles, in their order."""
        corners = self._corners()
        return Triangles(self.points.reshape(-1, 2)[corners], self.colors.reshape(-1, 4)[corners])

    def moved(self, x: float, y: float) -> Triangles:
        return self.triangles().moved(x, y)

    def batches(self, x: int, y: int) -> Iterator[Batch]:
        """As those of triangles; the whole mesh at once, if it needs no cut."""
        with np.errstate(invalid="ignore", over="ignore"):
            is_whole = is_near(self.points, x, y) and np.isfinite(self.colors.sum())
        if is_whole:
            yield Batch(vertices_of(self.points.reshape(-1, 2), self.colors.reshape(-1, 4)), self._corners().tobytes())
        else:
            yield from self.triangles().batches(x, y)

    def _corners(self) -> Any:
        """The corners of the triangles, of the shape (n, 3)."""
        rows, columns = len(self.points) - 1, self.points.shape[1] // 2
        wide, below = columns + 1, 2 * columns + 1
        around = np.array((0, 1, wide, 1, below + 1, wide, below + 1, below, wide, below, 0, wide), np.uint32)
        first = np.arange(rows, dtype=np.uint32)[:, None] * np.uint32(below) + np.arange(columns, dtype=np.uint32)
        return (first[..., None] + around).reshape(-1, 3)


Gouraud = Union[Triangles, Mesh]


def mesh_of(grid: Any, colors: Any) -> Mesh:
    """The mesh of a grid, rows of points, and of their colours."""
    return Mesh(with_middles(grid), with_middles(colors))


def with_middles(grid: Any) -> Any:
    """The rows of a grid, each with the middles of four neighbours behind it, as matplotlib computes them."""
    wide = grid.shape[1]
    found = np.empty((len(grid), 2 * wide - 1, grid.shape[2]))
    found[:, :wide] = grid
    middles = grid[:-1, :-1] + grid[:-1, 1:]
    middles += grid[1:, 1:]
    middles += grid[1:, :-1]
    np.divide(middles, 4.0, out=found[:-1, wide:])
    found[-1, wide:] = grid[-1, 1:]
    return found
