"""The arguments of a mesh of quads."""

from __future__ import annotations

from typing import Any, NamedTuple


class Cells(NamedTuple):
    """The arguments of draw_quad_mesh behind the graphics context."""

    master_transform: Any
    columns: int
    rows: int
    coordinates: Any
    offsets: Any
    offset_transform: Any
    faces: Any
    antialiased: Any
    edges: Any

    @property
    def cell_count(self) -> int:
        return int(self.columns) * int(self.rows)

    def by_agg(self, agg: Any, gc: Any) -> None:
        agg.draw_quad_mesh(gc, *self)
