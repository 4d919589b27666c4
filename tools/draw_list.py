"""Draw lists as values of JSON, and makers of the small ones that checks draw. Positions are in 1/256 pixel."""

from __future__ import annotations

import json
from typing import Any, Iterable, Sequence

from tests.reference.renderer import triangles_of_quad, triangles_of_strip

# The format decides what stands under each key, so a value's type is open here.
DrawList = dict[str, Any]
Draw = dict[str, Any]
Vertex = list[int]

WHITE = (255, 255, 255)
RED = (255, 0, 0)


def vertex(x: int, y: int, z: int = 0, colour: Sequence[int] = WHITE, alpha: int = 255) -> Vertex:
    return [x, y, z, *colour, alpha]


def draw(vertices: Iterable[Sequence[int]], triangles: Iterable[Sequence[int]] = ((0, 1, 2),), **state: Any) -> Draw:
    """A draw of triangles, by default of the one of the first three vertices."""
    return {**state, "vertices": [list(one) for one in vertices], "triangles": [list(one) for one in triangles]}


def draw_list(width: int, height: int, *draws: Draw, **top: Any) -> DrawList:
    return {"width": width, "height": height, "draws": list(draws), **top}


def encode(value: object) -> bytes:
    """The bytes of a list's file, without spaces; equal values have equal bytes."""
    return json.dumps(value, separators=(",", ":")).encode()


def triangles_of(draw: Draw) -> list[list[int]]:
    """The triangles of a draw, by whichever of its three keys it has."""
    if "strip" in draw:
        return triangles_of_strip(draw["strip"])
    if "quads" in draw:
        return [triangle for quad in draw["quads"] for triangle in triangles_of_quad(*quad)]
    return [list(triangle) for triangle in draw["triangles"]]
