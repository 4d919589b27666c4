"""A canvas in a thread's own memory, on which one piece of a window after another is drawn.

It makes the calls of trirast.Canvas with structs that stay, and takes arrays by their addresses: a piece of a
window takes about 0.3 ms, and to look at its arguments as closely as Canvas does would take a sixth of that, while
Python's lock is held.
"""

from __future__ import annotations

import ctypes
import json
import threading
from functools import lru_cache
from typing import Any, Dict, Mapping, Tuple

import numpy as np

from .._box import Box
from .._canvas import aligned
from .._declarations import CBatch, CCanvas, CClear, CDraw, CError
from .._draw import INDEX_BYTES, Draw
from .._ffi import library
from .._numbers import FORMATS
from .._polygons import Polygons, as_read
from .._rings import RULES, scratch_of
from ._errors import ArraysError, of_arrays
from ._scene import NO_TRIANGLES, Pixels, Sheet, Triangles, Vertices, text_of

OWN = threading.local()
# Calls of a few microseconds keep Python's lock: to get it back from another thread may take longer. These are those on
# samples of at most FEW_BYTES, two tiles with four samples a pixel, and with at most FEW triangles.
QUICK = ctypes.PyDLL
FEW_BYTES, FEW = 2 * 4096 * 4 * 5, 16
# How many states of draws a canvas keeps.
STATES = 1024
# Keys of a state that each draw may have otherwise: the scissor, and of polygons the rule.
SCISSOR = "scissor"
OWN_KEYS = (SCISSOR, "rule")
TRIANGLE_BYTES = 3 * INDEX_BYTES
FORMAT, PIXEL_BYTES = FORMATS["rgb"]


class Arrays:
    """The addresses of arrays, which live as long as this does: contiguous and aligned, as the library reads them."""

    def __init__(self, vertices: Vertices, triangles: Triangles) -> None:
        with of_arrays():
            self._kept = [as_read(array, like) for array, like in zip((vertices, triangles), NO_TRIANGLES)]
        self.vertices, self.indices = (array.ctypes.data for array in self._kept)
        self.vertex_count, self.triangle_count = map(len, self._kept)


class Target:
    """The pixels of an area of a sheet, whose rows may lie apart, and their address."""

    def __init__(self, pixels: Pixels, area: Box) -> None:
        self._pixels, self._left, self._top = pixels, area.left, area.top
        self._address, self.stride = pixels.ctypes.data, pixels.strides[0]

    def address(self, left: int, top: int) -> int:
        """Where the colour of a pixel of the sheet lies."""
        return self._address + (top - self._top) * self.stride + (left - self._left) * PIXEL_BYTES

    def put(self, area: Box, pixels: Pixels) -> None:
        """Copies the last rows and columns of pixels to an area within it."""
        left, top = area.left - self._left, area.top - self._top
        last = pixels[pixels.shape[0] - area.height :, pixels.shape[1] - area.width :]
        self._pixels[top : top + area.height, left : left + area.width] = last


class ThreadCanvas:
    """The samples of a canvas. `begin` comes before the other calls, and `place` before those of a piece."""

    def __init__(self) -> None:
        self._memory, self._bytes, self._address, self._is_small = aligned(0)[0], 0, 0, True
        self._canvas, self._batch, self._error = CCanvas(), CBatch(draw_count=1), CError()
        self._scratch = scratch_of(0)
        self._quick, self._calls = library(QUICK), library()
        self._states: Dict[int, Tuple[Mapping[str, Any], CDraw, int]] = {}

    def begin(self, sheet: Sheet, begin: tuple[int, int], arrays: Arrays) -> None:
        """Makes it a canvas of this sheet, for triangles of these arrays. It will begin at the pixel
        `begin` or before it."""
        self._clear, self._is_depth = CClear(*sheet.clear, 0, sheet.clear_depth), sheet.is_depth
        self._canvas.samples = sheet.samples
        self._size, self._begin, self._arrays = (0, 0), begin, arrays
        self._batch.vertices, self._batch.vertex_count = arrays.vertices, arrays.vertex_count

    def place(self, area: Box) -> None:
        """Makes it a canvas whose last rows and columns are those of the area. What its samples begin with
        is not specified."""
        left, top, right, bottom = self._area = area
        x, y = self._begin
        left, top = min(left, x), min(top, y)
        size = right - left, bottom - top
        if size != self._size:
            self._resize(*size)
        self._canvas.origin_x, self._canvas.origin_y = left, top

    def _resize(self, width: int, height: int) -> None:
        """Gives it another size in pixels."""
        canvas, quick = self._canvas, self._quick
        canvas.width, canvas.height = width, height
        size = quick.trirast_canvas_size(canvas)
        if size > self._bytes:
            self._memory, first = aligned(size)
            self._bytes, self._address = size, ctypes.addressof(self._memory) + first
        quick.trirast_canvas_init(canvas, self._address, size)
        self._size, self._is_small = (width, height), size <= FEW_BYTES

    def clear(self) -> None:
        """Makes each sample what those of the sheet begin with."""
        calls = self._quick if self._is_small else self._calls
        calls.trirast_canvas_clear(self._canvas, self._clear)

    def draw(self, first: int, triangles: int, state: Mapping[str, Any]) -> None:
        """Draws as many triangles from the triangle `first` of the arrays on. Raises BatchError, and ArraysError if
        there are not as many; then nothing was drawn."""
        if not 0 <= first <= first + triangles <= self._arrays.triangle_count:
            count = self._arrays.triangle_count
            raise ArraysError(f"draw: expected at most {count} triangles, got {first} + {triangles}")
        _, draw, address = self._states.get(id(state)) or self._keep(state)
        batch, arrays = self._batch, self._arrays
        draw.vertex_count, draw.index_count = arrays.vertex_count, 3 * triangles
        batch.draws, batch.indices, batch.index_count = address, arrays.indices + TRIANGLE_BYTES * first, 3 * triangles
        calls = self._quick if self._is_small and triangles <= FEW else self._calls
        calls.trirast_canvas_draw(self._canvas, batch, self._error)

    def draw_polygons(self, polygons: Polygons, state: Mapping[str, Any], shift: Tuple[int, int]) -> None:
        """Draws polygons that are moved left and up by a number of pixels. Raises BatchError, and then
        nothing was drawn."""
        _, draw, _ = self._states.get(id(state)) or self._keep(state)
        rule = RULES.index(state.get("rule", RULES[0]))
        canvas, (x, y) = self._canvas, shift
        with of_arrays():
            in_c = polygons._in_c()
        in_c.fill_rule, in_c.state = rule, draw
        in_c.state.scissor_left, in_c.state.scissor_right = draw.scissor_left - x, draw.scissor_right - x
        in_c.state.scissor_top, in_c.state.scissor_bottom = draw.scissor_top - y, draw.scissor_bottom - y
        size = self._quick.trirast_polygons_scratch(canvas, rule)
        if size > ctypes.sizeof(self._scratch):
            self._scratch = scratch_of(size)
        canvas.origin_x, canvas.origin_y = canvas.origin_x - x, canvas.origin_y - y
        self._calls.trirast_canvas_draw_polygons(canvas, in_c, self._scratch, size, self._error)
        canvas.origin_x, canvas.origin_y = canvas.origin_x + x, canvas.origin_y + y

    def _keep(self, state: Mapping[str, Any]) -> Tuple[Mapping[str, Any], CDraw, int]:
        """A draw's state, and as the library takes it, with its address. The state is kept, so that no other
        has its identity."""
        if len(self._states) == STATES:
            self._states.clear()
        draw = draw_of(state)
        self._states[id(state)] = kept = state, draw, ctypes.addressof(draw)
        return kept

    def show(self, target: Target) -> None:
        """Writes the colours, or the depths of the samples 0, of the area that it was placed at."""
        canvas, area, (width, height) = self._canvas, self._area, self._size
        calls = self._quick if self._is_small else self._calls
        if self._is_depth:
            depths = np.empty((height, width), np.uint16)
            calls.trirast_canvas_depths(canvas, 0, depths.ctypes.data, depths.size, 0)
            target.put(area, depths)
        elif (width, height) == (area.width, area.height):
            address, stride = target.address(area.left, area.top), target.stride
            calls.trirast_canvas_resolve(canvas, FORMAT, address, (height - 1) * stride + width * PIXEL_BYTES, stride)
        else:
            colors = np.empty((height, width, 3), np.uint8)
            calls.trirast_canvas_resolve(canvas, FORMAT, colors.ctypes.data, colors.size, colors.strides[0])
            target.put(area, colors)


def draw_of(state: Mapping[str, Any]) -> CDraw:
    """A draw in a state as the library takes it. Many draws have a scissor of their own, and else few states."""
    of_all = {key: value for key, value in state.items() if key not in OWN_KEYS}
    draw = CDraw.from_buffer_copy(draw_of_text(text_of(of_all)))
    if SCISSOR in state:
        draw.scissor_enable = 1
        draw.scissor_left, draw.scissor_top, draw.scissor_right, draw.scissor_bottom = state[SCISSOR]
    return draw


@lru_cache(STATES)
def draw_of_text(text: str) -> CDraw:
    """A draw in a state that is written as JSON and has no scissor."""
    state = json.loads(text)
    keep = "".join(letter for letter, is_written in zip("rgb", state.pop("write", ())) if not is_written)
    return Draw(b"", b"", keep=keep, **state)._in_c(b"")


def own_canvas() -> ThreadCanvas:
    """The canvas of the calling thread."""
    if not hasattr(OWN, "canvas"):
        OWN.canvas = ThreadCanvas()
    canvas: ThreadCanvas = OWN.canvas
    return canvas
