"""Some tile rows of a canvas, loaded and resolved by themselves, from and to arrays of numpy that have a
word for each pixel."""

from typing import Any, Callable, Tuple

from ._canvas import Canvas
from ._declarations import CCanvas
from ._ffi import library
from ._numbers import FORMATS, TILE_SIZE
from ._threads import share

RGBA, STRAIGHT = FORMATS["rgba"][0], FORMATS["rgba_straight"][0]


class TileRows:
    """The tile rows `first` to before `end` of a canvas. Pictures have as many rows as the whole canvas, and 32 bits a
    pixel: red, green, blue and alpha in bytes. Rows of pixels may have a gap between them."""

    def __init__(self, canvas: Canvas, first: int, end: int, threads: int = 1) -> None:
        self._canvas, self._first, self._end, self._threads = canvas, first, end, threads
        self._format = STRAIGHT if canvas.alpha else RGBA

    @property
    def pixels(self) -> slice:
        """The rows of pixels."""
        return slice(self._first * TILE_SIZE, min(self._end * TILE_SIZE, self._canvas.height))

    def load(self, picture: Any) -> None:
        """Makes a picture the colour of all samples of its pixels. Alpha is read if the canvas has it, and colours are
        multiplied by it."""
        self._each(library().trirast_canvas_load, (self._format,), picture)

    def resolve(self, picture: Any) -> None:
        """Writes the colours, with alpha 255 if the canvas has none, else divided by their alpha."""
        self._each(library().trirast_canvas_resolve, (self._format,), picture)

    def colors(self, sample: int, picture: Any) -> None:
        """Writes the colours of one sample as they are stored, with alpha 255 if the canvas has none."""
        self._each(library().trirast_canvas_colors, (sample, RGBA), picture)

    def store(self, sample: int, picture: Any) -> None:
        """Makes a picture the colour of one sample of its pixels, stored as it is."""
        self._each(library().trirast_canvas_store, (sample, RGBA), picture)

    def _each(self, call: Callable[..., Any], chosen: Tuple[int, ...], picture: Any) -> None:
        start, stride = picture.__array_interface__["data"][0], picture.strides[0]
        row_bytes = picture.itemsize * self._canvas.width

        def on_piece(piece: CCanvas, top: int) -> None:
            rows = min(piece.end * TILE_SIZE, self._canvas.height) - top
            call(piece, *chosen, start + top * stride, (rows - 1) * stride + row_bytes, stride)

        with self._canvas._lock:
            share(
                on_piece, lambda count: self._canvas._pieces(count, self._first, self._end),
                max(min(self._threads, self._end - self._first), 1),
            )
