"""A part of a picture with the samples of its pixels, which a canvas keeps from one drawing to the next."""

from __future__ import annotations

from typing import Any, Iterable, NamedTuple, Optional

import numpy as np

from .._box import Box
from .._canvas import Canvas
from .._numbers import TILE_SIZE
from .._polygons import Polygons
from .._tile_rows import TileRows
from ._colors import OPAQUE
from ._polygons import rectangles
from ._shapes import draw_shapes
from ._triangles import Batch

# The changed runs of pixels of a tile row that are loaded one by one. More of them are loaded with all of their row.
MAX_RUNS = 2048
MAX_DEPTH = 65535
ALPHA = np.array((0, 0, 0, OPAQUE), np.uint8).view(np.uint32)[0]


class Clip(NamedTuple):
    """A clip path as a polygon. Clips of one key are one."""

    key: Any
    polygon: Polygons


class Window:
    """Samples of a box of a picture. `shown` is what they resolve to. A pixel of which the picture has other bytes was
    drawn by someone else: then its samples are dropped, and are all what the picture shows.

    With alpha samples are multiplied by it, and the picture is not: so a pixel may resolve to other bytes than it was
    loaded from. Those bytes stay until something drawn changes what it resolves to.

    A clip path is a depth: its samples get a number as their depth, and what is clipped is drawn where depths are
    equal to it.
    """

    def __init__(self, picture: Any, box: Box, samples: int, threads: int, has_alpha: bool = False) -> None:
        self.box, self._threads = box, threads
        self._pixels = picture[box.top : box.bottom, box.left : box.right]
        memory = np.empty(Canvas.size(box.width, box.height, samples), np.uint8)
        self._canvas = Canvas(
            box.width, box.height, samples, alpha=has_alpha, origin=(box.left, box.top), memory=memory
        )
        self._shown = np.empty((box.height, box.width), np.uint32)
        self._resolved = np.empty_like(self._shown) if has_alpha else None
        # The bits that each pixel has here.
        self._filled = np.uint32(0) if has_alpha else ALPHA
        self._is_new = True
        self._has_samples = np.zeros(-(-box.height // TILE_SIZE), bool)
        self._clip: Any = None
        self._clips = 0

    def forget(self) -> None:
        """Drops all samples: the picture was cleared."""
        self._is_new = True
        self._has_samples[:] = False

    def has_samples(self, box: Box) -> bool:
        """Whether something was drawn here in the tile rows of a box."""
        return bool(self._has_samples[self._tile_rows(box)].any())

    @property
    def memory(self) -> int:
        """The bytes of the canvas's memory."""
        return Canvas.size(self.box.width, self.box.height, self._canvas.samples)

    # ---- Drawing

    def begin(self, box: Box) -> None:
        """Makes the samples of a box those of what the picture shows there, where that has changed."""
        if self._is_new:
            self._clear()
        rows, columns = self._place(box)
        now, was = self._pixels[rows, columns], self._shown[rows, columns]
        changed = now != was
        if changed.any():
            self._load(now, changed, rows.start, columns.start)
        if self._resolved is not None:
            self._resolve(box, self._resolved)

    def draw(self, polygons: Polygons, scissor: Box, clip: Optional[Clip]) -> None:
        """Draws polygons over the samples."""
        blend = "none" if (polygons.colors[:, 3] == OPAQUE).all() else "over"
        self._draw(polygons, blend, scissor, **self._inside(clip))

    def draw_batches(self, batches: Iterable[Batch], scissor: Box, clip: Optional[Clip]) -> None:
        """Draws triangles over the samples."""
        inside = self._inside(clip)
        depth = inside.pop("depth", 0)
        for batch in batches:
            if depth:
                batch.vertices["depth"] = depth
            blend: Any = "none" if batch.is_opaque else "over"
            self._canvas.draw(
                batch.vertices, batch.indices, blend=blend, scissor=scissor, threads=self._threads, **inside
            )

    def end(self, box: Box) -> None:
        """Resolves a box into the picture."""
        rows, columns = self._place(box)
        self._has_samples[self._tile_rows(box)] = True
        if self._resolved is None:
            self._resolve(box, self._shown)
        else:
            before = self._resolved[rows, columns].copy()
            self._resolve(box, self._resolved)
            now = self._resolved[rows, columns]
            np.copyto(self._shown[rows, columns], now, where=now != before)
        self._pixels[rows, columns] = self._shown[rows, columns]

    def _resolve(self, box: Box, out: Any) -> None:
        tile_rows = self._tile_rows(box)
        TileRows(self._canvas, tile_rows.start, tile_rows.stop, self._threads).resolve(out)

    def _draw(self, polygons: Polygons, blend: Any, scissor: Optional[Box], **more: Any) -> None:
        draw_shapes(self._canvas, polygons, blend=blend, scissor=scissor, threads=self._threads, **more)

    # ---- Clip paths

    def _inside(self, clip: Optional[Clip]) -> dict[str, Any]:
        """How what is clipped is drawn."""
        if clip is None:
            return {}
        if self._clip != clip.key:
            if self._clips == MAX_DEPTH:
                self._set_depth(rectangles([self.box]), 0)
                self._clips = 0
            self._clips += 1
            self._set_depth(clip.polygon, self._clips)
            self._clip = clip.key
        return {"depth_test": "equal", "depth": self._clips}

    def _set_depth(self, polygon: Polygons, depth: int) -> None:
        white = np.full((polygon.count, 4), OPAQUE, np.uint8)
        self._draw(polygon.colored(white), "keep", None, depth=depth, depth_write=True)

    # ---- What the picture shows

    def _clear(self) -> None:
        """Makes all samples one colour, the picture's in its middle, which takes no memory."""
        color = self._pixels[self.box.height // 2, self.box.width // 2] | self._filled
        self._canvas.clear(self._stored(np.array([color], np.uint32)).view(np.uint8).tolist(), 0, threads=self._threads)
        self._shown.fill(color)
        self._is_new, self._clip, self._clips = False, None, 0

    def _load(self, now: Any, changed: Any, top: int, left: int) -> None:
        """Loads the changed pixels of a box: as rectangles if they are few runs of one colour, else with all of their
        tile rows."""
        rows, columns, ends = runs_of(changed, now)
        tile_rows = (rows + top) // TILE_SIZE
        many = np.bincount(tile_rows, minlength=len(self._has_samples)) > MAX_RUNS
        for row in np.flatnonzero(many).tolist():
            self._load_row(row)
        few = ~many[tile_rows]
        if not few.any():
            return
        rows, columns, ends = rows[few], columns[few], ends[few]
        colors = self._stored(now[rows, columns])
        y, x, right = rows + self.box.top + top, columns + self.box.left + left, ends + self.box.left + left
        runs = rectangles(np.stack((x, y, right, y + 1), 1))
        self._draw(runs.colored(colors.view(np.uint8).reshape(-1, 4)), "none", None)
        loaded = changed if few.all() else changed & ~many[(np.arange(len(changed)) + top) // TILE_SIZE, None]
        np.copyto(self._shown[top : top + len(now), left : left + now.shape[1]], now | self._filled, where=loaded)

    def _load_row(self, row: int) -> None:
        """Loads all pixels of a tile row that have changed."""
        part = TileRows(self._canvas, row, row + 1)
        now, shown = self._pixels[part.pixels], self._shown[part.pixels]
        if not self._has_samples[row]:
            part.load(self._pixels)
        else:
            changed = now != shown
            colors = np.empty_like(self._shown)
            for sample in range(self._canvas.samples):
                part.colors(sample, colors)
                np.copyto(colors[part.pixels], self._stored(now), where=changed)
                part.store(sample, colors)
        np.bitwise_or(now, self._filled, out=shown)

    def _stored(self, pixels: Any) -> Any:
        """Pixels of the picture as samples have them."""
        return pixels | ALPHA if self._resolved is None else multiplied(pixels)

    def _place(self, box: Box) -> tuple[slice, slice]:
        """The rows and columns of a box of the picture in this window."""
        left, top = self.box.left, self.box.top
        return slice(box.top - top, box.bottom - top), slice(box.left - left, box.right - left)

    def _tile_rows(self, box: Box) -> slice:
        top = self.box.top
        return slice((box.top - top) // TILE_SIZE, -(-(box.bottom - top) // TILE_SIZE))


def multiplied(pixels: Any) -> Any:
    """Pixels with their colours multiplied by their alpha, rounded to the nearest."""
    channels = np.ascontiguousarray(pixels).view(np.uint8).reshape(*pixels.shape, 4)
    found = channels.astype(np.uint16)
    found[..., :3] = (found[..., :3] * found[..., 3:] + OPAQUE // 2) // OPAQUE
    return found.astype(np.uint8).view(np.uint32)[..., 0]


def runs_of(changed: Any, pixels: Any) -> tuple[Any, Any, Any]:
    """The runs of changed pixels of one colour: the row of each, its first column and the one behind its last."""
    begins, ends = changed.copy(), changed.copy()
    goes_on = changed[:, 1:] & changed[:, :-1] & (pixels[:, 1:] == pixels[:, :-1])
    begins[:, 1:] &= ~goes_on
    ends[:, :-1] &= ~goes_on
    rows, columns = np.nonzero(begins)
    return rows, columns, np.nonzero(ends)[1] + 1
